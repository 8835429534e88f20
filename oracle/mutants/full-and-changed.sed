# script.rs: a request refused with 7 has changed the tables
s/^                (self.rust, self.spare) = before;$/                let _ = before;/
