# script.rs: a refused create leaves the atlas that was there
s/^            self.atlas = None;$//
