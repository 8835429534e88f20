# script.rs: a side of 65536 is too wide (5), not out of range (4)
s/^        let sides = 1\.\.=65535;$/        let sides = 1..=65536;/
