# etagere/src/allocator.rs: the first band ends at 33
s/^        0 \.\.= 31 => 8,$/        0 ..= 33 => 8,/
