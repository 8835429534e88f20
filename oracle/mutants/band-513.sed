# etagere/src/allocator.rs: the third band ends at 513
s/^        128 \.\.= 511 => 32,$/        128 ..= 513 => 32,/
