# etagere/src/allocator.rs: the second band ends at 129
s/^        32 \.\.= 127 => 16,$/        32 ..= 129 => 16,/
