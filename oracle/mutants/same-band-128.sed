# etagere/src/allocator.rs: the bands end at 32, 128 and 512. No answer shows it: these depths are multiples
# of both neighbouring steps, and stay as they are.
s/^        0 \.\.= 31 => 8,$/        0 ..= 32 => 8,/
s/^        32 \.\.= 127 => 16,$/        33 ..= 128 => 16,/
s/^        128 \.\.= 511 => 32,$/        129 ..= 512 => 32,/
