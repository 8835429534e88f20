# etagere/src/allocator.rs: a fit of depth D exactly does not end the walk. No answer shows it: a later
# shelf is shallower than D or not shallower than the one held, and skipped either way.
s/^                if shelf.height == height {$/                if false {/
