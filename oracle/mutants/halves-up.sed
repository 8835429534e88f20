# etagere/src/allocator.rs: D/2 is rounded up
s|height.saturating_add(height / 2);|height.saturating_add(height / 2 + height % 2);|
