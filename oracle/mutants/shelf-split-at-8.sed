# etagere/src/allocator.rs: a shelf is split at a remainder of 8
s/^const SHELF_SPLIT_THRESHOLD: u16 = 8;$/const SHELF_SPLIT_THRESHOLD: u16 = 7;/
