# etagere/src/allocator.rs: a shelf is not split at a remainder of 9
s/^const SHELF_SPLIT_THRESHOLD: u16 = 8;$/const SHELF_SPLIT_THRESHOLD: u16 = 9;/
