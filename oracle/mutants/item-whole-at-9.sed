# etagere/src/allocator.rs: an item is not split at a remainder of 9
s/^const ITEM_SPLIT_THRESHOLD: u16 = 8;$/const ITEM_SPLIT_THRESHOLD: u16 = 9;/
