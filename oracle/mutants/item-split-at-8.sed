# etagere/src/allocator.rs: an item is split at a remainder of 8
s/^const ITEM_SPLIT_THRESHOLD: u16 = 8;$/const ITEM_SPLIT_THRESHOLD: u16 = 7;/
