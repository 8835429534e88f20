# script.rs: one item row less
s/^pub const ITEM_ROWS: i64 = 2048;$/pub const ITEM_ROWS: i64 = 2047;/
