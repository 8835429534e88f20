# script.rs: one shelf row less
s/^pub const SHELF_ROWS: i64 = 512;$/pub const SHELF_ROWS: i64 = 511;/
