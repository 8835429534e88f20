//! The script language: one line, one call.
use plytimber::{size2, AllocId, AllocatorOptions, AtlasAllocator, Error, Size};

/// The script program's rows.
pub const SHELF_ROWS: usize = 512;
pub const ITEM_ROWS: usize = 2048;

pub enum Line {
    New([i32; 6]),
    Allocate(Size),
    Release(i32, i32),
    Look(i32, i32),
    Space,
    List,
    Clear,
}

/// The lines of a text. Text that ends right after a newline has no further line.
pub fn lines(text: &[u8]) -> impl Iterator<Item = &[u8]> {
    text.split_inclusive(|&b| b == b'\n').map(|line| line.strip_suffix(b"\n").unwrap_or(line))
}

/// A line of 1 to 80 bytes; `None` where it is not readable.
pub fn read(line: &[u8]) -> Option<Line> {
    if line.len() > 80 {
        return None;
    }
    let mut words = line.split(|&b| b == b' ');
    let letter = words.next()?;
    let n: Vec<i32> = words.map(number).collect::<Option<_>>()?;
    match (letter, &n[..]) {
        (b"n", &[w, h, align_w, align_h, vertical, columns]) => Some(Line::New([w, h, align_w, align_h, vertical, columns])),
        (b"a", &[w, h]) => Some(Line::Allocate(size2(w, h))),
        (b"r", &[row, generation]) => Some(Line::Release(row, generation)),
        (b"g", &[row, generation]) => Some(Line::Look(row, generation)),
        (b"s", []) => Some(Line::Space),
        (b"l", []) => Some(Line::List),
        (b"c", []) => Some(Line::Clear),
        _ => None,
    }
}

/// Decimal, with an optional minus and no leading zeros, in 32 signed bits.
fn number(word: &[u8]) -> Option<i32> {
    let digits = word.strip_prefix(b"-").unwrap_or(word);
    let leading_zero = digits.len() > 1 && digits[0] == b'0';
    if leading_zero || !digits.iter().all(u8::is_ascii_digit) {
        return None;
    }
    std::str::from_utf8(word).ok()?.parse().ok()
}

/// An atlas of a line's numbers. Vertical other than 0 or 1 is refused by 2, the size judged before as for 0.
pub fn create([w, h, align_w, align_h, vertical, columns]: [i32; 6]) -> Result<AtlasAllocator, Error> {
    let options = AllocatorOptions { alignment: size2(align_w, align_h), vertical_shelves: vertical == 1, num_columns: columns };
    let made = AtlasAllocator::with_rows(size2(w, h), &options, SHELF_ROWS, ITEM_ROWS);
    match made {
        Err(Error::BadSize) => made,
        _ if vertical != 0 && vertical != 1 => Err(Error::BadOptions),
        _ => made,
    }
}

/// An id outside of 16 bits names no live item.
pub fn id(row: i32, generation: i32) -> Result<AllocId, Error> {
    match (row.try_into(), generation.try_into()) {
        (Ok(row), Ok(generation)) => Ok(AllocId::new(row, generation)),
        _ => Err(Error::NoSuchItem),
    }
}
