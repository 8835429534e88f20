//! Dynamic texture atlas allocation using the shelf packing algorithm, by a library whose every call is proved.
//!
//! The API is that of `AtlasAllocator` in the crate etagere: a user of it changes the line that brings it in. What differs:
//!
//! - [`AtlasAllocator::allocate`] and [`AtlasAllocator::deallocate`] return a `Result` that says why; `deallocate` and [`AtlasAllocator::get`] refuse
//!   a dead id where etagere stops the program. The compiler warns where a refused `deallocate` would go unseen.
//! - Tables are fixed. By default they have all the rows that there can be; [`AtlasAllocator::with_rows`] takes less memory, and answers
//!   [`Error::TooFewRows`] when they are full.
//! - [`AtlasAllocator::save`] and [`AtlasAllocator::load`] stand for serde's feature: an image whose every block is checked, and which is audited before it is an atlas.
//! - Each call but `clear` audits the tables first, which takes time in proportion to the rows in use; [`AtlasAllocator::batch`] makes many calls on one audit.
//! - [`AtlasIn`] is an atlas over a header and tables that you lend, with no heap: static memory, or memory that outlives a restart.
//!
//! ## Example
//!
//! ```rust
//! use plytimber::*;
//!
//! let mut atlas = AtlasAllocator::new(size2(1000, 1000));
//!
//! let a = atlas.allocate(size2(100, 100)).unwrap();
//! let b = atlas.allocate(size2(900, 200)).unwrap();
//! println!("Allocated {:?} and {:?}", a.rectangle, b.rectangle);
//!
//! atlas.deallocate(a.id);
//!
//! let c = atlas.allocate(size2(300, 200)).unwrap();
//!
//! atlas.deallocate(c.id);
//! atlas.deallocate(b.id);
//! ```
#![deny(unsafe_op_in_unsafe_fn, missing_debug_implementations)]

mod error;
mod geometry;
mod lent;
mod owned;
#[deny(clippy::undocumented_unsafe_blocks)]
mod sys;

pub use error::Error;
pub use geometry::{point2, size2, Point, Rectangle, Size};
pub use lent::AtlasIn;
pub use owned::{AtlasAllocator, Iter};
pub use sys::Header;

/// Numbers of a shelf row, of an item row, and the most rows that a table can have.
pub const SHELF_NUMBERS: usize = 8;
pub const ITEM_NUMBERS: usize = 9;
pub const MOST_ROWS: usize = 65535;

/// The bytes of an image of so many used shelf rows and item rows: blocks of 512, one for the header, one for every 31 shelf rows, one for every 28 item
/// rows. With the rows that the tables have, it is room enough for any atlas in them.
pub const fn image_bytes(shelf_rows: usize, item_rows: usize) -> usize {
    512 * (1 + shelf_rows.div_ceil(31) + item_rows.div_ceil(28))
}

/// Options to tweak the behavior of the atlas allocator.
#[derive(Copy, Clone, Debug, PartialEq, Eq, Hash)]
pub struct AllocatorOptions {
    /// Align item sizes to a multiple of this alignment.
    ///
    /// Default value: [1, 1] (no alignment).
    pub alignment: Size,
    /// Use vertical instead of horizontal shelves.
    ///
    /// Default value: false.
    pub vertical_shelves: bool,
    /// If possible split the allocator's surface into multiple columns.
    ///
    /// Having multiple columns allows having more (smaller shelves).
    ///
    /// Default value: 1.
    pub num_columns: i32,
}

pub const DEFAULT_OPTIONS: AllocatorOptions = AllocatorOptions { vertical_shelves: false, alignment: size2(1, 1), num_columns: 1 };

impl Default for AllocatorOptions {
    fn default() -> Self {
        DEFAULT_OPTIONS
    }
}

impl AllocatorOptions {
    /// An atlas of this size and these options, as the six numbers that create takes.
    fn numbers(&self, size: Size) -> [i32; 6] {
        [size.width, size.height, self.alignment.width, self.alignment.height, self.vertical_shelves as i32, self.num_columns]
    }
}

/// The `AllocId` and `Rectangle` resulting from an allocation.
#[derive(Copy, Clone, Debug, PartialEq, Eq, Hash)]
pub struct Allocation {
    pub id: AllocId,
    pub rectangle: Rectangle,
}

/// ID referring to an allocated rectangle: a row of the item table, and the generation that the row had when it was granted.
#[derive(Copy, Clone, Debug, PartialEq, Eq, Hash)]
pub struct AllocId(u32);

impl AllocId {
    pub const fn new(row: u16, generation: u16) -> Self {
        AllocId(row as u32 | (generation as u32) << 16)
    }

    pub const fn row(self) -> u16 {
        self.0 as u16
    }

    pub const fn generation(self) -> u16 {
        (self.0 >> 16) as u16
    }

    pub const fn serialize(&self) -> u32 {
        self.0
    }

    pub const fn deserialize(bytes: u32) -> Self {
        AllocId(bytes)
    }
}

/// A record of [`AtlasIn::list`]: an id and the corners of its rectangle, six numbers.
#[repr(C)]
#[derive(Copy, Clone, Debug, Default, PartialEq, Eq, Hash)]
pub struct Live {
    pub row: u16,
    pub generation: u16,
    pub x0: u16,
    pub y0: u16,
    pub x1: u16,
    pub y1: u16,
}

impl From<Live> for Allocation {
    fn from(l: Live) -> Self {
        let rectangle = Rectangle { min: point2(l.x0 as i32, l.y0 as i32), max: point2(l.x1 as i32, l.y1 as i32) };
        Allocation { id: AllocId::new(l.row, l.generation), rectangle }
    }
}

/// One call of a batch.
#[repr(C)]
#[derive(Copy, Clone, Debug, PartialEq, Eq, Hash)]
pub struct Request {
    kind: u16,
    first: u16,
    second: u16,
}

impl Request {
    /// A side that is no number of 16 bits goes in as 0, which is refused for the same reason: [`Error::BadSide`].
    pub fn allocate(size: Size) -> Self {
        let side = |n: i32| u16::try_from(n).unwrap_or(0);
        Request { kind: 1, first: side(size.width), second: side(size.height) }
    }

    pub const fn deallocate(id: AllocId) -> Self {
        Request { kind: 2, first: id.row(), second: id.generation() }
    }

    pub const fn get(id: AllocId) -> Self {
        Request { kind: 3, first: id.row(), second: id.generation() }
    }
}

/// What [`AtlasIn::batch`] tells of one request, seven numbers.
#[repr(C)]
#[derive(Copy, Clone, Debug, Default, PartialEq, Eq, Hash)]
pub struct Reply {
    answer: u16,
    item: Live,
}

impl Reply {
    /// The item that was granted or looked up; `None` for a deallocation that is done; or why the request was refused.
    pub fn told(self) -> Result<Option<Allocation>, Error> {
        match Error::from_number(self.answer as u32) {
            Some(error) => Err(error),
            // No rectangle ends at 0, so these are the zeros beside a deallocation.
            None if self.item.x1 == 0 => Ok(None),
            None => Ok(Some(self.item.into())),
        }
    }
}

/// What the audit says: that all is well, or where the first fault is.
#[derive(Copy, Clone, Debug, PartialEq, Eq, Hash)]
pub enum Verdict {
    Passes,
    /// The header is not within the limits (rule 1).
    Limits,
    /// Shelves don't fill the columns (rule 2).
    Shelves,
    /// Items don't fill the shelves (rule 3).
    Items,
    /// Free lists, freed rows or the occupied total are wrong (rules 5 to 7).
    Lists,
}
