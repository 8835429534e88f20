//! An atlas that owns its tables, with etagere's names.
use crate::lent::debug;
use crate::{image_bytes, sys, AllocId, Allocation, AllocatorOptions, AtlasIn, Error, Header, Live, Rectangle, Reply, Request, Size};
use crate::{DEFAULT_OPTIONS, ITEM_NUMBERS, MOST_ROWS, SHELF_NUMBERS};
use std::fmt;

/// Why a call that can only be refused by the audit is not: it passes after create and after every call, which is proved.
const KEPT: &str = "tables that nobody else writes to pass the audit";

/// A shelf-packing dynamic texture atlas allocator tracking each allocation individually and with support for coalescing empty shelves.
///
/// Nobody else can write to its tables, so they pass the audit after every call, and what only the audit could refuse (`clear`, `iter`, `size`,
/// `is_empty`, `allocated_space`, `free_space`, `save`, `batch` as a whole) returns a plain value, as etagere's does. Were memory damaged beneath it, these panic; a host that has to
/// hear of that takes [`AtlasAllocator::lent`], or an [`AtlasIn`] from the start, where all calls return a `Result`.
#[derive(Clone)]
pub struct AtlasAllocator {
    header: Header,
    shelves: Vec<u16>,
    items: Vec<u16>,
}

fn tables(shelf_rows: usize, item_rows: usize) -> (Vec<u16>, Vec<u16>) {
    (vec![0; shelf_rows.min(MOST_ROWS) * SHELF_NUMBERS], vec![0; item_rows.min(MOST_ROWS) * ITEM_NUMBERS])
}

impl AtlasAllocator {
    /// Create an atlas allocator with default options.
    ///
    /// # Panics
    /// Where the size is refused, as etagere's does; a height from 65528 to 65535 only here. See [`AtlasAllocator::try_new`].
    pub fn new(size: Size) -> Self {
        Self::with_options(size, &DEFAULT_OPTIONS)
    }

    /// Create an atlas allocator with provided options.
    ///
    /// # Panics
    /// Where size or options are refused, as etagere's does; a depth from 65528 to 65535, columns below 0 and alignments over 65535 only here. See
    /// [`AtlasAllocator::try_with_options`].
    pub fn with_options(size: Size, options: &AllocatorOptions) -> Self {
        Self::try_with_options(size, options).unwrap_or_else(|e| panic!("an atlas of {size:?} with {options:?} is refused: {e}"))
    }

    /// [`AtlasAllocator::new`] without a panic.
    pub fn try_new(size: Size) -> Result<Self, Error> {
        Self::try_with_options(size, &DEFAULT_OPTIONS)
    }

    /// [`AtlasAllocator::with_options`] without a panic. The tables have all rows that there can be: 2.2 MB, of which a system that gives memory on
    /// first use gives what is used.
    pub fn try_with_options(size: Size, options: &AllocatorOptions) -> Result<Self, Error> {
        Self::with_rows(size, options, MOST_ROWS, MOST_ROWS)
    }

    /// An atlas whose tables have so many rows, 16 and 18 bytes each. `2 N + C` shelf rows and `4 N + C` item rows are enough for `N` items at a
    /// time in `C` columns.
    pub fn with_rows(size: Size, options: &AllocatorOptions, shelf_rows: usize, item_rows: usize) -> Result<Self, Error> {
        let (mut shelves, mut items) = tables(shelf_rows, item_rows);
        let header = sys::create(&mut shelves, &mut items, options.numbers(size))?;
        Ok(AtlasAllocator { header, shelves, items })
    }

    /// The atlas of an image that [`AtlasAllocator::save`] or C's `plytimber_save` made, in tables with all rows that there can be.
    pub fn load(image: &[u8]) -> Result<Self, Error> {
        Self::load_with_rows(image, MOST_ROWS, MOST_ROWS)
    }

    /// [`AtlasAllocator::load`] into tables of so many rows; [`Error::TooFewRows`] where the image has more.
    pub fn load_with_rows(image: &[u8], shelf_rows: usize, item_rows: usize) -> Result<Self, Error> {
        let (mut shelves, mut items) = tables(shelf_rows, item_rows);
        let header = sys::load(image, &mut shelves, &mut items)?;
        Ok(AtlasAllocator { header, shelves, items })
    }

    /// The same atlas as one over lent tables, where every call returns a `Result`.
    pub fn lent(&mut self) -> AtlasIn<'_> {
        AtlasIn::over(&mut self.header, &mut self.shelves, &mut self.items)
    }

    /// Allocate a rectangle in the atlas. The rectangle granted covers the size, and may be larger.
    pub fn allocate(&mut self, size: Size) -> Result<Allocation, Error> {
        self.lent().allocate(size)
    }

    /// Deallocate a rectangle in the atlas. A dead id is refused, and nothing changes.
    pub fn deallocate(&mut self, id: AllocId) -> Result<(), Error> {
        self.lent().deallocate(id)
    }

    /// Deallocate everything.
    pub fn clear(&mut self) {
        self.lent().clear().expect(KEPT)
    }

    /// The rectangle of a live item; a dead id is refused.
    pub fn get(&self, id: AllocId) -> Result<Rectangle, Error> {
        sys::look_up(self.header, &self.shelves, &self.items, id.row(), id.generation()).map(|l| Allocation::from(l).rectangle)
    }

    /// The live items by rising row, as they are now.
    pub fn iter(&self) -> Iter {
        let mut listed = vec![Live::default(); self.header.used_items as usize];
        let count = sys::list(self.header, &self.shelves, &self.items, &mut listed).expect(KEPT);
        listed.truncate(count);
        Iter(listed.into_iter())
    }

    /// The size that was given.
    pub fn size(&self) -> Size {
        let (width, height) = sys::size(self.header, &self.shelves, &self.items).expect(KEPT);
        Size { width: width as i32, height: height as i32 }
    }

    /// Returns true if there is no allocation in the atlas.
    pub fn is_empty(&self) -> bool {
        sys::is_empty(self.header, &self.shelves, &self.items).expect(KEPT)
    }

    /// Amount of occupied space in the atlas.
    pub fn allocated_space(&self) -> i32 {
        sys::occupied(self.header, &self.shelves, &self.items).expect(KEPT) as i32
    }

    /// How much space is available for future allocations.
    pub fn free_space(&self) -> i32 {
        sys::free_space(self.header, &self.shelves, &self.items).expect(KEPT) as i32
    }

    /// The atlas as an image, as long as it needs to be. The same atlas gives the same bytes, and [`AtlasAllocator::load`] gives it back.
    pub fn save(&self) -> Vec<u8> {
        let mut image = vec![0; image_bytes(self.header.used_shelves as usize, self.header.used_items as usize)];
        let length = self.save_to(&mut image).expect(KEPT);
        image.truncate(length);
        image
    }

    /// The image, at the front of `image`; how many bytes it has. [`Error::ListTooShort`] where it doesn't fit; bytes past it stay as they were.
    pub fn save_to(&self, image: &mut [u8]) -> Result<usize, Error> {
        sys::save(self.header, &self.shelves, &self.items, image)
    }

    /// Many calls on one audit (one for every 65535): each is answered in its place, as its single call would be after those before it. An item that was
    /// granted or looked up, `None` for a deallocation that is done, or why that request was refused, which doesn't stop the rest.
    pub fn batch(&mut self, requests: &[Request]) -> Vec<Result<Option<Allocation>, Error>> {
        let mut replies = vec![Reply::default(); requests.len()];
        for (asked, told) in requests.chunks(MOST_ROWS).zip(replies.chunks_mut(MOST_ROWS)) {
            self.lent().batch(asked, told).expect(KEPT);
        }
        replies.into_iter().map(Reply::told).collect()
    }

    /// The header, and the numbers of the two tables, to read.
    pub fn parts(&self) -> (&Header, &[u16], &[u16]) {
        (&self.header, &self.shelves, &self.items)
    }
}

impl fmt::Debug for AtlasAllocator {
    fn fmt(&self, f: &mut fmt::Formatter<'_>) -> fmt::Result {
        debug(f, "AtlasAllocator", &self.header, &self.shelves, &self.items)
    }
}

impl IntoIterator for &AtlasAllocator {
    type Item = Allocation;
    type IntoIter = Iter;

    fn into_iter(self) -> Iter {
        self.iter()
    }
}

/// The live items of an atlas, by rising row.
#[derive(Clone, Debug)]
pub struct Iter(std::vec::IntoIter<Live>);

impl Iterator for Iter {
    type Item = Allocation;

    fn next(&mut self) -> Option<Allocation> {
        self.0.next().map(Allocation::from)
    }

    fn size_hint(&self) -> (usize, Option<usize>) {
        self.0.size_hint()
    }
}

impl ExactSizeIterator for Iter {}
