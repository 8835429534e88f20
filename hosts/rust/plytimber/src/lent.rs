//! An atlas over a lent header and lent tables.
use crate::{sys, AllocId, Allocation, AllocatorOptions, Error, Header, Live, Rectangle, Reply, Request, Size, Verdict};
use crate::{ITEM_NUMBERS, SHELF_NUMBERS};
use std::fmt;

/// An atlas over a header and two tables that are lent to it: it uses no heap, and keeps nothing besides.
///
/// Any numbers may stand in them. Each call audits them first, and answers [`Error::AuditFails`] where they are no atlas; only
/// [`AtlasIn::clear`] asks less. A row of a shelf table has 8 numbers, one of an item table 9; `2 N + C` shelf rows and `4 N + C` item rows are enough for
/// `N` items at a time in `C` columns.
///
/// ```
/// use plytimber::*;
/// let (mut header, mut shelves, mut items) = (Header::default(), [0; 40 * SHELF_NUMBERS], [0; 80 * ITEM_NUMBERS]);
/// let mut atlas = AtlasIn::create(&mut header, &mut shelves, &mut items, size2(512, 512), &DEFAULT_OPTIONS)?;
/// let label = atlas.allocate(size2(120, 30))?;
/// atlas.deallocate(label.id)?;
/// assert_eq!(atlas.deallocate(label.id), Err(Error::NoSuchItem));
///
/// // Later, on what was kept: is it an atlas?
/// shelves[2] ^= 1;
/// assert_eq!(AtlasIn::open(&mut header, &mut shelves, &mut items).unwrap_err(), Error::AuditFails);
/// # Ok::<(), Error>(())
/// ```
pub struct AtlasIn<'a> {
    header: &'a mut Header,
    shelves: &'a mut [u16],
    items: &'a mut [u16],
}

impl<'a> AtlasIn<'a> {
    /// A fresh atlas. Where it is refused, header and tables stay as they are.
    pub fn create(header: &'a mut Header, shelves: &'a mut [u16], items: &'a mut [u16], size: Size, options: &AllocatorOptions) -> Result<Self, Error> {
        *header = sys::create(shelves, items, options.numbers(size))?;
        Ok(AtlasIn { header, shelves, items })
    }

    /// The atlas that stands there, where it passes the audit.
    pub fn open(header: &'a mut Header, shelves: &'a mut [u16], items: &'a mut [u16]) -> Result<Self, Error> {
        let atlas = AtlasIn::over(header, shelves, items);
        match atlas.audit() {
            Verdict::Passes => Ok(atlas),
            _ => Err(Error::AuditFails),
        }
    }

    /// The atlas of an image, in these tables, which may have other lengths than those that were saved. Where it is refused, header and tables stay as they
    /// are; but [`Error::AuditFails`] is found when the rows are copied, and leaves them there.
    pub fn load(image: &[u8], header: &'a mut Header, shelves: &'a mut [u16], items: &'a mut [u16]) -> Result<Self, Error> {
        *header = sys::load(image, shelves, items)?;
        Ok(AtlasIn { header, shelves, items })
    }

    /// Whatever stands there, unread: so that a damaged atlas can be cleared.
    pub fn over(header: &'a mut Header, shelves: &'a mut [u16], items: &'a mut [u16]) -> Self {
        AtlasIn { header, shelves, items }
    }

    /// A place for a rectangle of this size. The rectangle granted covers it, and may be larger.
    pub fn allocate(&mut self, size: Size) -> Result<Allocation, Error> {
        sys::allocate(self.header, self.shelves, self.items, size.width, size.height).map(Allocation::from)
    }

    /// Gives a rectangle back.
    pub fn deallocate(&mut self, id: AllocId) -> Result<(), Error> {
        sys::release(self.header, self.shelves, self.items, id.row(), id.generation())
    }

    /// Gives everything back. Asks only for a header within the limits, tables that have its used rows, and a row for each column in each.
    pub fn clear(&mut self) -> Result<(), Error> {
        sys::clear(self.header, self.shelves, self.items)
    }

    /// The rectangle of a live item.
    pub fn get(&self, id: AllocId) -> Result<Rectangle, Error> {
        sys::look_up(*self.header, self.shelves, self.items, id.row(), id.generation()).map(|l| Allocation::from(l).rectangle)
    }

    /// All live items by rising row, into `out`; how many there are. Records past the last stay as they were.
    pub fn list(&self, out: &mut [Live]) -> Result<usize, Error> {
        sys::list(*self.header, self.shelves, self.items, out)
    }

    /// The atlas as an image, at the front of `image`; how many bytes it has ([`image_bytes`](crate::image_bytes) of the used rows). Bytes past it stay as they were.
    pub fn save_to(&self, image: &mut [u8]) -> Result<usize, Error> {
        sys::save(*self.header, self.shelves, self.items, image)
    }

    /// Many calls on one audit: each is answered in its place, as its single call would be after those before it, and a refused one doesn't stop the rest. How
    /// many were answered: all, or the first 65535. [`Error::ListTooShort`] where there are fewer replies: nothing is done then. Replies past the last stay
    /// as they were.
    pub fn batch(&mut self, requests: &[Request], replies: &mut [Reply]) -> Result<usize, Error> {
        sys::batch(self.header, self.shelves, self.items, requests, replies)
    }

    /// The size that was given.
    pub fn size(&self) -> Result<Size, Error> {
        let (width, height) = sys::size(*self.header, self.shelves, self.items)?;
        Ok(Size { width: width as i32, height: height as i32 })
    }

    /// Is nothing live?
    pub fn is_empty(&self) -> Result<bool, Error> {
        sys::is_empty(*self.header, self.shelves, self.items)
    }

    /// Amount of occupied space in the atlas.
    pub fn allocated_space(&self) -> Result<i32, Error> {
        sys::occupied(*self.header, self.shelves, self.items).map(|area| area as i32)
    }

    /// How much space is available for future allocations.
    pub fn free_space(&self) -> Result<i32, Error> {
        sys::free_space(*self.header, self.shelves, self.items).map(|area| area as i32)
    }

    /// Are header and tables those of an atlas, and if not, where is the first fault?
    pub fn audit(&self) -> Verdict {
        sys::audit(*self.header, self.shelves, self.items)
    }

    /// The header, and the numbers of the two tables, to read.
    pub fn parts(&self) -> (&Header, &[u16], &[u16]) {
        (self.header, self.shelves, self.items)
    }
}

impl fmt::Debug for AtlasIn<'_> {
    fn fmt(&self, f: &mut fmt::Formatter<'_>) -> fmt::Result {
        debug(f, "AtlasIn", self.header, self.shelves, self.items)
    }
}

/// The header and how many rows there are, and not the tables themselves.
pub(crate) fn debug(f: &mut fmt::Formatter<'_>, name: &str, header: &Header, shelves: &[u16], items: &[u16]) -> fmt::Result {
    f.debug_struct(name)
        .field("header", header)
        .field("shelf_rows", &(shelves.len() / SHELF_NUMBERS))
        .field("item_rows", &(items.len() / ITEM_NUMBERS))
        .finish()
}
