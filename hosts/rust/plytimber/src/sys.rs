//! The exported functions of libplytimber.a, and a safe function over each: all that is unsafe in this crate stands here.
//!
//! Why they are safe: the library promises to end and to touch nothing but what it is lent, for any numbers; what it asks of a caller in C (pointers
//! that are valid and aligned for their lengths, no overlap, nobody else writing) is what a reference and a slice are.
use crate::{Error, Live, Reply, Request, Verdict};

/// The header of an atlas: eleven numbers, 24 bytes, as hosts/c/plytimber.h has them. The default one, all zero, is no atlas.
#[repr(C)]
#[derive(Copy, Clone, Debug, Default, PartialEq, Eq, Hash)]
pub struct Header {
    pub width: u16,
    pub height: u16,
    pub align_width: u16,
    pub align_height: u16,
    pub vertical: u16,
    pub shelf_width: u16,
    pub used_shelves: u16,
    pub used_items: u16,
    pub free_items: u16,
    pub free_shelves: u16,
    pub occupied: u32,
}

const _: () = assert!(size_of::<Header>() == 24 && size_of::<Live>() == 6 * size_of::<u16>() && align_of::<Live>() == align_of::<u16>());
const _: () = assert!(size_of::<Request>() == 3 * size_of::<u16>() && align_of::<Request>() == align_of::<u16>());
const _: () = assert!(size_of::<Reply>() == 7 * size_of::<u16>() && align_of::<Reply>() == align_of::<u16>());

#[repr(C)]
struct Grant {
    answer: u32,
    row: u32,
    generation: u32,
    x0: u32,
    y0: u32,
    x1: u32,
    y1: u32,
}

#[repr(C)]
struct Created {
    answer: u32,
    _columns: u32,
    header: Header,
}

#[repr(C)]
struct Loaded {
    answer: u32,
    header: Header,
}

#[repr(C)]
struct Batched {
    answer: u32,
    count: u32,
    header: Header,
}

/// An answer and one number: a count, an area, whether it is vacant, a rule, a length.
#[repr(C)]
struct Told {
    answer: u32,
    number: u32,
}

#[repr(C)]
struct Extent {
    answer: u32,
    width: u32,
    height: u32,
}

type Lent = *mut u16;
type Read = *const u16;

extern "C" {
    fn plytimber_create(shelves: Lent, s: usize, items: Lent, i: usize, w: i32, h: i32, align_w: i32, align_h: i32, vertical: i32, columns: i32) -> Created;
    fn plytimber_allocate(header: *mut Header, shelves: Lent, s: usize, items: Lent, i: usize, w: i32, h: i32) -> Grant;
    fn plytimber_release(header: *mut Header, shelves: Lent, s: usize, items: Lent, i: usize, row: u16, generation: u16) -> u32;
    fn plytimber_clear(header: *mut Header, shelves: Lent, s: usize, items: Lent, i: usize) -> u32;
    fn plytimber_look_up(header: Header, shelves: Read, s: usize, items: Read, i: usize, row: u16, generation: u16) -> Grant;
    fn plytimber_list(header: Header, shelves: Read, s: usize, items: Read, i: usize, list: Lent, l: usize) -> Told;
    fn plytimber_occupied(header: Header, shelves: Read, s: usize, items: Read, i: usize) -> Told;
    fn plytimber_free_space(header: Header, shelves: Read, s: usize, items: Read, i: usize) -> Told;
    fn plytimber_size(header: Header, shelves: Read, s: usize, items: Read, i: usize) -> Extent;
    fn plytimber_is_empty(header: Header, shelves: Read, s: usize, items: Read, i: usize) -> Told;
    fn plytimber_audit(header: Header, shelves: Read, s: usize, items: Read, i: usize) -> Told;
    fn plytimber_save(header: Header, shelves: Read, s: usize, items: Read, i: usize, image: *mut u8, bytes: usize) -> Told;
    fn plytimber_load(image: *const u8, bytes: usize, shelves: Lent, s: usize, items: Lent, i: usize) -> Loaded;
    fn plytimber_batch(header: Header, shelves: Lent, s: usize, items: Lent, i: usize, requests: Read, q: usize, replies: Lent, r: usize) -> Batched;
}

fn answered<T>(answer: u32, told: T) -> Result<T, Error> {
    match answer {
        0 => Ok(told),
        n => Err(Error::from_number(n).expect("the library answers with a number from 0 to 11")),
    }
}

/// The numbers of a grant fit in 16 bits: they are rows, generations and corners.
fn live(told: Grant) -> Result<Live, Error> {
    let numbers = [told.row, told.generation, told.x0, told.y0, told.x1, told.y1].map(|n| n as u16);
    let [row, generation, x0, y0, x1, y1] = numbers;
    answered(told.answer, Live { row, generation, x0, y0, x1, y1 })
}

/// `numbers` is width, height, the two alignments, vertical and columns.
pub fn create(shelves: &mut [u16], items: &mut [u16], numbers: [i32; 6]) -> Result<Header, Error> {
    let [w, h, align_w, align_h, vertical, columns] = numbers;
    // SAFETY: the slices are valid for their lengths, and are not shared.
    let told = unsafe { plytimber_create(shelves.as_mut_ptr(), shelves.len(), items.as_mut_ptr(), items.len(), w, h, align_w, align_h, vertical, columns) };
    answered(told.answer, told.header)
}

pub fn allocate(header: &mut Header, shelves: &mut [u16], items: &mut [u16], w: i32, h: i32) -> Result<Live, Error> {
    // SAFETY: header and slices are valid for their lengths, and are not shared.
    live(unsafe { plytimber_allocate(header, shelves.as_mut_ptr(), shelves.len(), items.as_mut_ptr(), items.len(), w, h) })
}

pub fn release(header: &mut Header, shelves: &mut [u16], items: &mut [u16], row: u16, generation: u16) -> Result<(), Error> {
    // SAFETY: as in `allocate`.
    answered(unsafe { plytimber_release(header, shelves.as_mut_ptr(), shelves.len(), items.as_mut_ptr(), items.len(), row, generation) }, ())
}

pub fn clear(header: &mut Header, shelves: &mut [u16], items: &mut [u16]) -> Result<(), Error> {
    // SAFETY: as in `allocate`.
    answered(unsafe { plytimber_clear(header, shelves.as_mut_ptr(), shelves.len(), items.as_mut_ptr(), items.len()) }, ())
}

pub fn look_up(header: Header, shelves: &[u16], items: &[u16], row: u16, generation: u16) -> Result<Live, Error> {
    // SAFETY: the slices are valid for their lengths, and the call only reads.
    live(unsafe { plytimber_look_up(header, shelves.as_ptr(), shelves.len(), items.as_ptr(), items.len(), row, generation) })
}

pub fn list(header: Header, shelves: &[u16], items: &[u16], out: &mut [Live]) -> Result<usize, Error> {
    let numbers = out.len() * (size_of::<Live>() / size_of::<u16>());
    // SAFETY: as in `look_up`; a record is six numbers without a gap, so the list is valid for six times its length.
    let told = unsafe { plytimber_list(header, shelves.as_ptr(), shelves.len(), items.as_ptr(), items.len(), out.as_mut_ptr().cast(), numbers) };
    answered(told.answer, told.number as usize)
}

pub fn occupied(header: Header, shelves: &[u16], items: &[u16]) -> Result<u32, Error> {
    // SAFETY: as in `look_up`.
    let told = unsafe { plytimber_occupied(header, shelves.as_ptr(), shelves.len(), items.as_ptr(), items.len()) };
    answered(told.answer, told.number)
}

pub fn free_space(header: Header, shelves: &[u16], items: &[u16]) -> Result<u32, Error> {
    // SAFETY: as in `look_up`.
    let told = unsafe { plytimber_free_space(header, shelves.as_ptr(), shelves.len(), items.as_ptr(), items.len()) };
    answered(told.answer, told.number)
}

/// Width and height, as they were given.
pub fn size(header: Header, shelves: &[u16], items: &[u16]) -> Result<(u32, u32), Error> {
    // SAFETY: as in `look_up`.
    let told = unsafe { plytimber_size(header, shelves.as_ptr(), shelves.len(), items.as_ptr(), items.len()) };
    answered(told.answer, (told.width, told.height))
}

pub fn is_empty(header: Header, shelves: &[u16], items: &[u16]) -> Result<bool, Error> {
    // SAFETY: as in `look_up`.
    let told = unsafe { plytimber_is_empty(header, shelves.as_ptr(), shelves.len(), items.as_ptr(), items.len()) };
    answered(told.answer, told.number == 1)
}

pub fn audit(header: Header, shelves: &[u16], items: &[u16]) -> Verdict {
    // SAFETY: as in `look_up`.
    let told = unsafe { plytimber_audit(header, shelves.as_ptr(), shelves.len(), items.as_ptr(), items.len()) };
    match (told.answer, told.number) {
        (0, _) => Verdict::Passes,
        (_, 1) => Verdict::Limits,
        (_, 2) => Verdict::Shelves,
        (_, 3) => Verdict::Items,
        _ => Verdict::Lists,
    }
}

/// How many bytes the image has.
pub fn save(header: Header, shelves: &[u16], items: &[u16], image: &mut [u8]) -> Result<usize, Error> {
    // SAFETY: as in `look_up`; the image is valid for its length, and is not shared.
    let told = unsafe { plytimber_save(header, shelves.as_ptr(), shelves.len(), items.as_ptr(), items.len(), image.as_mut_ptr(), image.len()) };
    answered(told.answer, told.number as usize)
}

pub fn load(image: &[u8], shelves: &mut [u16], items: &mut [u16]) -> Result<Header, Error> {
    // SAFETY: the slices are valid for their lengths; the tables are not shared, and of the image the call only reads.
    let told = unsafe { plytimber_load(image.as_ptr(), image.len(), shelves.as_mut_ptr(), shelves.len(), items.as_mut_ptr(), items.len()) };
    answered(told.answer, told.header)
}

/// How many requests were answered.
pub fn batch(header: &mut Header, shelves: &mut [u16], items: &mut [u16], requests: &[Request], replies: &mut [Reply]) -> Result<usize, Error> {
    let (asked, room) = (size_of_val(requests) / size_of::<u16>(), size_of_val(replies) / size_of::<u16>());
    let (s, i, out) = (shelves.len(), items.len(), replies.as_mut_ptr().cast());
    // SAFETY: as in `allocate`; a request is three numbers and a reply seven, without a gap, so both lists are valid for so many numbers.
    let told = unsafe { plytimber_batch(*header, shelves.as_mut_ptr(), s, items.as_mut_ptr(), i, requests.as_ptr().cast(), asked, out, room) };
    // Where it is refused, this is the header that was given.
    *header = told.header;
    answered(told.answer, told.count as usize)
}
