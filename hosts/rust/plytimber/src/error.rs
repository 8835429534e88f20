//! The numbers by which a call is refused, by name.
use std::fmt;

/// Why a call was refused. A refusal changes nothing, but for the tables lent to [`AtlasIn::load`](crate::AtlasIn::load) where that is [`Error::AuditFails`].
#[derive(Copy, Clone, Debug, PartialEq, Eq, Hash)]
#[repr(u32)]
#[non_exhaustive]
pub enum Error {
    /// Creating: width, height or area is outside the limits.
    BadSize = 1,
    /// Creating: an alignment or the number of columns is bad, or no width is left for a shelf.
    BadOptions = 2,
    /// Header and tables, or those in an image, are not those of an atlas.
    AuditFails = 3,
    /// A side of the request is 0, negative or over 65535.
    BadSide = 4,
    /// The aligned request is larger than a shelf or the atlas: it never fits.
    TooLarge = 5,
    /// No shelf has a free stretch that fits, now.
    NoPlace = 6,
    /// A table has too few rows left, or fewer than the image.
    TooFewRows = 7,
    /// The id names no live item.
    NoSuchItem = 8,
    /// Loading: the length or a block of the image is wrong.
    BadImage = 9,
    /// There are more live items, bytes or requests than there is room for in the list, image or list of replies that is lent.
    ListTooShort = 10,
    /// A line of a script is not readable; in the library, a request of an unknown kind, which [`Request`](crate::Request) can't be.
    NotReadable = 11,
}

impl Error {
    /// All of them, by number.
    pub const ALL: [Error; 11] = [
        Error::BadSize,
        Error::BadOptions,
        Error::AuditFails,
        Error::BadSide,
        Error::TooLarge,
        Error::NoPlace,
        Error::TooFewRows,
        Error::NoSuchItem,
        Error::BadImage,
        Error::ListTooShort,
        Error::NotReadable,
    ];

    /// The number that C and the script program know it by.
    pub const fn number(self) -> u32 {
        self as u32
    }

    /// The error of a number; `None` where there is none of that number.
    pub fn from_number(number: u32) -> Option<Error> {
        Error::ALL.into_iter().find(|e| e.number() == number)
    }
}

impl fmt::Display for Error {
    fn fmt(&self, f: &mut fmt::Formatter<'_>) -> fmt::Result {
        f.write_str(match self {
            Error::BadSize => "width, height or area of the atlas is outside the limits",
            Error::BadOptions => "alignment, columns or shelf width is bad",
            Error::AuditFails => "header and tables don't pass the audit",
            Error::BadSide => "a side is 0, negative or over 65535",
            Error::TooLarge => "the aligned request is larger than a shelf or the atlas",
            Error::NoPlace => "no place is free for it",
            Error::TooFewRows => "too few rows are left in a table",
            Error::NoSuchItem => "the id names no live item",
            Error::BadImage => "the blocks of the saved image are wrong",
            Error::ListTooShort => "the list or output is too short",
            Error::NotReadable => "the line is not readable",
        })
    }
}

impl std::error::Error for Error {}
