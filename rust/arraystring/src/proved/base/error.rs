// Made from crates/arraystring_base/src/error.rt by rust/generate.py: change that, and run this.
//! The errors, and the conversions to `Error`. When an error is printed, a width and a precision in the
//! format are ignored.

use core::error::Error as StdError;
use core::fmt;
use core::hash::{Hash, Hasher};
use core::str::Utf8Error;

/// Why a call was refused.
#[derive(Clone, Copy, PartialEq, Eq)]
pub enum Error {
    /// Bytes that are not well-formed UTF-8 (the Unicode Standard, section 3.9), or an index
    /// inside a character.
    Utf8,
    /// A lone surrogate in UTF-16 (the Unicode Standard, section 3.9).
    Utf16,
    /// An index or a range outside the text, a reversed range, or a result larger than the capacity.
    OutOfBounds,
}

impl Error {
    /// The name of the variant.
    #[inline]
    fn name(&self) -> &'static str {
        match self {
            Error::Utf8 => "Utf8",
            Error::Utf16 => "Utf16",
            Error::OutOfBounds => "OutOfBounds",
        }
    }
}

/// Prints the case with its type, such as `Error::Utf8`.
impl fmt::Debug for Error {
    #[inline]
    fn fmt(&self, f: &mut fmt::Formatter<'_>) -> fmt::Result {
        f.write_str("Error::")?;
        f.write_str(self.name())
    }
}

/// Prints the name alone.
impl fmt::Display for Error {
    #[inline]
    fn fmt(&self, f: &mut fmt::Formatter<'_>) -> fmt::Result {
        f.write_str(self.name())
    }
}

/// It converts to a `Box<dyn std::error::Error>`, and has no source.
impl StdError for Error {}

/// Converts to the variant of the same name.
impl From<OutOfBounds> for Error {
    #[inline]
    fn from(_error: OutOfBounds) -> Self {
        Error::OutOfBounds
    }
}

/// Converts to the variant of the same name.
impl From<Utf16> for Error {
    #[inline]
    fn from(_error: Utf16) -> Self {
        Error::Utf16
    }
}

/// Converts to the variant of the same name.
impl From<Utf8> for Error {
    #[inline]
    fn from(_error: Utf8) -> Self {
        Error::Utf8
    }
}

/// The error of `std` for bytes that are not UTF-8 becomes `Error::Utf8`.
impl From<Utf8Error> for Error {
    #[inline]
    fn from(error: Utf8Error) -> Self {
        Error::from(Utf8::from(error))
    }
}

/// Hashes as the `&str` of the case's name does.
impl Hash for Error {
    #[inline]
    fn hash<H: Hasher>(&self, state: &mut H) {
        self.name().hash(state);
    }
}

/// Bytes that are not well-formed UTF-8 (the Unicode Standard, section 3.9), or an index inside a
/// character. `is_char_boundary` also returns it for an index past the text.
#[derive(Clone, Copy, Default, PartialEq, Eq)]
pub struct Utf8;

/// Prints `Utf8`.
impl fmt::Debug for Utf8 {
    #[inline]
    fn fmt(&self, f: &mut fmt::Formatter<'_>) -> fmt::Result {
        f.write_str("Utf8")
    }
}

/// Prints `Utf8`. A width in the format does not pad it.
impl fmt::Display for Utf8 {
    #[inline]
    fn fmt(&self, f: &mut fmt::Formatter<'_>) -> fmt::Result {
        f.write_str("Utf8")
    }
}

/// It converts to a `Box<dyn std::error::Error>`, and has no source.
impl StdError for Utf8 {}

/// The error of `std` for bytes that are not UTF-8 becomes `Utf8`.
impl From<Utf8Error> for Utf8 {
    #[inline]
    fn from(_error: Utf8Error) -> Self {
        Utf8
    }
}

/// A lone surrogate in UTF-16 (the Unicode Standard, section 3.9).
#[derive(Clone, Copy, Default, PartialEq, Eq)]
pub struct Utf16;

/// Prints `Utf16`.
impl fmt::Debug for Utf16 {
    #[inline]
    fn fmt(&self, f: &mut fmt::Formatter<'_>) -> fmt::Result {
        f.write_str("Utf16")
    }
}

/// Prints `Utf16`. A width in the format does not pad it.
impl fmt::Display for Utf16 {
    #[inline]
    fn fmt(&self, f: &mut fmt::Formatter<'_>) -> fmt::Result {
        f.write_str("Utf16")
    }
}

/// It converts to a `Box<dyn std::error::Error>`, and has no source.
impl StdError for Utf16 {}

/// An index or a range outside the text, a reversed range, or a result larger than the capacity.
#[derive(Clone, Copy, Default, PartialEq, Eq)]
pub struct OutOfBounds;

/// Prints `OutOfBounds`.
impl fmt::Debug for OutOfBounds {
    #[inline]
    fn fmt(&self, f: &mut fmt::Formatter<'_>) -> fmt::Result {
        f.write_str("OutOfBounds")
    }
}

/// Prints `OutOfBounds`. A width in the format does not pad it.
impl fmt::Display for OutOfBounds {
    #[inline]
    fn fmt(&self, f: &mut fmt::Formatter<'_>) -> fmt::Result {
        f.write_str("OutOfBounds")
    }
}

/// It converts to a `Box<dyn std::error::Error>`, and has no source.
impl StdError for OutOfBounds {}
