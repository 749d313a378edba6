//! The errors. The core has errors of the same names, but by their contracts they are printed without the width that a format names.

use core::char::DecodeUtf16Error;
use core::error::Error as StdError;
use core::fmt;
use core::str::Utf8Error;

use crate::proved::base::error as by_core;

/// Why a call was refused. `?` converts each error of this crate, a `fmt::Error`, and std's `Utf8Error` and `DecodeUtf16Error` into it.
///
/// # Examples
///
/// ```
/// use arraystring::{ArrayString, Error};
///
/// let mut string = ArrayString::<4>::try_from_str("é")?;
/// assert_eq!(string.remove(1), Err(Error::Utf8));
/// assert_eq!(string.remove(2), Err(Error::OutOfBounds));
/// assert_eq!(ArrayString::<4>::try_from_utf16(&[0xD800]), Err(Error::Utf16));
/// # Ok::<(), Error>(())
/// ```
#[derive(Clone, Copy, Debug, PartialEq, Eq, Hash)]
pub enum Error {
    /// Bytes that are not well-formed UTF-8 (the Unicode Standard, section 3.9), or an index inside a character.
    Utf8,
    /// A lone surrogate in UTF-16 (the Unicode Standard, section 3.9).
    Utf16,
    /// An index or a range outside the text, a reversed range, or a result larger than the capacity.
    OutOfBounds,
}

impl Error {
    /// Makes an error of the core into the error of this crate.
    #[inline(always)]
    pub(crate) const fn from_proved_error(refusal: by_core::Error) -> Self {
        match refusal {
            by_core::Error::Utf8 => Error::Utf8,
            by_core::Error::Utf16 => Error::Utf16,
            by_core::Error::OutOfBounds => Error::OutOfBounds,
        }
    }
}

/// Prints why the call was refused. A width in the format pads it.
impl fmt::Display for Error {
    fn fmt(&self, f: &mut fmt::Formatter<'_>) -> fmt::Result {
        f.pad(match self {
            Error::Utf8 => "not UTF-8, or an index inside a character",
            Error::Utf16 => "not UTF-16",
            Error::OutOfBounds => "larger than the capacity, or outside the text",
        })
    }
}

impl StdError for Error {}

/// Defines an error type that has one cause, which is also one case of `Error`.
macro_rules! define_error {
    ($(#[$documentation:meta])* $part:ident, $text:literal) => {
        $(#[$documentation])*
        #[derive(Clone, Copy, Debug, Default, PartialEq, Eq, Hash)]
        pub struct $part;

        impl $part {
            /// Makes an error of the core into the error of this crate.
            #[inline(always)]
            pub(crate) const fn from_proved_error(_refusal: by_core::$part) -> Self {
                $part
            }
        }

        /// Prints why the call was refused. A width in the format pads it.
        impl fmt::Display for $part {
            fn fmt(&self, f: &mut fmt::Formatter<'_>) -> fmt::Result {
                f.pad($text)
            }
        }

        impl StdError for $part {}
    };
}

define_error! {
    /// Bytes that are not well-formed UTF-8 (the Unicode Standard, section 3.9), or an index inside a character.
    Utf8, "not UTF-8, or an index inside a character"
}

define_error! {
    /// A lone surrogate in UTF-16 (the Unicode Standard, section 3.9).
    Utf16, "not UTF-16"
}

define_error! {
    /// A text that is larger than the capacity, or than the room that is left.
    OutOfBounds, "larger than the capacity"
}

/// Writes the `From` by which `?` converts an error of one cause (`Utf8`, `Utf16` or `OutOfBounds`) into `Error`, and an error of std into
/// `Error` or an error of one cause.
macro_rules! impl_from_error {
    ($($error:ty => $made:ident $(:: $case:ident)?;)*) => {$(
        impl From<$error> for $made {
            #[inline]
            fn from(_error: $error) -> Self {
                $made $(:: $case)?
            }
        }
    )*};
}

impl_from_error! {
    Utf8 => Error::Utf8;
    Utf16 => Error::Utf16;
    OutOfBounds => Error::OutOfBounds;
    Utf8Error => Error::Utf8;
    Utf8Error => Utf8;
    DecodeUtf16Error => Error::Utf16;
    DecodeUtf16Error => Utf16;
    fmt::Error => Error::OutOfBounds;
}
