//! The traits of std that make a string, and refuse what does not fit, and those that print it as a `str` is printed.
//!
//! These traits can't refuse, and would have to cut, so they are not there: `From<&str>`, `From<char>`, `FromIterator`, `Extend`, `Add` and
//! `AddAssign`.

use core::fmt;
use core::str::FromStr;

use crate::{ArrayString, OutOfBounds};

impl<const N: usize> Default for ArrayString<N> {
    #[inline]
    fn default() -> Self {
        let _ = Self::CAPACITY;
        Self::new()
    }
}

/// Makes a string of a text that fits, and refuses any other. `parse` calls it.
///
/// ```
/// use arraystring::{ArrayString, OutOfBounds};
///
/// assert_eq!("cafe".parse::<ArrayString<4>>().unwrap(), "cafe");
/// assert_eq!("café".parse::<ArrayString<4>>(), Err(OutOfBounds)); // five bytes
/// ```
impl<const N: usize> FromStr for ArrayString<N> {
    type Err = OutOfBounds;

    #[inline]
    fn from_str(text: &str) -> Result<Self, OutOfBounds> {
        let _ = Self::CAPACITY;
        Self::try_from_str(text)
    }
}

/// Makes a string of a text, and refuses one that does not fit.
///
/// ```
/// use arraystring::{ArrayString, OutOfBounds};
///
/// assert_eq!(ArrayString::<4>::try_from("café"), Err(OutOfBounds)); // five bytes
/// ```
impl<const N: usize> TryFrom<&str> for ArrayString<N> {
    type Error = OutOfBounds;

    #[inline]
    fn try_from(text: &str) -> Result<Self, OutOfBounds> {
        let _ = Self::CAPACITY;
        Self::try_from_str(text)
    }
}

/// The string of one character, if it fits.
///
/// ```
/// use arraystring::{ArrayString, OutOfBounds};
///
/// assert_eq!(ArrayString::<1>::try_from('e').unwrap(), "e");
/// assert_eq!(ArrayString::<1>::try_from('é'), Err(OutOfBounds)); // two bytes
/// ```
impl<const N: usize> TryFrom<char> for ArrayString<N> {
    type Error = OutOfBounds;

    #[inline]
    fn try_from(ch: char) -> Result<Self, OutOfBounds> {
        let _ = Self::CAPACITY;
        let mut made = Self::new();
        made.try_push(ch)?;
        Ok(made)
    }
}

/// The string of what a format prints, if all of it fits: [`try_from_format`](ArrayString::try_from_format).
impl<const N: usize> TryFrom<fmt::Arguments<'_>> for ArrayString<N> {
    type Error = fmt::Error;

    #[inline]
    fn try_from(arguments: fmt::Arguments<'_>) -> Result<Self, fmt::Error> {
        let _ = Self::CAPACITY;
        Self::try_from_format(arguments)
    }
}

/// Prints the text as `Debug` of a `str` does, in quotes.
impl<const N: usize> fmt::Debug for ArrayString<N> {
    #[inline]
    fn fmt(&self, f: &mut fmt::Formatter<'_>) -> fmt::Result {
        fmt::Debug::fmt(self.as_str(), f)
    }
}

/// Prints the text as a `str` is printed: a width pads it, and a precision shortens what is printed.
///
/// ```
/// let string = arraystring::ArrayString::<8>::try_from_str("café").unwrap();
/// assert_eq!(format!("{string:>6}|{string:.2}|{string:?}"), "  café|ca|\"café\"");
/// ```
impl<const N: usize> fmt::Display for ArrayString<N> {
    #[inline]
    fn fmt(&self, f: &mut fmt::Formatter<'_>) -> fmt::Result {
        match (f.width(), f.precision()) {
            (None, None) => f.write_str(self.as_str()),
            // `pad` would print the same for a plain `{}`, too, but takes twenty instructions more than `write_str`.
            _ => f.pad(self.as_str()),
        }
    }
}

/// `write!` appends piece by piece. The first piece that does not fit is refused, and the pieces before it stay. To append all or nothing,
/// call [`try_write`](ArrayString::try_write).
impl<const N: usize> fmt::Write for ArrayString<N> {
    #[inline]
    fn write_str(&mut self, text: &str) -> fmt::Result {
        self.try_push_str(text).map_err(|_| fmt::Error)
    }

    #[inline]
    fn write_char(&mut self, ch: char) -> fmt::Result {
        self.try_push(ch).map_err(|_| fmt::Error)
    }
}
