// Made from crates/arraystring_core/src/array_string/utf16.rt by rust/generate.py: change that, and run this.
//! Strings from UTF-16.

use crate::proved::string::ArrayString;
use crate::proved::base::error::{Error, Utf16};
use crate::proved::base::utf16::{Unit16, Units};
use core::char;

impl<const N: usize> ArrayString<N> {
    /// Creates a string from the UTF-16 in `units`.
    ///
    /// # Errors
    ///
    /// The units are read in order, as characters and lone surrogates. The first that cannot be
    /// appended decides:
    ///
    /// - `Err(Error::Utf16)` if it is a lone surrogate;
    /// - `Err(Error::OutOfBounds)` if it is a character that does not fit.
    #[inline]
    pub fn try_from_utf16(units: &[u16]) -> Result<Self, Error> {
        let mut made = Self::new();
        match made.fill_from_units(units) {
            None => Ok(made),
            Some(Unit16::Lone(_)) => Err(Error::Utf16),
            Some(Unit16::Char(_)) => Err(Error::OutOfBounds),
        }
    }

    /// Creates a string from `units`, which are read in order, as characters and lone surrogates, up to the
    /// first that cannot be appended. If it is a character that does not fit, the text is **cut** before it,
    /// and nothing after it has an effect. `try_from_utf16` refuses what does not fit.
    ///
    /// # Errors
    ///
    /// Returns `Err(Utf16)` if it is a lone surrogate, even if the string is full.
    #[inline]
    pub fn from_utf16(units: &[u16]) -> Result<Self, Utf16> {
        let mut made = Self::new();
        if let Some(Unit16::Lone(_)) = made.fill_from_units(units) {
            return Err(Utf16);
        }
        Ok(made)
    }

    /// Creates a string from the longest prefix of the characters of `units` that fits. Each lone
    /// surrogate is read as U+FFFD, which takes three bytes.
    #[inline]
    pub fn from_utf16_lossy(units: &[u16]) -> Self {
        let mut made = Self::new();
        for item in Units::new(units) {
            match made.try_push(char_or_replacement(item)) {
                Ok(()) => {}
                Err(_) => break,
            }
        }
        made
    }

    /// Appends to the string, which must be empty, the longest prefix of characters of `units` that fits.
    /// Returns the item right after it, or `None` if there is none.
    #[inline]
    fn fill_from_units(&mut self, units: &[u16]) -> Option<Unit16> {
        for item in Units::new(units) {
            match item {
                Unit16::Char(ch) => match self.try_push(ch) {
                    Ok(()) => {}
                    Err(_) => return Some(item),
                },
                Unit16::Lone(_) => return Some(item),
            }
        }
        None
    }
}

/// An item as a character, with U+FFFD for a lone surrogate.
#[inline]
fn char_or_replacement(item: Unit16) -> char {
    match item {
        Unit16::Char(ch) => ch,
        Unit16::Lone(_) => char::REPLACEMENT_CHARACTER,
    }
}
