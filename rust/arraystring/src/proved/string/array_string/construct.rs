// Made from crates/arraystring_core/src/array_string/construct.rt by rust/generate.py: change that, and run this.
//! The constructors: from a `&str`, from pieces, from characters and from bytes of UTF-8.

use crate::proved::string::ArrayString;
use crate::proved::string::well_formed::read_utf8;
use crate::proved::base::error::{Error, OutOfBounds, Utf8};
use crate::proved::base::utils::truncate_str;
use core::str;

impl<const N: usize> ArrayString<N> {
    /// Creates a string from `string`.
    ///
    /// # Errors
    ///
    /// Returns `Err(OutOfBounds)` if `string` is larger than the capacity.
    #[inline]
    pub fn try_from_str(string: &str) -> Result<Self, OutOfBounds> {
        if string.len() > Self::capacity() as usize {
            return Err(OutOfBounds);
        }
        Ok(Self::from_str_unchecked(string))
    }

    /// Creates a string from the longest prefix of whole characters of `string` that fits.
    /// `try_from_str` refuses what does not fit.
    #[inline]
    pub fn from_str_truncate(string: &str) -> Self {
        Self::from_str_unchecked(truncate_str(string, Self::capacity()))
    }

    /// Creates a string from all pieces, joined.
    ///
    /// # Errors
    ///
    /// Returns `Err(OutOfBounds)` if not all of the pieces fit.
    ///
    /// # Precondition
    ///
    /// The iterator must end, and until then the precondition of its `next` must hold.
    #[inline]
    pub fn try_from_iterator<'a, I: IntoIterator<Item = &'a str>>(
        pieces: I,
    ) -> Result<Self, OutOfBounds> {
        let mut made = Self::new();
        made.push_strs_until_full(pieces)?;
        Ok(made)
    }

    /// Creates a string from all pieces, joined. If that is too long, keeps the longest prefix of
    /// whole characters that fits.
    ///
    /// # Precondition
    ///
    /// The iterator must end, and until then the precondition of its `next` must hold.
    #[inline]
    pub fn from_iterator<'a, I: IntoIterator<Item = &'a str>>(pieces: I) -> Self {
        let mut made = Self::new();
        let _ = made.push_strs_until_full(pieces);
        made
    }

    /// Creates a string from all characters that the iterator returns.
    ///
    /// # Errors
    ///
    /// Returns `Err(OutOfBounds)` if not all of the characters fit.
    ///
    /// # Precondition
    ///
    /// The iterator must end, and until then the precondition of its `next` must hold.
    #[inline]
    pub fn try_from_chars<I: IntoIterator<Item = char>>(
        characters: I,
    ) -> Result<Self, OutOfBounds> {
        let mut made = Self::new();
        made.push_chars_until_full(characters)?;
        Ok(made)
    }

    /// Creates a string from the longest prefix of the characters that fits. It ends before the
    /// first character that does not fit, even if a later one takes fewer bytes and would fit.
    ///
    /// # Precondition
    ///
    /// The iterator must end, and until then the precondition of its `next` must hold.
    #[inline]
    pub fn from_chars<I: IntoIterator<Item = char>>(characters: I) -> Self {
        let mut made = Self::new();
        let _ = made.push_chars_until_full(characters);
        made
    }

    /// Creates a string from the UTF-8 in `given`.
    ///
    /// # Errors
    ///
    /// The first of these whose condition holds is returned:
    ///
    /// - `Err(Error::Utf8)` if `given` is not well-formed UTF-8 (the Unicode Standard, section
    ///   3.9);
    /// - `Err(Error::OutOfBounds)` if the text is larger than the capacity.
    #[inline]
    pub fn try_from_utf8(given: &[u8]) -> Result<Self, Error> {
        let Ok(text) = read_utf8(given) else {
            return Err(Error::Utf8);
        };
        if text.len() > Self::capacity() as usize {
            return Err(Error::OutOfBounds);
        }
        Ok(Self::from_str_unchecked(text))
    }

    /// Creates a string from the UTF-8 in `given`, **cut** to the longest prefix of whole characters
    /// that fits. `try_from_utf8` refuses what does not fit.
    ///
    /// # Errors
    ///
    /// Returns `Err(Utf8)` if `given` is not well-formed UTF-8 (the Unicode Standard, section
    /// 3.9), even if only bytes that would be cut off are malformed.
    #[inline]
    pub fn from_utf8(given: &[u8]) -> Result<Self, Utf8> {
        let Ok(string) = read_utf8(given) else {
            return Err(Utf8);
        };
        Ok(Self::from_str_truncate(string))
    }
}
