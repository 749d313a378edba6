// Made from crates/arraystring_core/src/array_string/insert.rt by rust/generate.py: change that, and run this.
//! Texts and characters that are inserted at an index.

use crate::proved::string::ArrayString;
use crate::proved::base::error::Error;
use crate::proved::base::utils::truncate_str;

impl<const N: usize> ArrayString<N> {
    /// Inserts `ch` at the byte index `index`.
    ///
    /// # Errors
    ///
    /// The first of these whose condition holds is returned, and the text is then unchanged:
    ///
    /// - `Err(Error::OutOfBounds)` if the index is past the text;
    /// - `Err(Error::OutOfBounds)` if `ch` does not fit;
    /// - `Err(Error::Utf8)` if the index is inside a character.
    #[inline]
    pub fn try_insert(&mut self, index: u8, ch: char) -> Result<(), Error> {
        self.check_insertion(index, ch.len_utf8())?;
        self.insert_char_at_boundary(index as usize, ch);
        Ok(())
    }

    /// Inserts `string` at the byte index `index`.
    ///
    /// # Errors
    ///
    /// The first of these whose condition holds is returned, and the text is then unchanged:
    ///
    /// - `Err(Error::OutOfBounds)` if the index is past the text;
    /// - `Err(Error::OutOfBounds)` if not all of `string` fits;
    /// - `Err(Error::Utf8)` if the index is inside a character.
    #[inline]
    pub fn try_insert_str(&mut self, index: u8, string: &str) -> Result<(), Error> {
        self.check_insertion(index, string.len())?;
        let at = index as usize;
        self.splice(at, at, string);
        Ok(())
    }

    /// Inserts at the byte index `index` the longest prefix of whole characters of `string` that
    /// fits.
    ///
    /// # Errors
    ///
    /// The first of these whose condition holds is returned, and the text is then unchanged:
    ///
    /// - `Err(Error::OutOfBounds)` if the index is past the text;
    /// - `Err(Error::Utf8)` if the index is inside a character.
    #[inline]
    pub fn insert_str(&mut self, index: u8, string: &str) -> Result<(), Error> {
        self.check_bounds_and_boundary(index)?;
        let room = Self::capacity() - self.len();
        let at = index as usize;
        self.splice(at, at, truncate_str(string, room));
        Ok(())
    }
}
