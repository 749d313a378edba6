// Made from crates/arraystring_core/src/array_string/remove.rt by rust/generate.py: change that, and run this.
//! What is removed from a string: a character at the end or at an index, the text from an index on, all of
//! it. The private calls remove a part, a front or an end of the text.

use crate::proved::string::ArrayString;
use crate::proved::base::error::{Error, Utf8};
use crate::leaf::text_from_boundary;
use crate::proved::base::utils::{first_char_and_width, last_char_with_start};

impl<const N: usize> ArrayString<N> {
    /// Shortens the text to its first `size` bytes. Nothing changes if it has no more.
    ///
    /// # Errors
    ///
    /// Returns `Err(Utf8)` if the index `size` is inside a character. The text is then unchanged.
    #[inline]
    pub fn truncate(&mut self, size: u8) -> Result<(), Utf8> {
        if size >= self.len() {
            return Ok(());
        }
        if !self.is_boundary(size as usize) {
            return Err(Utf8);
        }
        self.set_len(size);
        Ok(())
    }

    /// Removes the last character and returns it. Returns `None` if the text is empty.
    #[inline]
    pub fn pop(&mut self) -> Option<char> {
        let (start, ch) = last_char_with_start(self.as_str())?;
        self.set_len(start as u8);
        Some(ch)
    }

    /// Removes the character that begins at the byte index `index` and returns it.
    ///
    /// # Errors
    ///
    /// The first of these whose condition holds is returned, and the text is then unchanged:
    ///
    /// - `Err(Error::OutOfBounds)` if the index is not below the length;
    /// - `Err(Error::Utf8)` if the index is inside a character.
    #[inline(always)]
    pub fn remove(&mut self, index: u8) -> Result<char, Error> {
        self.check_removal(index)?;
        let start = index as usize;
        let (ch, width) = self.char_and_width_at(start);
        self.remove_range(start, start + width);
        Ok(ch)
    }

    /// Splits the text at the byte index `at`, which may be the length. Keeps the part before it
    /// and returns the part from it on.
    ///
    /// # Errors
    ///
    /// The first of these whose condition holds is returned, and the text is then unchanged:
    ///
    /// - `Err(Error::OutOfBounds)` if `at` is past the text;
    /// - `Err(Error::Utf8)` if `at` is inside a character.
    #[inline]
    pub fn split_off(&mut self, at: u8) -> Result<Self, Error> {
        self.check_bounds_and_boundary(at)?;
        let rest = Self::from_str_unchecked(text_from_boundary(self.as_str(), at as usize));
        self.set_len(at);
        Ok(rest)
    }

    /// Removes all characters.
    #[inline]
    pub fn clear(&mut self) {
        self.set_len(0);
    }

    /// Removes the text between two boundaries, without a move if it begins at index 0.
    #[inline]
    pub(super) fn remove_range(&mut self, start: usize, end: usize) {
        if start == 0 {
            return self.drop_front(end);
        }
        self.splice(start, end, "");
    }

    /// Drops the part before a boundary, without a move.
    #[inline]
    pub(super) fn drop_front(&mut self, end: usize) {
        self.start = (self.start as usize + end) as u8;
        self.size = (self.size as usize - end) as u8;
    }

    /// Shortens the text to the part before a boundary.
    #[inline]
    pub(super) fn set_len(&mut self, size: u8) {
        self.size = size;
    }

    /// The character that begins at a boundary before the end, and how many bytes it takes.
    #[inline]
    fn char_and_width_at(&self, at: usize) -> (char, usize) {
        first_char_and_width(text_from_boundary(self.as_str(), at))
    }
}
