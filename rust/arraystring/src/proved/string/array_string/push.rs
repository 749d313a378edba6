// Made from crates/arraystring_core/src/array_string/push.rt by rust/generate.py: change that, and run this.
//! Appends: of characters, of texts, and of the items of an iterator, whose loops are in `appended_items`.

use crate::proved::string::ArrayString;
use crate::proved::base::error::OutOfBounds;
use crate::proved::base::utils::{encode, truncate_str, write_by_call, write_over};

impl<const N: usize> ArrayString<N> {
    /// Appends `ch`.
    ///
    /// # Errors
    ///
    /// Returns `Err(OutOfBounds)` if `ch` does not fit. The text is then unchanged.
    #[inline(always)]
    pub fn try_push(&mut self, ch: char) -> Result<(), OutOfBounds> {
        let end = self.end();
        if Self::has_room_for_char(end, ch) {
            // ASCII has a sum of its own, because one sum for all widths would give the code of a loop of pushes more
            // instructions.
            if ch.is_ascii() {
                self.size += 1;
                encode(ch, &mut self.array, end);
            } else {
                self.size += encode(ch, &mut self.array, end) as u8;
            }
            return Ok(());
        }
        let (start, size) = (self.start as usize, self.size as usize);
        if !Self::has_room_for_char(size, ch) {
            return Err(OutOfBounds);
        }
        let size = Self::compact_and_push_char(&mut self.array, ch, start, size);
        self.start = 0;
        self.size = size as u8;
        Ok(())
    }

    /// Appends `string`.
    ///
    /// # Errors
    ///
    /// Returns `Err(OutOfBounds)` if not all of `string` fits. The text is then unchanged.
    #[inline]
    pub fn try_push_str(&mut self, string: &str) -> Result<(), OutOfBounds> {
        let end = self.end();
        if end + string.len() <= Self::capacity() as usize {
            self.size += string.len() as u8;
            write_over(&mut self.array, end, string.as_bytes());
            return Ok(());
        }
        if self.size as usize + string.len() > Self::capacity() as usize {
            return Err(OutOfBounds);
        }
        self.compact_and_push_str(string);
        Ok(())
    }

    /// Appends the longest prefix of whole characters of `string` that fits.
    #[inline]
    pub fn push_str(&mut self, string: &str) {
        if self.start > 0 {
            return self.push_str_at_offset(string);
        }
        let (end, given) = (self.end(), string.as_bytes());
        let room = Self::capacity() - self.len();
        if given.len() <= room as usize {
            self.size += given.len() as u8;
            write_over(&mut self.array, end, given);
            return;
        }
        let part = truncate_str(string, room);
        self.size += part.len() as u8;
        write_by_call(&mut self.array, end, part.as_bytes());
    }

    /// Appends the longest prefix of the characters that fits.
    ///
    /// # Precondition
    ///
    /// The iterator must end, and until then the precondition of its `next` must hold.
    #[inline]
    pub fn extend_chars<I: IntoIterator<Item = char>>(&mut self, characters: I) {
        let _ = self.push_chars_until_full(characters);
    }

    /// Appends the longest prefix of whole characters of the joined pieces that fits.
    ///
    /// # Precondition
    ///
    /// The iterator must end, and until then the precondition of its `next` must hold.
    #[inline]
    pub fn extend_strs<'a, I: IntoIterator<Item = &'a str>>(&mut self, pieces: I) {
        let _ = self.push_strs_until_full(pieces);
    }
}
