// Made from crates/arraystring_core/src/array_string/appended_items.rt by rust/generate.py: change that, and run this.
//! The private calls that append the items of an iterator as far as they fit.

use crate::proved::string::ArrayString;
use crate::proved::base::error::OutOfBounds;

impl<const N: usize> ArrayString<N> {
    /// Appends the characters before the first that does not fit. Returns `Err` if there is such a one: what fitted stays.
    #[inline]
    pub(super) fn push_chars_until_full<I: IntoIterator<Item = char>>(
        &mut self,
        characters: I,
    ) -> Result<(), OutOfBounds> {
        for ch in characters {
            match self.try_push(ch) {
                Ok(()) => {}
                Err(_) => return Err(OutOfBounds),
            }
        }
        Ok(())
    }

    /// Appends the pieces before the first that does not fit, and of that one what fits. Returns `Err`
    /// if there is such a one: what fitted stays.
    #[inline]
    pub(super) fn push_strs_until_full<'a, I: IntoIterator<Item = &'a str>>(
        &mut self,
        pieces: I,
    ) -> Result<(), OutOfBounds> {
        for piece in pieces {
            match self.try_push_str(piece) {
                Ok(()) => {}
                Err(_) => {
                    self.push_str(piece);
                    return Err(OutOfBounds);
                }
            }
        }
        Ok(())
    }
}
