// Made from crates/arraystring_core/src/array_string/replaced_range.rt by rust/generate.py: change that, and run this.
//! The part of a text in a range of bytes, replaced by another text.

use crate::proved::string::ArrayString;
use crate::proved::string::range_ends::saturating_ends;
use crate::proved::base::error::Error;
use core::ops::RangeBounds;

impl<const N: usize> ArrayString<N> {
    /// Replaces the part in the range with `with`. The ends are read as in `drain`.
    ///
    /// # Errors
    ///
    /// The first of these whose condition holds is returned, and the text is then unchanged:
    ///
    /// - `Err(Error::OutOfBounds)` if the range ends before it starts;
    /// - `Err(Error::OutOfBounds)` if the range ends past the text;
    /// - `Err(Error::OutOfBounds)` if the text with `with` in it does not fit;
    /// - `Err(Error::Utf8)` if the start of the range is inside a character;
    /// - `Err(Error::Utf8)` if the end of the range is inside a character.
    #[inline]
    pub fn replace_range<R: RangeBounds<u8>>(
        &mut self,
        range: R,
        with: &str,
    ) -> Result<(), Error> {
        let (start, end) = saturating_ends(range, self.len());
        self.replace_between(start, end, with)
    }

    /// Replaces the part from `start` to `end`, or refuses it. The ends are numbers here, so that the tests are proved apart
    /// from the reading of a range.
    #[inline]
    fn replace_between(
        &mut self,
        start: u8,
        end: u8,
        with: &str,
    ) -> Result<(), Error> {
        self.check_replacement(start, end, with.len())?;
        let (from, to) = (start as usize, end as usize);
        self.splice(from, to, with);
        Ok(())
    }
}
