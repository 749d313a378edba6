// Made from crates/arraystring_core/src/array_string/drained_range.rt by rust/generate.py: change that, and run this.
//! The part of a text in a range of bytes, taken out as a `Drain`.

use crate::proved::string::range_ends::saturating_ends;
use crate::proved::string::{ArrayString, Drain};
use crate::proved::base::error::Error;
use core::ops::RangeBounds;

impl<const N: usize> ArrayString<N> {
    /// Removes the part in the range and returns its characters as a `Drain`. The part is removed
    /// at once, whether or not the `Drain` is used. An excluded start and an included end count as
    /// the next index, but as 255 at most: `..=2` ends at 3, and `..=255` ends at 255.
    ///
    /// # Errors
    ///
    /// The first of these whose condition holds is returned, and the text is then unchanged:
    ///
    /// - `Err(Error::OutOfBounds)` if the range ends before it starts;
    /// - `Err(Error::OutOfBounds)` if the range ends past the text;
    /// - `Err(Error::Utf8)` if the start of the range is inside a character;
    /// - `Err(Error::Utf8)` if the end of the range is inside a character.
    #[inline]
    pub fn drain<R: RangeBounds<u8>>(&mut self, range: R) -> Result<Drain<N>, Error> {
        let (from, to) = saturating_ends(range, self.len());
        self.check_part(from, to)?;
        let removed = Drain::new(self.array, self.start + from, to - from);
        self.remove_drained(from as usize, to as usize);
        Ok(removed)
    }

    /// Removes as `remove_range` does. In an array of more than 32 bytes, and if the range does not begin at 0, it
    /// calls a function that is never inlined, because the code that moves bytes is long there. Then the rest of
    /// `drain` is so short that the compiler inlines it, and a caller copies the array of the `Drain` once or twice
    /// less.
    #[inline]
    fn remove_drained(&mut self, start: usize, end: usize) {
        if N <= 32 || start == 0 {
            return self.remove_range(start, end);
        }
        self.remove_out_of_line(start, end);
    }

    /// Removes as `remove_range` does, for `remove_drained`. It is never inlined, so a program has its code
    /// once for each capacity.
    #[inline(never)]
    fn remove_out_of_line(&mut self, start: usize, end: usize) {
        self.remove_range(start, end);
    }
}
