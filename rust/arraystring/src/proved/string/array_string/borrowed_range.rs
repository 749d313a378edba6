// Made from crates/arraystring_core/src/array_string/borrowed_range.rt by rust/generate.py: change that, and run this.
//! The part of a text in a range of bytes, borrowed.

use crate::proved::string::ArrayString;
use crate::proved::string::range_ends::unsaturated_ends;
use crate::leaf::{text_before_boundary, text_from_boundary};
use core::ops::RangeBounds;

impl<const N: usize> ArrayString<N> {
    /// Returns the part of the text in the range, borrowed without a copy. An excluded start and
    /// an included end count as the next index: `..=2` ends at 3, and `..=255` ends at 256, which is
    /// past every text.
    ///
    /// # Precondition
    ///
    /// - `has_bounds` must hold of the range. It holds of each range of std, except a
    ///   `RangeInclusive` that was iterated to its end.
    /// - The range must not end before it starts.
    /// - Both ends must be boundaries.
    ///
    /// If `has_bounds` holds, a `get` of the range that returned `Some` proves the rest.
    #[inline]
    pub fn slice<R: RangeBounds<u8>>(&self, range: R) -> &str {
        let (start, end) = unsaturated_ends(range, self.len());
        self.slice_unchecked(start, end)
    }

    /// Returns the part of the text in the range, borrowed without a copy. Returns `None` if the
    /// range ends before it starts, or if its start or its end is not a boundary. The ends are
    /// read as in `slice`.
    #[inline]
    pub fn get<R: RangeBounds<u8>>(&self, range: R) -> Option<&str> {
        let (start, end) = unsaturated_ends(range, self.len());
        if start > end || !self.is_boundary(start) || !self.is_boundary(end) {
            return None;
        }
        Some(self.slice_unchecked(start, end))
    }

    /// The part between two boundaries, which are not tested here.
    #[inline]
    fn slice_unchecked(&self, start: usize, end: usize) -> &str {
        text_from_boundary(text_before_boundary(self.as_str(), end), start)
    }
}
