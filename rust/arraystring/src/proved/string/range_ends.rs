// Made from crates/arraystring_core/src/range_ends.rt by rust/generate.py: change that, and run this.
//! The ends of ranges over `u8`. The contracts speak of the bounds that the range's methods return. If
//! `has_bounds` holds of the range, they are its own; else no contract says which they are.

use core::ops::{Bound, RangeBounds};

/// The ends of a range in a text of `len` bytes. An excluded start and an included end count as the next index, but
/// as 255 at most, so that both ends are a `u8` again.
#[inline]
pub(crate) fn saturating_ends<R: RangeBounds<u8>>(range: R, len: u8) -> (u8, u8) {
    let start = match range.start_bound() {
        Bound::Included(a) => *a,
        Bound::Excluded(a) => a.saturating_add(1),
        Bound::Unbounded => 0,
    };
    let end = match range.end_bound() {
        Bound::Included(b) => b.saturating_add(1),
        Bound::Excluded(b) => *b,
        Bound::Unbounded => len,
    };
    (start, end)
}

/// The ends of a range in a text of `len` bytes. An excluded start and an included end count as the next index,
/// which may be 256, and is then past every text.
#[inline]
pub(crate) fn unsaturated_ends<R: RangeBounds<u8>>(range: R, len: u8) -> (usize, usize) {
    let start = match range.start_bound() {
        Bound::Included(a) => *a as usize,
        Bound::Excluded(a) => *a as usize + 1,
        Bound::Unbounded => 0,
    };
    let end = match range.end_bound() {
        Bound::Included(b) => *b as usize + 1,
        Bound::Excluded(b) => *b as usize,
        Bound::Unbounded => len as usize,
    };
    (start, end)
}
