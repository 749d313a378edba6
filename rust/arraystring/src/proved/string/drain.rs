// Made from crates/arraystring_core/src/drain.rt by rust/generate.py: change that, and run this.
//! `Drain`: gives the characters that were removed from a string, from the front or from the back. `traits` has its
//! impls of traits.

use crate::leaf::part_of_length;
use core::str;

mod traits;

/// An iterator over the characters that `drain` removed from a string. It returns each of them
/// once, from the front or from the back, and borrows nothing.
///
/// In contracts `left` is the list of the characters that are left. A drain has a copy of the string's array,
/// and allocates nothing.
#[derive(Clone, Copy)]
#[repr(C)]
pub struct Drain<const N: usize> {
    // These numbers stand before the array in memory, and no offset into the array is negative. So the compiler knows
    // that a read of the array reads none of them.
    /// What is left begins at this index of the removed text. It is a boundary of the first `size` bytes of
    /// that text, so it is at most `size`.
    pub(crate) front: u8,
    /// The offset of the removed text. `start + size` is at most the lesser of `N` and 255.
    pub(crate) start: u8,
    /// The size of the removed text, without what was returned from the back.
    pub(crate) size: u8,
    /// The array of the string, as it was before the removal. The `size` bytes from `start` on are UTF-8: what
    /// was returned from the front, and then what is left.
    pub(crate) array: [crate::leaf::MaybeByte; N],
}

impl<const N: usize> Drain<N> {
    /// Returns a drain of which the `size` bytes of the array from `start` on are left.
    #[inline(always)]
    pub(crate) fn new(array: [crate::leaf::MaybeByte; N], start: u8, size: u8) -> Self {
        Drain {
            front: 0,
            start,
            size,
            array,
        }
    }

    /// Returns the characters that are left as a `&str`, borrowed without a copy.
    #[inline]
    pub const fn as_str(&self) -> &str {
        let front = self.front as usize;
        let (start, len) = (self.start as usize + front, self.size as usize - front);
        // SAFETY: the removed text is UTF-8, and `front` is a boundary of it, as the fields of the type say.
        unsafe { str::from_utf8_unchecked(part_of_length(&self.array, start, len)) }
    }
}
