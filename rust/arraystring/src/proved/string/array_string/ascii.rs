// Made from crates/arraystring_core/src/array_string/ascii.rt by rust/generate.py: change that, and run this.
//! The ASCII letters of a string or of a range of it, made upper or lower case.

use crate::proved::string::ArrayString;
use crate::proved::string::range_ends::unsaturated_ends;
use crate::leaf::{lowercase_between, uppercase_between};
use core::ops::RangeBounds;

/// The case that ASCII letters are put into.
#[derive(Clone, Copy)]
enum Case {
    Upper,
    Lower,
}

impl<const N: usize> ArrayString<N> {
    /// Changes a..z to A..Z. All other characters stay as they are.
    #[inline]
    pub fn make_ascii_uppercase(&mut self) {
        self.change_case_of_part(0, self.len() as usize, Case::Upper);
    }

    /// Changes A..Z to a..z. All other characters stay as they are.
    #[inline]
    pub fn make_ascii_lowercase(&mut self) {
        self.change_case_of_part(0, self.len() as usize, Case::Lower);
    }

    /// Changes a..z to A..Z in the range. All other characters stay as they are.
    ///
    /// # Precondition
    ///
    /// - `has_bounds` must hold of the range. It holds of each range of std, except a
    ///   `RangeInclusive` that was iterated to its end.
    /// - The range must not end before it starts.
    /// - Both ends, read as in `slice`, must be boundaries.
    #[inline]
    pub fn make_ascii_uppercase_in<R: RangeBounds<u8>>(&mut self, range: R) {
        let (start, end) = unsaturated_ends(range, self.len());
        self.change_case_of_part(start, end, Case::Upper);
    }

    /// Changes A..Z to a..z in the range. All other characters stay as they are.
    ///
    /// # Precondition
    ///
    /// - `has_bounds` must hold of the range. It holds of each range of std, except a
    ///   `RangeInclusive` that was iterated to its end.
    /// - The range must not end before it starts.
    /// - Both ends, read as in `slice`, must be boundaries.
    #[inline]
    pub fn make_ascii_lowercase_in<R: RangeBounds<u8>>(&mut self, range: R) {
        let (start, end) = unsaturated_ends(range, self.len());
        self.change_case_of_part(start, end, Case::Lower);
    }

    /// Puts the ASCII letters between two boundaries into a case.
    #[inline]
    fn change_case_of_part(&mut self, start: usize, end: usize, case: Case) {
        let offset = self.start as usize;
        change_case_between(&mut self.array, offset + start, offset + end, case);
    }
}

/// Puts the ASCII letters among the bytes from `start` to `end` into a case.
#[inline]
fn change_case_between<const N: usize>(array: &mut [crate::leaf::MaybeByte; N], start: usize, end: usize, case: Case) {
    let all = &mut array[..];
    match case {
        Case::Upper => uppercase_between(all, start, end),
        Case::Lower => lowercase_between(all, start, end),
    }
}
