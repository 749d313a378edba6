// Made from crates/arraystring_core/src/array_string/boundary.rt by rust/generate.py: change that, and run this.
//! Boundaries of an `ArrayString`, which are those of its text. Indices count bytes of UTF-8.

use crate::proved::string::ArrayString;
use crate::proved::base::error::Utf8;
use crate::proved::base::utils::is_boundary;

impl<const N: usize> ArrayString<N> {
    /// Whether a character begins at the index `at`, or the text ends there.
    #[inline]
    pub(super) fn is_boundary(&self, at: usize) -> bool {
        is_boundary(self.as_str(), at)
    }
}

/// Tests that `idx` is a boundary of `s`. A boundary is the size of a prefix of whole characters. (The name is
/// that of 0.3.0. In std a call of this name returns a `bool`.)
///
/// # Errors
///
/// Returns `Err(Utf8)` if `idx` is not a boundary. An index past the length is not a boundary.
#[inline]
pub fn is_char_boundary<const N: usize>(s: &ArrayString<N>, idx: u8) -> Result<(), Utf8> {
    if s.is_boundary(idx as usize) {
        Ok(())
    } else {
        Err(Utf8)
    }
}
