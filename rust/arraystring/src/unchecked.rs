//! The calls that leave a test to the caller.

use core::str::from_utf8;

use crate::ArrayString;
use crate::proved::string as core_of;

/// # Unchecked
///
/// Most programs need none of these calls. The caller has to keep what stands under *Safety*. It is asserted with debug assertions, with
/// the feature `checked`, and where a `usize` has not 64 bits. Their contracts are in
/// `crates/arraystring_core/src/array_string/unchecked.rt` of the repository.
impl<const N: usize> ArrayString<N> {
    /// The string of `text`.
    ///
    /// # Safety
    ///
    /// The text must fit.
    #[must_use]
    #[inline]
    pub unsafe fn from_str_unchecked(text: &str) -> Self {
        let _ = Self::CAPACITY;
        required!(text.len() <= N);
        ArrayString(core_of::ArrayString::from_str_unchecked(text))
    }

    /// The string of a text in UTF-8.
    ///
    /// # Safety
    ///
    /// The bytes must be well-formed UTF-8 (the Unicode Standard, section 3.9), and must fit.
    #[must_use]
    #[inline]
    pub unsafe fn from_utf8_unchecked(bytes: &[u8]) -> Self {
        let _ = Self::CAPACITY;
        required!(from_utf8(bytes).is_ok(), bytes.len() <= N);
        ArrayString(core_of::ArrayString::from_utf8_unchecked(bytes))
    }

    /// Appends `ch`.
    ///
    /// # Safety
    ///
    /// `ch` must fit.
    ///
    /// # Examples
    ///
    /// ```
    /// let mut string = arraystring::ArrayString::<4>::try_from_str("abc").unwrap();
    /// // SAFETY: there is room for one more byte.
    /// unsafe { string.push_unchecked('d') };
    /// assert_eq!(string, "abcd");
    /// ```
    #[inline(always)]
    pub unsafe fn push_unchecked(&mut self, ch: char) {
        required!(ch.len_utf8() <= self.remaining_capacity());
        self.0.push_unchecked(ch);
    }

    /// Appends `text`.
    ///
    /// # Safety
    ///
    /// All of it must fit.
    #[inline]
    pub unsafe fn push_str_unchecked(&mut self, text: &str) {
        required!(text.len() <= self.remaining_capacity());
        self.0.push_str_unchecked(text);
    }

    /// Inserts `ch` at the byte index `at`.
    ///
    /// # Safety
    ///
    /// The index must be a boundary of the text, and `ch` must fit.
    #[inline]
    #[expect(clippy::cast_possible_truncation, reason = "a boundary is at most the length, and so at most 255")]
    pub unsafe fn insert_unchecked(&mut self, at: usize, ch: char) {
        required!(self.is_char_boundary(at), ch.len_utf8() <= self.remaining_capacity());
        self.0.insert_unchecked(at as u8, ch);
    }

    /// Inserts `text` at the byte index `at`.
    ///
    /// # Safety
    ///
    /// The index must be a boundary of the text, and all of `text` must fit.
    #[inline]
    #[expect(clippy::cast_possible_truncation, reason = "a boundary is at most the length, and so at most 255")]
    pub unsafe fn insert_str_unchecked(&mut self, at: usize, text: &str) {
        required!(self.is_char_boundary(at), text.len() <= self.remaining_capacity());
        self.0.insert_str_unchecked(at as u8, text);
    }
}
