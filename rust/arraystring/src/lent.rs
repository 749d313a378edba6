//! The text, lent as a `str`: to be read, and to be written. No contract speaks of what a borrower writes. But safe code can only write
//! characters over others of as many bytes, so the text stays UTF-8, and as long.

use core::borrow::{Borrow, BorrowMut};
use core::ops::{Deref, DerefMut, Index, IndexMut};
use core::slice::SliceIndex;
use core::str::from_utf8_unchecked_mut;

use crate::ArrayString;
use crate::leaf::part_mut;

/// The text, borrowed to be written.
impl<const N: usize> ArrayString<N> {
    /// The text, borrowed to be written. Safe code can't change its length by that.
    ///
    /// ```
    /// let mut string = arraystring::ArrayString::<8>::try_from_str("café").unwrap();
    /// let (front, back) = string.as_mut_str().split_at_mut(1);
    /// front.make_ascii_uppercase();
    /// assert_eq!((&*front, &*back), ("C", "afé"));
    /// assert_eq!(string, "Café");
    /// ```
    #[must_use]
    #[inline]
    pub fn as_mut_str(&mut self) -> &mut str {
        let (start, end) = (self.0.start as usize, self.0.start as usize + self.0.size as usize);
        // SAFETY: these bytes are the text, so they are UTF-8, as the comments at the fields of the core's string say.
        unsafe { from_utf8_unchecked_mut(part_mut(&mut self.0.array, start, end)) }
    }
}

/// Lends the text, so that a string has each call of `str`.
///
/// ```
/// let string = arraystring::ArrayString::<16>::try_from_str("key=text").unwrap();
/// assert_eq!((string.find('='), string.split_once('=')), (Some(3), Some(("key", "text"))));
/// ```
impl<const N: usize> Deref for ArrayString<N> {
    type Target = str;

    #[inline(always)]
    fn deref(&self) -> &str {
        self.as_str()
    }
}

/// Lends the text to be written, so that a string has each call of `str` that writes.
impl<const N: usize> DerefMut for ArrayString<N> {
    #[inline]
    fn deref_mut(&mut self) -> &mut str {
        self.as_mut_str()
    }
}

/// A part of the text, as the index of a `str` returns it.
///
/// # Panics
///
/// Panics if the range is reversed or outside the text, or if an end is inside a character, as indexing a `str` does. [`str::get`] returns
/// `None` there.
///
/// ```
/// let string = arraystring::ArrayString::<8>::try_from_str("café").unwrap();
/// assert_eq!((&string[..3], string.get(..4)), ("caf", None));
/// ```
impl<I: SliceIndex<str>, const N: usize> Index<I> for ArrayString<N> {
    type Output = I::Output;

    #[inline]
    fn index(&self, index: I) -> &I::Output {
        &self.as_str()[index]
    }
}

/// A part of the text, to be written, as the index of a `str` returns it. It panics where that index does.
impl<I: SliceIndex<str>, const N: usize> IndexMut<I> for ArrayString<N> {
    #[inline]
    fn index_mut(&mut self, index: I) -> &mut I::Output {
        &mut self.as_mut_str()[index]
    }
}

impl<const N: usize> AsRef<str> for ArrayString<N> {
    #[inline]
    fn as_ref(&self) -> &str {
        self
    }
}

impl<const N: usize> AsRef<[u8]> for ArrayString<N> {
    #[inline]
    fn as_ref(&self) -> &[u8] {
        self.as_bytes()
    }
}

impl<const N: usize> AsMut<str> for ArrayString<N> {
    #[inline]
    fn as_mut(&mut self) -> &mut str {
        self
    }
}

/// Lends the text, so that a map whose keys are strings finds a key by a `&str`.
///
/// ```
/// use arraystring::ArrayString;
/// use std::collections::HashMap;
///
/// let seats = HashMap::from([(ArrayString::<8>::try_from_str("ann").unwrap(), 7)]);
/// assert_eq!(seats.get("ann"), Some(&7));
/// ```
impl<const N: usize> Borrow<str> for ArrayString<N> {
    #[inline]
    fn borrow(&self) -> &str {
        self
    }
}

impl<const N: usize> BorrowMut<str> for ArrayString<N> {
    #[inline]
    fn borrow_mut(&mut self) -> &mut str {
        self
    }
}
