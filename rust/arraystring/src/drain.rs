//! `Drain`: gives the characters that were removed from a string, from the front or from the back.

use core::fmt;
use core::iter::FusedIterator;

use crate::proved::string as core_of;

/// The characters that [`ArrayString::drain`](crate::ArrayString::drain) removed. They are gone from the string at once, and a `Drain`
/// borrows nothing. As an iterator of std it is not `Copy`, so that rustc refuses to walk it twice.
///
/// ```
/// use arraystring::{ArrayString, Error};
///
/// let mut string = ArrayString::<8>::try_from_str("aébc")?;
/// let mut drained = string.drain(..4)?;
/// assert_eq!((drained.next(), drained.next_back(), drained.as_str()), (Some('a'), Some('b'), "é"));
/// assert_eq!(string, "c");
/// # Ok::<(), Error>(())
/// ```
#[derive(Clone, Default, PartialEq, Eq, PartialOrd, Ord, Hash)]
pub struct Drain<const N: usize>(pub(crate) core_of::Drain<N>);

impl<const N: usize> Drain<N> {
    /// The characters that are left, as a text.
    #[must_use]
    #[inline(always)]
    pub fn as_str(&self) -> &str {
        self.0.as_str()
    }
}

impl<const N: usize> fmt::Debug for Drain<N> {
    fn fmt(&self, f: &mut fmt::Formatter<'_>) -> fmt::Result {
        fmt::Debug::fmt(&self.0, f)
    }
}

impl<const N: usize> Iterator for Drain<N> {
    type Item = char;

    #[inline(always)]
    fn next(&mut self) -> Option<char> {
        self.0.next()
    }

    #[inline]
    fn size_hint(&self) -> (usize, Option<usize>) {
        self.as_str().chars().size_hint()
    }

    #[inline]
    fn fold<B, F: FnMut(B, char) -> B>(self, init: B, f: F) -> B {
        self.as_str().chars().fold(init, f)
    }

    #[inline]
    fn count(self) -> usize {
        self.as_str().chars().count()
    }
}

impl<const N: usize> DoubleEndedIterator for Drain<N> {
    #[inline(always)]
    fn next_back(&mut self) -> Option<char> {
        self.0.next_back()
    }

    #[inline]
    fn rfold<B, F: FnMut(B, char) -> B>(self, init: B, f: F) -> B {
        self.as_str().chars().rfold(init, f)
    }
}

impl<const N: usize> FusedIterator for Drain<N> {}
