// Made from crates/arraystring_core/src/drain/traits.rt by rust/generate.py: change that, and run this.
//! The traits of a drain: its iterators, and how what is left is printed, compared and hashed.

use crate::proved::string::Drain;
use crate::leaf::byte;
use crate::proved::base::utils::last_char_with_start;
use core::cmp::Ordering;
use core::fmt;
use core::hash::{Hash, Hasher};
use core::iter::FusedIterator;

/// `Drain("bc")` if `bc` is left.
impl<const N: usize> fmt::Debug for Drain<N> {
    #[inline]
    fn fmt(&self, f: &mut fmt::Formatter<'_>) -> fmt::Result {
        f.debug_tuple("Drain").field(&self.as_str()).finish()
    }
}

/// An empty drain: nothing is left.
impl<const N: usize> Default for Drain<N> {
    #[inline]
    fn default() -> Self {
        Drain::new([crate::leaf::NEW_BYTE; N], 0, 0)
    }
}

/// The characters that are left, from the back.
impl<const N: usize> DoubleEndedIterator for Drain<N> {
    /// Returns the last character that is left. Returns `None` if none is left, and at each call
    /// after that.
    #[inline(always)]
    fn next_back(&mut self) -> Option<char> {
        let (kept, ch) = last_char_with_start(self.as_str())?;
        self.size = self.front + kept as u8;
        Some(ch)
    }
}

/// Each drain is equal to itself, and so to a copy of it.
impl<const N: usize> Eq for Drain<N> {
}

/// Once nothing is left, `next` and `next_back` return `None` ever after.
impl<const N: usize> FusedIterator for Drain<N> {}

/// Hashes as the `&str` of what is left does.
impl<const N: usize> Hash for Drain<N> {
    #[inline]
    fn hash<H: Hasher>(&self, state: &mut H) {
        self.as_str().hash(state);
    }
}

/// The characters that are left, from the front.
impl<const N: usize> Iterator for Drain<N> {
    type Item = char;

    /// Returns the first character that is left. Returns `None` if none is left, and at each call
    /// after that.
    #[inline(always)]
    fn next(&mut self) -> Option<char> {
        if self.front == self.size {
            return None;
        }
        // An ASCII byte is a whole character; `chars` reads any other.
        let first = byte(&self.array, self.start as usize + self.front as usize);
        if first < 0x80 {
            self.front += 1;
            return Some(first as char);
        }
        let mut left = self.as_str().chars();
        let ch = left.next()?;
        self.front = self.size - left.as_str().len() as u8;
        Some(ch)
    }
}

/// Drains are ordered by the characters that are left.
impl<const N: usize> Ord for Drain<N> {
    /// Compares what is left lexicographically, by the scalar values of the characters. The order
    /// of the bytes of UTF-8 is the same.
    #[inline(always)]
    fn cmp(&self, other: &Self) -> Ordering {
        self.as_str().cmp(other.as_str())
    }
}

/// Two drains are equal if and only if the same characters are left.
impl<const N: usize> PartialEq for Drain<N> {
    #[inline]
    fn eq(&self, other: &Self) -> bool {
        self.as_str() == other.as_str()
    }
}

/// Always `Some` of what `cmp` returns.
impl<const N: usize> PartialOrd for Drain<N> {
    #[inline(always)]
    fn partial_cmp(&self, other: &Self) -> Option<Ordering> {
        Some(self.cmp(other))
    }
}
