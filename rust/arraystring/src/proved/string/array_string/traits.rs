// Made from crates/arraystring_core/src/array_string/traits.rt by rust/generate.py: change that, and run this.
//! The traits of a string: how it is printed, made, compared, hashed and appended to. Those that compare and hash
//! stand a second time in drain/traits.rt, for a `Drain`, because `rt ci` takes no `impl` that a macro of this
//! repository wrote.

use crate::proved::string::ArrayString;
use crate::proved::base::error::OutOfBounds;
use core::cmp::Ordering;
use core::fmt;
use core::hash::{Hash, Hasher};
use core::ops::Add;
use core::str::FromStr;

/// Appends the longest prefix of whole characters of the `&str` that fits.
impl<'a, const N: usize> Add<&'a str> for ArrayString<N> {
    type Output = Self;

    #[inline]
    fn add(mut self, given: &'a str) -> Self {
        self.push_str(given);
        self
    }
}

/// `ArrayString { array: "abc", size: 3 }` for the text `abc`; the size counts bytes of UTF-8.
impl<const N: usize> fmt::Debug for ArrayString<N> {
    #[inline]
    fn fmt(&self, f: &mut fmt::Formatter<'_>) -> fmt::Result {
        f.debug_struct("ArrayString")
            .field("array", &self.as_str())
            .field("size", &self.size)
            .finish()
    }
}

/// An empty string.
impl<const N: usize> Default for ArrayString<N> {
    #[inline]
    fn default() -> Self {
        Self::new()
    }
}

/// Writes the text. A width and a precision in the format are ignored: nothing is padded, and
/// nothing is cut.
impl<const N: usize> fmt::Display for ArrayString<N> {
    #[inline]
    fn fmt(&self, f: &mut fmt::Formatter<'_>) -> fmt::Result {
        f.write_str(self.as_str())
    }
}

/// Each string is equal to itself, and so to a copy of it.
impl<const N: usize> Eq for ArrayString<N> {
}

/// Makes a string as `from_str_truncate` does, also by `into`: what does not fit is **cut** off. Where this
/// file is translated to Rust, std makes a `try_from` of this, too, which cuts and returns `Ok`. (The public
/// type of the Cargo crate has a `try_from` of its own, which refuses.) `parse` and `try_from_str` refuse a
/// text that does not fit.
impl<'a, const N: usize> From<&'a str> for ArrayString<N> {
    #[inline]
    fn from(string: &'a str) -> Self {
        Self::from_str_truncate(string)
    }
}

/// Makes a string as `try_from_str` does.
impl<const N: usize> FromStr for ArrayString<N> {
    type Err = OutOfBounds;

    /// Creates a string from `string`.
    ///
    /// # Errors
    ///
    /// Returns `Err(OutOfBounds)` if `string` is larger than the capacity.
    #[inline]
    fn from_str(string: &str) -> Result<Self, OutOfBounds> {
        Self::try_from_str(string)
    }
}

/// Hashes as the `&str` of the text does.
impl<const N: usize> Hash for ArrayString<N> {
    #[inline]
    fn hash<H: Hasher>(&self, state: &mut H) {
        self.as_str().hash(state);
    }
}

/// Strings are ordered by their characters, as their texts are.
impl<const N: usize> Ord for ArrayString<N> {
    /// Compares the texts lexicographically, by the scalar values of their characters. A prefix of
    /// a longer text is less than it. The order of the bytes of UTF-8 is the same.
    #[inline(always)]
    fn cmp(&self, other: &Self) -> Ordering {
        self.as_str().cmp(other.as_str())
    }
}

/// Strings are equal if and only if their texts are.
impl<const N: usize> PartialEq for ArrayString<N> {
    #[inline]
    fn eq(&self, other: &Self) -> bool {
        self.as_str() == other.as_str()
    }
}

/// Always `Some` of what `cmp` returns.
impl<const N: usize> PartialOrd for ArrayString<N> {
    #[inline(always)]
    fn partial_cmp(&self, other: &Self) -> Option<Ordering> {
        Some(self.cmp(other))
    }
}

/// `write!` appends what it prints, each piece whole.
impl<const N: usize> fmt::Write for ArrayString<N> {
    /// Appends `string`.
    ///
    /// # Errors
    ///
    /// Returns `Err(fmt::Error)` if not all of `string` fits. The text is then unchanged. A
    /// `write!` of several pieces keeps those before the one that is refused.
    #[inline]
    fn write_str(&mut self, string: &str) -> fmt::Result {
        match self.try_push_str(string) {
            Ok(()) => Ok(()),
            Err(_) => Err(fmt::Error),
        }
    }
}
