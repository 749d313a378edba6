//! How a string is compared with a `str`: by its text.
//!
//! There is no `PartialOrd<ArrayString<N>>` for `str`. With it, `"a" < &t` of a `String` and `s < t.as_ref()` would no longer compile in a
//! program that has this crate, because rustc infers the type on the right only while std's `PartialOrd` is the only one of `str`.

use core::cmp::Ordering;

use crate::ArrayString;

/// Writes the two `PartialEq` by which a string is compared with a text, and a text with a string.
macro_rules! impl_partial_eq {
    ($($text:ty),*) => {$(
        impl<const N: usize> PartialEq<$text> for ArrayString<N> {
            #[inline]
            fn eq(&self, other: &$text) -> bool {
                let other: &str = other;
                self.as_str() == other
            }
        }

        impl<const N: usize> PartialEq<ArrayString<N>> for $text {
            #[inline]
            fn eq(&self, other: &ArrayString<N>) -> bool {
                other == self
            }
        }
    )*};
}

impl_partial_eq!(str, &str);
#[cfg(feature = "alloc")]
impl_partial_eq!(alloc::string::String, alloc::borrow::Cow<'_, str>);

/// Writes the `PartialOrd` of a string on the left and a text on the right.
macro_rules! impl_partial_ord {
    ($($text:ty),*) => {$(
        impl<const N: usize> PartialOrd<$text> for ArrayString<N> {
            #[inline]
            fn partial_cmp(&self, other: &$text) -> Option<Ordering> {
                self.as_str().partial_cmp(other)
            }
        }
    )*};
}

impl_partial_ord!(str, &str);
