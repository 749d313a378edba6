//! A string made of an allocated text (`String`, `Box<str>` and others), and such a text made of a string, behind the feature `alloc`.
//!
//! There is no `From<&ArrayString<N>>` for `Box<str>`, `Rc<str>` and `Arc<str>`. With it, `Box::<str>::from(text.as_ref())` would no longer
//! compile in a program that has this crate, because rustc infers what `as_ref` returns only while `From<&str>` is the only `From` of a
//! reference.

use alloc::borrow::Cow;
use alloc::boxed::Box;
use alloc::rc::Rc;
use alloc::string::String;
#[cfg(target_has_atomic = "ptr")]
use alloc::sync::Arc;
use alloc::vec::Vec;

use crate::{ArrayString, OutOfBounds};

/// Writes the `TryFrom` that makes a string of an allocated text, if the text fits.
macro_rules! impl_try_from {
    ($($text:ty),*) => {$(
        impl<const N: usize> TryFrom<$text> for ArrayString<N> {
            type Error = OutOfBounds;

            #[inline]
            fn try_from(text: $text) -> Result<Self, OutOfBounds> {
                let _ = Self::CAPACITY;
                Self::try_from_str(&text)
            }
        }
    )*};
}

impl_try_from!(String, &String, Box<str>, Cow<'_, str>);

/// Writes the `From` that copies the text of a string into a new `String`, `Box<str>`, `Rc<str>`, `Arc<str>` or `Vec<u8>`.
macro_rules! impl_from_string {
    ($($string:ty => $copy:ty: $borrowed:ident;)*) => {$(
        impl<const N: usize> From<$string> for $copy {
            #[inline]
            fn from(string: $string) -> Self {
                string.$borrowed().into()
            }
        }
    )*};
}

impl_from_string! {
    ArrayString<N> => String: as_str;
    &ArrayString<N> => String: as_str;
    ArrayString<N> => Box<str>: as_str;
    ArrayString<N> => Rc<str>: as_str;
    ArrayString<N> => Vec<u8>: as_bytes;
    &ArrayString<N> => Vec<u8>: as_bytes;
}

// (std has `Arc` only where a pointer can be changed in one atomic step)
#[cfg(target_has_atomic = "ptr")]
impl_from_string! {
    ArrayString<N> => Arc<str>: as_str;
}

impl<const N: usize> From<ArrayString<N>> for Cow<'_, str> {
    #[inline]
    fn from(string: ArrayString<N>) -> Self {
        Cow::Owned(string.into())
    }
}

impl<'a, const N: usize> From<&'a ArrayString<N>> for Cow<'a, str> {
    #[inline]
    fn from(string: &'a ArrayString<N>) -> Self {
        Cow::Borrowed(string)
    }
}

impl<const N: usize> Extend<ArrayString<N>> for String {
    fn extend<I: IntoIterator<Item = ArrayString<N>>>(&mut self, strings: I) {
        strings.into_iter().for_each(|string| self.push_str(&string));
    }
}

/// Writes the `FromIterator` by which `collect` joins strings into one allocated text.
macro_rules! impl_from_iterator {
    ($($text:ty),*) => {$(
        impl<const N: usize> FromIterator<ArrayString<N>> for $text {
            fn from_iter<I: IntoIterator<Item = ArrayString<N>>>(strings: I) -> Self {
                let mut joined = String::new();
                joined.extend(strings);
                joined.into()
            }
        }
    )*};
}

impl_from_iterator!(String, Box<str>, Cow<'_, str>);
