//! A string as an `OsStr` or a `Path`, behind the feature `std`: lent, and copied into an `OsString` or a `PathBuf`. No `impl` here makes
//! these of a `&ArrayString<N>`, because std makes them of each `&T` whose `T` is an `AsRef<OsStr>`.

use std::ffi::{OsStr, OsString};
use std::path::{Path, PathBuf};

use crate::ArrayString;

/// Writes the impls that lend a string as an `OsStr` or a `Path` (`AsRef`), and copy it into an `OsString` or a `PathBuf` (`From`).
macro_rules! impl_os_conversions {
    ($($name:ty => $owned:ty;)*) => {$(
        impl<const N: usize> AsRef<$name> for ArrayString<N> {
            #[inline]
            fn as_ref(&self) -> &$name {
                self.as_str().as_ref()
            }
        }

        impl<const N: usize> From<ArrayString<N>> for $owned {
            #[inline]
            fn from(string: ArrayString<N>) -> Self {
                string.as_str().into()
            }
        }
    )*};
}

impl_os_conversions! {
    OsStr => OsString;
    Path => PathBuf;
}
