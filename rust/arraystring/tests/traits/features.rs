//! Which traits there are in which build. What a feature adds is in no build without it, since a program without an allocator can't link
//! it. What would have to cut a text is in no build.

use std::borrow::{Borrow, BorrowMut, Cow};
use std::char::DecodeUtf16Error;
use std::error::Error as StdError;
use std::ffi::{OsStr, OsString};
use std::fmt::{self, Debug, Display};
use std::hash::Hash;
use std::iter::FusedIterator;
use std::num::TryFromIntError;
use std::ops::{
    Add, AddAssign, Deref, DerefMut, Index, IndexMut, Range, RangeFrom, RangeFull, RangeInclusive, RangeTo,
    RangeToInclusive,
};
use std::panic::{RefUnwindSafe, UnwindSafe};
use std::path::{Path, PathBuf};
use std::rc::Rc;
use std::str::{FromStr, Utf8Error};
use std::sync::Arc;

use arraystring::{ArrayString, Drain, Error, OutOfBounds, Utf8, Utf16};

type Name = ArrayString<8>;

/// Whether a type has a trait. rustc takes the constant of the impl if its bound holds, and otherwise that of the trait.
macro_rules! has {
    ($type:ty: $($bound:tt)+) => {{
        #[allow(dead_code)]
        struct Asked<T: ?Sized>(std::marker::PhantomData<T>);
        #[allow(dead_code)]
        trait Otherwise {
            const ANSWER: bool = false;
        }
        impl<T: ?Sized> Otherwise for Asked<T> {}
        #[allow(dead_code)]
        impl<T: ?Sized + $($bound)+> Asked<T> {
            const ANSWER: bool = true;
        }
        Asked::<$type>::ANSWER
    }};
}

/// Asserts whether each row, a type and a trait, is as it is wanted.
macro_rules! rows {
    ($wanted:expr; $($type:ty: $bound:path;)*) => {
        $(assert_eq!(has!($type: $bound), $wanted, "{}: {}", stringify!($type), stringify!($bound));)*
    };
}

#[test]
fn each_build_has_these() {
    rows! { true;
        Name: Copy; Name: Clone; Name: Default; Name: Debug; Name: Display; Name: fmt::Write; Name: FromStr;
        Name: TryFrom<&'static str>; Name: TryFrom<char>; Name: TryFrom<fmt::Arguments<'static>>;
        Name: Deref<Target = str>; Name: DerefMut; Name: AsRef<str>; Name: AsRef<[u8]>; Name: AsMut<str>;
        Name: Borrow<str>; Name: BorrowMut<str>;
        Name: Index<Range<usize>>; Name: Index<RangeFrom<usize>>; Name: Index<RangeTo<usize>>; Name: Index<RangeFull>;
        Name: Index<RangeInclusive<usize>>; Name: Index<RangeToInclusive<usize>>;
        Name: IndexMut<Range<usize>>; Name: IndexMut<RangeFrom<usize>>; Name: IndexMut<RangeTo<usize>>;
        Name: IndexMut<RangeFull>; Name: IndexMut<RangeInclusive<usize>>; Name: IndexMut<RangeToInclusive<usize>>;
        Name: Eq; Name: Ord; Name: Hash; Name: PartialEq<str>; Name: PartialEq<&'static str>; str: PartialEq<Name>;
        &'static str: PartialEq<Name>; Name: PartialOrd<str>; Name: PartialOrd<&'static str>;
        Name: Send; Name: Sync; Name: Unpin; Name: UnwindSafe; Name: RefUnwindSafe;
        Drain<8>: Clone; Drain<8>: Default; Drain<8>: Debug; Drain<8>: Iterator<Item = char>; Drain<8>: FusedIterator;
        Drain<8>: DoubleEndedIterator; Drain<8>: Eq; Drain<8>: Ord; Drain<8>: Hash; Drain<8>: Send; Drain<8>: Sync;
        Error: Copy; Error: Debug; Error: Display; Error: Eq; Error: Hash; Error: StdError; Error: Send; Error: Sync;
        Utf8: Copy; Utf8: Default; Utf8: Debug; Utf8: Display; Utf8: Eq; Utf8: Hash; Utf8: StdError;
        Utf16: Copy; Utf16: Default; Utf16: Debug; Utf16: Display; Utf16: Eq; Utf16: Hash; Utf16: StdError;
        OutOfBounds: Copy; OutOfBounds: Default; OutOfBounds: Debug; OutOfBounds: Display; OutOfBounds: Eq;
        OutOfBounds: Hash; OutOfBounds: StdError;
        Error: From<Utf8>; Error: From<Utf16>; Error: From<OutOfBounds>; Error: From<fmt::Error>;
        Error: From<Utf8Error>; Error: From<DecodeUtf16Error>; Utf8: From<Utf8Error>; Utf16: From<DecodeUtf16Error>;
    }
}

/// Each would have to cut, or would take away what rustc infers of std's types alone.
#[test]
fn no_build_has_these() {
    rows! { false;
        Name: From<&'static str>; Name: From<char>; Name: From<String>; Name: From<&'static String>;
        Name: From<Box<str>>; Name: From<Cow<'static, str>>; Name: From<fmt::Arguments<'static>>;
        Name: FromIterator<char>; Name: FromIterator<&'static char>; Name: FromIterator<&'static str>;
        Name: FromIterator<String>; Name: FromIterator<Box<str>>; Name: FromIterator<Cow<'static, str>>;
        Name: FromIterator<Name>; Name: FromIterator<&'static Name>;
        Name: Extend<char>; Name: Extend<&'static char>; Name: Extend<&'static str>; Name: Extend<String>;
        Name: Extend<Box<str>>; Name: Extend<Cow<'static, str>>; Name: Extend<Name>; Name: Extend<&'static Name>;
        Name: Add<&'static str>; Name: Add<Name>; Name: AddAssign<&'static str>; Name: AddAssign<char>;
        Drain<8>: Copy; Name: Index<usize>; Name: Index<Range<u8>>; Name: AsMut<[u8]>; Name: AsRef<String>; Name: Borrow<[u8]>;
        str: PartialOrd<Name>; &'static str: PartialOrd<Name>; String: PartialOrd<Name>; String: Add<Name>;
        Box<str>: From<&'static Name>; Rc<str>: From<&'static Name>; Arc<str>: From<&'static Name>;
        Error: From<TryFromIntError>; OutOfBounds: From<TryFromIntError>; fmt::Error: From<Error>;
        fmt::Error: From<OutOfBounds>;
    }
}

#[test]
fn the_feature_alloc_brings_these() {
    rows! { cfg!(feature = "alloc");
        Name: TryFrom<String>; Name: TryFrom<&'static String>; Name: TryFrom<Box<str>>; Name: TryFrom<Cow<'static, str>>;
        String: From<Name>; String: From<&'static Name>; Box<str>: From<Name>; Rc<str>: From<Name>; Arc<str>: From<Name>;
        Vec<u8>: From<Name>; Vec<u8>: From<&'static Name>; Cow<'static, str>: From<Name>;
        Cow<'static, str>: From<&'static Name>; String: Extend<Name>; String: FromIterator<Name>;
        Box<str>: FromIterator<Name>; Cow<'static, str>: FromIterator<Name>;
        Name: PartialEq<String>; String: PartialEq<Name>; Name: PartialEq<Cow<'static, str>>;
        Cow<'static, str>: PartialEq<Name>;
    }
}

#[test]
fn the_feature_std_brings_these() {
    rows! { cfg!(feature = "std");
        Name: AsRef<Path>; Name: AsRef<OsStr>; PathBuf: From<Name>; OsString: From<Name>;
        PathBuf: From<&'static Name>; OsString: From<&'static Name>;
    }
}
