//! Each safe call of the crate in a program without `std`, which links only where the machine code of no call can panic: what it
//! does where something panics has no definition. The script beside it builds it. Most calls are those of a list that tests make, too.
//!
//! With the setting `with_alloc` it has the calls of that feature, too, and with `index_of_all` the index `[..]`. With `one_panics` it
//! makes a call that can panic, and must not link. With ONLY it makes the call of that name alone.
//!
//! Left out is what may panic: the index of a range, as that of `str`; what makes a `String`, a `Box<str>` or a `Vec`, where memory is
//! refused; and `Debug` of a string and of a `Drain`, which `core` prints.
#![no_std]
#![no_main]
#![allow(clippy::clone_on_copy, clippy::double_ended_iterator_last, reason = "each call is made for its own sake")]

#[cfg(with_alloc)]
extern crate alloc;

use core::borrow::{Borrow, BorrowMut};
use core::fmt::Write;
use core::hash::{Hash, Hasher};
use core::hint::black_box;
use core::ops::{Bound, Deref, DerefMut};
use core::panic::PanicInfo;

use arraystring::{ArrayString, Drain, Error, OutOfBounds, Utf8, Utf16, arraystring, try_format};

#[link(name = "c")]
unsafe extern "C" {}

unsafe extern "C" {
    /// Nothing defines it.
    fn a_panic_is_left() -> !;
}

#[panic_handler]
fn panic(_: &PanicInfo) -> ! {
    // SAFETY: a program with this call does not link.
    unsafe { a_panic_is_left() }
}

/// A hasher that adds up.
struct Sum(u64);

impl Hasher for Sum {
    fn finish(&self) -> u64 {
        self.0
    }

    fn write(&mut self, bytes: &[u8]) {
        for byte in bytes {
            self.0 = self.0.wrapping_add(u64::from(*byte));
        }
    }
}

/// Where texts are printed.
struct Out(usize);

impl Write for Out {
    fn write_str(&mut self, text: &str) -> core::fmt::Result {
        self.0 = self.0.wrapping_add(text.len());
        Ok(())
    }
}

/// Strings, and what their calls are given. The compiler knows nothing of it.
struct Values<'a, S> {
    s: S,
    t: S,
    text: &'a str,
    bytes: &'a [u8],
    units: &'a [u16],
    ch: char,
    at: usize,
    end: usize,
}

/// Whether a call is made: all are, or the one that ONLY names.
const fn is_asked(name: &str) -> bool {
    let Some(only) = option_env!("ONLY") else { return true };
    let (name, only) = (name.as_bytes(), only.as_bytes());
    let mut at = 0;
    while at < name.len() && at < only.len() && name[at] == only[at] {
        at += 1;
    }
    at == name.len() && at == only.len()
}

/// Makes each call in a function of its own, and uses what it returns: it would else be left out of the program.
macro_rules! make {
    ($v:ident: $values:ty, $from:expr; $($name:ident: $call:expr;)*) => {$(
        if const { is_asked(stringify!($name)) } {
            #[inline(never)]
            #[allow(unused_variables, reason = "some calls are given nothing")]
            fn call($v: &mut $values) {
                let _ = black_box($call);
            }
            call(black_box($from));
        }
    )*};
}

/// What a word of the list of calls stands for.
#[rustfmt::skip]
macro_rules! given {
    (ch, $v:ident) => { $v.ch };
    (text, $v:ident) => { $v.text };
    (characters, $v:ident) => { $v.text.chars() };
    (pieces, $v:ident) => { [$v.text, $v.text] };
    (printed, $v:ident) => { format_args!("{}-{}", $v.text, $v.ch) };
    (bytes, $v:ident) => { $v.bytes };
    (units, $v:ident) => { $v.units };
    (at, $v:ident) => { $v.at };
    (range, $v:ident) => { $v.at..$v.end };
}

/// Makes the edits of the list. The rules in it are for the model.
macro_rules! edits {
    ($($name:ident($($word:ident),*) => |$model:tt, $of:tt| $rule:expr;)*) => {
        fn edits(values: &mut Values<S>) {
            make! { v: Values<S>, values; $($name: v.s.$name($(given!($word, v)),*);)* }
        }
    };
}

/// Makes the strings of the list.
macro_rules! constructors {
    ($($name:ident($($word:ident),*) => |$model:tt, $of:tt| $rule:expr;)*) => {
        fn constructors(values: &mut Values<S>) {
            make! { v: Values<S>, values; $($name: S::$name($(given!($word, v)),*);)* }
        }
    };
}

/// The calls of a string, as the function `all` of a module: those of the list, and what is called in other ways, too.
macro_rules! calls_of {
    ($module:ident: $type:ty) => {
        mod $module {
            use super::*;

            type S = $type;

            include!("../arraystring/tests/model/call_list.rs");

            pub fn all(values: &mut Values<S>) {
                edits(values);
                constructors(values);
                make! {
                    v: Values<S>, values;
                    capacity: v.s.capacity();
                    try_from_text: S::try_from(v.text);
                    try_from_char: S::try_from(v.ch);
                    try_from_arguments: S::try_from(format_args!("{}-{}", v.text, v.ch));
                    parse: v.text.parse::<S>();
                    format: { let made: Result<S, _> = try_format!("{}-{}", v.text, v.ch); made };
                    widen: { let wide: ArrayString<255> = v.s.widen(); wide };
                    as_str: v.s.as_str().len();
                    as_bytes: v.s.as_bytes().len();
                    as_mut_str: v.s.as_mut_str().make_ascii_uppercase();
                    len: v.s.len();
                    is_empty: v.s.is_empty();
                    is_full: v.s.is_full();
                    remaining_capacity: v.s.remaining_capacity();
                    get: (v.s.get(v.at..v.end), v.s.get(v.at..), v.s.get(..v.end), v.s.get(v.at..=v.end), v.s.get(..));
                    push_str_truncate: v.s.push_str_truncate(v.text).len();
                    insert_str_truncate: v.s.insert_str_truncate(v.at, v.text).map(str::len);
                    replace_range_through: v.s.replace_range(v.at..=v.end, v.text);
                    replace_range_behind: v.s.replace_range((Bound::Excluded(v.at), Bound::Unbounded), v.text);
                    remove_behind_push: (v.s.push_str_truncate(v.text).len(), v.s.remove(v.at));
                    drain_to_its_end: v.s.drain(v.at..v.end).map(|it| it.map(u32::from).fold(0, u32::wrapping_add));
                    drain_through: v.s.drain(v.at..=v.end);
                    drain_behind: v.s.drain((Bound::Excluded(v.at), Bound::Included(v.end)));
                    retain: { let ch = v.ch; v.s.retain(|it| it != ch) };
                    make_ascii_uppercase: v.s.make_ascii_uppercase();
                    make_ascii_lowercase: v.s.make_ascii_lowercase();
                    as_mut_of_str: AsMut::<str>::as_mut(&mut v.s).make_ascii_uppercase();
                    as_ref_of_bytes: AsRef::<[u8]>::as_ref(&v.s).len();
                    as_ref_of_str: AsRef::<str>::as_ref(&v.s).len();
                    borrow: Borrow::<str>::borrow(&v.s).len();
                    borrow_mut: BorrowMut::<str>::borrow_mut(&mut v.s).make_ascii_lowercase();
                    clone: v.s.clone();
                    deref: Deref::deref(&v.s).len();
                    deref_mut: DerefMut::deref_mut(&mut v.s).make_ascii_uppercase();
                    display: write!(Out(0), "{}{:9}{:*^9.3}", v.s, v.s, v.s);
                    hash: v.s.hash(&mut Sum(0));
                    cmp: v.s.cmp(&v.t);
                    partial_cmp: (v.s < v.t, v.s.partial_cmp(&v.t));
                    partial_cmp_of_str: (v.s < *v.text, v.s < v.text);
                    eq: v.s == v.t;
                    eq_of_str: (v.s == *v.text, v.s == v.text, *v.text == v.s, v.text == v.s);
                    write: write!(v.s, "{}-", v.text);
                }
                #[cfg(with_alloc)]
                with_alloc(values);
            }

            #[cfg(with_alloc)]
            fn with_alloc(values: &mut Values<S>) {
                use alloc::borrow::Cow;
                use alloc::boxed::Box;
                use alloc::string::String;

                let mut owned: (&mut Values<S>, Option<String>, Option<Box<str>>, Option<Cow<str>>) =
                    (values, None, None, None);
                make! {
                    v: (&mut Values<S>, Option<String>, Option<Box<str>>, Option<Cow<str>>), &mut owned;
                    try_from_box: v.2.take().map(S::try_from);
                    try_from_cow: v.3.take().map(S::try_from);
                    try_from_string: v.1.take().map(S::try_from);
                    try_from_lent_string: v.1.as_ref().map(S::try_from);
                    cow: Cow::from(&v.0.s).len();
                    eq_of_cow: v.3.as_ref().is_some_and(|cow| v.0.s == *cow && *cow == v.0.s);
                    eq_of_string: v.1.as_ref().is_some_and(|string| v.0.s == *string && *string == v.0.s);
                }
            }
        }
    };
}

calls_of!(at_0: ArrayString<0>);
calls_of!(at_1: ArrayString<1>);
calls_of!(at_23: ArrayString<23>);
calls_of!(at_255: ArrayString<255>);

/// What the calls of no string, or of one type, are given.
struct Others<'a> {
    values: Values<'a, ArrayString<23>>,
    drain: Drain<23>,
    other: Drain<23>,
    error: Error,
    errors: (OutOfBounds, Utf8, Utf16),
}

fn others(others: &mut Others) {
    make! {
        v: Others, others;
        arraystring: ArrayString::<23>::clone(&arraystring!("a"));
        error_from_fmt: Error::from(core::fmt::Error);
        error_from_out_of_bounds: (Error::from(v.errors.0), Error::from(v.errors.1), Error::from(v.errors.2));
        error_from_std: core::str::from_utf8(v.values.bytes).map_err(Error::from);
        utf8_from_std: core::str::from_utf8(v.values.bytes).map_err(Utf8::from);
        error_from_utf16: char::decode_utf16(v.values.units.iter().copied()).next().map(|it| it.map_err(Error::from));
        utf16_from_std: char::decode_utf16(v.values.units.iter().copied()).next().map(|it| it.map_err(Utf16::from));
        errors_debug: write!(Out(0), "{:?}{:?}{:?}{:?}", v.error, v.errors.0, v.errors.1, v.errors.2);
        errors_display: write!(Out(0), "{}{}{}{}", v.error, v.errors.0, v.errors.1, v.errors.2);
        errors_source: core::error::Error::source(&v.error).is_some();
        errors_hash: (v.error.hash(&mut Sum(0)), v.errors.hash(&mut Sum(0)));
        errors_eq: (v.error == black_box(v.error), v.errors == black_box(v.errors), v.error.clone(), v.errors.clone());
        errors_default: <(OutOfBounds, Utf8, Utf16)>::default();
        drain_as_str: v.drain.as_str().len();
        drain_clone: v.drain.clone();
        drain_default: Drain::<23>::default();
        drain_next: (v.drain.next(), v.drain.size_hint(), v.drain.nth(v.values.at));
        drain_next_back: (v.drain.next_back(), v.drain.nth_back(v.values.at));
        drain_count: (v.drain.clone().count(), v.drain.clone().last(), v.drain.clone().map(u32::from).max());
        drain_rev: v.drain.clone().rev().map(u32::from).max();
        drain_hash: v.drain.hash(&mut Sum(0));
        drain_cmp: (Ord::cmp(&v.drain, &v.other), v.drain < v.other, v.drain == v.other);
    }
    // (it goes through the index that may panic, and the compiler sees that it does not where no other call does)
    #[cfg(index_of_all)]
    make! {
        v: Others, others;
        index_of_all: (v.values.s[..].len(), v.values.s[..].make_ascii_uppercase());
    }
}

#[cfg(with_alloc)]
mod memory {
    use core::alloc::{GlobalAlloc, Layout};

    unsafe extern "C" {
        fn malloc(size: usize) -> *mut u8;
        fn free(memory: *mut u8);
    }

    struct Memory;

    // SAFETY: `malloc` aligns for each type of C, and no text asks for more.
    unsafe impl GlobalAlloc for Memory {
        unsafe fn alloc(&self, layout: Layout) -> *mut u8 {
            // SAFETY: any size may be asked for.
            unsafe { malloc(layout.size()) }
        }

        unsafe fn dealloc(&self, memory: *mut u8, _: Layout) {
            // SAFETY: it came from `malloc`.
            unsafe { free(memory) }
        }
    }

    #[global_allocator]
    static MEMORY: Memory = Memory;
}

/// Values that the compiler knows nothing of.
fn values<S>(new: impl Fn() -> S) -> Values<'static, S> {
    black_box(Values {
        s: new(),
        t: new(),
        text: "aé€🤔",
        bytes: b"a\xC3\xA9",
        units: &[0x61, 0xE9, 0xD83E, 0xDD14],
        ch: 'é',
        at: 1,
        end: 3,
    })
}

#[unsafe(no_mangle)]
extern "C" fn main() -> i32 {
    if cfg!(one_panics) {
        return black_box(ArrayString::<23>::from_str_truncate(black_box("a"))[black_box(2)..].len()) as i32;
    }
    macro_rules! all_at_each {
        ($($module:ident: $type:ty;)*) => {$($module::all(&mut values(<$type>::new));)*};
    }
    all_at_each! {
        at_0: ArrayString<0>;
        at_1: ArrayString<1>;
        at_23: ArrayString<23>;
        at_255: ArrayString<255>;
    }
    others(&mut black_box(Others {
        values: values(ArrayString::new),
        drain: Drain::default(),
        other: Drain::default(),
        error: Error::Utf8,
        errors: (OutOfBounds, Utf8, Utf16),
    }));
    0
}
