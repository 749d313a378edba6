//! What rustc infers between std's texts where this crate is loaded. Of `str`, `String`, `Box<str>` and `Cow<str>` and of references to
//! them each two were put beside each other, by `==` and `<`, and each into each other; as they are, and by `as_ref`, `borrow`,
//! `into`, `parse`, `to_owned` and `collect`. Here stands all of that which rustc takes without this crate. One impl more for a type
//! of std can leave it two answers where it had one, and then a line here is not compiled. Below stands what is inferred of errors, of
//! items that are collected, and of paths.
#![allow(
    unused,
    noop_method_call,
    clippy::all,
    reason = "each form is written as it is, whether or not a shorter one does the same"
)]

use std::borrow::{Borrow, Cow};
use std::char::DecodeUtf16Error;
use std::convert::Infallible;
use std::ffi::{OsStr, OsString};
use std::fmt::{self, Write};
use std::num::{ParseIntError, TryFromIntError};
use std::path::{Path, PathBuf};
use std::rc::Rc;

use arraystring::{ArrayString, Error, OutOfBounds, Utf8, Utf16, arraystring};

/// Asserts a sign between a text and others, all of which are "b".
macro_rules! signs {
    (($t:ident, $s:ident, $b:ident, $c:ident) $text:expr => $sign:tt [$($other:expr),*]) => {$({
        let ($t, $s) = ("b", String::from("b"));
        let ($b, $c): (Box<str>, Cow<'static, str>) = ("b".into(), "b".into());
        let is_so: bool = $text $sign $other;
        assert_eq!(is_so, stringify!($sign) == "==", stringify!($text $sign $other));
    })*};
}

/// A value of a type made of each text.
macro_rules! becomes {
    (($t:ident, $s:ident, $b:ident, $c:ident) $made:ty: [$($text:expr),*]) => {$({
        let ($t, $s) = ("b", String::from("b"));
        let ($b, $c): (Box<str>, Cow<'static, str>) = ("b".into(), "b".into());
        let made: $made = $text;
        assert_eq!(made.len(), 1, stringify!($text));
    })*};
}

/// The same by `from`.
macro_rules! is_from {
    (($t:ident, $s:ident, $b:ident, $c:ident) $made:ty: [$($text:expr),*]) => {
        becomes!(($t, $s, $b, $c) $made: [$(<$made>::from($text)),*]);
    };
}

/// The same by `collect`.
macro_rules! is_collected {
    (($t:ident, $s:ident, $b:ident, $c:ident) $made:ty: [$($text:expr),*]) => {
        becomes!(($t, $s, $b, $c) $made: [$([$text].into_iter().collect::<$made>()),*]);
    };
}

#[test]
fn texts_are_equal() {
    signs!((t, s, b, c) *t => == [
        *t, (*t).to_owned(), t.to_owned(), s, s.to_owned(), (&s).to_owned(), *b.as_ref(), *(&b).as_ref(), c,
        c.to_owned(), *c.as_ref(), (&c).to_owned(), *(&c).as_ref()
    ]);
    signs!((t, s, b, c) (*t).to_owned() => == [*t, t, s, c]);
    signs!((t, s, b, c) (*t).borrow() => == [t, s, &s, c, &c]);
    signs!((t, s, b, c) (*t).as_ref() => == [s]);
    signs!((t, s, b, c) &*(*t).as_ref() => == [s]);
    signs!((t, s, b, c) t => == [
        (*t).borrow(), (*t).to_owned(), t, t.borrow(), t.to_owned(), s, s.to_owned(), &s, (&s).to_owned(),
        b.as_ref(), &*b.as_ref(), (&b).as_ref(), &*(&b).as_ref(), c, c.as_ref(), c.to_owned(), &*c.as_ref(), &c,
        (&c).as_ref(), (&c).to_owned(), &*(&c).as_ref()
    ]);
    signs!((t, s, b, c) t.to_owned() => == [*t, t, s, c]);
    signs!((t, s, b, c) t.borrow() => == [t, s, &s, c, &c]);
    signs!((t, s, b, c) t.as_ref() => == [s]);
    signs!((t, s, b, c) &*t.as_ref() => == [s]);
    signs!((t, s, b, c) s => == [
        *t, (*t).as_ref(), (*t).borrow(), (*t).to_owned(), &*(*t).as_ref(), t, t.as_ref(), t.borrow(),
        t.to_owned(), &*t.as_ref(), s, s.as_ref(), s.borrow(), s.to_owned(), &*s.as_ref(), (&s).as_ref(),
        (&s).borrow(), (&s).to_owned(), &*(&s).as_ref(), b.as_ref(), b.borrow(), &*b.as_ref(), *b.as_ref(),
        (&b).as_ref(), (&b).borrow(), &*(&b).as_ref(), *(&b).as_ref(), c, c.as_ref(), c.borrow(), c.to_owned(),
        &*c.as_ref(), *c.as_ref(), (&c).as_ref(), (&c).borrow(), (&c).to_owned(), &*(&c).as_ref(),
        *(&c).as_ref()
    ]);
    signs!((t, s, b, c) s.to_owned() => == [*t, t, s, c]);
    signs!((t, s, b, c) s.as_ref() => == [s]);
    signs!((t, s, b, c) s.borrow() => == [s]);
    signs!((t, s, b, c) &*s.as_ref() => == [s]);
    signs!((t, s, b, c) &s => == [
        (*t).borrow(), t, t.borrow(), &s, b.as_ref(), &*b.as_ref(), (&b).as_ref(), &*(&b).as_ref(), c.as_ref(),
        &*c.as_ref(), &c, (&c).as_ref(), &*(&c).as_ref()
    ]);
    signs!((t, s, b, c) (&s).to_owned() => == [*t, t, s, c]);
    signs!((t, s, b, c) (&s).as_ref() => == [s]);
    signs!((t, s, b, c) (&s).borrow() => == [s]);
    signs!((t, s, b, c) &*(&s).as_ref() => == [s]);
    signs!((t, s, b, c) b => == [
        (*t).into(), (*t).chars().collect(), t.into(), t.clone().into(), t.chars().collect(), s.into(),
        s.clone().into(), s.chars().collect(), (&s).clone().into(), (&s).chars().collect(), b, b.clone().into(),
        b.to_owned(), b.chars().collect(), (&b).clone().into(), (&b).to_owned(), (&b).chars().collect(),
        c.into(), c.clone().into(), c.chars().collect(), (&c).clone().into(), (&c).chars().collect()
    ]);
    signs!((t, s, b, c) *b.as_ref() => == [*t, s, c]);
    signs!((t, s, b, c) b.as_ref() => == [t, s, &s, c, &c]);
    signs!((t, s, b, c) &*b.as_ref() => == [t, s, &s, c, &c]);
    signs!((t, s, b, c) b.borrow() => == [s]);
    signs!((t, s, b, c) b.to_owned() => == [b]);
    signs!((t, s, b, c) *(&b).as_ref() => == [*t, s, c]);
    signs!((t, s, b, c) (&b).as_ref() => == [t, s, &s, c, &c]);
    signs!((t, s, b, c) &*(&b).as_ref() => == [t, s, &s, c, &c]);
    signs!((t, s, b, c) (&b).borrow() => == [s]);
    signs!((t, s, b, c) &b => == [b.borrow(), &b, (&b).borrow()]);
    signs!((t, s, b, c) (&b).to_owned() => == [b]);
    signs!((t, s, b, c) c => == [
        *t, (*t).borrow(), (*t).to_owned(), t, t.borrow(), t.to_owned(), s, s.to_owned(), (&s).to_owned(),
        b.as_ref(), &*b.as_ref(), *b.as_ref(), (&b).as_ref(), &*(&b).as_ref(), *(&b).as_ref(), c, c.as_ref(),
        c.to_owned(), &*c.as_ref(), *c.as_ref(), (&c).as_ref(), (&c).to_owned(), &*(&c).as_ref(), *(&c).as_ref()
    ]);
    signs!((t, s, b, c) c.to_owned() => == [*t, t, s, c]);
    signs!((t, s, b, c) *c.as_ref() => == [*t, s, c]);
    signs!((t, s, b, c) c.as_ref() => == [t, s, &s, c, &c]);
    signs!((t, s, b, c) &*c.as_ref() => == [t, s, &s, c, &c]);
    signs!((t, s, b, c) c.borrow() => == [s]);
    signs!((t, s, b, c) &c => == [
        (*t).borrow(), t, t.borrow(), &s, b.as_ref(), &*b.as_ref(), (&b).as_ref(), &*(&b).as_ref(), c.as_ref(),
        &*c.as_ref(), &c, (&c).as_ref(), &*(&c).as_ref()
    ]);
    signs!((t, s, b, c) (&c).to_owned() => == [*t, t, s, c]);
    signs!((t, s, b, c) *(&c).as_ref() => == [*t, s, c]);
    signs!((t, s, b, c) (&c).as_ref() => == [t, s, &s, c, &c]);
    signs!((t, s, b, c) &*(&c).as_ref() => == [t, s, &s, c, &c]);
    signs!((t, s, b, c) (&c).borrow() => == [s]);
}

#[test]
fn texts_are_in_order() {
    signs!((t, s, b, c) *t => < [
        *t, *(*t).as_ref(), *t.as_ref(), *s.as_ref(), *(&s).as_ref(), *b.as_ref(), *(&b).as_ref(), *c.as_ref(),
        *(&c).as_ref()
    ]);
    signs!((t, s, b, c) (*t).borrow() => < [t, &s, &b, &c]);
    signs!((t, s, b, c) (*t).to_owned() => < [s]);
    signs!((t, s, b, c) t => < [
        (*t).as_ref(), (*t).borrow(), (*t).into(), &*(*t).as_ref(), t, t.as_ref(), t.borrow(), t.into(),
        t.clone().into(), &*t.as_ref(), s.as_ref(), s.borrow(), &*s.as_ref(), &s, (&s).as_ref(), (&s).borrow(),
        &*(&s).as_ref(), b.as_ref(), b.borrow(), &*b.as_ref(), &b, (&b).as_ref(), (&b).borrow(), &*(&b).as_ref(),
        c.as_ref(), c.borrow(), &*c.as_ref(), &c, (&c).as_ref(), (&c).borrow(), &*(&c).as_ref()
    ]);
    signs!((t, s, b, c) t.borrow() => < [t, &s, &b, &c]);
    signs!((t, s, b, c) t.to_owned() => < [s]);
    signs!((t, s, b, c) s => < [
        (*t).into(), (*t).parse().unwrap(), (*t).to_owned(), (*t).chars().collect(), t.into(), t.clone().into(),
        t.parse().unwrap(), t.to_owned(), t.chars().collect(), s, s.clone().into(), s.parse().unwrap(),
        s.to_owned(), s.chars().collect(), (&s).into(), (&s).clone().into(), (&s).parse().unwrap(),
        (&s).to_owned(), (&s).chars().collect(), b.into(), b.clone().into(), b.parse().unwrap(),
        b.chars().collect(), (&b).clone().into(), (&b).parse().unwrap(), (&b).chars().collect(), c.into(),
        c.clone().into(), c.parse().unwrap(), c.chars().collect(), (&c).clone().into(), (&c).parse().unwrap(),
        (&c).chars().collect()
    ]);
    signs!((t, s, b, c) s.to_owned() => < [s]);
    signs!((t, s, b, c) &s => < [s.borrow(), &s, (&s).borrow(), (&s).into()]);
    signs!((t, s, b, c) (&s).to_owned() => < [s]);
    signs!((t, s, b, c) b => < [
        (*t).into(), (*t).chars().collect(), t.into(), t.clone().into(), t.chars().collect(), s.into(),
        s.clone().into(), s.chars().collect(), (&s).clone().into(), (&s).chars().collect(), b, b.clone().into(),
        b.to_owned(), b.chars().collect(), (&b).clone().into(), (&b).to_owned(), (&b).chars().collect(),
        c.into(), c.clone().into(), c.chars().collect(), (&c).clone().into(), (&c).chars().collect()
    ]);
    signs!((t, s, b, c) *b.as_ref() => < [*t]);
    signs!((t, s, b, c) b.as_ref() => < [t, &s, &b, &c]);
    signs!((t, s, b, c) &*b.as_ref() => < [t, &s, &b, &c]);
    signs!((t, s, b, c) b.to_owned() => < [b]);
    signs!((t, s, b, c) *(&b).as_ref() => < [*t]);
    signs!((t, s, b, c) (&b).as_ref() => < [t, &s, &b, &c]);
    signs!((t, s, b, c) &*(&b).as_ref() => < [t, &s, &b, &c]);
    signs!((t, s, b, c) &b => < [b.borrow(), &b, (&b).borrow(), (&b).into()]);
    signs!((t, s, b, c) (&b).to_owned() => < [b]);
    signs!((t, s, b, c) c => < [c, c.to_owned(), (&c).to_owned()]);
    signs!((t, s, b, c) *c.as_ref() => < [*t]);
    signs!((t, s, b, c) c.as_ref() => < [t, &s, &b, &c]);
    signs!((t, s, b, c) &*c.as_ref() => < [t, &s, &b, &c]);
    signs!((t, s, b, c) c.to_owned() => < [c]);
    signs!((t, s, b, c) *(&c).as_ref() => < [*t]);
    signs!((t, s, b, c) (&c).as_ref() => < [t, &s, &b, &c]);
    signs!((t, s, b, c) &*(&c).as_ref() => < [t, &s, &b, &c]);
    signs!((t, s, b, c) (&c).to_owned() => < [c]);
    signs!((t, s, b, c) &c => < [&c, (&c).into()]);
}

/// These came after the oldest Rust that the crate takes. `rust/check` has them compiled, which is all that is asked of them.
#[cfg(younger_rust)]
fn texts_are_in_order_in_a_younger_rust() {
    signs!((t, s, b, c) (*t).as_ref() => < [c]);
    signs!((t, s, b, c) &*(*t).as_ref() => < [c]);
    signs!((t, s, b, c) t.as_ref() => < [c]);
    signs!((t, s, b, c) &*t.as_ref() => < [c]);
    signs!((t, s, b, c) c => < [(*t).as_ref(), &*(*t).as_ref(), t.as_ref(), &*t.as_ref()]);
}

/// Comparisons that have no string of this crate in them, and that are compiled all the same where it is loaded. An impl of it
/// for `str` or `&str` could take that away: with one order of `str` more, rustc no longer infers what stands on the right.
#[test]
fn an_order_is_inferred() {
    let (string, name) = (String::from("b"), "b");
    assert_eq!(("a" < &string, "b" <= &string, "a" > &string, "a" >= &string), (true, true, false, false));
    assert!(name > "a".as_ref() && "a" < string.as_ref() && string.as_str() >= string.as_ref());
    assert!("a" < string.borrow() && "a" < name.into() && "a" > Default::default());
    let (boxed, shared, lent): (Box<str>, Rc<str>, Cow<str>) = (name.into(), name.into(), name.into());
    assert!("a" < &boxed && "a" < &shared && "a" < &lent && *"a" < *string);
    assert_eq!(("a".partial_cmp(&string), "b".partial_cmp(string.as_ref())), (Some("a".cmp("b")), Some("b".cmp("b"))));
    assert!(("a".."c").contains(&string.as_ref()) && ("a"..="c").contains(&&*string));
    assert!(Some("a") < Some(&string).map(|string| string.as_ref()) && ("a", 2) < (&string, 1));
}

/// `==` of `str` has many impls by std, so that it infers nothing there with this crate or without it.
#[test]
fn texts_are_equal_in_few_words() {
    let string = String::from("b");
    assert_eq!("b", string);
    assert_eq!(string, "b");
    assert_eq!(&string, "b");
    assert_eq!(*"b", *string);
    assert!("b" == &string && "b" == &*string && *"b" == string);
    assert!(["a", "b"].contains(&string.as_str()) && ["a", "b"].contains(&&*string));
    assert!(Some("b") == Some(&string).map(|string| string.as_ref()));
    assert!([string.clone()].iter().eq(["b"].iter().copied()) && vec![string] == ["b"]);
}

#[test]
fn texts_become_each_other() {
    becomes!((t, s, b, c) &str: [
        (*t).into(), (*t).as_ref(), (*t).borrow(), t.into(), t.as_ref(), t.borrow(), s.as_ref(), s.borrow(),
        (&s).as_ref(), (&s).borrow(), b.as_ref(), b.borrow(), (&b).as_ref(), (&b).borrow(), c.as_ref(),
        c.borrow(), (&c).as_ref(), (&c).borrow()
    ]);
    is_from!((t, s, b, c) &str: [
        (*t).into(), (*t).as_ref(), t.into(), t.as_ref(), t, s.as_ref(), (&s).as_ref(), (&s), b.as_ref(),
        (&b).as_ref(), (&b), c.as_ref(), (&c).as_ref(), (&c)
    ]);
    becomes!((t, s, b, c) String: [
        (*t).into(), (*t).parse().unwrap(), (*t).chars().collect(), (*t).to_owned(), t.into(),
        t.parse().unwrap(), t.chars().collect(), t.to_owned(), s.into(), s.parse().unwrap(), s.chars().collect(),
        s.to_owned(), (&s).into(), (&s).parse().unwrap(), (&s).chars().collect(), (&s).to_owned(), b.into(),
        b.parse().unwrap(), b.chars().collect(), (&b).parse().unwrap(), (&b).chars().collect(), c.into(),
        c.parse().unwrap(), c.chars().collect(), (&c).parse().unwrap(), (&c).chars().collect()
    ]);
    is_from!((t, s, b, c) String: [t, s, (&s), b.as_ref(), b, (&b).as_ref(), c.as_ref(), c, (&c).as_ref()]);
    is_collected!((t, s, b, c) String: [t, s, b, c]);
    becomes!((t, s, b, c) Box<str>: [
        (*t).into(), (*t).chars().collect(), t.into(), t.chars().collect(), s.into(), s.chars().collect(),
        (&s).chars().collect(), b.into(), b.chars().collect(), b.to_owned(), (&b).chars().collect(),
        (&b).to_owned(), c.into(), c.chars().collect(), (&c).chars().collect()
    ]);
    is_from!((t, s, b, c) Box<str>: [
        (*t).as_ref(), t.as_ref(), t, s.as_ref(), s, (&s).as_ref(), b.as_ref(), b, (&b).as_ref(), c.as_ref(), c,
        (&c).as_ref()
    ]);
    is_collected!((t, s, b, c) Box<str>: [t, s, b, c]);
    becomes!((t, s, b, c) Cow<str>: [
        (*t).into(), (*t).chars().collect(), t.into(), t.chars().collect(), s.into(), s.chars().collect(),
        (&s).into(), (&s).chars().collect(), b.chars().collect(), (&b).chars().collect(), c.into(),
        c.chars().collect(), c.to_owned(), (&c).chars().collect(), (&c).to_owned()
    ]);
    is_from!((t, s, b, c) Cow<str>: [t, s, (&s), b.as_ref(), (&b).as_ref(), c.as_ref(), c, (&c).as_ref()]);
    is_collected!((t, s, b, c) Cow<str>: [t, s]);
    becomes!((t, s, b, c) Vec<u8>: [(*t).into(), t.into(), s.into()]);
    is_from!((t, s, b, c) Vec<u8>: [t, s, b.as_ref(), (&b).as_ref(), c.as_ref(), (&c).as_ref()]);
    becomes!((t, s, b, c) &[u8]: [(*t).as_ref(), t.as_ref(), s.as_ref(), (&s).as_ref()]);
    is_from!((t, s, b, c) &[u8]: [(*t).as_ref(), t.as_ref(), s.as_ref(), (&s).as_ref()]);
    becomes!((t, s, b, c) Rc<str>: [(*t).into(), t.into(), s.into(), b.into(), c.into()]);
    is_from!((t, s, b, c) Rc<str>: [
        (*t).as_ref(), t.as_ref(), t, s.as_ref(), s, (&s).as_ref(), b.as_ref(), b, (&b).as_ref(), c.as_ref(), c,
        (&c).as_ref()
    ]);
}

#[test]
fn texts_are_added() {
    /// Adds each text in each way.
    macro_rules! added {
        (($t:ident, $s:ident, $b:ident, $c:ident) [$($text:expr),*]) => {$({
            let ($t, $s) = ("b", String::from("b"));
            let ($b, $c): (Box<str>, Cow<'static, str>) = ("b".into(), "b".into());
            let (mut added, mut lent) = (String::new() + $text.as_ref(), Cow::from("a"));
            added += $text.as_ref();
            added.push_str($text.as_ref());
            lent += $text.as_ref();
            assert_eq!((&*added, &*lent), ("bbb", "ab"));
        })*};
    }
    added!((t, s, b, c) [(*t), t, s, (&s), b, (&b), c, (&c)]);
}

/// A `fmt::Error` is made of itself alone. So rustc takes each of these, in which nothing names the error of a closure or of an `into`.
#[test]
fn the_error_of_a_format_is_inferred() -> fmt::Result {
    let (mut out, texts) = (String::new(), ["a", "b"]);
    texts.iter().try_for_each(|text| {
        write!(out, "{text}")?;
        Ok(())
    })?;
    let count = texts.iter().try_fold(0, |count, text| {
        out.write_str(text)?;
        Ok(count + 1)
    })?;
    let sizes = texts.iter().map(|text| {
        out.write_str(text)?;
        Ok(text.len())
    });
    let all = sizes.collect::<Result<Vec<_>, _>>()?;
    let sum = texts.iter().map(|text| Ok(out.write_str(text).map(|()| text.len())?)).sum::<Result<usize, _>>()?;
    let mut put = |text| {
        out.write_str(text)?;
        Ok(())
    };
    put("c")?;
    out.write_str("d").map_err(Into::into)?;
    out.write_str("e").map_err(|error| error.into())?;
    out.write_char('f').or_else(|error| Err(error.into()))?;
    out.write_char('g').map_err(fmt::Error::from)?;
    assert_eq!((count, all.len(), sum, &*out), (2, 2, 2, "ababababcdefg"));
    Ok(())
}

/// The same, of an error that is always returned.
#[test]
fn an_error_that_is_returned_is_inferred() {
    let errors: [fn() -> fmt::Result; 4] = [
        || Err(fmt::Error.into()),
        || Err(fmt::Error.into())?,
        || Err(Default::default())?,
        || Err(fmt::Error::from(Default::default())),
    ];
    assert!(errors.into_iter().all(|error| error() == Err(fmt::Error)));
}

/// A string of ours in a `Display` and in a `Write` of one's own.
#[test]
fn the_error_of_a_format_is_inferred_beside_those_of_a_string() {
    struct Line(ArrayString<4>);
    impl fmt::Display for Line {
        fn fmt(&self, f: &mut fmt::Formatter) -> fmt::Result {
            self.0.chars().try_for_each(|ch| {
                write!(f, "{ch}.")?;
                Ok(())
            })?;
            self.0.split(',').map(|part| Ok(f.write_str(part)?)).collect::<Result<(), _>>()?;
            f.write_str(&self.0).map_err(Into::into)
        }
    }
    impl Write for Line {
        fn write_str(&mut self, text: &str) -> fmt::Result {
            let mut copy = self.0;
            copy.try_push_str(text).or(Err(fmt::Error))?;
            copy.try_insert(0, '-').map_err(|_| fmt::Error)?;
            copy.remove(0).ok().ok_or(fmt::Error)?;
            copy.write_str("").map_err(Into::into)?;
            text.chars().try_for_each(|ch| {
                self.0.write_char(ch)?;
                self.0.try_push(ch).or(Err(fmt::Error))?;
                self.0.pop().ok_or(fmt::Error)?;
                Ok(())
            })?;
            Ok(())
        }
    }
    let mut line = Line(arraystring!("a"));
    assert_eq!((write!(line, "b"), line.to_string()), (Ok(()), "a.b.abab".to_string()));
    assert_eq!((write!(line, "cde"), line.0.as_str()), (Err(fmt::Error), "ab"));
}

/// What `?`, `into` and `map_err` make of the errors of this crate and of std's.
#[test]
fn an_error_of_a_string_is_made_of_others() -> Result<(), Error> {
    let mut s = ArrayString::<8>::from_str_truncate("ab");
    s.try_push('c')?;
    s.try_insert(0, 'd')?;
    s.truncate(3)?;
    write!(s, "e")?;
    s.try_write(format_args!("f"))?;
    ArrayString::<4>::from_utf16_truncate(&[0x61])?;
    let lone = || char::decode_utf16([0xD800]).next().expect("an item").map(drop);
    s.remove(0)?;
    s.remove(usize::try_from(0u64).or(Err(Error::OutOfBounds))?)?;
    s.remove(usize::try_from(0u64).map_err(|_| OutOfBounds)?)?;
    s.remove(0).ok().ok_or(OutOfBounds)?;
    assert_eq!(s, "f");
    let tried: [fn(&mut ArrayString<8>) -> Result<(), Error>; 8] = [
        |s| s.try_push_str("ghijklmn").map_err(Into::into),
        |s| s.try_push_str("ghijklmn").map_err(Error::from),
        |s| s.try_push_str("ghijklmn").map_err(|error| error.into()),
        |s| s.try_write(format_args!("ghijklmn")).map_err(Into::into),
        |s| write!(s, "ghijklmn").map_err(Error::from),
        |s| Ok(s.try_push_str("ghijklmn")?),
        |s| Err(s.try_push_str("ghijklmn").expect_err("too large").into()),
        |s| Err(s.try_push_str("ghijklmn").expect_err("too large"))?,
    ];
    assert!(tried.into_iter().all(|call| call(&mut s) == Err(Error::OutOfBounds)));
    let made: [Error; 4] = [Utf8.into(), Utf16.into(), OutOfBounds.into(), fmt::Error.into()];
    assert_eq!(made, [Error::Utf8, Error::Utf16, Error::OutOfBounds, Error::OutOfBounds]);
    assert_eq!((lone().map_err(Utf16::from), lone().map_err(Error::from)), (Err(Utf16), Err(Error::Utf16)));
    let boxed: [Box<dyn std::error::Error>; 2] = [OutOfBounds.into(), Error::Utf8.into()];
    assert_eq!(boxed.map(|error| error.to_string()), [OutOfBounds.to_string(), Error::Utf8.to_string()]);
    Ok(())
}

/// Errors of numbers in functions that return errors of std, or one of their own.
#[test]
fn an_error_of_a_number_is_inferred() {
    #[derive(Debug, PartialEq)]
    enum Own {
        Text,
        Number,
    }
    impl From<Error> for Own {
        fn from(_: Error) -> Self {
            Own::Text
        }
    }
    impl From<TryFromIntError> for Own {
        fn from(_: TryFromIntError) -> Self {
            Own::Number
        }
    }
    impl From<ParseIntError> for Own {
        fn from(_: ParseIntError) -> Self {
            Own::Number
        }
    }
    fn number(given: usize) -> Result<u8, TryFromIntError> {
        let at = u8::try_from(given)?;
        let other: u8 = given.try_into()?;
        u8::try_from(given).map_err(Into::into).and(Ok(at.max(other)))
    }
    fn boxed(given: usize) -> Result<u8, Box<dyn std::error::Error>> {
        let at = u8::try_from(given)?;
        Ok(at.max(u8::try_from(given).map_err(Box::new)?).max("7".parse::<u8>()?))
    }
    fn own(given: usize) -> Result<u8, Own> {
        let mut s = ArrayString::<8>::from_str_truncate("ab");
        s.try_insert(u8::try_from(given)?.into(), 'c')?;
        s.try_push('d').map_err(Error::from)?;
        s.remove(given)?;
        Ok("7".parse::<u8>()?.max(u8::try_from(given).map_err(Own::from)?))
    }
    fn parsed(given: &str) -> Result<u8, ParseIntError> {
        [given].iter().try_for_each(|text| {
            text.parse::<u8>()?;
            Ok(())
        })?;
        given.parse::<u8>().map_err(Into::into)
    }
    fn never(given: u8) -> Result<usize, Infallible> {
        Ok(usize::try_from(given)?)
    }
    assert_eq!((number(1), number(256).is_err(), boxed(256).is_err(), boxed(1).ok()), (Ok(1), true, true, Some(7)));
    assert_eq!((own(1), own(256), own(9)), (Ok(7), Err(Own::Number), Err(Own::Text)));
    assert_eq!((parsed("8"), parsed("").is_err(), never(8)), (Ok(8), true, Ok(8)));
}

/// Items of each kind of text, and what is summed of them.
#[test]
fn what_is_collected_is_inferred() -> Result<(), OutOfBounds> {
    type Name = ArrayString<8>;
    let names = [Name::try_from_str("a")?, Name::try_from_str("é")?];
    let keys: [ArrayString<63>; 2] = ["b".try_into()?, 'c'.try_into()?];
    let mixed = || names.iter().map(|name| name.as_str()).chain(keys.iter().map(|key| key.as_str())).chain(["d"]);
    let made: [Name; 7] = [
        Name::try_from_iterator(mixed())?,
        ArrayString::from_iterator_truncate(mixed()),
        Name::try_from_chars(mixed().flat_map(|text| text.chars()))?,
        ArrayString::from_chars_truncate(mixed().flat_map(str::chars)),
        mixed().collect::<String>().parse()?,
        mixed().try_fold(Name::new(), |mut joined, text| joined.try_push_str(text).map(|()| joined))?,
        mixed().map(Name::try_from).collect::<Result<Vec<_>, _>>()?.concat().as_str().try_into()?,
    ];
    assert!(made.iter().all(|made| made == "aébcd"), "{made:?}");
    let sizes: [usize; 4] = [
        names.iter().map(|name| name.len()).sum(),
        mixed().map(str::len).sum::<usize>() - 3,
        mixed().map(|text| text.len()).take(2).sum(),
        names.iter().map(|name| name.chars().count() + 1).sum::<usize>() - 1,
    ];
    assert_eq!(sizes, [3; 4]);
    let owned = [String::from("a"), String::from("b")];
    let (mut joined, lent) = (owned.concat(), owned.iter().map(|text| text.as_str()).collect::<String>());
    joined.extend(owned.iter().map(|text| &**text));
    joined.extend(owned.clone());
    joined.extend(['c'].iter());
    assert_eq!((&*joined, &*lent, &*owned.iter().cloned().collect::<String>()), ("abababc", "ab", "ab"));
    Ok(())
}

/// What lends a text, bytes or units is taken where they are asked for, by a `&` before it or as the item of an iterator.
#[test]
fn what_lends_a_text_is_taken() -> Result<(), Error> {
    type Name = ArrayString<8>;
    let (owned, boxed, name) = (String::from("aé"), Box::<str>::from("aé"), Name::try_from_str("aé")?);
    let (lent, bytes, units) = (Cow::from("aé"), owned.clone().into_bytes(), vec![0x61, 0xE9]);
    let made = [
        Name::try_from_str(&owned)?,
        Name::try_from_str(&boxed)?,
        Name::try_from_str(&lent)?,
        Name::try_from_str(&name)?,
        Name::from_str_truncate(&owned),
        Name::try_from_utf8(&bytes)?,
        Name::try_from_utf8(owned.as_bytes())?,
        Name::try_from_utf8(b"a\xC3\xA9")?,
        Name::try_from_utf8_lossy(name.as_bytes())?,
        Name::from_utf8_truncate(&bytes)?,
        Name::try_from_utf16(&units)?,
        Name::try_from_utf16(&[0x61, 0xE9])?,
        Name::from_utf16_lossy_truncate(&units),
        Name::try_from_iterator([&owned])?,
        Name::try_from_iterator([owned.clone()])?,
        Name::try_from_iterator([&boxed])?,
        Name::try_from_iterator([&*lent])?,
        Name::try_from_iterator([name])?,
        Name::try_from_iterator(&[name])?,
        Name::try_from_iterator(vec!["a", "é"])?,
        Name::try_from_iterator(["a", "é"].iter())?,
        Name::try_from_iterator(Some(&*owned))?,
        Name::try_from_chars(owned.chars())?,
        Name::try_from_chars(['a', 'é'])?,
        Name::try_from_format(format_args!("{owned}"))?,
        arraystring::try_format!("{}{}", 'a', 'é')?,
        arraystring!("aé"),
    ];
    assert_eq!(made, [name; 27]);
    let mut edited = Name::new();
    edited.try_push_str(&owned)?;
    edited.try_insert_str(0, &name)?;
    edited.try_extend_strs([&owned[..1]])?;
    assert_eq!(edited.push_str_truncate(&lent), "é");
    assert_eq!(edited, "aéaéaa");
    edited.replace_range(..3, &boxed[..1])?;
    edited.replace_range(1..=3, "")?;
    assert_eq!((edited.insert_str_truncate(edited.len(), &owned), edited.as_str()), (Ok(""), "aaaaé"));
    Ok(())
}

/// What `find` and `len` answer is what an index is.
#[test]
fn an_index_is_that_of_str() -> Result<(), Box<dyn std::error::Error>> {
    let mut line = ArrayString::<16>::try_from_str("key=väl=x")?;
    let at = line.find('=').ok_or("no sign")?;
    line.try_insert(at, ' ')?;
    line.try_insert_str(at + 2, " ")?;
    assert_eq!((&line[..at], &line[at + 3..], line.as_str()), ("key", "väl=x", "key = väl=x"));
    let last = line.rfind('=').ok_or("no sign")?;
    assert_eq!((line.split_off(last)?.as_str(), line.remove(at)?), ("=x", ' '));
    line.truncate(line.trim_end_matches('l').len())?;
    let parts = line.match_indices(['=', ' ']).map(|(at, _)| at).collect::<Vec<usize>>();
    assert_eq!((parts, line.drain(..at)?.count(), line.as_str()), (vec![3, 4], 3, "= vä"));
    Ok(())
}

/// Paths and names of the operating system, made of std's texts.
#[test]
fn paths_are_made_of_texts() {
    /// A path and a name made of each text.
    macro_rules! named {
        (($t:ident, $s:ident, $b:ident, $c:ident) [$($text:expr),*]) => {$({
            let ($t, $s) = ("b", String::from("b"));
            let ($b, $c): (Box<str>, Cow<'static, str>) = ("b".into(), "b".into());
            assert_eq!((PathBuf::from($text), OsString::from($text)), ("b".into(), "b".into()));
        })*};
    }
    named!((t, s, b, c) [t, &t, s.clone(), &s, &*b, &*c, s.as_str(), String::from(&*s), &String::from(t)]);
    let (path, name): (PathBuf, OsString) = ("b".into(), "b".into());
    assert_eq!(
        (PathBuf::from(&path), PathBuf::from(&name), OsString::from(&path)),
        (path.clone(), path.clone(), name.clone())
    );
    assert_eq!((PathBuf::from(name.clone()), OsString::from(path.clone())), (path.clone(), name.clone()));
    let made: [PathBuf; 5] = [
        "b".into(),
        String::from("b").into(),
        Path::new("b").into(),
        name.clone().into(),
        Cow::from(Path::new("b")).into(),
    ];
    assert!(made.iter().all(|made| *made == path));
    let made: [OsString; 4] = ["b".into(), String::from("b").into(), OsStr::new("b").into(), path.clone().into()];
    assert!(made.iter().all(|made| *made == name));
    assert_eq!((["b"].iter().collect::<PathBuf>(), ["b"].iter().map(OsStr::new).collect::<OsString>()), (path, name));
}
