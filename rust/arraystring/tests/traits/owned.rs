//! Strings beside what is allocated: what is copied and lent of a string, what is compared with it, and what is collected of many. With
//! the feature `std` paths and names of the operating system.

use std::borrow::Cow;
use std::rc::Rc;
use std::sync::Arc;
#[cfg(feature = "std")]
use std::{
    ffi::{OsStr, OsString},
    path::{Path, PathBuf},
};

use arraystring::ArrayString;

use crate::inputs::{Told, at_capacities, behind, edges, hints, some_offsets, texts_of};

/// Asserts what is copied and lent of a string of a text.
fn is_copied<const N: usize>(string: ArrayString<N>, text: &str) {
    let copies: [Cow<str>; 6] = [
        String::from(string).into(),
        String::from(&string).into(),
        String::from(Box::<str>::from(string)).into(),
        Cow::from(string),
        String::from_utf8(Vec::from(string)).expect("a text").into(),
        String::from_utf8(Vec::from(&string)).expect("a text").into(),
    ];
    assert!(copies.iter().all(|copy| matches!(copy, Cow::Owned(copy) if copy == text)), "{text:?}");
    let (counted, shared): (Rc<str>, Arc<str>) = (string.into(), string.into());
    assert_eq!((&*counted, &*shared), (text, text));
    let lent = Cow::from(&string);
    assert!(matches!(lent, Cow::Borrowed(lent) if lent == text && lent.as_ptr() == string.as_str().as_ptr()));
    // (another one in front, so that their order shows)
    let (mut less, mut shorter) = (string, text.to_string());
    assert_eq!(less.pop(), shorter.pop());
    let (strings, joined) = ([less, string, string], [&*shorter, text, text].concat());
    assert_eq!(strings.into_iter().collect::<String>(), joined);
    assert_eq!(&*strings.into_iter().collect::<Box<str>>(), joined);
    assert_eq!(strings.into_iter().collect::<Cow<str>>(), joined);
    let mut extended = String::from("~");
    extended.extend(strings);
    assert_eq!(extended, format!("~{joined}"));
}

#[test]
fn a_string_of_each_length_is_copied() {
    fn at<const N: usize>() {
        for len in 0..=N {
            let text = &texts_of(len)[len % 3];
            for offset in some_offsets(N - len) {
                is_copied(behind::<N>(offset, text), text);
            }
        }
    }
    at_capacities!(at);
}

/// Asserts `==` between a string of a text and each owned text of another one, on both sides.
fn is_beside<const N: usize>(string: ArrayString<N>, text: &str, other: &str) {
    let (owned, wanted) = (other.to_string(), [[text == other; 2], [text != other; 2]]);
    assert_eq!([[string == owned, owned == string], [string != owned, owned != string]], wanted, "{text:?} {other:?}");
    for cow in [Cow::Borrowed(other), Cow::Owned(owned)] {
        assert_eq!([[string == cow, cow == string], [string != cow, cow != string]], wanted, "{text:?} {other:?}");
    }
}

/// What a text is compared with: itself, longer ones, also by as many bytes as a byte counts, each prefix, and those of its length that
/// have another character of the same width at a place.
#[test]
fn a_string_is_beside_owned_texts() {
    fn at<const N: usize>() {
        for text in edges(N).into_iter().filter(|len| *len <= N).flat_map(texts_of) {
            let string = behind::<N>(N, &text);
            for more in [0, 1, 255, 256, 257, 512] {
                is_beside(string, &text, &(text.clone() + &"~".repeat(more)));
            }
            is_beside(string, &text, &format!("m{text}"));
            for (at, ch) in text.char_indices() {
                let width = ch.len_utf8();
                let other = ["a", "è", "₭", "🤕"].map(|it| if it.starts_with(ch) { "b" } else { it })[width - 1];
                is_beside(string, &text, &format!("{}{other}{}", &text[..at], &text[at + width..]));
                is_beside(string, &text, &text[..at]);
            }
        }
    }
    at_capacities!(at);
}

/// Asserts what is collected and extended of strings, whatever is told of their number: it may be false, and too large to reckon with.
fn are_joined<const N: usize>(strings: &[ArrayString<N>], wanted: &str) {
    for hint in hints(strings.len()) {
        let told = || strings.iter().copied();
        let (mut extended, mut taken) = (String::from("~"), 0);
        extended.extend(Told { items: told(), hint, taken: &mut taken });
        assert_eq!((&extended[1..], taken), (wanted, strings.len()), "{hint:?}");
        let (mut text, mut boxed, mut lent) = (0, 0, 0);
        assert_eq!(Told { items: told(), hint, taken: &mut text }.collect::<String>(), wanted);
        assert_eq!(*Told { items: told(), hint, taken: &mut boxed }.collect::<Box<str>>(), *wanted);
        assert_eq!(Told { items: told(), hint, taken: &mut lent }.collect::<Cow<str>>(), wanted);
        assert_eq!([text, boxed, lent], [strings.len(); 3]);
    }
}

/// More strings than a byte counts are collected, and those behind as well as the first ones.
#[test]
fn strings_are_collected_whatever_their_number() {
    for count in (0..=8).chain(250..=260).chain([511, 512, 513, 1000, 70_000]) {
        let texts: Vec<String> = (0..count).map(|at| (at % 10).to_string()).collect();
        let strings: Vec<_> = texts.iter().map(|text| ArrayString::<4>::try_from(text).expect("room")).collect();
        are_joined(&strings, &texts.concat());
    }
}

/// A text taken out of a string, and put back: no conversion changes a byte.
#[test]
fn a_copy_is_taken_back() {
    for text in (0..=255).flat_map(texts_of) {
        let string = ArrayString::<255>::try_from(&text).expect("room");
        let taken: [Result<ArrayString<255>, _>; 3] =
            [String::from(string).try_into(), Box::<str>::from(string).try_into(), Cow::from(&string).try_into()];
        assert_eq!(taken, [Ok(string); 3]);
    }
}

#[cfg(feature = "std")]
#[test]
fn a_path_of_each_length_is_the_text() {
    for text in (0..=255).flat_map(texts_of) {
        let string = behind::<255>(255 - text.len(), &text);
        assert_eq!((AsRef::<OsStr>::as_ref(&string), AsRef::<Path>::as_ref(&string)), (text.as_ref(), text.as_ref()));
        let (path, name): (PathBuf, OsString) = (string.into(), string.into());
        assert_eq!([path.as_os_str(), &name], [OsStr::new(&text); 2]);
        // Std makes these of each `AsRef<OsStr>`.
        assert_eq!([PathBuf::from(&string).as_os_str(), &OsString::from(&string)], [OsStr::new(&text); 2]);
    }
}

/// As paths `a/` and `./a` are equal, since these are compared by their parts. So what is lent and what is owned is compared byte by byte.
#[cfg(feature = "std")]
#[test]
fn a_path_has_each_byte_of_the_text() {
    for front in ["", "/", "./", "//", "../"] {
        for middle in ["a", "é", "a/b", "a//b", "a/./b", " ", "."] {
            for back in ["", "/", "//", "/.", "\\", " ", "\0"] {
                let text = [front, middle, back].concat();
                let string = behind::<16>(16, &text);
                let (path, name): (&Path, &OsStr) = (string.as_ref(), string.as_ref());
                let (owned_path, owned_name): (PathBuf, OsString) = (string.into(), string.into());
                for name in [path.as_os_str(), name, owned_path.as_os_str(), &owned_name] {
                    assert_eq!(name.as_encoded_bytes(), text.as_bytes());
                }
            }
        }
    }
}
