//! What is made of a text in a constant, of what a format prints, of bytes with faults, and of what owns or lends a text.

use std::cell::Cell;
use std::fmt;

use arraystring::{ArrayString, Error, OutOfBounds, Utf16, arraystring, try_format};
use inputs::{GIVEN, at_capacities, cut, edges, texts_of};

mod inputs;

#[test]
fn formats_of_each_length_are_made_whole_or_refused() {
    fn at<const N: usize>() {
        for text in GIVEN.filter(|len| *len <= 260 || len % 52 == 0).flat_map(texts_of) {
            let (half, rest) = text.split_at(cut(&text, text.len() / 2).len());
            let made: [Result<ArrayString<N>, fmt::Error>; 4] = [
                try_format!("{text}"),
                try_format!("{half}{rest}"),
                try_format!("{}{1}", half, rest),
                try_format!("{front}{}", rest, front = half),
            ];
            let wanted = if text.len() <= N { Ok(&*text) } else { Err(fmt::Error) };
            assert_eq!(
                made.each_ref().map(|made| made.as_ref().map(|made| made.as_str()).map_err(|_| fmt::Error)),
                [wanted; 4]
            );
        }
    }
    at_capacities!(at);
}

/// What a format takes is evaluated once, and printed once.
#[test]
fn a_format_is_printed_once() {
    struct Counted<'a>(&'a Cell<u32>);
    impl fmt::Display for Counted<'_> {
        fn fmt(&self, f: &mut fmt::Formatter) -> fmt::Result {
            self.0.set(self.0.get() + 1);
            f.write_str("abc")
        }
    }
    fn at<const N: usize>() {
        let (printed, mut evaluated) = (Cell::new(0), 0);
        let mut counted = || {
            evaluated += 1;
            Counted(&printed)
        };
        let made: [Result<ArrayString<N>, fmt::Error>; 2] =
            [try_format!("{}", counted()), ArrayString::try_from_format(format_args!("{}", counted()))];
        let mut string = ArrayString::<N>::new();
        let written = [
            string.try_write(format_args!("{}", counted())).is_ok(),
            string.write_truncate(format_args!("{}", counted())).is_ok(),
        ];
        assert_eq!((made.map(|made| made.is_ok()), written), ([N >= 3; 2], [N >= 3, true]));
        assert_eq!((evaluated, printed.get()), (4, 4));
    }
    at_capacities!(at: 0 1 2 3 4 255);
}

/// Asserts what is made of a format that is a text and has no arguments: std knows such a text without printing it.
macro_rules! literals_are_made {
    ($($capacity:literal)*: $text:literal) => {$({
        let (text, mut string): (&str, _) = ($text, ArrayString::<$capacity>::new());
        let wanted = if text.len() <= $capacity { Ok(text) } else { Err(fmt::Error) };
        let made: [Result<ArrayString<$capacity>, fmt::Error>; 2] =
            [try_format!($text), ArrayString::try_from_format(format_args!($text))];
        for made in &made {
            assert_eq!(made.as_ref().map(|made| made.as_str()).map_err(|refusal| *refusal), wanted);
        }
        assert_eq!(string.try_write(format_args!($text)), wanted.map(|_| ()));
        assert_eq!(string.as_str(), wanted.unwrap_or(""));
        let mut cut_string = ArrayString::<$capacity>::new();
        assert_eq!(cut_string.write_truncate(format_args!($text)), Ok(text.len() > $capacity));
        assert_eq!(cut_string.as_str(), cut(text, $capacity));
    })*};
}

#[test]
fn a_format_without_arguments_is_made_whole_or_refused() {
    literals_are_made!(0 1 8: "");
    literals_are_made!(0 1 8: " ");
    literals_are_made!(0 1 2 3 4 5 6 7 8: "\u{FEFF}é ");
    literals_are_made!(0 1 2 3 8: "a\0\n");
    literals_are_made!(15 16 17: "0123456789abcdef");
    literals_are_made!(62 63 64 65: "0123456789abcdef0123456789abcdef0123456789abcdef0123456789abcde");
    literals_are_made!(62 63 64 65: "0123456789abcdef0123456789abcdef0123456789abcdef0123456789abcdef");
}

/// A text in a constant is all of it.
#[test]
fn constants_have_each_byte_of_their_texts() {
    macro_rules! is_constant {
        ($($text:literal)*) => {$({
            const TEXT: ArrayString<{ $text.len() }> = arraystring!($text);
            const LARGER: ArrayString<255> = arraystring!($text);
            const TRIED: Result<ArrayString<{ $text.len() }>, OutOfBounds> = ArrayString::const_try_from_str($text);
            assert_eq!((TEXT.as_str(), LARGER.as_str(), TRIED), ($text, $text, Ok(TEXT)));
        })*};
    }
    is_constant!("" " " "a" "\0" "a\0b" " a " "\ta\n" "é" "\u{FEFF}a\u{FEFF}" "\u{A0}🤔\u{3000}"
        "0123456789abcdef0123456789abcdef0123456789abcdef0123456789abcdef");
}

#[test]
fn a_text_that_is_no_constant_is_made_whole_or_panics() {
    fn at<const N: usize>() {
        for text in edges(N).into_iter().chain([256, 300]).flat_map(texts_of) {
            let made = std::panic::catch_unwind(|| ArrayString::<N>::of_constant(&text));
            let wanted = (text.len() <= N).then_some(&*text);
            assert_eq!(made.as_ref().ok().map(|made| made.as_str()), wanted, "{N}");
        }
    }
    at_capacities!(at: 0 1 2 4 8 63 254 255);
}

/// Bytes of so many, of texts with a fault at some places: a byte that no text has, one that begins no character, and those that
/// begin one that is not there.
fn faulty(len: usize) -> Vec<Vec<u8>> {
    let mut all = vec![vec![0xFF; len], vec![0xF0; len], [0xE2, 0x82].repeat(len.div_ceil(2))];
    for (text, fault) in texts_of(len).iter().flat_map(|text| [0xFF, 0x80, 0xC3, 0xF0].map(|fault| (text, fault))) {
        for at in [0, 1, len / 2, len.saturating_sub(2), len.saturating_sub(1)].into_iter().filter(|at| *at < len) {
            let mut bytes = text.clone().into_bytes();
            bytes[at] = fault;
            all.push(bytes);
        }
    }
    all.extend(texts_of(len).map(String::into_bytes));
    all
}

#[test]
fn bytes_with_faults_are_read_as_those_of_a_string() {
    /// Lengths about the capacity, and less than a third of it: each byte that is no text takes three.
    fn at<const N: usize>(all: &[Vec<u8>]) {
        for given in all {
            let wanted = String::from_utf8_lossy(given);
            let made = ArrayString::<N>::from_utf8_lossy_truncate(given);
            assert_eq!(made.as_str(), cut(&wanted, N), "{N} {given:?}");
            let whole = ArrayString::<N>::try_from_utf8_lossy(given);
            assert_eq!(
                whole.as_deref(),
                if wanted.len() <= N { Ok(&*wanted) } else { Err(&OutOfBounds) },
                "{N} {given:?}"
            );
        }
    }
    let lengths =
        (0..=10).chain(19..=24).chain(60..=70).chain(82..=88).chain(125..=131).chain(250..=262).chain([300, 520]);
    let all: Vec<_> = lengths.flat_map(faulty).collect();
    macro_rules! at_each {
        ($($capacity:literal)*) => {
            $(at::<$capacity>(&all);)*
        };
    }
    at_each!(0 1 2 3 4 8 23 63 64 128 254 255);
}

#[test]
fn a_refusal_says_out_of_bounds() {
    const REFUSED: Result<ArrayString<3>, OutOfBounds> = ArrayString::const_try_from_str("abcd");
    const MADE: Result<ArrayString<3>, OutOfBounds> = ArrayString::const_try_from_str("aé");
    assert_eq!((REFUSED.err(), MADE.as_deref()), (Some(OutOfBounds), Ok("aé")));
}

#[test]
fn each_lone_surrogate_is_an_error_of_utf16() {
    for unit in 0xD800..=0xDFFF {
        let lone = char::decode_utf16([unit]).find_map(Result::err).expect("it has no partner");
        assert_eq!((Utf16::from(lone.clone()), Error::from(lone)), (Utf16, Error::Utf16), "{unit:X}");
    }
}

/// Texts that are owned or lent, as std's `TryFrom` takes them.
#[cfg(feature = "alloc")]
#[test]
fn what_owns_a_text_is_made_whole_or_refused() {
    use std::borrow::Cow;
    fn at<const N: usize>() {
        for text in edges(N).into_iter().chain([256, 300]).flat_map(texts_of) {
            let owned = text.clone();
            let made: [Result<ArrayString<N>, OutOfBounds>; 5] = [
                ArrayString::try_from(&owned),
                ArrayString::try_from(owned.clone()),
                ArrayString::try_from(Box::<str>::from(&*owned)),
                ArrayString::try_from(Cow::Borrowed(&*owned)),
                ArrayString::try_from(Cow::<str>::Owned(owned.clone())),
            ];
            let wanted = if text.len() <= N { Ok(&*text) } else { Err(&OutOfBounds) };
            assert_eq!(made.each_ref().map(|made| made.as_deref()), [wanted; 5], "{N}");
        }
    }
    at_capacities!(at: 0 1 4 8 63 254 255);
}
