//! What is printed under each format, beside what std prints. A string is printed as its `str` is, and so are the words of an error: a
//! width pads them, and a precision shortens them. `Debug` of the types is what `derive` makes of their parts.

#[path = "../inputs/mod.rs"]
mod inputs;

mod written;

use std::fmt::{Debug, Display, Write};

use arraystring::{ArrayString, Drain, Error, MaxString, OutOfBounds, Utf8, Utf16};
use inputs::{behind, texts_of};

const TEXTS: &[&str] =
    &["", "a", "aé€🤔", "\0", "a\0b", "\"", "\\", "\n\t\r", "\u{7F}\u{80}", "'", "+", "\u{301}", "0123456789abcdef"];

/// What a derived `Debug` prints of parts like those of a drain and of the errors, under their names.
mod derived {
    #[derive(Debug)]
    #[allow(dead_code)]
    pub struct Drain<'a>(pub &'a str);

    #[derive(Debug)]
    pub enum Error {
        Utf8,
        Utf16,
        OutOfBounds,
    }
}

/// The words of a value under each kind of format of `Debug` in turn.
fn words<T: Debug>(value: T) -> [String; 7] {
    [
        format!("{value:?}"),
        format!("{value:#?}"),
        format!("{value:x?}"),
        format!("{value:#X?}"),
        format!("{value:+?}"),
        format!("{value:08?}"),
        format!("{value:>5.2?}"),
    ]
}

/// What each flag prints behind a fill and an alignment: with neither a width nor a precision, with one of them, and with both.
macro_rules! each_flag {
    ($value:ident, $width:ident, $precision:ident; $ends:literal; $($flag:literal)*) => {
        [$(
            format!(concat!("{:", $flag, $ends, "}"), $value),
            format!(concat!("{:", $flag, "1$", $ends, "}"), $value, $width),
            format!(concat!("{:", $flag, ".1$", $ends, "}"), $value, $precision),
            format!(concat!("{:", $flag, "1$.2$", $ends, "}"), $value, $width, $precision),
        )*]
    };
}

/// What a value prints under each kind of format: each alignment, with fills of one to four bytes, and each flag.
macro_rules! each_format {
    ($value:ident, $width:ident, $precision:ident; $ends:literal) => {
        each_flag!($value, $width, $precision; $ends;
            "" "+" "-" "#" "0" "+#0" "<" "^" ">" "<+" "^-" ">#" "<0" "^0" ">0" ">+#0"
            "*<" "*^" "*>" "0<" "0^" "0>" "é<" "é^" "é>" "€<" "€^" "€>" "🤔<" "🤔^" "🤔>" "🤔<#0" "é^+0" "*>-#0")
    };
}

fn displays(value: &dyn Display, width: usize, precision: usize) -> Vec<String> {
    each_format!(value, width, precision; "").into()
}

fn debugs(value: &dyn Debug, width: usize, precision: usize) -> Vec<String> {
    [
        each_format!(value, width, precision; "?"),
        each_format!(value, width, precision; "x?"),
        each_format!(value, width, precision; "X?"),
    ]
    .concat()
}

/// Asserts that a string prints what its text does, with these widths and precisions. `Debug` ignores both, so it takes the last ones.
/// Returns how many texts were printed.
fn prints_as_its_text<T: Display + Debug>(string: &T, text: &str, options: &[(usize, usize)]) -> usize {
    let mut printed = 0;
    for (width, precision) in options {
        let wanted = displays(&text, *width, *precision);
        assert_eq!(displays(string, *width, *precision), wanted, "{text:?} {width} {precision}");
        printed += wanted.len();
    }
    let (width, precision) = options[options.len() - 1];
    let wanted = debugs(&text, width, precision);
    assert_eq!(debugs(string, width, precision), wanted, "{text:?} {width} {precision}");
    printed + wanted.len()
}

/// How many texts a string prints: under 34 flags, each with and without a width and a precision, and three of them for `Debug`.
const fn count_of(options: usize) -> usize {
    34 * 4 * (options + 3)
}

#[test]
fn a_string_prints_as_its_text_under_each_format() {
    let options: Vec<_> = (0..17)
        .flat_map(|width| (0..10).map(move |precision| (width * width / 8, precision * precision / 4)))
        .collect();
    for text in TEXTS {
        let mut string = ArrayString::<23>::try_from_str(text).expect("room");
        assert_eq!(prints_as_its_text(&string, text, &options), count_of(17 * 10));
        assert_eq!((string.to_string(), words(string)), (text.to_string(), words(text)));
        assert_eq!(words(string.drain(..)), words(Ok::<_, Error>(derived::Drain(text))));
    }
}

/// Widths and precisions at which a text of so many characters is padded or cut, nearly or far, and some at which it is not.
fn edges_of(count: usize) -> [(usize, usize); 7] {
    let less = count.saturating_sub(1);
    [(0, 0), (1, 1), (less, less), (count, count), (count + 1, less), (count + 2, count / 2), (count + 5, count + 1)]
}

#[test]
fn a_string_of_each_length_prints_as_its_text() {
    for len in 0..=255 {
        // (the last of the texts begins with another character at each length)
        for text in &texts_of(len)[1..] {
            let options = edges_of(text.chars().count());
            let string = behind::<255>((255 - len) / 2, text);
            assert_eq!(prints_as_its_text(&string, text, &options), count_of(7));
        }
    }
}

/// Asserts that an error prints its words, and that its `Debug` is derived.
fn prints_its_words<T: Display + Debug, D: Debug>(error: T, text: &str, derived: D) {
    for width in 0..=text.len() + 3 {
        for precision in [0, 1, 3, 8, text.len() - 1, text.len(), text.len() + 1, width] {
            assert_eq!(displays(&error, width, precision), displays(&text, width, precision));
        }
        assert_eq!(debugs(&error, width, 2), debugs(&derived, width, 2));
    }
    assert_eq!((error.to_string().as_str(), words(&error)), (text, words(derived)));
}

#[test]
fn an_error_prints_its_words_under_each_format() {
    let utf8 = "not UTF-8, or an index inside a character";
    prints_its_words(Error::Utf8, utf8, derived::Error::Utf8);
    prints_its_words(Error::Utf16, "not UTF-16", derived::Error::Utf16);
    prints_its_words(Error::OutOfBounds, "larger than the capacity, or outside the text", derived::Error::OutOfBounds);
    prints_its_words(Utf8, utf8, derived::Error::Utf8);
    prints_its_words(Utf16, "not UTF-16", derived::Error::Utf16);
    prints_its_words(OutOfBounds, "larger than the capacity", derived::Error::OutOfBounds);
    // One of std's does so, too.
    let number = "x".parse::<u8>().expect_err("no number");
    assert_eq!(displays(&number, 40, 9), displays(&number.to_string(), 40, 9));
}

/// A width and a precision count characters, as those of `str` do.
#[test]
fn what_a_format_prints() {
    let string = ArrayString::<10>::try_from_str("aé€🤔").expect("room");
    let quoted = ArrayString::<63>::try_from_str("a\"b\n").expect("room");
    assert_eq!(format!("{string}|{string:6}|{string:>6}|{string:^6}"), "aé€🤔|aé€🤔  |  aé€🤔| aé€🤔 ");
    assert_eq!(format!("{string:.0}|{string:.2}|{string:.9}|{string:*^7.3}"), "|aé|aé€🤔|**aé€**");
    assert_eq!(format!("{string:?}|{string:#?}|{:?}", Some(string)), r#""aé€🤔"|"aé€🤔"|Some("aé€🤔")"#);
    assert_eq!(format!("{quoted:?}|{:?}", [quoted]), r#""a\"b\n"|["a\"b\n"]"#);
    assert_eq!(
        format!("{OutOfBounds:>26}|{OutOfBounds:.6}|{OutOfBounds:?}"),
        "  larger than the capacity|larger|OutOfBounds"
    );
}

/// Asserts that a `write!` of a padded text leaves what it leaves of a `str`, and refuses what does not fit. Returns whether it did.
fn is_refused<const N: usize>(held: &str, text: &str, width: usize, precision: usize) -> usize {
    let string = ArrayString::<N>::try_from_str(text).expect("room");
    let mut refused = 0;
    macro_rules! written {
        ($($format:literal)*) => {$({
            let whole = held.to_string() + &format!($format, &*string, width, precision);
            let mut lines = [ArrayString::<N>::try_from_str(held).expect("room"); 4];
            let is_ok = write!(lines[0], $format, string, width, precision).is_ok();
            assert_eq!(is_ok, whole.len() <= N, "{held} {string:?} {width} {precision}");
            assert_eq!(write!(lines[1], $format, &*string, width, precision).is_ok(), is_ok);
            assert_eq!(lines[0], lines[1]);
            assert!(lines[0].starts_with(held) && whole.starts_with(&*lines[0]) && (lines[0] == *whole) == is_ok);
            assert_eq!(lines[2].try_write(format_args!($format, string, width, precision)).is_ok(), is_ok);
            assert_eq!(lines[2], if is_ok { &*whole } else { held });
            assert_eq!(lines[3].write_truncate(format_args!($format, string, width, precision)), Ok(!is_ok));
            assert_eq!(lines[3], ArrayString::<N>::from_str_truncate(&whole));
            refused += usize::from(!is_ok);
        })*};
    }
    written!("{:1$.2$}" "{:>1$.2$}" "{:^1$.2$}" "{:é<1$.2$}" "{:🤔>1$.2$}" "{:€^01$.2$}" "{:1$.2$?}" "-{:*>1$.2$}é");
    refused
}

/// Padding is written piece by piece: what does not fit is refused, and what went before it stays.
#[test]
fn padding_that_does_not_fit_is_refused() {
    fn at<const N: usize>() {
        let mut refused = 0;
        for held in ["", "x", "éé", "abcdef"].into_iter().filter(|held| held.len() <= N) {
            for text in ["", "a", "é", "aé€🤔"].into_iter().filter(|text| text.len() <= N) {
                for (width, precision) in (0..=12).flat_map(|width| (0..=4).map(move |precision| (width, precision))) {
                    refused += is_refused::<N>(held, text, width, precision);
                }
            }
        }
        assert!(refused > 0);
    }
    at::<0>();
    at::<1>();
    at::<2>();
    at::<3>();
    at::<5>();
    at::<8>();
    at::<10>();
    at::<12>();
    at::<23>();
    let mut line = ArrayString::<4>::try_from_str("x").expect("room");
    assert!(write!(line, "{:>6}", ArrayString::<2>::from_str_truncate("ab")).is_err());
    assert_eq!(line, "x   ");
}

#[test]
fn a_walked_drain_prints_what_is_left() {
    let mut drain: Drain<10> = ArrayString::<10>::from_str_truncate("aé€🤔").drain(..).expect("all of it");
    for left in ["aé€🤔", "é€🤔", "€🤔", "🤔", ""] {
        assert_eq!(format!("{drain:?}"), format!("Drain({left:?})"));
        drain.next();
    }
}

#[test]
fn a_drain_of_each_length_prints_what_is_left() {
    for len in 0..=255 {
        let [_, _, text] = texts_of(len);
        let mut string = MaxString::from_str_truncate(&text);
        let (drain, left) = (string.drain(..).expect("all of it"), derived::Drain(&text));
        assert_eq!((format!("{drain:?}"), format!("{drain:#?}")), (format!("{left:?}"), format!("{left:#?}")));
    }
}
