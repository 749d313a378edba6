//! Constants of a text: `arraystring!` at each length that fits, beside `try_from_str`. What does not fit is no program, as the
//! examples of the macro show, since what it is made of panics there: exactly where `try_from_str` refuses.

use std::panic::{catch_unwind, set_hook};
use std::str::from_utf8;

use arraystring::{ArrayString, CacheString, MaxString, OutOfBounds, SmallString, arraystring};
use inputs::at_capacities;

mod inputs;

/// Bytes of two texts: one of a byte each, and one of characters of one to four.
const TEXTS: [[u8; 512]; 2] = [repeated(*b"m"), repeated([b'a', 0xC3, 0xA9, 0xE2, 0x82, 0xAC, 0xF0, 0x9F, 0xA4, 0x94])];

/// Some bytes again and again.
const fn repeated<const LEN: usize>(bytes: [u8; LEN]) -> [u8; 512] {
    let (mut made, mut at) = ([0; 512], 0);
    while at < made.len() {
        made[at] = bytes[at % LEN];
        at += 1;
    }
    made
}

/// The longest prefix of whole characters of a text that takes at most so many bytes, and no more than a capacity.
const fn prefix<const N: usize, const TEXT: usize>(size: usize) -> &'static str {
    let mut end = if size < N { size } else { N };
    loop {
        match from_utf8(TEXTS[TEXT].split_at(end).0) {
            Ok(text) => return text,
            Err(_) => end -= 1,
        }
    }
}

/// Strings of the prefixes of 0 to 255 bytes of a text, each by the macro.
macro_rules! each_prefix {
    ($capacity:ident, $text:ident: $($tens:literal)*) => {
        [$(each_prefix!($capacity, $text, $tens, 0 1 2 3 4 5 6 7 8 9 10 11 12 13 14 15)),*]
    };
    ($capacity:ident, $text:ident, $tens:literal, $($ones:literal)*) => {
        [$(arraystring!(prefix::<$capacity, $text>(16 * $tens + $ones))),*]
    };
}

/// Asserts that strings of each length are what `try_from_str` makes.
fn are_constants<const N: usize, const TEXT: usize>() {
    let made: [[ArrayString<N>; 16]; 16] = each_prefix!(N, TEXT: 0 1 2 3 4 5 6 7 8 9 10 11 12 13 14 15);
    for (size, string) in made.as_flattened().iter().enumerate() {
        let wanted = prefix::<N, TEXT>(size);
        assert_eq!(Ok(*string), ArrayString::try_from_str(wanted), "{N}");
        assert_eq!((string.as_str(), string.len()), (wanted, wanted.len()), "{N}");
        let (mut filled, more) = (*string, "~".repeat(300));
        assert_eq!(filled.push_str_truncate(&more).len(), 300 - (N - wanted.len()), "{N}");
        assert_eq!(filled.as_str(), wanted.to_string() + &"~".repeat(N - wanted.len()), "{N}");
    }
}

#[test]
fn a_constant_of_each_length() {
    fn at<const N: usize>() {
        are_constants::<N, 0>();
        are_constants::<N, 1>();
    }
    // The compiler makes each of these, so not at all capacities of the table.
    at_capacities!(at: 0 1 2 3 4 23 63 254 255);
}

/// Asserts that a text is made where it fits, and that the call panics elsewhere.
fn is_made_or_panics<const N: usize>(text: &str) {
    let made = catch_unwind(|| ArrayString::<N>::of_constant(text)).ok();
    assert_eq!(made.is_some(), text.len() <= N, "{N}: {text}");
    assert_eq!(made, ArrayString::try_from_str(text).ok(), "{N}: {text}");
    assert_eq!(made.ok_or(OutOfBounds), ArrayString::const_try_from_str(text), "{N}: {text}");
}

#[test]
fn what_is_made_in_a_constant_panics_where_the_text_does_not_fit() {
    fn at<const N: usize>() {
        for ch in ["m", "\0", "é", "€", "🤔"] {
            for count in 0..=520 / ch.len() {
                is_made_or_panics::<N>(&ch.repeat(count));
                is_made_or_panics::<N>(&("a".to_string() + &ch.repeat(count)));
                is_made_or_panics::<N>(&(ch.repeat(count) + "a"));
            }
        }
    }
    // (without the frames of each)
    set_hook(Box::new(|panic| eprintln!("{panic}")));
    at_capacities!(at);
}

#[test]
fn each_character_is_made_in_a_constant() {
    for ch in (0..0x800).chain((0x800..0x11_0000).step_by(251)).filter_map(char::from_u32) {
        for text in [format!("{ch}"), format!("a{ch}"), format!("{ch}a"), format!("{ch}{ch}")] {
            assert_eq!(ArrayString::<8>::of_constant(&text).as_str(), text);
        }
    }
}

#[test]
fn the_capacity_is_that_of_the_type() {
    const GREETING: ArrayString<8> = arraystring!("hello");
    static KEY: CacheString = arraystring!(concat!("user:", 42));
    const NAMES: [SmallString; 2] = [arraystring!("aé"), arraystring!("€🤔")];
    const LARGEST: MaxString = arraystring!(prefix::<255, 0>(300),);
    const NONE: ArrayString<0> = arraystring!("");
    struct Row {
        name: ArrayString<5>,
    }
    fn of_any<const N: usize>() -> ArrayString<N> {
        arraystring!("ab")
    }
    fn given(name: ArrayString<6>) -> ArrayString<6> {
        name
    }
    let row = Row { name: arraystring!("hello") };
    assert_eq!((GREETING.as_str(), KEY.as_str(), NONE.as_str()), ("hello", "user:42", ""));
    assert_eq!((NAMES.map(|name| name.len()), LARGEST.len()), ([3, 7], 255));
    assert_eq!((row.name.as_str(), given(arraystring!("hello!")).as_str()), ("hello", "hello!"));
    assert_eq!((of_any::<2>().as_str(), of_any::<255>().as_str()), ("ab", "ab"));
    assert_eq!(of_any::<2>(), arraystring::arraystring!("ab"));
}

/// What is read of a string is read in a constant, too.
#[test]
fn a_constant_is_read_in_constants() {
    const NAME: SmallString = arraystring!("aé");
    const EMPTY: SmallString = SmallString::new();
    const TEXT: &str = NAME.as_str();
    const BYTES: &[u8] = NAME.as_bytes();
    const ROOM: [u8; NAME.remaining_capacity()] = [0; NAME.capacity() - NAME.len()];
    const TOLD: [bool; 4] = [NAME.is_empty(), NAME.is_full(), EMPTY.is_empty(), EMPTY.is_full()];
    const REFUSED: bool = ArrayString::<2>::const_try_from_str(TEXT).is_err();
    assert_eq!((TEXT, BYTES, ROOM.len()), ("aé", "aé".as_bytes(), 20));
    assert_eq!((TOLD, REFUSED), ([false, false, true, false], true));
}

/// A program may have a module of its own that is named as a crate of the macros.
mod beside_other_names {
    mod core {}
    mod std {}
    mod alloc {}
    mod arraystring {}

    use ::arraystring::{ArrayString, arraystring, try_format};

    #[test]
    fn the_macros_name_what_they_call_by_its_crate() {
        let made: ArrayString<8> = try_format!("{}-{:02}", "ab", 7).expect("room");
        assert_eq!((made.as_str(), made), ("ab-07", arraystring!("ab-07")));
    }
}
