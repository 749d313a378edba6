//! A string beside texts and strings, by each sign: texts that differ in one place, that are longer, also by as many bytes as a byte
//! counts, and parts of the string itself, which have its address, and another length, or its end, and another start. The signs are those
//! of `str`.

#[cfg(feature = "alloc")]
use std::borrow::Cow;
use std::cmp::Ordering;

use arraystring::ArrayString;
#[cfg(feature = "alloc")]
use arraystring::MaxString;
use inputs::{CHARS, GIVEN, MOST, at_capacities, behind, hash_of, is_beside, letters, mixed, some_offsets};

mod inputs;

/// Texts of each length up to a size in bytes, with each character at the front, in the middle and at the end.
fn texts(size: usize) -> Vec<String> {
    let mut texts = vec![String::new()];
    for len in 0..size {
        let ch = CHARS[len % CHARS.len()];
        for text in [format!("{ch}{}", "m".repeat(len)), format!("{}{ch}", "m".repeat(len))] {
            texts.push(text);
        }
        texts.push(format!("{}{ch}{}", "m".repeat(len / 2), "m".repeat(len - len / 2)));
    }
    texts.extend(CHARS.iter().flat_map(|one| CHARS.iter().map(move |other| format!("{one}{other}"))));
    texts.retain(|text| text.len() <= size);
    // A character has at most four bytes.
    let pairs = if size < 8 { 0 } else { CHARS.len() * CHARS.len() };
    assert!(texts.len() > 3 * size.saturating_sub(3) + pairs);
    texts
}

/// Texts that begin with a text and are longer, also by as many bytes as a byte counts, so that the lengths are one byte.
fn lengthened(text: &str) -> impl Iterator<Item = String> + '_ {
    [1, 255, 256, 257, 512].into_iter().flat_map(move |more| ["m", "\0"].map(|ch| text.to_string() + &ch.repeat(more)))
}

/// What a text of letters is compared with: each prefix, itself among them, texts that are longer, and those of its length that
/// have another byte at a place.
fn others(text: &str) -> Vec<String> {
    let mut others: Vec<String> = (0..=text.len()).map(|len| text[..len].to_string()).chain(lengthened(text)).collect();
    for place in 0..text.len() {
        for letter in ["a", "z"] {
            let mut other = text.to_string();
            other.replace_range(place..=place, letter);
            others.push(other);
        }
    }
    assert_eq!(others.len(), 1 + text.len() + 10 + 2 * text.len());
    others
}

#[test]
fn strings_and_texts_are_compared() {
    fn at<const N: usize>() {
        let texts = texts(N.min(17));
        for text in &texts {
            for offset in [0, 1, 3] {
                let string = behind::<N>(offset, text);
                for other in texts.iter().cloned().chain(lengthened(text)) {
                    is_beside!(&string, text, &other);
                }
            }
        }
    }
    // The texts are the same from 17 on, so not at all capacities of the table.
    at_capacities!(at: 0 1 2 3 4 7 8 16 23 63 64 127 254 255);
}

#[test]
fn long_texts_differ_at_each_place() {
    fn at<const N: usize>() {
        for len in 0..=N {
            let text = "m".repeat(len);
            let string = ArrayString::<N>::try_from_str(&text).expect("it fits");
            for other in others(&text) {
                is_beside!(&string, &text, &other);
            }
        }
    }
    at_capacities!(at);
}

/// Each part of a text that has its start, its end, or its middle.
fn parts(text: &str) -> impl Iterator<Item = (usize, usize)> + '_ {
    let len = text.len();
    let ends = (0..=len).flat_map(move |at| [(0, at), (at, len), (at.min(len - at), at.max(len - at))]);
    ends.filter(|(start, end)| text.is_char_boundary(*start) && text.is_char_boundary(*end))
}

/// Asserts all signs between a string and its parts, and returns how many parts these were.
macro_rules! beside_its_parts {
    ($string:expr, $text:expr) => {{
        let (string, text): (_, &str) = ($string, $text);
        let mut count = 0;
        for (start, end) in parts(text) {
            let part = &string.as_str()[start..end];
            is_beside!(string, text, part);
            #[cfg(feature = "alloc")]
            {
                let cow = Cow::Borrowed(part);
                assert_eq!([*string == cow, cow == *string], [text == part; 2], "{text:?} and {part:?}");
            }
            count += 1;
        }
        count
    }};
}

#[test]
fn a_string_beside_its_own_parts() {
    /// Each length at some offsets. In the largest arrays that of 255 bytes has all lengths, and two offsets.
    fn at<const N: usize>() {
        let lengths = 0..=N;
        for len in lengths.filter(|len| N <= 129 || N == MOST || len % 16 == 0 || len + 3 > MOST) {
            let room = N - len;
            let offsets = if N > 65 { vec![0, room] } else { some_offsets(room) };
            for offset in offsets {
                let string = behind::<N>(offset, &letters(len));
                assert_eq!(beside_its_parts!(&string, &letters(len)), 3 * (len + 1));
            }
            let wide = mixed(len, len % 11);
            let count = beside_its_parts!(&behind::<N>(room, &wide), &wide);
            assert!(count > 2 * wide.chars().count());
        }
    }
    at_capacities!(at);
}

#[test]
fn a_string_beside_parts_of_a_copy() {
    // The same bytes at another address, so that nothing but the texts can tell.
    for len in 0..=MOST {
        let (text, other) = (mixed(len, 0), mixed(len, 0));
        let string = behind::<255>(MOST - len, &text);
        for (start, end) in parts(&text) {
            is_beside!(&string, &text, &other[start..end]);
        }
    }
}

#[test]
fn a_string_of_each_length_beside_texts_of_each_length() {
    // All are prefixes of one text, so that their lengths alone tell them apart: also those by which a byte is the same.
    let text = letters(520);
    for len in 0..=MOST {
        let string = behind::<255>(MOST - len, &text[..len]);
        for given in GIVEN {
            is_beside!(&string, &text[..len], &text[..given]);
        }
    }
}

/// The answers of all signs between two values.
fn signs<T: Ord>(one: &T, other: &T) -> ([bool; 6], Option<Ordering>, Ordering) {
    let signs = [one == other, one != other, one < other, one <= other, one > other, one >= other];
    (signs, one.partial_cmp(other), one.cmp(other))
}

/// Asserts `==` between a string of a text and what owns or lends another one, on both sides.
#[cfg(feature = "alloc")]
macro_rules! is_equal_to_an_owned_one {
    ($string:expr, $text:expr, $other:expr) => {{
        let (string, owned, cow) = ($string, $other.to_string(), Cow::from($other));
        let equal = [string == owned, owned == string, string == cow, cow == string];
        let unequal = [string != owned, owned != string, string != cow, cow != string];
        assert_eq!((equal, unequal), ([$text == $other; 4], [$text != $other; 4]), "{:?} and {owned:?}", $text);
    }};
}

#[test]
fn strings_beside_each_other() {
    let chars = || CHARS.into_iter().chain(['A']).map(String::from);
    let pairs = chars().flat_map(|one| chars().map(move |other| one.clone() + &other));
    let texts: Vec<String> = [String::new()].into_iter().chain(chars()).chain(pairs).collect();
    for (one, other) in texts.iter().flat_map(|one| texts.iter().map(move |other| (&**one, &**other))) {
        let wanted = signs(&one, &other);
        assert_eq!(signs(&behind::<8>(0, one), &behind::<8>(8, other)), wanted, "{one:?} and {other:?}");
        let hashes = [hash_of(&behind::<8>(0, one)), hash_of(&behind::<8>(8, one))];
        assert_eq!(hashes, [hash_of(one); 2], "{one:?}");
        is_beside!(&behind::<8>(8, one), one, other);
        #[cfg(feature = "alloc")]
        is_equal_to_an_owned_one!(behind::<8>(8, one), one, other);
    }
}

#[cfg(feature = "alloc")]
#[test]
fn a_string_of_each_length_beside_owned_ones_of_each_length() {
    let text = letters(520);
    for given in GIVEN {
        let owned = text[..given].to_string();
        for len in 0..=MOST {
            let string = MaxString::try_from_str(&text[..len]).expect("it fits");
            assert_eq!((string == owned, owned == string), (len == given, len == given), "{len} and {given}");
            assert_eq!((string != owned, owned != string), (len != given, len != given), "{len} and {given}");
        }
    }
}
