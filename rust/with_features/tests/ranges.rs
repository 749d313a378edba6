//! Texts and bytes of each length, a fault of UTF-8 at each place, and what a refusal says: a format may show its numbers and bytes
//! in another way than by words.

use std::fmt::{self, Display};

use arraystring::ArrayString;
use inputs::{GIVEN, cut, texts_of};
use serde::Deserialize;
use serde::de::value::{
    BorrowedBytesDeserializer, BorrowedStrDeserializer, BytesDeserializer, CharDeserializer, StrDeserializer,
    StringDeserializer, U64Deserializer, UnitDeserializer,
};
use serde::de::{Error, Expected, IntoDeserializer, Unexpected};
use with_features::Truncated;

mod inputs;

/// What a string is read from that refuses what does not fit, and what one that cuts it.
fn expected(capacity: usize) -> [String; 2] {
    [format!("a text of at most {capacity} bytes"), "a text".to_string()]
}

/// A refusal, by its parts: the length or the bytes of what was given, and what was expected.
#[derive(Clone, Debug, PartialEq)]
enum Refusal {
    Length(usize, String),
    Bytes(Vec<u8>, String),
    Type(String),
    Other(String),
}

impl Display for Refusal {
    fn fmt(&self, f: &mut fmt::Formatter<'_>) -> fmt::Result {
        write!(f, "{self:?}")
    }
}

impl std::error::Error for Refusal {}

impl Error for Refusal {
    fn custom<T: Display>(words: T) -> Self {
        Refusal::Other(words.to_string())
    }

    fn invalid_length(len: usize, expected: &dyn Expected) -> Self {
        Refusal::Length(len, expected.to_string())
    }

    fn invalid_value(given: Unexpected, expected: &dyn Expected) -> Self {
        match given {
            Unexpected::Bytes(bytes) => Refusal::Bytes(bytes.to_vec(), expected.to_string()),
            given => Refusal::Other(given.to_string()),
        }
    }

    fn invalid_type(_given: Unexpected, expected: &dyn Expected) -> Self {
        Refusal::Type(expected.to_string())
    }
}

/// What comes of a text by each way in which it is given.
fn each_way<'a, T: Deserialize<'a>>(text: &'a str) -> [Result<T, Refusal>; 5] {
    let copied: StrDeserializer<Refusal> = text.into_deserializer();
    let owned: StringDeserializer<Refusal> = text.to_string().into_deserializer();
    let bytes: BytesDeserializer<Refusal> = text.as_bytes().into_deserializer();
    [
        T::deserialize(copied),
        T::deserialize(BorrowedStrDeserializer::new(text)),
        T::deserialize(owned),
        T::deserialize(bytes),
        T::deserialize(BorrowedBytesDeserializer::new(text.as_bytes())),
    ]
}

/// Asserts what comes of texts of each length at a capacity, and returns how many were tried.
fn texts_at<const N: usize>() -> usize {
    let (mut count, [whole, _]) = (0, expected(N));
    for text in GIVEN.flat_map(texts_of) {
        let kept = cut(&text, N);
        for read in each_way::<ArrayString<N>>(&text) {
            match read {
                Ok(read) => assert_eq!((read.as_str(), text.as_str()), (kept, kept)),
                Err(refusal) => {
                    assert!(text.len() > N, "{text:?}");
                    assert_eq!(refusal, Refusal::Length(text.len(), whole.clone()));
                }
            }
            count += 1;
        }
        for read in each_way::<Truncated<N>>(&text) {
            assert_eq!(read.expect("it is cut").0.as_str(), kept);
            count += 1;
        }
    }
    count
}

/// Calls a generic test at some capacities, and collects what it returns.
macro_rules! at_capacities {
    ($test:ident) => {
        [$test::<0>(), $test::<1>(), $test::<8>(), $test::<63>(), $test::<254>(), $test::<255>()]
    };
}

#[test]
fn texts_and_bytes_of_each_length() {
    // Three texts of each length, by five ways, to be read whole and to be cut.
    assert_eq!(at_capacities!(texts_at), [601 * 3 * 5 * 2; 6]);
}

/// Asserts that bytes are refused, however they are given, and returns how often they were.
fn are_refused<const N: usize>(bytes: &[u8]) -> usize {
    let copied = || -> BytesDeserializer<Refusal> { bytes.into_deserializer() };
    let lent = || BorrowedBytesDeserializer::<Refusal>::new(bytes);
    let refusals = [
        ArrayString::<N>::deserialize(copied()).err(),
        ArrayString::<N>::deserialize(lent()).err(),
        Truncated::<N>::deserialize(copied()).err(),
        Truncated::<N>::deserialize(lent()).err(),
    ];
    let [whole, cut] = expected(N).map(|expected| Some(Refusal::Bytes(bytes.to_vec(), expected)));
    assert_eq!(refusals, [whole.clone(), whole, cut.clone(), cut]);
    refusals.len()
}

/// The lengths of bytes with a fault: around those of a word, of the strings, of a byte and of its double, and the longest.
const LENGTHS: [usize; 17] = [1, 2, 3, 7, 8, 9, 62, 63, 64, 254, 255, 256, 300, 511, 512, 513, 600];

/// Puts a fault at each place of bytes of these lengths: a byte that no text has, one that begins no character, and one whose
/// character is not there. Returns how often it was refused.
fn faults_at<const N: usize>() -> usize {
    let mut count = 0;
    for len in LENGTHS {
        let [text, ..] = texts_of(len);
        for at in 0..len {
            for fault in [0xFF, 0x80, 0xE2] {
                let mut bytes = text.clone().into_bytes();
                bytes[at] = fault;
                count += are_refused::<N>(&bytes);
            }
        }
    }
    count
}

#[test]
fn a_fault_at_each_place() {
    assert_eq!(at_capacities!(faults_at), [4 * 3 * LENGTHS.iter().sum::<usize>(); 6]);
}

/// Takes each byte away from texts of wide characters, and asserts what std says is left.
fn bytes_without_one<const N: usize>() -> usize {
    let mut refused = 0;
    for text in LENGTHS.into_iter().flat_map(|len| texts_of(len).into_iter().skip(1)) {
        for at in 0..text.len() {
            let mut bytes = text.clone().into_bytes();
            bytes.remove(at);
            match std::str::from_utf8(&bytes) {
                Err(_) => refused += are_refused::<N>(&bytes),
                Ok(left) => {
                    let read = Truncated::<N>::deserialize(BorrowedBytesDeserializer::<Refusal>::new(&bytes));
                    assert_eq!(read.expect("a text").0.as_str(), cut(left, N));
                }
            }
        }
    }
    refused
}

#[test]
fn a_character_without_a_byte() {
    // Each byte of a wider character, in four ways.
    let texts = LENGTHS.into_iter().flat_map(|len| texts_of(len).into_iter().skip(1));
    let wide: usize = texts.map(|text| text.bytes().filter(|byte| !byte.is_ascii()).count()).sum();
    assert_eq!(at_capacities!(bytes_without_one), [4 * wide; 6]);
}

/// Asserts what comes of a character that a format gives as one.
fn characters_at<const N: usize>() -> usize {
    let (mut count, [expected, _]) = (0, expected(N));
    for ch in ['\0', 'a', '\u{7F}', '\u{80}', 'é', '\u{7FF}', '\u{800}', '€', '\u{FFFF}', '\u{10000}', '\u{10FFFF}']
    {
        let given = || -> CharDeserializer<Refusal> { ch.into_deserializer() };
        let text = ch.to_string();
        let whole = ArrayString::<N>::deserialize(given()).map(|read| read.to_string());
        let refusal = || Refusal::Length(ch.len_utf8(), expected.clone());
        assert_eq!(whole, if text.len() <= N { Ok(text.clone()) } else { Err(refusal()) });
        let read = Truncated::<N>::deserialize(given());
        assert_eq!(read.expect("it is cut").0.as_str(), cut(&text, N));
        count += 1;
    }
    count
}

#[test]
fn a_character_is_a_text() {
    let at_small = [characters_at::<2>(), characters_at::<3>(), characters_at::<4>()];
    assert_eq!((at_small, at_capacities!(characters_at)), ([11; 3], [11; 6]));
}

#[test]
fn other_types_say_what_was_expected() {
    let number = |number: u64| -> U64Deserializer<Refusal> { number.into_deserializer() };
    let unit = || -> UnitDeserializer<Refusal> { ().into_deserializer() };
    let [whole, cut] = expected(63).map(Refusal::Type);
    assert_eq!(ArrayString::<63>::deserialize(number(7)).as_ref(), Err(&whole));
    assert_eq!(Truncated::<63>::deserialize(number(0)).as_ref(), Err(&cut));
    assert_eq!(ArrayString::<63>::deserialize(unit()).as_ref(), Err(&whole));
    assert_eq!(Truncated::<63>::deserialize(unit()).as_ref(), Err(&cut));
}

/// Asserts the words of a refusal, and what is written, by JSON.
fn words_at<const N: usize>() -> usize {
    let (mut refused, [expected, _]) = (0, expected(N));
    for text in GIVEN.flat_map(texts_of) {
        let json = serde_json::to_string(&text).unwrap();
        match serde_json::from_str::<ArrayString<N>>(&json) {
            Ok(read) => assert_eq!((serde_json::to_string(&read).unwrap(), text.len() <= N), (json, true)),
            Err(refusal) => {
                let words = format!("invalid length {}, expected {expected} at line 1", text.len());
                assert!(refusal.to_string().starts_with(&words), "{refusal}");
                refused += 1;
            }
        }
    }
    refused
}

#[test]
fn the_words_of_a_refusal_have_the_length() {
    assert_eq!(at_capacities!(words_at), [0, 1, 8, 63, 254, 255].map(|capacity| 3 * (600 - capacity)));
}
