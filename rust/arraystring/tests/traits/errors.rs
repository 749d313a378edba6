//! The errors: what they say, what is made of them, and what they are made of.

use std::error::Error as StdError;
use std::fmt;

use arraystring::{ArrayString, Error, OutOfBounds, Utf8, Utf16};

use crate::inputs::hash_of;

/// What each error says, and its name.
const WORDS: [(Error, &str, &str); 3] = [
    (Error::Utf8, "not UTF-8, or an index inside a character", "Utf8"),
    (Error::Utf16, "not UTF-16", "Utf16"),
    (Error::OutOfBounds, "larger than the capacity, or outside the text", "OutOfBounds"),
];

#[test]
fn an_error_says_why() {
    for (error, words, name) in WORDS {
        assert_eq!((error.to_string(), format!("{error:?}")), (words.to_string(), name.to_string()));
    }
    let parts = [Utf8.to_string(), Utf16.to_string(), OutOfBounds.to_string()];
    assert_eq!(parts, [WORDS[0].1, WORDS[1].1, "larger than the capacity"]);
    assert_eq!(format!("{Utf8:?} {Utf16:?} {OutOfBounds:?}"), "Utf8 Utf16 OutOfBounds");
}

/// It is boxed with its words, by `?` and by `into`, and has no other one below it.
#[test]
fn an_error_is_one_of_std() {
    fn asked(error: impl Into<Box<dyn StdError + Send + Sync>>) -> Result<(), Box<dyn StdError + Send + Sync>> {
        Err(error.into())
    }
    fn tried(call: fn(&mut ArrayString<4>) -> Result<(), Error>) -> Result<(), Box<dyn StdError>> {
        call(&mut ArrayString::try_from_str("é")?)?;
        Ok(())
    }
    for (error, words, _) in WORDS {
        let boxed = asked(error).expect_err("an error");
        assert_eq!((boxed.to_string(), boxed.source().is_none(), boxed.is::<Error>()), (words.to_string(), true, true));
    }
    assert!(asked(Utf8).is_err_and(|error| error.is::<Utf8>() && error.to_string() == Utf8.to_string()));
    assert!(asked(Utf16).is_err_and(|error| error.is::<Utf16>() && error.to_string() == Utf16.to_string()));
    assert!(asked(OutOfBounds).is_err_and(|error| error.to_string() == OutOfBounds.to_string()));
    assert_eq!(tried(|it| it.try_insert(1, 'a')).expect_err("inside").downcast_ref(), Some(&Error::Utf8));
    assert_eq!(tried(|it| it.try_insert(9, 'a')).expect_err("past").downcast_ref(), Some(&Error::OutOfBounds));
    assert!(tried(|it| Ok(it.try_push('a')?)).is_ok());
}

#[test]
fn an_error_is_made_of_its_parts_and_of_those_of_std() {
    let lone = || char::decode_utf16([0xD800]).next().expect("an item").expect_err("a lone surrogate");
    let bytes = || String::from_utf8(vec![0xFF]).expect_err("no text").utf8_error();
    let made: [(Error, Error); 6] = [
        (Utf8.into(), Error::Utf8),
        (Utf16.into(), Error::Utf16),
        (OutOfBounds.into(), Error::OutOfBounds),
        (fmt::Error.into(), Error::OutOfBounds),
        (bytes().into(), Error::Utf8),
        (lone().into(), Error::Utf16),
    ];
    for (made, wanted) in made {
        assert_eq!(made, wanted);
    }
    assert_eq!((Utf8::from(bytes()), Utf16::from(lone())), (Utf8, Utf16));
}

#[test]
fn an_error_is_equal_to_itself_and_hashed() {
    for (one, ..) in WORDS {
        for (other, ..) in WORDS {
            let is_same = one.to_string() == other.to_string();
            assert_eq!((one == other, hash_of(&one) == hash_of(&other)), (is_same, is_same));
        }
    }
    let made: (Utf8, Utf16, OutOfBounds) = Default::default();
    assert_eq!(made, (Utf8, Utf16, OutOfBounds));
    assert_eq!([hash_of(&made.0), hash_of(&made.2)], [hash_of(&Utf8), hash_of(&OutOfBounds)]);
}

/// `?` takes the error of each call into `Error`.
#[test]
fn a_call_is_tried_by_a_question_mark() {
    fn text_then_units(text: &str, units: &[u16], bytes: &[u8]) -> Result<ArrayString<8>, Error> {
        ArrayString::<8>::try_from_str(text)?;
        ArrayString::<8>::from_utf8_truncate(bytes)?;
        std::str::from_utf8(bytes)?;
        Ok(ArrayString::from_utf16_truncate(units)?)
    }
    assert_eq!(text_then_units("123456789", &[], b""), Err(Error::OutOfBounds));
    assert_eq!(text_then_units("", &[0xDC00], b""), Err(Error::Utf16));
    assert_eq!(text_then_units("", &[], b"\xC3"), Err(Error::Utf8));
    assert_eq!(text_then_units("", &[0x61], b"").as_deref(), Ok("a"));
}
