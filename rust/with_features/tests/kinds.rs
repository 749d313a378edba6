//! A format without types reads what it is asked for, and writes what it is given: here one that knows texts alone. A string asks
//! for a `str`, takes it however it is given, and writes a `str`.

use std::fmt::Display;

use arraystring::{ArrayString, truncate};
use inputs::cut;
use serde::de::value::Error;
use serde::de::{Deserializer, Visitor};
use serde::ser::{Impossible, Serializer};
use serde::{Deserialize, Serialize, forward_to_deserialize_any};
use with_features::Truncated;

mod inputs;

/// How a format gives a text.
#[derive(Clone, Copy, Debug)]
enum Way {
    Copied,
    Borrowed,
    Owned,
    CopiedBytes,
    BorrowedBytes,
    OwnedBytes,
}

const WAYS: [Way; 6] = [Way::Copied, Way::Borrowed, Way::Owned, Way::CopiedBytes, Way::BorrowedBytes, Way::OwnedBytes];

/// The refusal of all that is no `str`.
fn no_str() -> Error {
    serde::de::Error::custom("no str")
}

/// Gives a text in one way, if a `str` is asked for.
struct OnlyText<'de> {
    text: &'de str,
    way: Way,
    is_human_readable: bool,
}

impl<'de> Deserializer<'de> for OnlyText<'de> {
    type Error = Error;

    fn deserialize_str<V: Visitor<'de>>(self, visitor: V) -> Result<V::Value, Error> {
        let text = self.text;
        match self.way {
            Way::Copied => visitor.visit_str(text),
            Way::Borrowed => visitor.visit_borrowed_str(text),
            Way::Owned => visitor.visit_string(text.to_string()),
            Way::CopiedBytes => visitor.visit_bytes(text.as_bytes()),
            Way::BorrowedBytes => visitor.visit_borrowed_bytes(text.as_bytes()),
            Way::OwnedBytes => visitor.visit_byte_buf(text.into()),
        }
    }

    fn deserialize_any<V: Visitor<'de>>(self, _visitor: V) -> Result<V::Value, Error> {
        Err(no_str())
    }

    forward_to_deserialize_any! {
        bool i8 i16 i32 i64 i128 u8 u16 u32 u64 u128 f32 f64 char string bytes byte_buf option unit unit_struct newtype_struct seq
        tuple tuple_struct map struct enum identifier ignored_any
    }

    fn is_human_readable(&self) -> bool {
        self.is_human_readable
    }
}

/// Takes a `str` and nothing else.
struct OnlyStr {
    is_human_readable: bool,
}

/// Implements the calls that are refused, each with what it is given.
macro_rules! refused {
    ($($call:ident $([$($generics:tt)*])? ($($given:ty),*) -> $ok:ty;)*) => {$(
        fn $call $(<$($generics)*>)? (self, $(_: $given),*) -> Result<$ok, Error> {
            Err(no_str())
        }
    )*};
}

impl Serializer for OnlyStr {
    type Ok = String;
    type Error = Error;
    type SerializeSeq = Impossible<String, Error>;
    type SerializeTuple = Impossible<String, Error>;
    type SerializeTupleStruct = Impossible<String, Error>;
    type SerializeTupleVariant = Impossible<String, Error>;
    type SerializeMap = Impossible<String, Error>;
    type SerializeStruct = Impossible<String, Error>;
    type SerializeStructVariant = Impossible<String, Error>;

    fn serialize_str(self, text: &str) -> Result<String, Error> {
        Ok(text.to_string())
    }

    refused! {
        serialize_bool(bool) -> String;
        serialize_i8(i8) -> String;
        serialize_i16(i16) -> String;
        serialize_i32(i32) -> String;
        serialize_i64(i64) -> String;
        serialize_u8(u8) -> String;
        serialize_u16(u16) -> String;
        serialize_u32(u32) -> String;
        serialize_u64(u64) -> String;
        serialize_f32(f32) -> String;
        serialize_f64(f64) -> String;
        serialize_char(char) -> String;
        serialize_bytes(&[u8]) -> String;
        serialize_none() -> String;
        serialize_some[T: Serialize + ?Sized](&T) -> String;
        serialize_unit() -> String;
        serialize_unit_struct(&'static str) -> String;
        serialize_unit_variant(&'static str, u32, &'static str) -> String;
        serialize_newtype_struct[T: Serialize + ?Sized](&'static str, &T) -> String;
        serialize_newtype_variant[T: Serialize + ?Sized](&'static str, u32, &'static str, &T) -> String;
        serialize_seq(Option<usize>) -> Self::SerializeSeq;
        serialize_tuple(usize) -> Self::SerializeTuple;
        serialize_tuple_struct(&'static str, usize) -> Self::SerializeTupleStruct;
        serialize_tuple_variant(&'static str, u32, &'static str, usize) -> Self::SerializeTupleVariant;
        serialize_map(Option<usize>) -> Self::SerializeMap;
        serialize_struct(&'static str, usize) -> Self::SerializeStruct;
        serialize_struct_variant(&'static str, u32, &'static str, usize) -> Self::SerializeStructVariant;
    }

    fn collect_str<T: Display + ?Sized>(self, _: &T) -> Result<String, Error> {
        Err(no_str())
    }

    fn is_human_readable(&self) -> bool {
        self.is_human_readable
    }
}

/// Texts of each length to a size and some bytes more, with characters of each width.
fn texts(size: usize) -> impl Iterator<Item = String> {
    (0..=size + 2).flat_map(|len| ["", "\0", "é", "€", "🤔", "🤔🤔"].map(|ch| "m".repeat(len) + ch))
}

/// Asserts what comes of each text at a capacity, by the string's own traits and by the functions for a field that is cut, and returns
/// how many were read.
fn at<const N: usize>() -> usize {
    let mut count = 0;
    for text in texts(N) {
        let kept = ArrayString::<N>::try_from_str(cut(&text, N)).expect("room");
        let whole = (text.len() <= N).then_some(kept);
        for (way, is_human_readable) in WAYS.into_iter().flat_map(|way| [(way, true), (way, false)]) {
            let from = || OnlyText { text: &text, way, is_human_readable };
            assert_eq!(ArrayString::deserialize(from()).ok(), whole, "{text} {way:?}");
            let is_cut = [Truncated::deserialize(from()).map(|read| read.0), truncate::deserialize(from())];
            assert_eq!(is_cut, [Ok(kept), Ok(kept)], "{text} {way:?}");
            count += 1;
        }
        for is_human_readable in [true, false] {
            let to = || OnlyStr { is_human_readable };
            let written = [kept.serialize(to()), Truncated(kept).serialize(to()), truncate::serialize(&kept, to())];
            assert_eq!(written.map(|text| text.ok()), [(); 3].map(|()| Some(kept.to_string())));
        }
    }
    count
}

#[test]
fn a_text_is_asked_for_and_given() {
    let counts = [at::<0>(), at::<1>(), at::<4>(), at::<8>(), at::<23>(), at::<63>(), at::<255>()];
    // Each capacity has texts of so many lengths and three more, with six ends, given in six ways to two formats.
    assert_eq!(counts, [0, 1, 4, 8, 23, 63, 255].map(|capacity| (capacity + 3) * 6 * 6 * 2));
}

/// What asks for anything else, or gives it, is refused by these formats: so the test above can fail.
#[test]
fn other_types_are_refused() {
    let from = || OnlyText { text: "7", way: Way::Copied, is_human_readable: true };
    assert!(u8::deserialize(from()).is_err() && Option::<String>::deserialize(from()).is_err());
    assert!(<(String,)>::deserialize(from()).is_err() && String::deserialize(from()).is_err());
    let to = || OnlyStr { is_human_readable: true };
    assert!(7u8.serialize(to()).is_err() && Some("7").serialize(to()).is_err() && ("7",).serialize(to()).is_err());
    assert_eq!("7".serialize(to()), Ok("7".to_string()));
}
