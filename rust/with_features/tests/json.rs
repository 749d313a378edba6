//! Strings to and from JSON, beside `String`.

use std::collections::{BTreeMap, HashMap};

use arraystring::ArrayString;
use inputs::cut;
use serde::de::value::{
    BorrowedBytesDeserializer, BorrowedStrDeserializer, BytesDeserializer, Error, StrDeserializer, StringDeserializer,
};
use serde::de::{DeserializeOwned, IntoDeserializer};
use serde::{Deserialize, Serialize};
use with_features::Truncated;

mod inputs;

#[derive(Serialize, Deserialize, PartialEq, Debug)]
struct Fields<const N: usize, const M: usize> {
    whole: ArrayString<N>,
    #[serde(with = "arraystring::truncate")]
    cut: ArrayString<N>,
    wide: ArrayString<M>,
    #[serde(with = "arraystring::truncate")]
    wide_cut: ArrayString<M>,
}

#[derive(Serialize, Deserialize)]
struct Owned {
    whole: String,
    cut: String,
    wide: String,
    wide_cut: String,
}

/// Texts of each length to a size and some bytes more, which JSON writes as they are, and by escapes.
fn texts(size: usize) -> Vec<String> {
    let chars = ["", "a", "\"", "\\", "\n", "\0", "\u{7F}", "é", "€", "\u{2028}", "\u{FEFF}", "🤔", "🤔🤔"];
    let of_length = |len| chars.iter().flat_map(move |ch| [format!("{ch}{}", "m".repeat(len)), "m".repeat(len) + ch]);
    (0..=size + 2).flat_map(of_length).collect()
}

/// What comes of a text by each way in which serde gives one: borrowed, copied, owned, and its bytes.
fn each_way<T: DeserializeOwned>(text: &str) -> Vec<Option<T>> {
    let json = serde_json::to_string(text).unwrap();
    let value = serde_json::Value::String(text.to_string());
    let bytes: BytesDeserializer<Error> = text.as_bytes().into_deserializer();
    let copied: StrDeserializer<Error> = text.into_deserializer();
    let owned: StringDeserializer<Error> = text.to_string().into_deserializer();
    vec![
        serde_json::from_str(&json).ok(),
        serde_json::from_slice(json.as_bytes()).ok(),
        serde_json::from_reader(json.as_bytes()).ok(),
        serde_json::from_value(value).ok(),
        T::deserialize(BorrowedStrDeserializer::<Error>::new(text)).ok(),
        T::deserialize(BorrowedBytesDeserializer::<Error>::new(text.as_bytes())).ok(),
        T::deserialize(bytes).ok(),
        T::deserialize(copied).ok(),
        T::deserialize(owned).ok(),
    ]
}

/// Asserts what comes of each text at a capacity.
fn at<const N: usize>() {
    for text in texts(N) {
        let wanted = (text.len() <= N).then(|| ArrayString::<N>::try_from_str(&text).expect("room"));
        assert_eq!(each_way::<ArrayString<N>>(&text), vec![wanted; 9], "{text}");
        let kept = Truncated(ArrayString::<N>::try_from_str(cut(&text, N)).expect("room"));
        assert_eq!(each_way::<Truncated<N>>(&text), vec![Some(kept); 9], "{text}");
        let written = serde_json::to_string(cut(&text, N)).unwrap();
        assert_eq!(serde_json::to_string(&kept).unwrap(), written);
        assert_eq!(serde_json::to_string(&kept.0).unwrap(), written);
    }
}

#[test]
fn each_text_is_read_whole_or_cut_or_refused() {
    at::<0>();
    at::<1>();
    at::<4>();
    at::<8>();
    at::<23>();
    at::<63>();
    at::<255>();
}

#[test]
fn fields_are_read_and_written_as_those_of_strings() {
    for text in texts(70) {
        let (whole, wide) = (cut(&text, 23), cut(&text, 63));
        let owned = Owned { whole: whole.into(), cut: text.clone(), wide: wide.into(), wide_cut: text.clone() };
        let read: Fields<23, 63> = serde_json::from_str(&serde_json::to_string(&owned).unwrap()).unwrap();
        assert_eq!((read.whole.as_str(), read.cut.as_str()), (whole, whole));
        assert_eq!((read.wide.as_str(), read.wide_cut.as_str()), (wide, wide));
        let wanted = Owned { cut: whole.into(), wide_cut: wide.into(), ..owned };
        assert_eq!(serde_json::to_string(&read).unwrap(), serde_json::to_string(&wanted).unwrap());
        let long = Owned { whole: text.clone(), cut: "".into(), wide: "".into(), wide_cut: "".into() };
        let refused = serde_json::from_str::<Fields<23, 63>>(&serde_json::to_string(&long).unwrap());
        assert_eq!(refused.is_err(), text.len() > 23);
        let long = Owned { whole: "".into(), wide: text.clone(), ..long };
        let refused = serde_json::from_str::<Fields<23, 63>>(&serde_json::to_string(&long).unwrap());
        assert_eq!(refused.is_err(), text.len() > 63);
    }
}

#[test]
fn keys_items_and_options_are_read_as_those_of_strings() {
    type Name = ArrayString<4>;
    let sorted: BTreeMap<Name, u8> = serde_json::from_str(r#"{"b":1,"a\n":2,"é":3}"#).unwrap();
    assert_eq!((sorted.get("a\n"), sorted.get("é"), sorted.get("c")), (Some(&2), Some(&3), None));
    assert_eq!(serde_json::to_string(&sorted).unwrap(), r#"{"a\n":2,"b":1,"é":3}"#);
    let hashed: HashMap<Name, u8> = serde_json::from_str(r#"{"b":1,"aé":2}"#).unwrap();
    assert_eq!((hashed.get("aé"), hashed.get("b"), hashed.get("c")), (Some(&2), Some(&1), None));
    assert!(serde_json::from_str::<HashMap<Name, u8>>(r#"{"abcde":1}"#).is_err());
    let mut items: Vec<Truncated<4>> = serde_json::from_str(r#"["abcde","a","🤔b"]"#).unwrap();
    items[1].0.try_push_str("b").unwrap();
    assert_eq!(serde_json::to_string(&items).unwrap(), r#"["abcd","ab","🤔"]"#);
    let whole: Vec<Name> = serde_json::from_str(r#"["abcd","a","🤔"]"#).unwrap();
    assert_eq!(serde_json::to_string(&whole).unwrap(), r#"["abcd","a","🤔"]"#);
    assert!(serde_json::from_str::<Vec<Name>>(r#"["a","abcde"]"#).is_err());
    let pair: [Name; 2] = serde_json::from_str(r#"["ab","é"]"#).unwrap();
    assert_eq!(pair, ["ab", "é"]);
    let options: [Option<Name>; 2] = serde_json::from_str(r#"[null,"a"]"#).unwrap();
    assert_eq!(options.map(|name| name.map(|name| name.to_string())), [None, Some("a".to_string())]);
    assert_eq!(serde_json::to_string(&options).unwrap(), r#"[null,"a"]"#);
}

#[test]
fn what_is_no_text_is_refused() {
    for json in ["1", "null", "true", "[]", "[97]", "{}", "\"a", "", "\"\\ud800\""] {
        assert!(serde_json::from_str::<ArrayString<63>>(json).is_err(), "{json}");
        assert!(serde_json::from_str::<Truncated<63>>(json).is_err(), "{json}");
    }
    for byte in 0x80..=0xFF {
        let bytes = [b'a', byte];
        let read = ArrayString::<63>::deserialize(BorrowedBytesDeserializer::<Error>::new(&bytes));
        let wanted = "invalid value: byte array, expected a text of at most 63 bytes";
        assert_eq!(read.unwrap_err().to_string(), wanted);
        assert!(Truncated::<63>::deserialize(BorrowedBytesDeserializer::<Error>::new(&bytes)).is_err());
    }
    let long = serde_json::from_str::<ArrayString<2>>("\"abé\"").unwrap_err().to_string();
    assert!(long.starts_with("invalid length 4, expected a text of at most 2 bytes"), "{long}");
}
