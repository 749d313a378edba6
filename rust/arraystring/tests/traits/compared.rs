//! Strings beside strings and texts: `==`, `<`, their orders and hashes are those of `str`, wherever a text begins in its array.

use std::cmp::Ordering;

use arraystring::ArrayString;

use crate::inputs::{behind, hash_of, is_beside, texts_of};

/// Texts that differ in their lengths, in one byte, at the first place or the last, and in the width of a character.
fn texts() -> Vec<String> {
    let mut texts: Vec<String> =
        ["", "\0", "\0\0", "a", "b", "aa", "ab", "ba", "A", "é", "è", "€", "\u{FFFF}", "\u{10000}"]
            .map(String::from)
            .into();
    texts.extend([1, 7, 8, 9, 15, 16, 17].into_iter().flat_map(texts_of));
    for len in [7, 8, 9, 16] {
        let ends = ["a", "b", "\0"].map(|end| format!("{}{end}", "m".repeat(len - 1)));
        let starts = ["a", "z"].map(|start| format!("{start}{}", "m".repeat(len - 1)));
        texts.extend(ends.into_iter().chain(starts));
    }
    texts
}

/// Asserts all that is compared of two strings of one type.
fn are_compared<const N: usize>(one: ArrayString<N>, other: ArrayString<N>) {
    let (text, second) = (one.as_str(), other.as_str());
    let order = text.cmp(second);
    assert_eq!((one == other, one != other), (text == second, text != second), "{text:?} {second:?}");
    assert_eq!((one.cmp(&other), one.partial_cmp(&other)), (order, Some(order)), "{text:?} {second:?}");
    let signs = [one < other, one <= other, one > other, one >= other];
    assert_eq!(signs, [text < second, text <= second, text > second, text >= second], "{text:?} {second:?}");
    assert_eq!((one.max(other).as_str(), one.min(other).as_str()), (text.max(second), text.min(second)));
    assert_eq!([hash_of(&one), hash_of(&other)], [hash_of(text), hash_of(second)]);
    let (mut copy, cloned) = (one, Clone::clone(&one));
    assert!(copy == cloned && hash_of(&cloned) == hash_of(&copy));
    copy.clone_from(&other);
    assert_eq!(copy.as_str(), second);
}

#[test]
fn strings_are_compared_by_their_texts_at_each_offset() {
    fn at<const N: usize>() {
        let texts: Vec<_> = texts().into_iter().filter(|text| text.len() <= N).collect();
        for text in &texts {
            for offset in [0, 1, 3, N] {
                let string = behind::<N>(offset, text);
                for other in &texts {
                    are_compared(string, behind(0, other));
                    are_compared(string, behind(N, other));
                    is_beside!(&string, text, other);
                }
            }
        }
    }
    at::<0>();
    at::<1>();
    at::<8>();
    at::<17>();
    at::<255>();
}

/// A text of more bytes than a byte counts is no short one.
#[test]
fn a_longer_text_is_another() {
    for len in 0..=255 {
        for text in texts_of(len) {
            let string = behind::<255>(255 - len, &text);
            for more in [0, 1, 255, 256, 257, 512] {
                is_beside!(&string, &text, &(text.clone() + &"m".repeat(more)));
                is_beside!(&string, &text, &(text.clone() + &"\0".repeat(more)));
            }
        }
    }
}

#[test]
#[allow(clippy::nonminimal_bool, clippy::useless_asref, reason = "that these forms are compiled is what is shown")]
fn strings_stand_in_the_place_of_a_text() {
    let string = ArrayString::<4>::try_from_str("b").expect("room");
    assert_eq!("b", string);
    assert_eq!(string, "b");
    assert_eq!(*"b", string);
    assert_eq!(string, *"b");
    assert_ne!("a", string);
    assert!("b" == string && *"b" == string && string == *"b" && string == "b" && &string == "b" && "b" == &*string);
    assert!(string > "a" && string > *"a" && "a" < string.as_str() && "a" < string.as_ref() && *"a" < *string.as_str());
    assert!(string.as_str() > "a".as_ref() && "a" < &string && string.partial_cmp("a") == Some(Ordering::Greater));
    assert!(["a", "b"].contains(&string.as_str()) && [string].contains(&string) && vec![string] == ["b"]);
    assert!(("a".."c").contains(&string.as_ref()));
}
