//! The calls that only look at a string, and the signs between two of them.

use super::edits::{indices, total};
use super::states::{MadeAndWanted, WIDTHS, at_each_capacity, cases};
use crate::inputs::hash_of;
use crate::{ArrayString, is_char_boundary};

/// Asserts all that one string shows.
fn shows<const N: usize>(string: &ArrayString<N>, text: &str) {
    assert_eq!((string.as_str(), string.as_bytes()), (text, text.as_bytes()));
    assert_eq!((usize::from(string.len()), string.is_empty()), (text.len(), text.is_empty()));
    assert_eq!(usize::from(ArrayString::<N>::capacity()), N);
    // A width and a precision are ignored.
    assert_eq!(format!("{string}{string:>9}{string:.1}"), text.repeat(3));
    let debugged = format!("ArrayString {{ array: {text:?}, size: {} }}", text.len());
    assert_eq!(format!("{string:?}"), debugged);
    assert_eq!(hash_of(string), hash_of(text));
    assert_eq!((*string, { *string }.as_str()), (*string, text));
}

#[test]
fn what_a_string_shows() {
    fn show_each_case<const N: usize>() -> MadeAndWanted {
        let mut made = 0;
        for case in cases::<N>(&WIDTHS) {
            for string in &case.strings {
                shows(string, &case.text);
                made += 1;
            }
        }
        assert_eq!((ArrayString::<N>::new().as_str(), ArrayString::<N>::default().as_str()), ("", ""));
        (made, total::<N>(&WIDTHS))
    }
    at_each_capacity!(show_each_case);
}

#[test]
fn boundaries_of_a_string() {
    fn boundaries<const N: usize>() -> MadeAndWanted {
        let mut made = 0;
        for case in cases::<N>(&WIDTHS) {
            for index in indices(N) {
                let wanted = case.unchanged(case.text.is_char_boundary(index.into()));
                let name = ("is_char_boundary", index);
                made += case.each(name, &wanted, |string| is_char_boundary(string, index).is_ok());
            }
        }
        (made, total::<N>(&WIDTHS) * (N + 4))
    }
    at_each_capacity!(boundaries);
}

#[test]
fn strings_beside_each_other() {
    fn strings<const N: usize>() -> MadeAndWanted {
        let mut made = 0;
        let cases = cases::<N>(&WIDTHS);
        for (one, other) in cases.iter().flat_map(|one| cases.iter().map(move |other| (one, other))) {
            let (a, b) = (one.text.as_str(), other.text.as_str());
            let wanted = (a == b, a != b, a < b, a <= b, a > b, a >= b);
            for a in &one.strings {
                for b in &other.strings {
                    assert_eq!((a == b, a != b, a < b, a <= b, a > b, a >= b), wanted, "{a} and {b}");
                    let order = one.text.cmp(&other.text);
                    assert_eq!((a.cmp(b), a.partial_cmp(b)), (order, Some(order)), "{a} and {b}");
                    made += 1;
                }
            }
        }
        (made, total::<N>(&WIDTHS).pow(2))
    }
    at_each_capacity!(strings);
}
