//! What a string lends of its text, to be read and to be written, whole and in part, and what room it says is left.

use std::borrow::{Borrow, BorrowMut};
use std::cmp::Ordering;
use std::collections::{BTreeMap, BTreeSet, HashMap};
use std::ops::DerefMut;

use arraystring::{ArrayString, Drain, MaxString, SmallString};

use crate::inputs::{at_capacities, behind, cut, edges, hash_of, letters, mixed, some_offsets, texts_of};

/// Asserts what a string lends of its text, each time at one address, and what it tells of its room.
fn lends<const N: usize>(mut string: ArrayString<N>, text: &str) {
    let place = string.as_str().as_ptr();
    let texts: [&str; 5] = [string.as_str(), string.as_ref(), string.borrow(), &string, &string[..]];
    assert!(texts.iter().all(|lent| *lent == text && lent.as_ptr() == place), "{text:?} at {N}");
    let bytes: [&[u8]; 2] = [string.as_bytes(), string.as_ref()];
    assert!(bytes.iter().all(|lent| *lent == text.as_bytes() && lent.as_ptr() == place), "{text:?} at {N}");
    let written: [fn(&mut ArrayString<N>) -> &mut str; 5] =
        [|it| it.as_mut_str(), |it| it.as_mut(), |it| it.borrow_mut(), |it| it.deref_mut(), |it| &mut it[..]];
    for lend in written {
        let lent = lend(&mut string);
        assert_eq!((&*lent, lent.as_ptr()), (text, place), "{text:?} at {N}");
    }
    assert_eq!((string.len(), string.is_empty()), (text.len(), text.is_empty()));
    assert_eq!((string.remaining_capacity(), string.is_full()), (N - text.len(), N == text.len()));
    assert_eq!((string.capacity(), ArrayString::<N>::CAPACITY), (N, N));
}

#[test]
fn a_text_is_lent_at_each_offset() {
    fn at<const N: usize>() {
        for len in 0..=N {
            let room = N - len;
            // Of the largest arrays that of 255 bytes has all offsets.
            let offsets = if N <= 129 || N == 255 { (0..=room).collect() } else { some_offsets(room) };
            for offset in offsets {
                lends(behind::<N>(offset, &letters(len)), &letters(len));
            }
            let wide = mixed(len, len % 11);
            lends(behind::<N>(room / 2, &wide), &wide);
        }
    }
    at_capacities!(at);
}

/// As a constant the capacity can stand as the length of an array.
#[test]
fn the_capacity_is_a_constant() {
    type Name = ArrayString<8>;
    const ROOM: usize = Name::new().capacity() + Name::new().remaining_capacity() + Name::new().len();
    assert_eq!(([0u8; MaxString::CAPACITY].len(), [0u8; SmallString::CAPACITY].len(), ROOM), (255, 23, 16));
}

/// A character at the front, in the middle, at the end, and twice, of each one that has one or two bytes, and of some others.
#[test]
fn a_string_is_its_text() {
    let edges = [0x800, 0xFFF, 0x1000, 0xD7FF, 0xE000, 0xFFFF, 0x10000, 0x3FFFF, 0x40000, 0xFFFFF, 0x100000, 0x10FFFF];
    let points = (0..0x800).chain(edges).chain((0x800..0x11_0000).step_by(997));
    for ch in points.filter_map(char::from_u32) {
        for text in [format!("{ch}"), format!("{ch}é"), format!("a{ch}b"), format!("a{ch}"), format!("{ch}{ch}")] {
            lends(ArrayString::<8>::try_from_str(&text).expect("room"), &text);
            lends(ArrayString::<63>::try_from_str(&text).expect("room"), &text);
        }
    }
}

/// The calls of `str` are those of a string.
#[test]
fn a_call_of_str_is_one_of_a_string() {
    let name = ArrayString::<8>::try_from_str(" aé€ ").expect("room");
    assert_eq!((name.chars().count(), name.ends_with('€'), name.to_uppercase()), (5, false, " AÉ€ ".to_string()));
    assert_eq!((name.trim(), name.get(1..4), name.get(1..3), name.find('€')), ("aé€", Some("aé"), None, Some(4)));
    assert_eq!((name.is_char_boundary(3), name.split_at(4), name.as_str()), (false, (" aé", "€ "), " aé€ "));
    assert_eq!(name.to_string(), " aé€ ");
}

#[test]
fn a_key_of_each_length_is_found() {
    for text in (0..=255).flat_map(texts_of) {
        let string = MaxString::try_from_str(&text).expect("room");
        assert_eq!(HashMap::from([(string, 1)]).get(text.as_str()), Some(&1));
        assert_eq!(BTreeMap::from([(string, 2)]).get(text.as_str()), Some(&2));
        assert!(BTreeSet::from([string]).contains(&*text));
    }
}

#[test]
fn a_key_is_found_by_its_text_alone() {
    let name = |text| ArrayString::<8>::try_from_str(text).expect("room");
    let mut hashed = HashMap::from([(name("aé"), 1), (name("b"), 2)]);
    assert_eq!((hashed.remove("b"), hashed.get("aé"), hashed.get("c")), (Some(2), Some(&1), None));
    let sorted = BTreeMap::from([(name("\u{FFFF}"), 1), (name("\u{10000}"), 2), (name("a"), 3)]);
    assert_eq!((sorted.get("\u{10000}"), sorted.values().copied().collect::<Vec<_>>()), (Some(&2), vec![3, 1, 2]));
}

/// Asserts that a part is that of the text, to be read and to be written, where there is one.
macro_rules! is_part {
    ($string:expr, $text:expr, $range:expr) => {{
        let (mut string, text, range): (_, &str, _) = ($string, $text, $range);
        let part = text.get(range.clone());
        let places = string.get(range.clone()).map(str::as_ptr);
        assert_eq!(string.get(range.clone()), part);
        assert_eq!(string.get_mut(range.clone()).map(|part| &*part), part);
        if let Some(part) = part {
            assert_eq!((&string[range.clone()], Some(string[range.clone()].as_ptr())), (part, places));
            let lent = &mut string[range.clone()];
            assert_eq!((&*lent, Some(lent.as_ptr())), (part, places));
        }
    }};
}

#[test]
fn a_part_by_each_kind_of_range() {
    /// From each start to ends near it, in the middle, near the end of the text and behind it.
    fn at<const N: usize>() {
        for len in edges(N).into_iter().filter(|len| *len <= N) {
            for text in texts_of(len) {
                let string = behind::<N>((N - len) / 2, &text);
                is_part!(string, &text, ..);
                for start in 0..=len + 1 {
                    for end in [start, start + 1, start + 4, (start + len) / 2, len, len + 1, 255, 256, usize::MAX - 1]
                    {
                        is_part!(string, &text, start..end);
                        is_part!(string, &text, start..=end);
                        is_part!(string, &text, start..);
                        is_part!(string, &text, ..end);
                        is_part!(string, &text, ..=end);
                    }
                }
            }
        }
    }
    at_capacities!(at: 0 1 2 3 4 7 8 15 16 23 63 128 255);
}

/// What a borrower writes through each loan is what a `String` has after the same.
#[test]
fn letters_of_a_part_change_case() {
    fn at<const N: usize>() {
        for len in edges(N).into_iter().filter(|len| *len <= N) {
            let spaced = " ".repeat(len / 3) + &letters(len - len / 3 * 2) + &" ".repeat(len / 3);
            let texts = [format!("{}{}", letters(len / 2), mixed(len - len / 2, 0)), spaced];
            let ends = (0..=len).flat_map(|at| [(0, at), (at, len), (at / 2, at)]);
            for (text, (start, end)) in ends.flat_map(|ends| texts.iter().map(move |text| (text, ends))) {
                let mut string = behind::<N>((N - len) / 2, text);
                let (mut wanted, place) = (text.clone(), string.as_ptr());
                let Some(part) = wanted.get_mut(start..end) else { continue };
                part.make_ascii_uppercase();
                string[start..end].make_ascii_uppercase();
                assert_eq!((string.as_str(), string.as_ptr()), (&*wanted, place), "{N} {start} {end}");
                wanted.make_ascii_lowercase();
                string.make_ascii_lowercase();
                assert_eq!((string.as_str(), string.as_ptr()), (&*wanted, place), "{N} {start} {end}");
            }
        }
    }
    at_capacities!(at: 0 1 2 3 4 7 8 16 23 63 129 255);
}

#[test]
fn what_a_drain_shows() {
    for text in (0..=255).flat_map(texts_of) {
        let kept = cut(&text, text.len() / 3).len();
        let mut string = behind::<255>((255 - text.len()) / 2, &text);
        let drain = string.drain(kept..).expect("a part");
        let left = &text[kept..];
        assert_eq!((drain.as_str(), string.as_str()), (left, &text[..kept]));
        assert_eq!((hash_of(&drain), drain.size_hint()), (hash_of(left), left.chars().size_hint()));
        let other = behind::<255>(0, left).drain(..).expect("all of it");
        assert_eq!((&drain, Ord::cmp(&drain, &other)), (&other, Ordering::Equal));
        assert_eq!(PartialOrd::partial_cmp(&drain, &Drain::default()), Some(left.cmp("")));
        assert_eq!(drain.collect::<String>(), left);
    }
}
