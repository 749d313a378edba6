//! What each of the six `unsafe` calls requires, at each of some capacities: with the last argument that it allows it does what it should,
//! in each build. With the first one that it does not allow it panics where it is tested, and says what it requires: with debug assertions,
//! with the feature `checked`, and where a `usize` has not 64 bits. Elsewhere no such call is made.

use std::hint::black_box;
use std::panic::{AssertUnwindSafe, catch_unwind};

use arraystring::ArrayString;
use inputs::behind;

mod inputs;

const CHECKS_ACCESS: bool = cfg!(any(debug_assertions, feature = "checked", not(target_pointer_width = "64")));

/// A character of each width.
const WIDE: [char; 4] = ['z', 'é', '€', '🤔'];

macro_rules! at_some_capacities {
    ($test:ident) => {
        inputs::at_capacities!($test: 0 1 2 3 4 5 6 7 8 23 63 254 255)
    };
}

/// Asserts that a call whose requirement is broken says which one, where it is tested.
#[track_caller]
fn refused<T>(requirement: &str, call: impl FnOnce() -> T) {
    if CHECKS_ACCESS {
        // (what was made against its requirement is not to be printed)
        let why = catch_unwind(AssertUnwindSafe(|| _ = black_box(call()))).expect_err("no panic");
        let why = why.downcast_ref::<&str>().expect("a text");
        assert_eq!(*why, format!("it is required that `{requirement}`"));
    }
}

/// A string of so many bytes, whose text begins at offset 0, or behind others that went.
fn string<const N: usize>(len: usize, is_moved: bool) -> ArrayString<N> {
    behind(usize::from(is_moved), &"a".repeat(len))
}

/// Lengths that are too large for so much room, among them those that are small again in a `u8`.
fn too_long(room: usize) -> [usize; 4] {
    [room + 1, room + 2, room + 256, room + 512]
}

// ---- Constructors ----

fn from_str_unchecked<const N: usize>() {
    for ch in WIDE.into_iter().filter(|ch| ch.len_utf8() <= N) {
        let text = "a".repeat(N - ch.len_utf8()) + &ch.to_string();
        // SAFETY: the text takes the capacity.
        assert_eq!(unsafe { ArrayString::<N>::from_str_unchecked(&text) }, *text);
        // SAFETY: it panics.
        refused("text.len() <= N", || unsafe { ArrayString::<N>::from_str_unchecked(&(text.clone() + "b")) });
    }
    for text in too_long(N).map(|len| "a".repeat(len)) {
        // SAFETY: it panics.
        refused("text.len() <= N", || unsafe { ArrayString::<N>::from_str_unchecked(&text) });
    }
    for ch in WIDE.into_iter().filter(|ch| ch.len_utf8() > N) {
        // SAFETY: it panics.
        refused("text.len() <= N", || unsafe { ArrayString::<N>::from_str_unchecked(&ch.to_string()) });
    }
}

/// Runs of bytes that are no text, at the end of others.
const NO_TEXT: [&[u8]; 6] = [&[0x80], &[0xC3], &[0xE2, 0x82], &[0xED, 0xA0, 0x80], &[0xF4, 0x90, 0x80, 0x80], &[0xFF]];

fn from_utf8_unchecked<const N: usize>() {
    for ch in WIDE.into_iter().filter(|ch| ch.len_utf8() <= N) {
        let text = "a".repeat(N - ch.len_utf8()) + &ch.to_string();
        // SAFETY: the bytes are those of a text, and take the capacity.
        assert_eq!(unsafe { ArrayString::<N>::from_utf8_unchecked(text.as_bytes()) }, *text);
    }
    for text in too_long(N).map(|len| "a".repeat(len)) {
        // SAFETY: it panics.
        refused("bytes.len() <= N", || unsafe { ArrayString::<N>::from_utf8_unchecked(text.as_bytes()) });
    }
    for end in NO_TEXT.into_iter().filter(|end| end.len() <= N) {
        for front in [0, (N - end.len()) / 2, N - end.len()] {
            for back in [0, (N - end.len() - front) / 2] {
                let bytes = ["a".repeat(front).as_bytes(), end, "a".repeat(back).as_bytes()].concat();
                // SAFETY: it panics.
                refused("from_utf8(bytes).is_ok()", || unsafe { ArrayString::<N>::from_utf8_unchecked(&bytes) });
            }
        }
    }
}

#[test]
fn what_a_string_is_made_of_fits_and_is_a_text() {
    at_some_capacities!(from_str_unchecked);
    at_some_capacities!(from_utf8_unchecked);
}

/// A byte that is no text is seen at each place of a text of each length.
#[test]
fn bytes_that_are_no_text_are_refused_at_each_length() {
    for len in 1..=255 {
        for at in [0, len / 2, len - 1] {
            let mut bytes = vec![b'm'; len];
            bytes[at] = 0xFF;
            // SAFETY: it panics.
            refused("from_utf8(bytes).is_ok()", || unsafe { ArrayString::<255>::from_utf8_unchecked(&bytes) });
        }
    }
}

/// A text that is too large by one byte and by each more, so that its length is small again as a byte.
#[test]
fn a_text_that_is_too_large_is_refused_at_each_length() {
    for text in (64..=600).map(|len| "a".repeat(len)) {
        // SAFETY: each panics.
        unsafe {
            refused("text.len() <= N", || ArrayString::<63>::from_str_unchecked(&text));
            refused("bytes.len() <= N", || ArrayString::<63>::from_utf8_unchecked(text.as_bytes()));
            refused(ROOM_FOR_TEXT, || ArrayString::<63>::new().push_str_unchecked(&text));
            refused(ROOM_FOR_TEXT, || ArrayString::<63>::new().insert_str_unchecked(0, &text));
        }
    }
}

// ---- Edits ----

const ROOM_FOR_TEXT: &str = "text.len() <= self.remaining_capacity()";
const ROOM_FOR_CHARACTER: &str = "ch.len_utf8() <= self.remaining_capacity()";
const BOUNDARY: &str = "self.is_char_boundary(at)";

fn push_unchecked<const N: usize>(is_moved: bool) {
    for ch in WIDE {
        let width = ch.len_utf8();
        if width <= N {
            let mut edited = string::<N>(N - width, is_moved);
            // SAFETY: the character takes the room that is left.
            unsafe { edited.push_unchecked(ch) };
            assert_eq!(edited, *("a".repeat(N - width) + &ch.to_string()));
        }
        for len in (N + 1).saturating_sub(width)..=N {
            let mut edited = string::<N>(len, is_moved);
            // SAFETY: it panics.
            refused(ROOM_FOR_CHARACTER, || unsafe { edited.push_unchecked(ch) });
        }
    }
}

fn push_str_unchecked<const N: usize>(is_moved: bool) {
    for len in [0, 1, 2, N / 2, N].into_iter().filter(|len| *len <= N) {
        let mut edited = string::<N>(len, is_moved);
        let rest = "b".repeat(N - len);
        // SAFETY: the text takes the room that is left.
        unsafe { edited.push_str_unchecked(&rest) };
        assert_eq!(edited, *("a".repeat(len) + &rest));
        for more in too_long(N - len).map(|len| "b".repeat(len)) {
            let mut edited = string::<N>(len, is_moved);
            // SAFETY: it panics.
            refused(ROOM_FOR_TEXT, || unsafe { edited.push_str_unchecked(&more) });
        }
    }
}

/// Inserts at each index of a text of characters of each width, at each that is none, and where there is no room.
fn insert_at_each_index<const N: usize>(
    is_moved: bool,
    given: &str,
    no_room: &str,
    insert: impl Fn(&mut ArrayString<N>, usize),
) {
    let Some(room) = N.checked_sub(given.len()) else {
        // (nothing fits, at the one index that there is)
        return refused(no_room, || insert(&mut ArrayString::new(), 0));
    };
    let mut text = String::new();
    text.extend(WIDE.into_iter().cycle().scan(room, |left, ch| {
        *left = left.checked_sub(ch.len_utf8())?;
        Some(ch)
    }));
    let (len, begun) = (text.len(), behind::<N>(usize::from(is_moved), &text));
    for index in (0..=len).chain([len + 1, 255, 256, 256 + len, usize::MAX]) {
        let mut edited = begun;
        if text.is_char_boundary(index) {
            let mut wanted = text.clone();
            wanted.insert_str(index, given);
            insert(&mut edited, index);
            assert_eq!(edited, *wanted, "{index}");
        } else {
            refused(BOUNDARY, || insert(&mut edited, index));
        }
    }
    for len in room + 1..=N {
        for index in [0, len] {
            let mut edited = string::<N>(len, is_moved);
            refused(no_room, || insert(&mut edited, index));
        }
    }
}

fn insert_unchecked<const N: usize>(is_moved: bool) {
    for ch in WIDE {
        // SAFETY: the index is a boundary and the character fits, or it panics.
        let insert = |string: &mut ArrayString<N>, index| unsafe { string.insert_unchecked(index, ch) };
        insert_at_each_index::<N>(is_moved, &ch.to_string(), ROOM_FOR_CHARACTER, insert);
    }
}

fn insert_str_unchecked<const N: usize>(is_moved: bool) {
    for len in [1, 2, 3, 17, 255, 256, 512] {
        let given = "é".repeat(len / 2) + &"b".repeat(len % 2);
        // SAFETY: the index is a boundary and the text fits, or it panics.
        let insert = |string: &mut ArrayString<N>, index| unsafe { string.insert_str_unchecked(index, &given) };
        insert_at_each_index::<N>(is_moved, &given, ROOM_FOR_TEXT, insert);
    }
}

fn edits<const N: usize>() {
    for is_moved in [false, true] {
        push_unchecked::<N>(is_moved);
        push_str_unchecked::<N>(is_moved);
        insert_unchecked::<N>(is_moved);
        insert_str_unchecked::<N>(is_moved);
    }
}

#[test]
fn what_is_added_fits_and_its_index_is_a_boundary() {
    at_some_capacities!(edits);
}

/// A release without `checked` has none of the lines that test, and so not their words either.
#[test]
fn the_words_of_what_is_tested_stand_in_the_program_where_it_is_tested() {
    let program = std::fs::read(std::env::current_exe().expect("a path")).expect("a program");
    // (backwards, so that the words of this test are no others)
    for backwards in ["yradnuob_rahc_si.fles` taht deriuqer si ti", "nel.txet` taht deriuqer si ti"] {
        let words: Vec<u8> = backwards.bytes().rev().collect();
        let is_there = program.windows(words.len()).any(|part| part == words);
        assert_eq!(is_there, CHECKS_ACCESS, "{backwards}");
    }
}
