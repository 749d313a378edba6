//! How much an edit does: where there is room behind a text it stays where it is, and no byte of the array is written but those of what
//! is given and those behind it in the text. So for each call, at each start offset.

use std::fmt::Write;
use std::ops::{Add, Range};

use crate::inputs::{at_capacities, cut, edges, letters, mixed};
use crate::leaf::MaybeByte;
use crate::{ArrayString, behind, capacity, values};

type Edit<'a, const N: usize> = &'a dyn Fn(&mut ArrayString<N>);

/// The start offset of the text.
fn start<const N: usize>(string: &ArrayString<N>) -> usize {
    string.start.into()
}

/// How many bytes more the text may have.
fn room_in<const N: usize>(string: &ArrayString<N>) -> usize {
    capacity::<N>() - string.as_str().len()
}

/// The same string with a value in each byte around the text, which has none in a new one.
fn with_values<const N: usize>(mut string: ArrayString<N>) -> ArrayString<N> {
    let text = start(&string)..start(&string) + string.as_str().len();
    for at in (0..N).filter(|at| !text.contains(at)) {
        string.array[at] = MaybeByte::new((at * 7 + at / 256) as u8 ^ 0xA5);
    }
    string
}

/// Asserts that an edit leaves the text at a start offset, and writes no byte of the array but some.
fn edited<const N: usize>(before: &ArrayString<N>, place: usize, written: Range<usize>, name: &str, edit: Edit<N>) {
    let mut after = *before;
    edit(&mut after);
    assert_eq!(start(&after), place, "{name} of {before:?} at {} of {N}", start(before));
    let around = |string: &ArrayString<N>| {
        [&string.array[..written.start], &string.array[written.end..]].map(|part| values(part).to_vec())
    };
    assert!(around(before) == around(&after), "{name} of {before:?} at {}: more than {written:?}", start(before));
}

/// Strings of some lengths at each start offset: in turn of letters, of wide characters, and of a letter among spaces.
fn strings<const N: usize>() -> impl Iterator<Item = ArrayString<N>> {
    let lengths = edges(capacity::<N>()).into_iter().filter(|len| *len <= capacity::<N>());
    let places = lengths.flat_map(|len| (0..=capacity::<N>() - len).map(move |offset| (len, offset)));
    places.map(|(len, offset)| {
        let texts = [letters(len), mixed(len, offset), format!("{:^len$}", &"x"[..len.min(1)])];
        with_values(behind(offset, &texts[(len + offset) % 3]))
    })
}

/// The boundaries of a text: each of a short one, and of a long one those at its ends and in the middle.
fn boundaries(text: &str) -> Vec<usize> {
    let len = text.len();
    let is_near = |at: &usize| len < 10 || *at < 2 || len - at < 2 || *at == len / 2;
    (0..=len).filter(|at| text.is_char_boundary(*at)).filter(is_near).collect()
}

/// Texts that fit behind a text exactly, nearly or too far, and texts that fit once it moves, exactly, nearly or too far.
fn given<const N: usize>(string: &ArrayString<N>) -> Vec<String> {
    let (room, behind) = (room_in(string), room_in(string) - start(string));
    let mut sizes: Vec<_> =
        (0..3).flat_map(|by| [by, (behind + by).saturating_sub(1), (room + by).saturating_sub(1)]).collect();
    sizes.sort_unstable();
    sizes.dedup();
    sizes.into_iter().flat_map(|size| [letters(size), mixed(size, 0)]).collect()
}

/// Asserts of edits that put a text at an index, in place of so many bytes, that they move the text to the start of the array only
/// where it has no room else.
fn put<const N: usize>(string: &ArrayString<N>, at: usize, replaced: usize, put: &str, edits: &[(&str, Edit<N>)]) {
    let (offset, len) = (start(string), string.as_str().len());
    let end = offset + len - replaced + put.len();
    for (name, edit) in edits {
        if end > capacity::<N>() {
            edited(string, 0, 0..N, name, *edit);
        } else if replaced == put.len() {
            edited(string, offset, offset + at..offset + at + put.len(), name, *edit);
        } else {
            edited(string, offset, offset + at..end, name, *edit);
        }
    }
}

fn append_to_each<const N: usize>() {
    for string in strings::<N>() {
        let (len, room) = (string.as_str().len(), room_in(&string));
        for given in given(&string) {
            let (given, (front, back)) = (given.as_str(), given.split_at(cut(&given, given.len() / 2).len()));
            let cutting: [(&str, Edit<N>); 6] = [
                ("push_str", &|string| string.push_str(given)),
                ("+", &|string| *string = string.add(given)),
                ("extend_chars", &|string| string.extend_chars(given.chars())),
                ("extend_strs", &|string| string.extend_strs([given])),
                ("extend_strs of two", &|string| string.extend_strs([front, back])),
                ("extend_strs of characters", &|string| string.extend_strs(given.split_inclusive(|_| true))),
            ];
            put(&string, len, 0, cut(given, room), &cutting);
            let refusing: [(&str, Edit<N>); 3] = [
                ("try_push_str", &|string| _ = string.try_push_str(given)),
                ("write_str", &|string| _ = string.write_str(given)),
                ("write!", &|string| _ = write!(string, "{given}")),
            ];
            put(&string, len, 0, if given.len() <= room { given } else { "" }, &refusing);
            if given.len() <= room {
                put(&string, len, 0, given, &[("push_str_unchecked", &|string| string.push_str_unchecked(given))]);
            }
        }
        for ch in ['a', 'é', '€', '🤔'] {
            let given = if ch.len_utf8() <= room { ch.to_string() } else { String::new() };
            put(&string, len, 0, &given, &[("try_push", &|string| _ = string.try_push(ch))]);
            if !given.is_empty() {
                put(&string, len, 0, &given, &[("push_unchecked", &|string| string.push_unchecked(ch))]);
            }
        }
    }
}

fn insert_into_each<const N: usize>() {
    for string in strings::<N>() {
        let room = room_in(&string);
        for at in boundaries(string.as_str()) {
            let index = at as u8;
            for given in given(&string) {
                let kept = cut(&given, room);
                put(&string, at, 0, kept, &[("insert_str", &|string| _ = string.insert_str(index, &given))]);
                let whole = if given.len() <= room { &given } else { "" };
                put(&string, at, 0, whole, &[("try_insert_str", &|string| _ = string.try_insert_str(index, &given))]);
            }
            for ch in ['a', 'é', '€', '🤔'] {
                let given = if ch.len_utf8() <= room { ch.to_string() } else { String::new() };
                put(&string, at, 0, &given, &[("try_insert", &|string| _ = string.try_insert(index, ch))]);
                if !given.is_empty() {
                    let by_char: Edit<N> = &|string| string.insert_unchecked(index, ch);
                    let by_text: Edit<N> = &|string| string.insert_str_unchecked(index, &given);
                    put(&string, at, 0, &given, &[("insert_unchecked", by_char), ("insert_str_unchecked", by_text)]);
                }
            }
        }
    }
}

/// What is removed at the front raises the start offset, and what is removed at the end lowers the size: no byte is written.
fn remove_from_each<const N: usize>() {
    for string in strings::<N>() {
        let (offset, len) = (start(&string), string.as_str().len());
        let none = |place: usize, name: &str, edit: Edit<N>| edited(&string, place, 0..0, name, edit);
        none(offset, "pop", &|string| _ = string.pop());
        none(offset, "clear", &|string| string.clear());
        // (what is at the end goes first, and of white space alone nothing is left to go at the front)
        let leading = |trimmed: &str| if trimmed.is_empty() { offset } else { offset + len - trimmed.len() };
        none(leading(string.as_str().trim_start()), "trim", &|string| string.trim());
        none(leading(string.as_str().trim_start_matches(' ')), "trim_spaces", &|string| string.trim_spaces());
        let boundaries = boundaries(string.as_str());
        for at in boundaries.iter().copied() {
            none(offset, "truncate", &|string| _ = string.truncate(at as u8));
            none(offset, "split_off", &|string| _ = string.split_off(at as u8));
            let width = string.as_str()[at..].chars().next().map_or(0, char::len_utf8);
            let remove: Edit<N> = &|string| _ = string.remove(at as u8);
            match at {
                0 => none(offset + width, "remove", remove),
                _ => edited(&string, offset, offset + at..offset + len - width, "remove", remove),
            }
            for end in boundaries.iter().copied().filter(|end| at <= *end) {
                let drain: Edit<N> = &|string| _ = string.drain(at as u8..end as u8);
                match at {
                    0 => none(offset + end, "drain", drain),
                    _ => edited(&string, offset, offset + at..offset + len - (end - at), "drain", drain),
                }
            }
        }
    }
}

/// What is kept moves no further to the front than to the start of the text.
fn retain_in_each<const N: usize>() {
    for string in strings::<N>() {
        let offset = start(&string);
        for pattern in 1..8 {
            let keeps = |at: usize| pattern >> (at % 3) & 1 == 1;
            let widths = || string.as_str().chars().map(char::len_utf8).enumerate();
            let kept: usize = widths().filter(|(at, _)| keeps(*at)).map(|(_, width)| width).sum();
            let same: usize = widths().take_while(|(at, _)| keeps(*at)).map(|(_, width)| width).sum();
            edited(&string, offset, offset + same..offset + kept, "retain", &|string| {
                let mut at = 0..;
                string.retain(|_| at.next().is_some_and(keeps));
            });
        }
        edited(&string, offset, offset..offset + string.as_str().len(), "make_ascii_uppercase", &|string| {
            string.make_ascii_uppercase();
            string.make_ascii_lowercase();
        });
    }
}

fn replace_in_each<const N: usize>() {
    for string in strings::<N>() {
        let boundaries = boundaries(string.as_str());
        for (at, end) in
            boundaries.iter().flat_map(|at| boundaries.iter().map(move |end| (*at, *end))).filter(|(at, end)| at <= end)
        {
            let room = room_in(&string) + end - at;
            let given: Vec<_> = given(&string)
                .into_iter()
                .chain([letters(end - at), letters(room)])
                .filter(|given| given.len() <= room)
                .collect();
            for given in given {
                let edit: Edit<N> = &|string| string.replace_range(at as u8..end as u8, &given).expect("a part");
                put(&string, at, end - at, &given, &[("replace_range", edit)]);
            }
        }
    }
}

macro_rules! each_moves_what_it_has_to {
    ($($test:ident $check:ident)*) => {$(
        #[test]
        fn $test() {
            at_capacities!($check: 0 1 2 3 4 5 6 7 8 23 63 255);
        }
    )*};
}

each_moves_what_it_has_to! {
    an_append_copies_what_is_given_where_there_is_room_behind append_to_each
    an_insertion_moves_what_is_behind_it_where_there_is_room_behind insert_into_each
    a_removal_moves_what_is_behind_it_or_nothing remove_from_each
    what_is_kept_moves_to_the_front_of_the_text retain_in_each
    a_replacement_moves_what_is_behind_it_where_there_is_room_behind replace_in_each
}
