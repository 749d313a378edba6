//! The drawings of how a text lies in its array before and after some edits, in the comment of the module of `ArrayString`.

use std::fs;

use crate::inputs::at_capacities;
#[allow(unused_imports, reason = "only a build that tests its accesses looks at the values")]
use crate::values;
use crate::{ArrayString, Drain};

/// What the columns of a drawing are.
const HEADING: &str = "                          01234567   start   size   moved\n";

type Edit = fn(&mut ArrayString<8>);

/// The start offset of a text.
fn start(string: &ArrayString<8>) -> usize {
    // (by addresses, since the drawings say where a byte lies; the array is behind two numbers)
    string.as_bytes().as_ptr().addr() - std::ptr::from_ref(string).addr() - 2
}

/// The array with a `.` for each byte that is no part of the text, the start offset and the size.
fn drawn_row(string: &ArrayString<8>) -> String {
    let start = start(string);
    let spare = ".".repeat(8 - start - string.len() as usize);
    format!("{}{string}{spare}{start:8}{:7}", ".".repeat(start), string.len())
}

/// How many bytes of a text of different letters are at another offset after an edit.
fn count_moved_bytes(before: &ArrayString<8>, after: &ArrayString<8>) -> usize {
    let place = |string: &ArrayString<8>, letter| string.as_str().find(letter).map(|index| start(string) + index);
    let has_moved = |letter: &char| place(after, *letter).is_some_and(|at| place(before, *letter) != Some(at));
    before.as_str().chars().filter(has_moved).count()
}

/// What some edits make of a text, one after the other.
fn drawing(text: &str, edits: &[(&str, Edit)]) -> String {
    let mut string = ArrayString::from(text);
    let mut lines = format!("{HEADING}{:26}{}\n", format!("from({text:?})"), drawn_row(&string));
    for (name, edit) in edits {
        let before = string;
        edit(&mut string);
        lines += &format!("{name:26}{}{:8}\n", drawn_row(&string), count_moved_bytes(&before, &string));
    }
    lines
}

fn remove_first(string: &mut ArrayString<8>) {
    string.remove(0).unwrap();
}

fn insert(string: &mut ArrayString<8>) {
    string.try_insert_str(2, "-").unwrap();
}

fn add(string: &mut ArrayString<8>) {
    string.try_insert_str(6, "gh").unwrap();
}

#[test]
fn the_comment_has_these_drawings() {
    let remove_first = ("remove(0)", remove_first as Edit);
    let insert = ("try_insert_str(2, \"-\")", insert as Edit);
    let add = ("try_insert_str(6, \"gh\")", add as Edit);
    let drawings = [drawing("abcdef", &[remove_first, insert, add]), drawing("abcdefgh", &[remove_first, insert])];
    let comment: String = fs::read_to_string("src/proved/string/array_string.rs")
        .unwrap()
        .lines()
        .filter_map(|line| line.strip_prefix("//!"))
        .map(|line| format!("{}\n", line.strip_prefix(' ').unwrap_or(line)))
        .collect();
    let blocks: Vec<_> = comment.split("```text\n").skip(1).map(|it| it.split("```").next().unwrap()).collect();
    assert_eq!(blocks.concat(), drawings.concat());
    assert_eq!(blocks, drawings);
}

#[test]
fn a_string_takes_two_bytes_more_than_its_array_and_a_drain_three() {
    fn sizes<const N: usize>() {
        assert_eq!((size_of::<ArrayString<N>>(), size_of::<Drain<N>>()), (N + 2, N + 3));
        assert_eq!((align_of::<ArrayString<N>>(), align_of::<Drain<N>>()), (1, 1));
    }
    at_capacities!(sizes);
}

/// Where accesses are tested, a wrong index may panic when the size has risen and nothing is written yet. So a new string is cleared there.
#[cfg(any(debug_assertions, feature = "checked", not(target_pointer_width = "64")))]
#[test]
fn a_new_string_is_cleared_where_accesses_are_tested() {
    type Name = ArrayString<30>;
    for empty in [Name::new(), Name::default(), Name::from(""), Name::from_chars([])] {
        assert_eq!((empty.start, empty.size, values(&empty.array)), (0, 0, &[0; 30][..]));
    }
    let made = [Name::from("ab"), Name::from_chars(['a', 'b']), Name::from_iterator(["a", "b"]), Name::new() + "ab"];
    let unchecked = [Name::from_str_unchecked("ab"), Name::from_iterator_unchecked(["a", "b"])];
    for string in made.into_iter().chain(unchecked).chain([Name::try_from_str("ab").unwrap()]) {
        assert_eq!((string.start, string.size, &values(&string.array)[..2]), (0, 2, &b"ab"[..]));
        assert_eq!(values(&string.array)[2..], [0; 28]);
    }
    let drain = Drain::<30>::default();
    assert_eq!((drain.start, drain.front, drain.size, values(&drain.array)), (0, 0, 0, &[0; 30][..]));
}
