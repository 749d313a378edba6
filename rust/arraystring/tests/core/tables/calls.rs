//! Tables of calls, which begin with `# player: calls 8`, where 8 is the capacity. The columns of a row are
//!
//!     text before | call | index or range | what is given | result | text after | number
//!
//! With no text before, the call goes on with the string that the row above left; `new` is a new string, and `again` the last
//! one that a row began with. Several calls may be in a row, each on the text before. An unchecked call is made where its
//! conditions hold, and else gives `None`. The number is what `len` and `capacity` return. A range is written as in Rust, or as two
//! bounds in brackets.
//!
//! A call that counts its work, `pop_counted`, is the proved crate's alone: here the plain call is made in its place, and the number
//! in its row is not read.

use std::collections::BTreeSet;
use std::fmt::Write;
use std::ops::{Bound, RangeBounds};
use std::sync::Mutex;

use super::at_capacity;
use super::call_list::{index_calls, range_calls, whole_calls};
use super::rows::{Table, column, parsed, returned, rows};
use crate::inputs::hash_of;
use crate::{ArrayString, behind, is_char_boundary};

/// The calls that rows have made.
static MADE: Mutex<BTreeSet<String>> = Mutex::new(BTreeSet::new());

/// The name of the plain call.
fn plain(call: &str) -> &str {
    call.strip_suffix("_counted").unwrap_or(call)
}

/// The names of a list of calls.
macro_rules! names {
    (() $($name:ident($($given:ident)*))*) => { [$(stringify!($name)),*] };
}

/// The names of the calls of the tables: those of the lists, and those with an arm in a function below `make`.
fn names() -> impl Iterator<Item = &'static str> {
    let (_, below) = include_str!("calls.rs").split_once("\nfn make<").expect("the function");
    let arms = below.lines().filter(|line| line.trim_start().starts_with('"')).filter_map(|line| line.split_once("=>"));
    let by_hand = arms.flat_map(|(names, _)| names.split('"').skip(1).step_by(2));
    whole_calls!(names()).into_iter().chain(index_calls!(names())).chain(range_calls!(names())).chain(by_hand)
}

/// The calls of the tables that no row has made.
pub fn not_made() -> Vec<&'static str> {
    let made = MADE.lock().expect("no panic");
    names().filter(|name| !made.contains(*name)).collect()
}

/// Makes the calls of a table on strings of its capacity.
pub fn calls(table: &Table) -> usize {
    at_capacity!(table.capacity(), hold, &table.text)
}

fn hold<const N: usize>(table: &str) -> usize {
    hold_from(table, |text| ArrayString::<N>::from(text))
}

/// Makes the calls of a table on strings of 8 bytes whose texts begin at each offset of the array that leaves them their room.
pub fn wherever_it_begins(table: &Table) -> usize {
    let at_offset = |offset: usize| hold_from(&table.text, |text| behind::<8>(offset.min(8 - text.len()), text));
    (0..9).map(at_offset).sum::<usize>() / 9
}

fn hold_from<const N: usize>(table: &str, string: impl Fn(&str) -> ArrayString<N>) -> usize {
    let mut text = ArrayString::default();
    let mut first = text;
    rows(table)
        .inspect(|row| {
            match column(row, 0) {
                "" => first = text,
                "again" => {}
                "new" => first = ArrayString::new(),
                before => first = string(before),
            }
            for call in column(row, 1).split(' ') {
                text = first;
                make(&mut text, call, row);
                let after = column(row, 5);
                assert_eq!(text.as_bytes(), after.as_bytes(), "{row}");
                assert_eq!((text.as_str(), text.len() as usize), (after, after.len()), "{row}");
                assert_eq!(text.is_empty(), after.is_empty(), "{row}");
            }
        })
        .count()
}

/// Makes a call, and asserts what it returns.
fn make<const N: usize>(text: &mut ArrayString<N>, call: &str, row: &str) {
    let call = plain(call);
    let is_made =
        whole(text, call, row) || compared(text, call, row) || at_index(text, call, row) || in_range(text, call, row);
    assert!(is_made, "no list in call_list.rt has {call} of {row}");
    MADE.lock().expect("no panic").insert(call.to_string());
}

/// What a call of a list is given.
#[rustfmt::skip]
macro_rules! given {
    (ch, $row:ident $range:ident) => { parsed($row, 3) };
    (text, $row:ident $range:ident) => { column($row, 3) };
    (chars, $row:ident $range:ident) => { column($row, 3).chars() };
    (pieces, $row:ident $range:ident) => { column($row, 3).split(',') };
    (index, $row:ident $range:ident) => { parsed($row, 2) };
    (range, $row:ident $range:ident) => { $range };
}

/// Makes the call of a row that is in a list, and asserts what it returns. If there is none, the function returns `false`.
macro_rules! listed {
    (($row:ident $range:ident $text:ident.$call:ident) $($name:ident($($given:ident)*))*) => {
        match $call {
            $(stringify!($name) => returned($row, $text.$name($(given!($given, $row $range)),*)),)*
            _ => return false,
        }
    };
}

/// The calls that are given no index and no range. Like each function below, it makes the call of a row, asserts what it returns, and
/// returns whether it has such a call.
fn whole<const N: usize>(text: &mut ArrayString<N>, call: &str, row: &str) -> bool {
    let given = column(row, 3);
    match call {
        "add" => returned(row, *text = std::ops::Add::add(*text, given)),
        "len" => returned(row, assert_eq!(text.len(), parsed(row, 6), "{row}")),
        "capacity" => returned(row, assert_eq!(ArrayString::<N>::capacity(), parsed(row, 6), "{row}")),
        "write_str" => returned(row, text.write_str(given)),
        "push_unchecked" => returned(row, where_it_fits(text, None, given, |text| text.push_unchecked(parsed(row, 3)))),
        "push_str_unchecked" => returned(row, where_it_fits(text, None, given, |text| text.push_str_unchecked(given))),
        #[allow(clippy::clone_on_copy)]
        "clone" => returned(row, Some(text.clone())),
        "retain_in_turn" => returned(row, retained(text, given, "")),
        "retain_without" => {
            let _ = retained(text, "", given);
            returned(row, ());
        }
        _ => whole_calls!(listed (row range text.call)),
    }
    true
}

/// The calls that compare the string with that which is given.
fn compared<const N: usize>(text: &ArrayString<N>, call: &str, row: &str) -> bool {
    let other = &ArrayString::<N>::from(column(row, 3));
    match call {
        "cmp" => {
            let order = Ord::cmp(text, other);
            assert_eq!(PartialOrd::partial_cmp(text, other), Some(order), "{row}");
            assert_eq!((*text == *other, *text != *other), (order.is_eq(), order.is_ne()), "{row}");
            returned(row, order);
        }
        "hash" => {
            assert_eq!((hash_of(text), hash_of(text)), (hash_of(other), hash_of(other.as_str())), "{row}");
            returned(row, ());
        }
        _ => return false,
    }
    true
}

/// Keeps the characters at whose turn no `-` is given and that are not among the dropped ones, and returns all that were asked
/// about.
fn retained<const N: usize>(text: &mut ArrayString<N>, answers: &str, dropped: &str) -> String {
    let (mut asked, mut answers) = (String::new(), answers.chars());
    text.retain(|ch| {
        asked.push(ch);
        answers.next() != Some('-') && !dropped.contains(ch)
    });
    asked
}

/// Makes an unchecked call where what is given fits and the index is a boundary.
fn where_it_fits<const N: usize>(
    text: &mut ArrayString<N>,
    index: Option<u8>,
    given: &str,
    call: impl FnOnce(&mut ArrayString<N>),
) -> Option<()> {
    let fits = text.len() as usize + given.len() <= ArrayString::<N>::capacity() as usize;
    let is_place = index.is_none_or(|index| is_char_boundary(text, index).is_ok());
    (fits && is_place).then(|| call(text))
}

/// The calls at an index.
fn at_index<const N: usize>(text: &mut ArrayString<N>, call: &str, row: &str) -> bool {
    let Ok(index) = column(row, 2).parse() else { return false };
    let given = column(row, 3);
    match call {
        "is_char_boundary" => returned(row, is_char_boundary(text, index)),
        "insert_unchecked" => {
            returned(row, where_it_fits(text, Some(index), given, |text| text.insert_unchecked(index, parsed(row, 3))))
        }
        "insert_str_unchecked" => {
            returned(row, where_it_fits(text, Some(index), given, |text| text.insert_str_unchecked(index, given)))
        }
        _ => index_calls!(listed (row range text.call)),
    }
    true
}

/// Two bounds of a type of its own.
#[derive(Clone)]
struct Untold(Bound<u8>, Bound<u8>);

impl RangeBounds<u8> for Untold {
    fn start_bound(&self) -> Bound<&u8> {
        self.0.as_ref()
    }

    fn end_bound(&self) -> Bound<&u8> {
        self.1.as_ref()
    }
}

/// The calls on a range.
fn in_range<const N: usize>(text: &mut ArrayString<N>, call: &str, row: &str) -> bool {
    let written = column(row, 2);
    if written == "exhausted" {
        let mut range = 1..=3u8;
        while range.next().is_some() {}
        return of_range(text, call, row, range);
    }
    let told = || panic!("no list in call_list.rt has the call of {row}, or its range is none");
    let (start, end) = written.split_once("..").unwrap_or_else(told);
    if written.starts_with(['~', '(', '[']) {
        return of_range(text, call, row, Untold(bound(start), bound(end)));
    }
    let (first, last) = (place(start), place(end));
    match (start.is_empty(), end.is_empty(), end.starts_with('=')) {
        (true, true, _) => of_range(text, call, row, ..),
        (false, true, _) => of_range(text, call, row, first..),
        (true, false, true) => of_range(text, call, row, ..=last),
        (true, false, false) => of_range(text, call, row, ..last),
        (false, false, true) => of_range(text, call, row, first..=last),
        (false, false, false) => of_range(text, call, row, first..last),
    }
}

/// Makes a call on a range; those that require a part of the text, only where `get` finds one.
fn of_range<const N: usize>(
    text: &mut ArrayString<N>,
    call: &str,
    row: &str,
    range: impl RangeBounds<u8> + Clone,
) -> bool {
    let is_part = text.get(range.clone()).is_some();
    match call {
        "slice" | "make_ascii_uppercase_in" | "make_ascii_lowercase_in" if !is_part => returned(row, None::<()>),
        "slice" => returned(row, text.slice(range)),
        "make_ascii_uppercase_in" => returned(row, text.make_ascii_uppercase_in(range)),
        "make_ascii_lowercase_in" => returned(row, text.make_ascii_lowercase_in(range)),
        _ => range_calls!(listed (row range text.call)),
    }
    true
}

/// A place in a range, or any where none is written.
fn place(written: &str) -> u8 {
    let digits = written.trim_start_matches('=');
    if digits.is_empty() { 0 } else { digits.parse().expect("a place in the range") }
}

/// The bound that is written with its bracket, as `[3` or `3)`.
fn bound(written: &str) -> Bound<u8> {
    let written = written.trim_start_matches('~');
    let digits = written.trim_matches(['(', ')', '[', ']']);
    match digits.is_empty() {
        true => Bound::Unbounded,
        false if written.contains(['(', ')']) => Bound::Excluded(place(digits)),
        false => Bound::Included(place(digits)),
    }
}
