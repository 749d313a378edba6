//! The calls that change a string, and no range.

use std::cell::RefCell;
use std::fmt::Write;

use super::states::{Case, MadeAndWanted, WIDTHS, at_each_capacity, cases, counts, length, string_counts, texts};
use crate::ArrayString;

/// Characters that are white space, of one to three bytes, and a letter.
pub const SPACES: [char; 4] = ['Z', ' ', '\u{85}', '\u{2003}'];

/// The indices that a text of a capacity is asked for: to two past it, and the greatest.
pub fn indices(capacity: usize) -> impl Iterator<Item = u8> + Clone {
    (0..=capacity as u8 + 2).chain([255])
}

/// How many strings there are at a capacity.
pub fn total<const N: usize>(characters: &[char]) -> usize {
    string_counts::<N>(characters).iter().sum()
}

#[test]
fn edits_without_an_argument() {
    fn plain<const N: usize>() -> MadeAndWanted {
        let mut made = 0;
        for case in cases::<N>(&WIDTHS).iter().chain(&cases(&SPACES)) {
            let popped = case.wanted(|model| model.text.pop());
            made += case.each("pop", &popped, ArrayString::pop);
            made += case.each("clear", &case.wanted(|model| model.text.clear()), ArrayString::clear);
            let wanted = case.wanted(|model| model.trim());
            made += case.each("trim", &wanted, ArrayString::trim);
            let wanted = case.wanted(|model| model.trim_spaces());
            made += case.each("trim_spaces", &wanted, ArrayString::trim_spaces);
            let upper = case.wanted(|model| model.text.make_ascii_uppercase());
            made += case.each("make_ascii_uppercase", &upper, ArrayString::make_ascii_uppercase);
            let lower = case.wanted(|model| model.text.make_ascii_lowercase());
            made += case.each("make_ascii_lowercase", &lower, ArrayString::make_ascii_lowercase);
        }
        (made, 6 * (total::<N>(&WIDTHS) + total::<N>(&SPACES)))
    }
    at_each_capacity!(plain);
}

#[test]
fn edits_at_an_index() {
    fn by_index<const N: usize>() -> MadeAndWanted {
        let mut made = 0;
        for case in cases::<N>(&WIDTHS) {
            for index in indices(N) {
                let removed = case.wanted(|model| model.remove(index));
                made += case.each(("remove", index), &removed, |string| string.remove(index));
                let wanted = case.wanted(|model| model.truncate(index));
                made += case.each(("truncate", index), &wanted, |string| string.truncate(index));
                let wanted = case.wanted(|model| model.split_off(index));
                made += case
                    .each(("split_off", index), &wanted, |string| string.split_off(index).map(|rest| rest.to_string()));
            }
        }
        (made, 3 * total::<N>(&WIDTHS) * (N + 4))
    }
    at_each_capacity!(by_index);
}

/// How many pairs of a string and a text fit together.
fn fitting<const N: usize>() -> usize {
    let (strings, counts) = (string_counts::<N>(&WIDTHS), counts(&WIDTHS, N));
    (0..=N).map(|size| strings[size] * counts[..=N - size].iter().sum::<usize>()).sum()
}

#[test]
fn additions_of_a_text() {
    fn added<const N: usize>() -> MadeAndWanted {
        let mut made = 0;
        let texts = texts(&WIDTHS, N + 2);
        for case in cases::<N>(&WIDTHS) {
            for given in &texts {
                let name = |call| (call, given);
                let whole = case.wanted(|model| model.try_push_str(given));
                made += case.each(name("try_push_str"), &whole, |string| string.try_push_str(given));
                let is_whole = (whole.0.is_ok(), whole.1.clone());
                made += case.each(name("write!"), &is_whole, |string| write!(string, "{given}").is_ok());
                if whole.0.is_ok() {
                    made += case.each(name("push_str_unchecked"), &((), whole.1), |string| {
                        string.push_str_unchecked(given);
                    });
                }
                let cut = case.wanted(|model| model.push_str(given));
                made += case.each(name("push_str"), &cut, |string| string.push_str(given));
                made += case.each(name("+"), &cut, |string| *string = *string + given);
            }
        }
        (made, 4 * total::<N>(&WIDTHS) * texts.len() + fitting::<N>())
    }
    at_each_capacity!(added);
}

/// The texts that a text is cut into, at each place where the pattern has a bit: a character each where it has all.
fn pieces(text: &str, pattern: usize) -> Vec<&str> {
    let mut places = 0..;
    text.split_inclusive(|_: char| places.next().is_some_and(|place| pattern >> place & 1 == 1)).collect()
}

/// Every way to cut a text, with an empty text before the pieces and behind them.
pub fn all_pieces(text: &str) -> impl Iterator<Item = Vec<&str>> {
    (0..1 << length(text).saturating_sub(1)).map(move |pattern| [vec![""], pieces(text, pattern), vec![""]].concat())
}

/// How many ways there are to cut all texts of at most so many bytes: the first piece, and then the ways to cut what is left.
pub fn piece_counts(size: usize) -> usize {
    let (counts, mut ways) = (counts(&WIDTHS, size), vec![1]);
    for size in 1..=size {
        ways.push((1..=size).map(|first| counts[first] * ways[size - first]).sum());
    }
    ways.iter().sum()
}

#[test]
fn additions_of_items() {
    fn extended<const N: usize>() -> MadeAndWanted {
        let mut made = 0;
        let texts = texts(&WIDTHS, N + 2);
        for case in cases::<N>(&WIDTHS) {
            for given in &texts {
                // What is behind the first item that does not fit is not taken.
                let items: Vec<_> = given.split_inclusive(|_| true).collect();
                let wanted = case.wanted(|model| model.left_of(&items));
                made += case.each(("extend_chars", given), &wanted, |string| {
                    let mut left = given.chars();
                    string.extend_chars(&mut left);
                    left.count()
                });
                for pieces in all_pieces(given) {
                    let wanted = case.wanted(|model| model.left_of(&pieces));
                    made += case.each(("extend_strs", &pieces), &wanted, |string| {
                        let mut left = pieces.iter();
                        string.extend_strs(left.by_ref().copied());
                        left.len()
                    });
                }
            }
        }
        (made, total::<N>(&WIDTHS) * (texts.len() + piece_counts(N + 2)))
    }
    at_each_capacity!(extended);
}

#[test]
fn additions_of_a_character() {
    fn character<const N: usize>() -> MadeAndWanted {
        let mut made = 0;
        for case in cases::<N>(&WIDTHS) {
            for ch in WIDTHS {
                let pushed = case.wanted(|model| model.try_push_str(&ch.to_string()));
                made += case.each(("try_push", ch), &pushed, |string| string.try_push(ch));
                let written = (pushed.0.is_ok(), pushed.1.clone());
                made += case.each(("write_char", ch), &written, |string| string.write_char(ch).is_ok());
                if pushed.0.is_ok() {
                    made += case.each(("push_unchecked", ch), &((), pushed.1), |string| string.push_unchecked(ch));
                }
                for index in indices(N) {
                    let inserted = case.wanted(|model| model.try_insert_str(index, &ch.to_string()));
                    made += case.each(("try_insert", index, ch), &inserted, |string| string.try_insert(index, ch));
                    if inserted.0.is_ok() {
                        made += case.each(("insert_unchecked", index, ch), &((), inserted.1), |string| {
                            string.insert_unchecked(index, ch);
                        });
                    }
                }
            }
        }
        let fitting = |case: &Case<N>| WIDTHS.iter().filter(|ch| case.text.len() + ch.len_utf8() <= N).count();
        let unchecked = |case: &Case<N>| case.string_count() * fitting(case) * (2 + length(&case.text));
        let unchecked: usize = cases(&WIDTHS).iter().map(unchecked).sum();
        (made, 4 * total::<N>(&WIDTHS) * (N + 6) + unchecked)
    }
    at_each_capacity!(character);
}

#[test]
fn insertions_of_a_text() {
    fn inserted<const N: usize>() -> MadeAndWanted {
        let (mut made, mut unchecked) = (0, 0);
        let texts = texts(&WIDTHS, N + 2);
        for case in cases::<N>(&WIDTHS) {
            for (index, given) in indices(N).flat_map(|index| texts.iter().map(move |given| (index, given))) {
                let name = |call| (call, index, given);
                let whole = case.wanted(|model| model.try_insert_str(index, given));
                made += case.each(name("try_insert_str"), &whole, |string| string.try_insert_str(index, given));
                let cut = case.wanted(|model| model.insert_str(index, given));
                made += case.each(name("insert_str"), &cut, |string| string.insert_str(index, given));
                if whole.0.is_ok() {
                    unchecked += case.each(name("insert_str_unchecked"), &((), whole.1), |string| {
                        string.insert_str_unchecked(index, given);
                    });
                }
            }
        }
        // At each boundary of a text, each that fits.
        let counts = counts(&WIDTHS, N);
        let fitting = |case: &Case<N>| counts[..=N - case.text.len()].iter().sum::<usize>();
        let unchecked_of = |case: &Case<N>| case.string_count() * (length(&case.text) + 1) * fitting(case);
        assert_eq!(unchecked, cases(&WIDTHS).iter().map(unchecked_of).sum(), "unchecked calls at {N}");
        (made, 2 * total::<N>(&WIDTHS) * (N + 4) * texts.len())
    }
    at_each_capacity!(inserted);
}

#[test]
fn characters_that_are_kept() {
    fn retained<const N: usize>() -> MadeAndWanted {
        let (mut made, mut wanted) = (0, 0);
        for case in cases::<N>(&WIDTHS) {
            for pattern in 0..1 << length(&case.text) {
                let keeps = |at: usize| pattern >> at & 1 == 1;
                let mut places = 0..;
                let (_, kept) = case.wanted(|model| model.text.retain(|_| places.next().is_some_and(keeps)));
                // Each character is asked about once, in order.
                made += case.each(("retain", pattern), &(case.text.clone(), kept), |string| {
                    let asked = RefCell::new(String::new());
                    string.retain(|ch| {
                        asked.borrow_mut().push(ch);
                        keeps(length(&asked.borrow()) - 1)
                    });
                    asked.into_inner()
                });
            }
            wanted += case.string_count() << length(&case.text);
        }
        (made, wanted)
    }
    at_each_capacity!(retained);
}
