//! The calls that take a range.

use std::ops::{Bound, RangeBounds};

use super::edits::{indices, total};
use super::states::{MadeAndWanted, WIDTHS, at_each_capacity, cases, length, texts};
use crate::limited::{Ends, wide};
use crate::{ArrayString, Drain, given_by};

/// Every range of two bounds at a capacity.
fn ranges(capacity: usize) -> Vec<Ends> {
    let at = |index| [Bound::Included(index), Bound::Excluded(index)];
    let bounds: Vec<_> = [Bound::Unbounded].into_iter().chain(indices(capacity).flat_map(at)).collect();
    bounds.iter().flat_map(|start| bounds.iter().map(move |end| (*start, *end))).collect()
}

/// How many that are: no bound, or one of two kinds at each index.
fn range_count(capacity: usize) -> usize {
    (1 + 2 * (capacity + 4)).pow(2)
}

#[test]
fn parts_between_two_bounds() {
    fn parts<const N: usize>() -> MadeAndWanted {
        let mut made = 0;
        for case in cases::<N>(&WIDTHS) {
            for range in ranges(N) {
                let wanted = case.unchanged(case.text.get(wide(range)).map(str::to_string));
                made += case.each(("get", range), &wanted, |string| string.get(range).map(str::to_string));
                // (the others require a part)
                let is_part = wanted.0.is_some();
                made += case.each(("slice", range), &wanted, |string| is_part.then(|| string.slice(range).to_string()));
                let upper = case.wanted(|model| model.text.get_mut(wide(range)).map(str::make_ascii_uppercase));
                made += case.each(("make_ascii_uppercase_in", range), &upper, |string| {
                    is_part.then(|| string.make_ascii_uppercase_in(range))
                });
            }
        }
        (made, 3 * total::<N>(&WIDTHS) * range_count(N))
    }
    at_each_capacity!(parts);
}

#[test]
fn capitals_between_two_bounds() {
    fn capitals<const N: usize>() -> MadeAndWanted {
        const CAPITALS: [char; 4] = ['A', 'É', '€', '🤔'];
        let mut made = 0;
        for case in cases::<N>(&CAPITALS) {
            for range in ranges(N) {
                let lower = case.wanted(|model| model.text.get_mut(wide(range)).map(str::make_ascii_lowercase));
                let is_part = lower.0.is_some();
                made += case.each(("make_ascii_lowercase_in", range), &lower, |string| {
                    is_part.then(|| string.make_ascii_lowercase_in(range))
                });
            }
        }
        (made, total::<N>(&CAPITALS) * range_count(N))
    }
    at_each_capacity!(capitals);
}

#[test]
fn drains_between_two_bounds() {
    fn drain_each_case<const N: usize>() -> MadeAndWanted {
        let mut made = 0;
        for case in cases::<N>(&WIDTHS) {
            for range in ranges(N) {
                let wanted = case.wanted(|model| model.drain(range));
                made += case.each(("drain", range), &wanted, |string| string.drain(range).map(given_by));
            }
        }
        (made, total::<N>(&WIDTHS) * range_count(N))
    }
    at_each_capacity!(drain_each_case);
}

#[test]
fn replacements_between_two_bounds() {
    fn replaced<const N: usize>() -> MadeAndWanted {
        let mut made = 0;
        let texts = texts(&WIDTHS, N + 2);
        for case in cases::<N>(&WIDTHS) {
            for (range, with) in ranges(N).into_iter().flat_map(|range| texts.iter().map(move |with| (range, with))) {
                let wanted = case.wanted(|model| model.replace_range(range, with));
                made += case.each(("replace_range", range, with), &wanted, |string| string.replace_range(range, with));
            }
        }
        (made, total::<N>(&WIDTHS) * range_count(N) * texts.len())
    }
    at_each_capacity!(replaced);
}

/// Makes each call that takes a range of a kind of std's, on each string of a text.
macro_rules! by_kind {
    ($case:expr, $range:expr) => {{
        let (case, name, range) = ($case, stringify!($range), $range);
        let ends = (RangeBounds::<u8>::start_bound(&range).cloned(), range.end_bound().cloned());
        let part = case.unchanged(case.text.get(wide(ends)).map(str::to_string));
        let is_part = part.0.is_some();
        let drained = case.wanted(|model| model.drain(ends));
        let replaced = case.wanted(|model| model.replace_range(ends, "é"));
        case.each(("get", name, ends), &part, |string| string.get($range).map(str::to_string))
            + case.each(("slice", name, ends), &part, |string| is_part.then(|| string.slice($range).to_string()))
            + case.each(("drain", name, ends), &drained, |string| string.drain($range).map(given_by))
            + case.each(("replace_range", name, ends), &replaced, |string| string.replace_range($range, "é"))
    }};
}

#[test]
fn each_kind_of_range() {
    fn kinds<const N: usize>() -> MadeAndWanted {
        let mut made = 0;
        for case in &cases::<N>(&WIDTHS) {
            made += by_kind!(case, ..);
            for start in indices(N) {
                made += by_kind!(case, start..) + by_kind!(case, ..start) + by_kind!(case, ..=start);
                for end in indices(N) {
                    made += by_kind!(case, start..end) + by_kind!(case, start..=end);
                }
            }
        }
        (made, 4 * total::<N>(&WIDTHS) * (1 + 3 * (N + 4) + 2 * (N + 4) * (N + 4)))
    }
    at_each_capacity!(kinds);
}

/// Whether an iterator gives these characters. It is a `dyn`, because in a loop over the drain of one byte rustc tests this byte before it
/// asks whether it is left. Nothing hangs on that test then, but memcheck tells of it where the byte has no value.
fn gives(items: &mut dyn Iterator<Item = char>, wanted: impl Iterator<Item = char>) -> bool {
    items.eq(wanted)
}

/// Takes what is left of a drain from both ends in every order, and says how many drains that are.
fn count_walks<const N: usize>(drain: Drain<N>, left: &str) -> usize {
    assert_eq!(drain.as_str().as_bytes(), left.as_bytes());
    assert_eq!(format!("{drain:?}"), format!("Drain({left:?})"));
    assert!(gives(&mut { drain }, left.chars()) && gives(&mut drain.rev(), left.chars().rev()), "{left:?}");
    let (mut front, mut back) = (drain, drain);
    let (mut chars, mut backwards) = (left.chars(), left.chars());
    assert_eq!((front.next(), back.next_back()), (chars.next(), backwards.next_back()), "of {left}");
    if left.is_empty() {
        assert_eq!((front.next_back(), back.next(), front.as_str(), back.as_str()), (None, None, "", ""));
        return 1;
    }
    1 + count_walks(front, chars.as_str()) + count_walks(back, backwards.as_str())
}

#[test]
fn every_walk_of_a_drain() {
    fn walks<const N: usize>() -> MadeAndWanted {
        let (mut made, mut wanted) = (0, 0);
        for case in cases::<N>(&WIDTHS) {
            let len = case.text.len() as u8;
            for range in (0..=len).flat_map(|start| (start..=len).map(move |end| start..end)) {
                let Some(part) = case.text.get(range.start.into()..range.end.into()) else { continue };
                for string in &case.strings {
                    let drain = { *string }.drain(range.clone()).expect("a part");
                    made += count_walks(drain, part);
                }
            }
            // A part of so many characters begins at so many places, and each character is taken from one of two ends.
            let count = length(&case.text);
            let drains = (0..=count).map(|len| (count - len + 1) * ((2 << len) - 1));
            wanted += case.string_count() * drains.sum::<usize>();
        }
        (made, wanted)
    }
    at_each_capacity!(walks);
}

#[test]
fn drains_beside_each_other() {
    fn drains<const N: usize>() -> MadeAndWanted {
        let mut made = 0;
        let cases = cases::<N>(&WIDTHS);
        let all = |string: &ArrayString<N>| { *string }.drain(..).expect("all of it");
        for (one, other) in cases.iter().flat_map(|one| cases.iter().map(move |other| (one, other))) {
            let wanted = (one.text == other.text, one.text.cmp(&other.text), Some(one.text.cmp(&other.text)));
            for string in &one.strings {
                let drain = all(string);
                for other in other.strings.iter().map(all) {
                    let orders = (Ord::cmp(&drain, &other), PartialOrd::partial_cmp(&drain, &other));
                    assert_eq!((drain == other, orders.0, orders.1), wanted);
                    made += 1;
                }
            }
        }
        (made, total::<N>(&WIDTHS).pow(2))
    }
    at_each_capacity!(drains);
}
