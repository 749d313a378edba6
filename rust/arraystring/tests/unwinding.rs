//! What is handed in may panic at each of its calls, or tell what is not so. The string is then a text all the same: the one that the
//! documentation of the call promises.

use std::cell::Cell;
use std::fmt::{self, Display, Write};
use std::ops::{Bound, RangeBounds};
use std::panic::{AssertUnwindSafe, catch_unwind, resume_unwind};

use arraystring::{ArrayString, Error};
use inputs::{behind, kept_and_taken};

mod inputs;

/// The panic of these tests, which prints nothing.
fn panic_now() -> ! {
    resume_unwind(Box::new("on purpose"))
}

/// Makes a call that panics on a string, and returns the text that it leaves.
fn left<const N: usize>(text: &str, call: impl FnOnce(&mut ArrayString<N>)) -> String {
    // A text that does not begin at offset 0, where there is room.
    left_at(usize::from(text.len() < N), text, call)
}

/// The same where the text begins at an offset of its array.
fn left_at<const N: usize>(offset: usize, text: &str, call: impl FnOnce(&mut ArrayString<N>)) -> String {
    let mut string = behind::<N>(offset, text);
    let panicked = catch_unwind(AssertUnwindSafe(|| call(&mut string)));
    assert!(panicked.is_err(), "no panic at `{text}`");
    assert_eq!(std::str::from_utf8(string.as_bytes()), Ok(string.as_str()));
    assert_eq!(string.len(), string.as_str().len());
    let text = string.as_str().to_string();
    // It goes on as any string of this text.
    let mut again = ArrayString::<N>::try_from_str(&text).expect("it fits");
    assert_eq!(string.push_str_truncate("é€"), again.push_str_truncate("é€"));
    assert_eq!(string, again);
    text
}

const TEXTS: &[&str] = &[
    "a",
    "aé€🤔b",
    "🤔🤔🤔🤔",
    "éaéaéaéaéa",
    "0123456789abcdefghijklmnopqrstuvwxyz€0123456789abcdefghijklmnopqrstuvwxyz",
];

/// Calls `retain` with a closure that gives some answers and then panics, on a text that begins at an offset, and asserts
/// what it leaves. The answer about the character at `at` is yes where `keeps` says so.
fn kept_before_a_panic<const N: usize>(offset: usize, text: &str, answers: usize, keeps: impl Fn(usize) -> bool) {
    let mut at = 0;
    let left = left_at::<N>(offset, text, |string| {
        string.retain(|_| {
            if at == answers {
                panic_now();
            }
            at += 1;
            keeps(at - 1)
        });
    });
    let kept = text.chars().take(answers).enumerate().filter(|(at, _)| keeps(*at));
    assert_eq!(left, kept.map(|(_, ch)| ch).collect::<String>(), "{answers} answers about `{text}` at {offset}");
}

/// The offsets at which texts begin in these tests.
const OFFSETS: std::ops::RangeInclusive<usize> = 0..=8;

#[test]
fn a_closure_that_panics_leaves_what_it_kept() {
    for text in TEXTS {
        let count = text.chars().count();
        for offset in OFFSETS {
            for answers in 0..count {
                // Each pattern of the answers that are given, of those of long texts the first ones.
                for pattern in 0..1u32 << answers.min(if count > 11 { 5 } else { 11 }) {
                    kept_before_a_panic::<100>(offset, text, answers, |at| pattern >> (at % 11) & 1 == 0);
                }
            }
        }
    }
}

#[test]
fn each_four_widths_at_each_offset() {
    for widths in 0..256 {
        let text: String = (0..4).map(|at| WIDTHS[widths >> (2 * at) & 3]).collect();
        for offset in OFFSETS {
            for answers in 0..4 {
                for pattern in 0..1 << answers {
                    kept_before_a_panic::<24>(offset, &text, answers, |at| pattern >> at & 1 == 0);
                }
            }
        }
    }
}

#[test]
fn runs_of_each_length_at_each_offset() {
    // One run is dropped, the next is kept and has to move; both of each length to 20.
    for dropped in 0..=20 {
        for kept in 0..=20 {
            for before in [0, 1, 5] {
                let text = "b".repeat(before) + &"d".repeat(dropped) + &"é".repeat(kept) + "e";
                for offset in OFFSETS {
                    let is_kept = |at: usize| !(before..before + dropped).contains(&at);
                    kept_before_a_panic::<100>(offset, &text, before + dropped + kept, is_kept);
                }
            }
        }
    }
}

#[test]
fn the_last_offsets_of_an_array() {
    for len in 1..=8 {
        let text = "é".repeat(len);
        for answers in 0..len {
            for pattern in 0..1 << answers {
                kept_before_a_panic::<255>(255 - 2 * len, &text, answers, |at| pattern >> at & 1 == 0);
                kept_before_a_panic::<16>(16 - 2 * len, &text, answers, |at| pattern >> at & 1 == 0);
            }
        }
    }
}

#[test]
fn what_was_dropped_once_is_asked_about_once() {
    // No panic: each character is asked about once, in order, at each offset.
    for text in TEXTS {
        for offset in OFFSETS {
            for pattern in [0, u32::MAX, 0x5555_5555, 0xAAAA_AAAA, 0x3333_3333, 0x0F0F_0F0F, 0xF731_8CEF] {
                let keeps = |at: usize| pattern >> (at % 32) & 1 == 0;
                let (mut string, mut asked) = (behind::<100>(offset, text), String::new());
                string.retain(|ch| {
                    asked.push(ch);
                    keeps(asked.chars().count() - 1)
                });
                let kept = text.chars().enumerate().filter(|(at, _)| keeps(*at));
                assert_eq!((asked.as_str(), string.as_str()), (*text, &*kept.map(|(_, ch)| ch).collect::<String>()));
            }
        }
    }
}

/// Panics where it is dropped.
struct Dropped;

impl Drop for Dropped {
    fn drop(&mut self) {
        panic_now();
    }
}

#[test]
fn a_closure_whose_drop_panics_leaves_what_it_kept() {
    for text in TEXTS {
        for offset in OFFSETS {
            for pattern in 0..16u32 {
                let keeps = |at: usize| pattern >> (at % 4) & 1 == 0;
                let (dropped, mut at) = (Dropped, 0);
                let left = left_at::<100>(offset, text, |string| {
                    string.retain(move |_| {
                        let _ = &dropped;
                        at += 1;
                        keeps(at - 1)
                    });
                });
                let kept = text.chars().enumerate().filter(|(at, _)| keeps(*at));
                assert_eq!(left, kept.map(|(_, ch)| ch).collect::<String>());
            }
        }
    }
}

/// An iterator that panics after some items, and says any number of items.
struct Panics<I> {
    items: I,
    left: usize,
    hint: (usize, Option<usize>),
}

impl<I: Iterator> Iterator for Panics<I> {
    type Item = I::Item;

    fn next(&mut self) -> Option<I::Item> {
        self.left = self.left.checked_sub(1).unwrap_or_else(|| panic_now());
        self.items.next()
    }

    fn size_hint(&self) -> (usize, Option<usize>) {
        self.hint
    }
}

#[test]
fn an_iterator_that_panics_leaves_what_the_call_says() {
    for text in TEXTS {
        for taken in 0..text.chars().count() {
            for hint in [(0, Some(0)), (usize::MAX, None), (usize::MAX, Some(0))] {
                let chars = || Panics { items: text.chars(), left: taken, hint };
                let pieces = || Panics { items: text.split_inclusive(|_| true), left: taken, hint };
                let wanted: String = "é".chars().chain(text.chars().take(taken)).collect();
                assert_eq!(left::<100>("é", |string| _ = string.extend_chars_truncate(chars())), wanted);
                assert_eq!(left::<100>("é", |string| _ = string.extend_strs_truncate(pieces())), wanted);
                assert_eq!(left::<100>("é", |string| _ = string.try_extend_chars(chars())), "é");
                assert_eq!(left::<100>("é", |string| _ = string.try_extend_strs(pieces())), "é");
                // Where nothing is left of the result, the string that was there is as it was.
                assert_eq!(left::<100>("é", |string| *string = ArrayString::from_chars_truncate(chars())), "é");
                assert_eq!(left::<100>("é", |string| *string = ArrayString::from_iterator_truncate(pieces())), "é");
                assert_eq!(left::<100>("é", |string| *string = ArrayString::try_from_chars(chars()).unwrap()), "é");
                assert_eq!(left::<100>("é", |string| *string = ArrayString::try_from_iterator(pieces()).unwrap()), "é");
            }
        }
    }
}

/// An iterator whose drop panics.
struct Items<'a> {
    items: std::slice::Iter<'a, &'a str>,
    _dropped: Dropped,
}

impl<'a> Iterator for Items<'a> {
    type Item = &'a str;

    fn next(&mut self) -> Option<&'a str> {
        self.items.next().copied()
    }
}

/// What panics where it is turned into such an iterator, or makes one.
#[derive(Clone, Copy)]
struct Source<'a> {
    items: &'a [&'a str],
    is_made: bool,
}

impl<'a> IntoIterator for Source<'a> {
    type Item = &'a str;
    type IntoIter = Items<'a>;

    fn into_iter(self) -> Items<'a> {
        if !self.is_made {
            panic_now();
        }
        Items { items: self.items.iter(), _dropped: Dropped }
    }
}

/// The same, which gives the first character of each item.
struct Characters<'a>(Source<'a>);

impl<'a> IntoIterator for Characters<'a> {
    type Item = char;
    type IntoIter = std::iter::Map<Items<'a>, fn(&str) -> char>;

    fn into_iter(self) -> Self::IntoIter {
        self.0.into_iter().map(|item| item.chars().next().unwrap_or('-'))
    }
}

#[test]
fn the_making_or_the_drop_of_an_iterator_panics() {
    let all = ["a", "é", "", "€b"];
    for (count, before) in (0..=all.len()).flat_map(|count| ["", "é", "éé"].map(|before| (count, before))) {
        let items = &all[..count];
        let added = kept_and_taken(items.iter().copied(), 8 - before.len()).0;
        for is_made in [false, true] {
            let source = Source { items, is_made };
            let cut = if is_made { format!("{before}{added}") } else { before.to_string() };
            assert_eq!(left::<8>(before, |string| _ = string.extend_strs_truncate(source)), cut);
            assert_eq!(left::<8>(before, |string| _ = string.try_extend_strs(source)), before);
            assert_eq!(left::<8>(before, |string| _ = string.try_extend_chars(Characters(source))), before);
            assert_eq!(left::<8>(before, |string| *string = ArrayString::from_iterator_truncate(source)), before);
            assert_eq!(
                left::<8>(before, |string| *string = ArrayString::from_chars_truncate(Characters(source))),
                before
            );
            assert_eq!(left::<8>(before, |string| *string = ArrayString::try_from_iterator(source).unwrap()), before);
            assert_eq!(
                left::<8>(before, |string| *string = ArrayString::try_from_chars(Characters(source)).unwrap()),
                before
            );
        }
    }
}

/// A range that tells other bounds each time.
struct Lies<'a> {
    asked: Cell<usize>,
    bounds: &'a [(Bound<usize>, Bound<usize>)],
}

impl Lies<'_> {
    fn told(&self) -> &(Bound<usize>, Bound<usize>) {
        self.asked.set(self.asked.get() + 1);
        &self.bounds[self.asked.get() % self.bounds.len()]
    }
}

impl RangeBounds<usize> for Lies<'_> {
    fn start_bound(&self) -> Bound<&usize> {
        self.told().0.as_ref()
    }

    fn end_bound(&self) -> Bound<&usize> {
        self.told().1.as_ref()
    }

    fn contains<U: PartialOrd<usize> + ?Sized>(&self, _: &U) -> bool
    where
        usize: PartialOrd<U>,
    {
        true
    }
}

/// What a range that lies takes out is what some honest range of its bounds would: each is asked for once.
#[test]
fn ranges_that_lie_are_asked_once_for_each_end() {
    use Bound::{Excluded, Included, Unbounded};
    let places = [0, 1, 2, 3, 9, 255, 256, 257, 65536, usize::MAX].map(|at| [Included(at), Excluded(at)]).concat();
    let places = || places.iter().copied().chain([Unbounded]);
    let all: Vec<_> = places().flat_map(|start| places().map(move |end| (start, end))).collect();
    let others = [
        (Unbounded, Unbounded),
        (Included(3), Included(3)),
        (Excluded(usize::MAX), Included(usize::MAX)),
        (Included(256), Excluded(1)),
    ];
    for (one, other) in all.iter().flat_map(|one| others.iter().map(move |other| (*one, *other))) {
        for bounds in [[one, other], [other, one]] {
            let lies = || Lies { asked: Cell::new(0), bounds: &bounds };
            let honest = (bounds[1].0, bounds[0].1);
            let [mut drained, mut replaced, mut by_honest] = [behind::<12>(1, "aé€🤔"); 3];
            let range = lies();
            assert_eq!(drained.drain(&range), by_honest.drain(honest), "{bounds:?}");
            assert_eq!((drained, range.asked.get()), (by_honest, 2), "{bounds:?}");
            let mut by_honest = behind::<12>(1, "aé€🤔");
            assert_eq!(replaced.replace_range(lies(), "é"), by_honest.replace_range(honest, "é"), "{bounds:?}");
            assert_eq!(replaced, by_honest);
        }
    }
}

impl RangeBounds<usize> for &Lies<'_> {
    fn start_bound(&self) -> Bound<&usize> {
        (**self).start_bound()
    }

    fn end_bound(&self) -> Bound<&usize> {
        (**self).end_bound()
    }
}

/// A character of each width in UTF-8.
const WIDTHS: [char; 4] = ['a', 'é', '€', '🤔'];

/// The greatest capacity at which the tests below go through each string: what the variable `ARRAYSTRING_CAPACITY` of the environment says.
/// Without it a build with debug assertions, which is slow, stops at a smaller one.
fn greatest_capacity() -> usize {
    let told = std::env::var("ARRAYSTRING_CAPACITY").ok();
    told.map_or(if cfg!(debug_assertions) { 4 } else { 6 }, |told| {
        told.parse().expect("ARRAYSTRING_CAPACITY is a number")
    })
}

/// Calls a generic test at each capacity up to the greatest.
macro_rules! on_every_string {
    ($test:ident) => {
        for (capacity, test) in
            [$test::<0>, $test::<1>, $test::<2>, $test::<3>, $test::<4>, $test::<5>, $test::<6>].iter().enumerate()
        {
            if capacity <= greatest_capacity() {
                test();
            }
        }
    };
}

/// Each text of characters of each width that has so many bytes at most, shorter ones first.
fn texts(size: usize) -> Vec<String> {
    let mut texts = vec![String::new()];
    let mut at = 0;
    while at < texts.len() {
        let longer = WIDTHS.map(|ch| texts[at].clone() + ch.encode_utf8(&mut [0; 4]));
        texts.extend(longer.into_iter().filter(|text| text.len() <= size));
        at += 1;
    }
    assert_eq!(texts.iter().filter(|text| text.len() == 4.min(size)).count(), [1, 1, 2, 4, 8][4.min(size)]);
    texts
}

/// Each text that fits, with each string of it: at each start offset.
fn strings<const N: usize>() -> Vec<(String, ArrayString<N>)> {
    let texts = texts(N).into_iter();
    texts.flat_map(|text| (0..=N - text.len()).map(move |offset| (text.clone(), behind(offset, &text)))).collect()
}

/// Makes a call on a copy of a string. Asserts whether it panics, and the text that it leaves, also when it is filled then.
fn leaves<const N: usize, T>(
    name: &str,
    string: &ArrayString<N>,
    wanted: &(bool, String),
    call: impl FnOnce(&mut ArrayString<N>) -> T,
) {
    let mut after = *string;
    let panicked = catch_unwind(AssertUnwindSafe(|| _ = call(&mut after))).is_err();
    assert_eq!((panicked, after.as_str()), (wanted.0, &*wanted.1), "{name} of {string:?} at {N}");
    let filler = "~".repeat(N - after.len());
    assert_eq!(
        (after.try_push_str(&filler), after.as_str()),
        (Ok(()), &*format!("{}{filler}", wanted.1)),
        "{name} of {string:?} at {N}"
    );
}

#[test]
fn a_closure_panics_at_each_call_on_every_string() {
    fn retained<const N: usize>() {
        for (text, string) in strings::<N>() {
            let count = text.chars().count();
            for (stops, pattern) in (0..=count).flat_map(|stops| (0..1 << stops).map(move |pattern| (stops, pattern))) {
                let keeps = |at: usize| pattern >> at & 1 == 1;
                let kept = text.chars().take(stops).enumerate().filter(|(at, _)| keeps(*at));
                let left = (stops < count, kept.map(|(_, ch)| ch).collect());
                leaves("retain", &string, &left, |string| {
                    let mut answers = (0..stops).map(keeps);
                    string.retain(|_| answers.next().unwrap_or_else(|| panic_now()));
                });
            }
        }
    }
    on_every_string!(retained);
}

#[test]
fn the_drop_of_a_closure_panics_on_every_string() {
    fn dropped<const N: usize>() {
        for (text, string) in strings::<N>() {
            for pattern in 0..1 << text.chars().count() {
                let keeps = move |at: usize| pattern >> at & 1 == 1;
                let kept = text.chars().enumerate().filter(|(at, _)| keeps(*at)).map(|(_, ch)| ch).collect();
                leaves("retain", &string, &(true, kept), |string| {
                    let (dropped, mut answers) = (Dropped, (0..).map(keeps));
                    string.retain(move |_| {
                        let _ = &dropped;
                        answers.next() == Some(true)
                    });
                });
            }
        }
    }
    on_every_string!(dropped);
}

/// Whether a call panics that adds items, and the text that it leaves, where so many items come before the panic.
fn extended(text: &str, items: &[&str], stops: usize, capacity: usize) -> (bool, String) {
    let mut text = text.to_string();
    for item in &items[..stops] {
        if text.len() + item.len() > capacity {
            return (false, text);
        }
        text.push_str(item);
    }
    (true, text)
}

/// An item whose text is asked for, which panics if it has none.
struct Item<'a>(Option<&'a str>);

impl AsRef<str> for Item<'_> {
    fn as_ref(&self) -> &str {
        self.0.unwrap_or_else(|| panic_now())
    }
}

/// A text that is written character by character, and panics behind the last.
struct Written<'a> {
    items: &'a [&'a str],
    /// Whether it goes on behind an item that is refused, as if nothing had been.
    goes_on: bool,
}

impl Display for Written<'_> {
    fn fmt(&self, f: &mut fmt::Formatter<'_>) -> fmt::Result {
        for item in self.items {
            let written = f.write_str(item);
            if !self.goes_on {
                written?;
            }
        }
        panic_now()
    }
}

#[test]
fn an_iterator_panics_at_each_call_on_every_string() {
    fn added<const N: usize>() {
        let texts = texts(N + 2);
        for (text, string) in strings::<N>() {
            for given in &texts {
                let items: Vec<_> = given.split_inclusive(|_| true).collect();
                for stops in 0..=items.len() {
                    let left = extended(&text, &items, stops, N);
                    let none = (left.0, text.clone());
                    let chars = || Panics { items: given.chars(), left: stops, hint: (0, None) };
                    let pieces = || Panics { items: items.iter(), left: stops, hint: (usize::MAX, Some(0)) };
                    let asked = || items[..stops].iter().map(|item| Item(Some(item))).chain([Item(None)]);
                    leaves("extend_chars_truncate", &string, &left, |string| string.extend_chars_truncate(chars()));
                    leaves("extend_strs_truncate", &string, &left, |string| string.extend_strs_truncate(pieces()));
                    leaves("as_ref", &string, &left, |string| string.extend_strs_truncate(asked()));
                    // What is appended whole or not at all leaves nothing behind, whether it panics or is refused.
                    leaves("try_extend_chars", &string, &none, |string| string.try_extend_chars(chars()));
                    leaves("try_extend_strs", &string, &none, |string| string.try_extend_strs(pieces()));
                    leaves("as_ref, whole", &string, &none, |string| string.try_extend_strs(asked()));
                }
            }
        }
    }
    on_every_string!(added);
}

#[test]
fn a_display_panics_behind_each_piece_on_every_string() {
    fn written<const N: usize>() {
        let texts = texts(N + 2);
        for (text, string) in strings::<N>() {
            for given in &texts {
                let items: Vec<_> = given.split_inclusive(|_| true).collect();
                for (stops, goes_on) in (0..=items.len()).flat_map(|stops| [(stops, false), (stops, true)]) {
                    let items = &items[..stops];
                    let row = Written { items, goes_on };
                    let left = extended(&text, items, stops, N);
                    let panics = left.0 || goes_on;
                    let none = (panics, text.clone());
                    leaves("try_write", &string, &none, |string| string.try_write(format_args!("{row}")));
                    // What is cut before the panic is not taken back, if the `Display` stops there as it is told.
                    let cut = if panics { &none } else { &left };
                    leaves("write_truncate", &string, cut, |string| string.write_truncate(format_args!("{row}")));
                    // `write!` keeps each piece that fitted.
                    let room = N - text.len();
                    let fitting = if goes_on { all_that_fit(items, room) } else { left.1[text.len()..].to_string() };
                    leaves("write!", &string, &(panics, format!("{text}{fitting}")), |string| write!(string, "{row}"));
                    leaves("try_from_format", &string, &(panics_anew::<N>(items, goes_on), text.clone()), |_| {
                        ArrayString::<N>::try_from_format(format_args!("{row}"))
                    });
                }
            }
        }
    }
    on_every_string!(written);
}

/// The pieces that fit, also behind others that do not.
fn all_that_fit(items: &[&str], room: usize) -> String {
    items.iter().fold(String::new(), |text, item| if text.len() + item.len() <= room { text + item } else { text })
}

/// Whether a row panics where there is all the room of a capacity.
fn panics_anew<const N: usize>(items: &[&str], goes_on: bool) -> bool {
    goes_on || items.concat().len() <= N
}

#[test]
fn an_iterator_panics_where_a_string_is_made() {
    fn made<const N: usize>() {
        for given in texts(N + 2) {
            let items: Vec<_> = given.split_inclusive(|_| true).collect();
            for stops in 0..=items.len() {
                let wanted = extended("", &items, stops, N).0;
                let chars = || Panics { items: given.chars(), left: stops, hint: (0, None) };
                let pieces = || Panics { items: items.iter(), left: stops, hint: (0, None) };
                let panics = |make: &dyn Fn() -> bool| catch_unwind(AssertUnwindSafe(make)).is_err();
                let calls = [
                    panics(&|| ArrayString::<N>::from_chars_truncate(chars()).is_empty()),
                    panics(&|| ArrayString::<N>::try_from_chars(chars()).is_ok()),
                    panics(&|| ArrayString::<N>::from_iterator_truncate(pieces()).is_empty()),
                    panics(&|| ArrayString::<N>::try_from_iterator(pieces()).is_ok()),
                ];
                assert_eq!(calls, [wanted; 4], "{given} and a panic behind {stops}");
            }
        }
    }
    on_every_string!(made);
}

/// A range whose bounds are asked for so many times before a panic.
struct Asked(Cell<usize>);

impl Asked {
    fn bound(&self) -> Bound<&usize> {
        self.0.set(self.0.get().checked_sub(1).unwrap_or_else(|| panic_now()));
        Bound::Unbounded
    }
}

impl RangeBounds<usize> for Asked {
    fn start_bound(&self) -> Bound<&usize> {
        self.bound()
    }

    fn end_bound(&self) -> Bound<&usize> {
        self.bound()
    }
}

#[test]
fn a_range_panics_at_each_bound_on_every_string() {
    fn unchanged<const N: usize>() {
        for (text, string) in strings::<N>() {
            for asked in 0..2 {
                let (range, left) = (|| Asked(Cell::new(asked)), (true, text.clone()));
                leaves("drain", &string, &left, |string| string.drain(range()));
                leaves("replace_range", &string, &left, |string| string.replace_range(range(), ""));
            }
            // (each is asked for once, so here is no panic)
            leaves("replace_range", &string, &(false, text.clone()), |string| {
                string.replace_range(Asked(Cell::new(2)), &text)
            });
            leaves("drain", &string, &(false, String::new()), |string| string.drain(Asked(Cell::new(2))));
        }
    }
    on_every_string!(unchanged);
}

/// A call that is refused after a panic was, or before one, refuses as ever.
#[test]
fn a_string_is_as_good_as_new_behind_many_panics() {
    let mut string = behind::<8>(2, "aé€");
    for round in 0..1000 {
        let items = ["b", "é", "€"];
        let given = || Panics { items: items.iter(), left: round % 3, hint: (0, None) };
        let panicked = catch_unwind(AssertUnwindSafe(|| string.try_extend_strs(given())));
        // (one byte and a half of a character fit, so the second item is refused before the third is asked for)
        assert_eq!(panicked.is_err(), round % 3 < 2, "{round}");
        assert_eq!(string, "aé€");
        assert_eq!(string.try_insert_str(2, "b"), Err(Error::Utf8));
        assert_eq!(string.try_insert_str(1, "abc"), Err(Error::OutOfBounds));
    }
}
