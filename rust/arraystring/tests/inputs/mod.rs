//! What the tests of this folder go through: capacities, texts of each length, offsets in an array, and what iterators tell of
//! their items; and the plain rules by which a text is cut. Each test takes of it what it needs.
#![allow(dead_code, unused_imports, unused_macros)]

use std::cmp::Ordering;
use std::collections::hash_map::DefaultHasher;
use std::hash::{Hash, Hasher};

use arraystring::ArrayString;

/// Calls a generic test at each capacity on which something could depend: those of a word, of a vector, of a byte, and their neighbours.
macro_rules! at_capacities {
    ($test:ident) => {
        $crate::inputs::at_capacities!($test:
            0 1 2 3 4 7 8 9 15 16 17 23 31 32 33 63 64 65 127 128 129 254 255);
    };
    ($test:ident: $($capacity:literal)*) => {
        $($test::<$capacity>();)*
    };
}
pub(crate) use at_capacities;

/// The greatest length of a string, which is the greatest capacity.
pub const MOST: usize = 255;

/// The lengths of what is given: to more than twice what any string takes.
pub const GIVEN: std::ops::RangeInclusive<usize> = 0..=520;

/// Characters of each width, the least and the greatest of each, and some between: among them white space, the end of a line, and the
/// mark that some programs drop in front of a text.
pub const CHARS: [char; 14] = [
    '\0',
    '\n',
    'a',
    ' ',
    'b',
    '\u{7F}',
    '\u{80}',
    'é',
    '\u{7FF}',
    '\u{800}',
    '\u{FEFF}',
    '\u{FFFF}',
    '\u{10000}',
    '\u{10FFFF}',
];

/// The longest prefix of whole characters that takes at most so many bytes.
pub fn cut(text: &str, size: usize) -> &str {
    &text[..(0..=size.min(text.len())).rev().find(|end| text.is_char_boundary(*end)).unwrap_or(0)]
}

/// So many bytes of ASCII.
pub fn letters(len: usize) -> String {
    (0..len).map(|at| (b'!' + (at * 5 % 90) as u8) as char).collect()
}

/// A text of so many bytes, of characters of one to four bytes. It begins with that of some place in the list.
pub fn mixed(len: usize, first: usize) -> String {
    let mut text: String = CHARS.iter().rev().cycle().skip(first).map_while(taken_to(len)).collect();
    text.push_str(&"m".repeat(len - text.len()));
    text
}

/// Takes characters as long as they fit into so many bytes.
fn taken_to(mut room: usize) -> impl FnMut(&char) -> Option<char> {
    move |ch| {
        room = room.checked_sub(ch.len_utf8())?;
        Some(*ch)
    }
}

/// Texts of so many bytes: of letters, and of wide characters from two places of the list on.
pub fn texts_of(len: usize) -> [String; 3] {
    let texts = [letters(len), mixed(len, 0), mixed(len, len % CHARS.len())];
    assert!(texts.iter().all(|text| text.len() == len));
    texts
}

/// The lengths at which a text fills a capacity, nearly or too far, and some shorter ones.
pub fn edges(capacity: usize) -> Vec<usize> {
    let most = capacity + 2;
    let mut lengths: Vec<usize> = (0..5).flat_map(|by| [by, most / 2 + by, most.saturating_sub(by)]).collect();
    lengths.retain(|len| *len <= most);
    lengths.sort_unstable();
    lengths.dedup();
    lengths
}

/// A string whose text begins behind so many bytes of its array, where there is room for them.
pub fn behind<const N: usize>(offset: usize, text: &str) -> ArrayString<N> {
    let offset = offset.min(N - text.len());
    let mut string = ArrayString::<N>::try_from_str(&"~".repeat(offset)).expect("room");
    string.try_push_str(text).expect("room");
    assert_eq!(string.drain(..offset).expect("a part").as_str().len(), offset);
    assert_eq!(string.as_str(), text);
    string
}

/// The offsets at which a text may begin that leaves so much room: each, or the first two, the middle and the last.
pub fn some_offsets(room: usize) -> Vec<usize> {
    let mut offsets = vec![0, 1, room / 2, room];
    offsets.retain(|offset| *offset <= room);
    offsets.dedup();
    offsets
}

pub fn hash_of<T: Hash + ?Sized>(value: &T) -> u64 {
    let mut state = DefaultHasher::new();
    value.hash(&mut state);
    state.finish()
}

/// What an iterator of so many items may tell of their number: the truth, nothing, too few, too many, and what cannot be.
pub fn hints(count: usize) -> [(usize, Option<usize>); 9] {
    [
        (count, Some(count)),
        (0, None),
        (0, Some(0)),
        (0, Some(usize::MAX)),
        (count / 2, Some(count / 2)),
        (1, Some(1)),
        (count + 300, Some(count + 300)),
        (usize::MAX, None),
        (usize::MAX, Some(0)),
    ]
}

/// An iterator that tells some number of items, and counts those that are taken.
pub struct Told<'a, I> {
    pub items: I,
    pub hint: (usize, Option<usize>),
    pub taken: &'a mut usize,
}

impl<I: Iterator> Iterator for Told<'_, I> {
    type Item = I::Item;

    fn next(&mut self) -> Option<I::Item> {
        let item = self.items.next();
        *self.taken += usize::from(item.is_some());
        item
    }

    fn size_hint(&self) -> (usize, Option<usize>) {
        self.hint
    }

    /// It does not stop at the first item for which `asks` says so, as it should: what is taken may not hang on a caller's `any`.
    fn any<F: FnMut(I::Item) -> bool>(&mut self, asks: F) -> bool {
        self.by_ref().map(asks).filter(|is_one| *is_one).count() != 0
    }
}

/// Pieces as they are, and with empty ones before, between and behind them: one, and more.
pub fn with_empty_ones<'a>(pieces: &[&'a str]) -> [Vec<&'a str>; 5] {
    let between = |count: usize| pieces.iter().flat_map(move |piece| [&[*piece][..], &vec![""; count]].concat());
    [
        pieces.to_vec(),
        [&["", "", ""], pieces].concat(),
        [pieces, &["", ""]].concat(),
        between(1).collect(),
        [""].into_iter().chain(between(3)).collect(),
    ]
}

/// What is kept of pieces that are added where there is room for so many bytes, and how many are taken: all to the first that does
/// not fit, which is cut.
pub fn kept_and_taken<'a>(pieces: impl IntoIterator<Item = &'a str>, room: usize) -> (String, usize) {
    let (mut text, mut taken) = (String::new(), 0);
    for piece in pieces {
        taken += 1;
        let fitting = cut(piece, room - text.len());
        text.push_str(fitting);
        if fitting.len() < piece.len() {
            break;
        }
    }
    (text, taken)
}

/// Asserts each sign between a string and a text to be as between their texts: `==` on either side, and `<` with the string on the
/// left.
macro_rules! is_beside {
    ($string:expr, $text:expr, $other:expr) => {{
        let (string, text, other): (_, &str, &str) = ($string, $text, $other);
        $crate::inputs::are_signs(
            [*string == *other, *string == other, *other == *string, other == *string],
            [*string != *other, *string != other, *other != *string, other != *string],
            [*string < *other, *string <= *other, *string > *other, *string >= *other],
            [*string < other, *string <= other, *string > other, *string >= other],
            [string.partial_cmp(other), string.partial_cmp(&other)],
            (text, other),
        );
    }};
}
pub(crate) use is_beside;

/// Asserts that signs are those between two texts. It is compiled once for all capacities.
pub fn are_signs(
    equal: [bool; 4],
    unequal: [bool; 4],
    ordered: [bool; 4],
    ordered_by_reference: [bool; 4],
    orders: [Option<Ordering>; 2],
    (text, other): (&str, &str),
) {
    assert_eq!((equal, unequal), ([text == other; 4], [text != other; 4]), "{text:?} and {other:?}");
    let wanted = [text < other, text <= other, text > other, text >= other];
    assert_eq!([ordered, ordered_by_reference], [wanted; 2], "{text:?} and {other:?}");
    assert_eq!(orders, [Some(text.cmp(other)); 2], "{text:?} and {other:?}");
}
