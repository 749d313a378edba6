//! Strings of a fuzzer's data, beside `String` of the same data.

use std::collections::BTreeSet;

use arbitrary::{Arbitrary, Unstructured};
use arraystring::ArrayString;
use inputs::{at_each_capacity, cut};

mod inputs;

/// Numbers that look random, and are the same in each run.
struct Numbers(u64);

impl Numbers {
    /// One below a bound.
    fn below(&mut self, bound: usize) -> usize {
        self.0 ^= self.0 << 13;
        self.0 ^= self.0 >> 7;
        self.0 ^= self.0 << 17;
        (self.0 >> 16) as usize % bound
    }

    fn byte(&mut self) -> u8 {
        self.below(256) as u8
    }

    /// A character of one of the four widths.
    fn char(&mut self) -> char {
        let (first, end) = [(0, 0x80), (0x80, 0x800), (0x800, 0xD800), (0x10000, 0x110000)][self.below(4)];
        char::from_u32(first + self.below((end - first) as usize) as u32).unwrap()
    }
}

/// Data of bytes of any value, and data of characters, with a few bytes behind them from which a length can be made.
fn random_data() -> Vec<Vec<u8>> {
    let mut numbers = Numbers(0x9E37_79B9_7F4A_7C15);
    let mut data = Vec::new();
    for size in (0..=300).step_by(3) {
        data.push((0..size).map(|_| numbers.byte()).collect());
        let bytes_behind = numbers.below(3);
        for kind in 0..8 {
            let mut text = String::new();
            while text.len() < size {
                text.push(if kind < 4 { numbers.char() } else { numbers.below(0x80) as u8 as char });
            }
            let mut bytes = text.into_bytes();
            // A byte that is no text stands somewhere in one of four.
            if kind % 4 == 0 && size > 0 {
                let at = numbers.below(size);
                bytes[at] = 0x80 | numbers.byte();
            }
            bytes.extend((0..bytes_behind).map(|_| numbers.byte()));
            data.push(bytes);
        }
    }
    data
}

/// Data of a text of each length to 255: so many letters, and one or two bytes behind them by which all of these are taken.
fn data_of_each_length() -> Vec<Vec<u8>> {
    let behind = || (0..=255).flat_map(|last| [vec![last], vec![0, last], vec![last, 0]]);
    let of_length = |len| behind().map(move |behind| [vec![b'm'; len], behind].concat());
    (0..=255).flat_map(|len| of_length(len).find(|data| text_of(data).is_some_and(|text| text.len() == len))).collect()
}

/// The text that a `String` is of data.
fn text_of(data: &[u8]) -> Option<String> {
    String::arbitrary(&mut Unstructured::new(data)).ok()
}

/// What came up: the lengths, and the widths of characters.
#[derive(Default)]
struct Seen {
    lengths: BTreeSet<usize>,
    widths: BTreeSet<usize>,
    refused: usize,
}

/// Asserts what comes of data at a capacity, by both calls of the trait.
fn is_that_of_string<const N: usize>(data: &[u8], seen: &mut Seen) {
    let (mut ours, mut theirs) = (Unstructured::new(data), Unstructured::new(data));
    let made = ArrayString::<N>::arbitrary(&mut ours).ok();
    let text = String::arbitrary(&mut theirs).ok();
    assert_eq!((made.as_deref(), ours.len()), (text.as_deref().map(|text| cut(text, N)), theirs.len()), "{N} {data:?}");
    let rest = ArrayString::<N>::arbitrary_take_rest(Unstructured::new(data)).ok();
    let text = String::arbitrary_take_rest(Unstructured::new(data)).ok();
    assert_eq!(rest.as_deref(), text.as_deref().map(|text| cut(text, N)), "{N} {data:?}");
    seen.refused += usize::from(rest.is_none());
    for string in [made, rest].into_iter().flatten() {
        seen.lengths.insert(string.len());
        seen.widths.extend(string.chars().map(char::len_utf8));
    }
}

#[test]
fn it_is_the_text_of_a_string_cut_to_what_fits() {
    fn at<const N: usize>(random: &[Vec<u8>], of_each_length: &[Vec<u8>]) {
        let mut seen = Seen::default();
        random.iter().for_each(|data| is_that_of_string::<N>(data, &mut seen));
        assert!(seen.refused > 100 && seen.widths == (1..=N.min(4)).collect(), "{N} {:?}", seen.widths);
        of_each_length.iter().for_each(|data| is_that_of_string::<N>(data, &mut seen));
        assert_eq!(seen.lengths, (0..=N).collect(), "{N}");
        for depth in 0..20 {
            assert_eq!(ArrayString::<N>::size_hint(depth), String::size_hint(depth));
        }
    }
    let (random, of_each_length) = (random_data(), data_of_each_length());
    assert_eq!(of_each_length.len(), 256);
    at_each_capacity!(at(&random, &of_each_length));
}

/// A user's record, which a fuzzer makes, and one with `String` in its place.
#[derive(Arbitrary, Debug, PartialEq)]
struct Guest<T> {
    name: T,
    nights: u8,
    others: Vec<T>,
    note: Option<T>,
}

#[test]
fn a_record_derives_it() {
    let (mut made, mut long) = (0, 0);
    for data in random_data() {
        let guest = Guest::<ArrayString<8>>::arbitrary(&mut Unstructured::new(&data));
        let wanted = Guest::<String>::arbitrary(&mut Unstructured::new(&data));
        let (Ok(guest), Ok(wanted)) = (guest, wanted) else { continue };
        made += 1;
        long += usize::from(wanted.name.len() > 8);
        let kept = Guest {
            name: cut(&wanted.name, 8),
            nights: wanted.nights,
            others: wanted.others.iter().map(|name| cut(name, 8)).collect(),
            note: wanted.note.as_deref().map(|note| cut(note, 8)),
        };
        assert_eq!(guest.name, *kept.name);
        assert_eq!((guest.nights, guest.note.as_deref()), (kept.nights, kept.note));
        assert_eq!(guest.others, *kept.others);
    }
    assert!(made > 300 && long > 100, "{made} {long}");
}
