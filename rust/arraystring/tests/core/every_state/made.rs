//! The calls that make a string, and those of `utils`.

use super::edits::{all_pieces, indices, piece_counts};
use super::states::{MadeAndWanted, WIDTHS, at_each_capacity, counts, texts};
use crate::inputs::cut;
use crate::leaf::MaybeByte;
use crate::limited::Limited;
use crate::utf16::{Unit16, Units};
use crate::utils::{encode, is_boundary, is_inside_boundary, shift, truncate_str};
use crate::{ArrayString, Error, OutOfBounds, capacity, places, values};

type Made<const N: usize> = Result<ArrayString<N>, Error>;

/// What the calls make of a text that cut it.
fn cuts_of<const N: usize>(given: &str) -> [Made<N>; 6] {
    let units: Vec<_> = given.encode_utf16().collect();
    [
        Ok(ArrayString::from_str_truncate(given)),
        Ok(ArrayString::from(given)),
        Ok(ArrayString::from_chars(given.chars())),
        ArrayString::from_utf8(given.as_bytes()).map_err(Error::from),
        ArrayString::from_utf16(&units).map_err(Error::from),
        Ok(ArrayString::from_utf16_lossy(&units)),
    ]
}

/// What the calls make of a text that refuse it if it does not fit.
fn wholes_of<const N: usize>(given: &str) -> [Made<N>; 5] {
    [
        ArrayString::try_from_str(given).map_err(Error::from),
        given.parse().map_err(Error::from),
        ArrayString::try_from_chars(given.chars()).map_err(Error::from),
        ArrayString::try_from_utf8(given.as_bytes()),
        ArrayString::try_from_utf16(&given.encode_utf16().collect::<Vec<_>>()),
    ]
}

/// What the calls make of a text that do not ask whether it fits.
fn unchecked_of<const N: usize>(given: &str) -> [Made<N>; 3] {
    [
        Ok(ArrayString::from_str_unchecked(given)),
        Ok(ArrayString::from_utf8_unchecked(given.as_bytes())),
        Ok(ArrayString::from_chars_unchecked(given.chars())),
    ]
}

/// Asserts what each call makes of a text. Says how many calls those are.
pub fn is_made_of<const N: usize>(given: &str) -> usize {
    let capacity = capacity::<N>();
    let is_made = |made: &Made<N>, wanted: Result<&str, Error>| {
        assert_eq!(made.as_ref().map(ArrayString::as_str).map_err(|error| *error), wanted, "{N} of {given}");
        assert_eq!(made.map_or(0, |made| made.start), 0, "{N} of {given}");
    };
    let (cuts, wholes) = (cuts_of::<N>(given), wholes_of::<N>(given));
    cuts.iter().for_each(|made| is_made(made, Ok(cut(given, capacity))));
    if given.len() > capacity {
        wholes.iter().for_each(|made| is_made(made, Err(Error::OutOfBounds)));
        return cuts.len() + wholes.len();
    }
    let unchecked = unchecked_of::<N>(given);
    wholes.iter().chain(&unchecked).for_each(|made| is_made(made, Ok(given)));
    cuts.len() + wholes.len() + unchecked.len()
}

#[test]
fn made_of_a_text() {
    fn of_a_text<const N: usize>() -> MadeAndWanted {
        let made = texts(&WIDTHS, N + 2).iter().map(|given| is_made_of::<N>(given)).sum();
        let counts = counts(&WIDTHS, N + 2);
        (made, 11 * counts.iter().sum::<usize>() + 3 * counts[..=N].iter().sum::<usize>())
    }
    at_each_capacity!(of_a_text);
}

/// Asserts what the calls make of pieces, and how many of these they leave. Says how many calls those are.
pub fn is_made_of_pieces<const N: usize>(pieces: &[&str]) -> usize {
    let (given, capacity) = (pieces.concat(), capacity::<N>());
    let (mut cut_at, mut refused_at) = (pieces.iter(), pieces.iter());
    let string = ArrayString::<N>::from_iterator(cut_at.by_ref().copied());
    assert_eq!(string.as_str(), cut(&given, capacity), "{pieces:?}");
    let whole = ArrayString::<N>::try_from_iterator(refused_at.by_ref().copied());
    assert_eq!(whole, if given.len() <= capacity { Ok(string) } else { Err(OutOfBounds) }, "{pieces:?}");
    let left = Limited::new(0, "", capacity).left_of(pieces);
    assert_eq!([cut_at.len(), refused_at.len()], [left; 2], "{pieces:?}");
    if whole.is_err() {
        return 2;
    }
    assert_eq!(ArrayString::<N>::from_iterator_unchecked(pieces.iter().copied()), string);
    3
}

#[test]
fn made_of_items() {
    fn of_items<const N: usize>() -> MadeAndWanted {
        let mut made = 0;
        for given in texts(&WIDTHS, N + 2) {
            let items: Vec<_> = given.split_inclusive(|_| true).collect();
            let (mut cut_at, mut refused_at) = (given.chars(), given.chars());
            let string = ArrayString::<N>::from_chars(&mut cut_at);
            let whole = ArrayString::<N>::try_from_chars(&mut refused_at);
            let left = Limited::new(0, "", N).left_of(&items);
            assert_eq!([cut_at.count(), refused_at.count()], [left; 2], "{given}");
            assert_eq!((string.as_str(), whole.is_ok()), (cut(&given, N), given.len() <= N));
            made += all_pieces(&given).map(|pieces| is_made_of_pieces::<N>(&pieces)).sum::<usize>();
        }
        (made, 2 * piece_counts(N + 2) + piece_counts(N))
    }
    at_each_capacity!(of_items);
}

/// Every list of at most so many of some values.
fn lists<T: Copy>(values: &[T], most: usize) -> Vec<Vec<T>> {
    let mut lists = vec![vec![]];
    let mut longest = lists.clone();
    for _ in 0..most {
        longest = longest.iter().flat_map(|list| values.iter().map(|value| [&list[..], &[*value]].concat())).collect();
        lists.extend_from_slice(&longest);
    }
    lists
}

/// How many lists that are.
fn list_count(values: usize, most: usize) -> usize {
    (0..=most as u32).map(|len| values.pow(len)).sum()
}

#[test]
fn made_of_bytes() {
    /// The bytes of the characters of each width, a byte that no text has, and the number of bytes of the longest list.
    const BYTES: [u8; 11] = [b'a', 0xC3, 0xA9, 0xE2, 0x82, 0xAC, 0xF0, 0x9F, 0xA4, 0x94, 0xFF];
    const MOST: usize = 5;
    /// Makes strings of each list of these bytes.
    fn of_bytes<const N: usize>() -> MadeAndWanted {
        let mut made = 0;
        for given in lists(&BYTES, MOST) {
            let text = String::from_utf8(given.clone()).ok();
            let wanted = text.as_deref().map(|text| cut(text, N));
            let string = ArrayString::<N>::from_utf8(&given);
            assert_eq!(string.as_ref().ok().map(ArrayString::as_str), wanted, "{given:x?}");
            let refusal = match text {
                None => Some(Error::Utf8),
                Some(text) => (text.len() > N).then_some(Error::OutOfBounds),
            };
            let whole = ArrayString::<N>::try_from_utf8(&given);
            assert_eq!((whole.err(), whole.is_err() || whole.ok() == string.ok()), (refusal, true), "{given:x?}");
            made += 2;
        }
        (made, 2 * list_count(BYTES.len(), MOST))
    }
    at_each_capacity!(of_bytes);
}

/// The characters of some units that fit in so many bytes, and what stopped the reading, if something did.
fn read_units(units: &[u16], size: usize) -> (String, Option<Error>) {
    let mut text = String::new();
    for item in char::decode_utf16(units.iter().copied()) {
        match item {
            Err(_) => return (text, Some(Error::Utf16)),
            Ok(ch) if text.len() + ch.len_utf8() > size => return (text, Some(Error::OutOfBounds)),
            Ok(ch) => text.push(ch),
        }
    }
    (text, None)
}

#[test]
fn made_of_units() {
    /// A unit of each width, and the halves of a pair.
    const UNITS: [u16; 5] = [0x61, 0xE9, 0x20AC, 0xD83E, 0xDD14];
    fn of_units<const N: usize>() -> MadeAndWanted {
        let mut made = 0;
        for units in lists(&UNITS, N + 2) {
            let (text, stop) = read_units(&units, N);
            let whole = ArrayString::<N>::try_from_utf16(&units).map(|made| made.to_string());
            assert_eq!(whole, stop.map_or(Ok(text.clone()), Err), "{units:x?}");
            let prefix = ArrayString::<N>::from_utf16(&units).map(|made| made.to_string());
            assert_eq!(prefix.ok(), (stop != Some(Error::Utf16)).then_some(text), "{units:x?}");
            let lossy = ArrayString::<N>::from_utf16_lossy(&units);
            assert_eq!(lossy.as_str(), cut(&String::from_utf16_lossy(&units), N), "{units:x?}");
            let items = char::decode_utf16(units.iter().copied());
            let items =
                items.map(|item| item.map_or_else(|lone| Unit16::Lone(lone.unpaired_surrogate()), Unit16::Char));
            assert!(Units::new(&units).eq(items), "{units:x?}");
            made += 4;
        }
        (made, 4 * list_count(UNITS.len(), N + 2))
    }
    at_each_capacity!(of_units);
}

#[test]
fn cuts_and_boundaries_of_a_text() {
    fn cuts<const N: usize>() -> MadeAndWanted {
        let mut made = 0;
        for text in texts(&WIDTHS, N + 2) {
            for size in indices(N) {
                let at = usize::from(size);
                assert_eq!(truncate_str(&text, size), cut(&text, at), "{text} at {size}");
                assert_eq!(is_boundary(&text, at), text.is_char_boundary(at), "{text} at {size}");
                assert_eq!(is_inside_boundary(at, text.len()).is_ok(), at <= text.len());
                made += 3;
            }
        }
        (made, 3 * counts(&WIDTHS, N + 2).iter().sum::<usize>() * (N + 4))
    }
    at_each_capacity!(cuts);
}

#[test]
fn moves_in_an_array() {
    fn moves<const N: usize>() -> MadeAndWanted {
        let mut made = 0;
        for len in 0..=N {
            for (from, to) in (0..=N - len).flat_map(|from| (0..=N - len).map(move |to| (from, to))) {
                let (mut array, mut wanted) = (places::<N>(), places::<N>());
                wanted.copy_within(from..from + len, to);
                shift(&mut array, from, to, len);
                assert_eq!(values(&array), values(&wanted), "{len} from {from} to {to}");
                made += 1;
            }
        }
        (made, (1..=N + 1).map(|places| places * places).sum())
    }
    at_each_capacity!(moves);
}

#[test]
fn characters_in_an_array() {
    fn characters<const N: usize>() -> MadeAndWanted {
        let mut made = 0;
        for ch in WIDTHS {
            for at in 0..(N + 1).saturating_sub(ch.len_utf8()) {
                let (mut array, mut wanted) = (places::<N>(), places::<N>());
                let spelled = ch.to_string().bytes().map(MaybeByte::new).collect::<Vec<_>>();
                wanted[at..at + spelled.len()].copy_from_slice(&spelled);
                assert_eq!(encode(ch, &mut array, at), ch.len_utf8());
                assert_eq!(values(&array), values(&wanted), "{ch} at {at}");
                made += 1;
            }
        }
        (made, (1..=4).map(|width| (N + 1).saturating_sub(width)).sum::<usize>())
    }
    at_each_capacity!(characters);
}
