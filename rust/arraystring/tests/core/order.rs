//! Comparisons of strings and of drains beside those of their texts: each length, and each place where texts
//! differ, of bytes below and above 80. Short texts: each size with each, at each offset in the array.

use std::cmp::Ordering;
use std::hash::Hash;
use std::thread;

use crate::inputs::{hash_of, letters};
use crate::{ArrayString, Drain, behind, between, capacity};

/// Two characters of one width, the lesser first: bytes below 80, bytes on both sides of the middle of their range, bytes that
/// differ in the first, a middle or the last place.
const PAIRS: &[(char, char)] = &[
    ('\0', '\u{1}'),
    ('\0', '\u{7F}'),
    ('a', 'b'),
    ('\u{80}', '\u{81}'),
    ('\u{BF}', '\u{C0}'),
    ('\u{80}', '\u{7FF}'),
    ('\u{800}', '\u{FFFF}'),
    ('\u{20AC}', '\u{20AD}'),
    ('\u{D7FF}', '\u{E000}'),
    ('\u{10000}', '\u{10FFFF}'),
    ('\u{1F914}', '\u{1F954}'),
];

/// Two characters of two widths, the lesser first.
const WIDTHS: &[(char, char)] = &[
    ('\u{7F}', '\u{80}'),
    ('a', '\u{10FFFF}'),
    ('\u{7FF}', '\u{800}'),
    ('\u{7FF}', '\u{FFFF}'),
    ('\u{FFFF}', '\u{10000}'),
];

/// Asserts that two values are ordered by their texts, both ways.
fn are_ordered<T: Ord + Hash>(one: &T, other: &T, texts: (&str, &str)) {
    let wanted = texts.0.as_bytes().cmp(texts.1.as_bytes());
    assert_eq!((one.cmp(other), other.cmp(one)), (wanted, wanted.reverse()), "{texts:?}");
    assert_eq!((one.partial_cmp(other), other.partial_cmp(one)), (Some(wanted), Some(wanted.reverse())), "{texts:?}");
    assert_eq!((one < other, one > other), (wanted.is_lt(), wanted.is_gt()), "{texts:?}");
    assert_eq!((one <= other, one >= other), (wanted.is_le(), wanted.is_ge()), "{texts:?}");
    assert_eq!((one == other, other == one), (wanted.is_eq(), wanted.is_eq()), "{texts:?}");
    assert_eq!((one != other, other != one), (wanted.is_ne(), wanted.is_ne()), "{texts:?}");
    if wanted == Ordering::Equal {
        assert_eq!((hash_of(one), hash_of(other)), (hash_of(texts.0), hash_of(texts.1)));
    }
}

/// Asserts that two texts are ordered as std orders them, as strings of a capacity, and returns 1; or 0, where they do not fit.
fn at<const N: usize>(texts: (&str, &str)) -> usize {
    let longest = texts.0.len().max(texts.1.len());
    if longest > capacity::<N>() {
        return 0;
    }
    let (one, other) = (ArrayString::<N>::from(texts.0), ArrayString::<N>::from(texts.1));
    are_ordered(&one, &other, texts);
    let offset = (capacity::<N>() - longest).min(3);
    are_ordered(&behind::<N>(offset, texts.0), &other, texts);
    are_ordered(&one, &behind::<N>(offset, texts.1), texts);
    1
}

/// The same at each of the capacities on which the sources branch: at two, if the texts are no longer than 129 bytes.
fn at_some_capacities(texts: (&str, &str)) -> usize {
    let count = match texts.0.len().max(texts.1.len()) {
        0..=16 => at::<16>(texts),
        17..=64 => at::<64>(texts),
        65..=128 => at::<128>(texts),
        129 => at::<129>(texts),
        _ => 0,
    };
    count + at::<255>(texts)
}

/// Tests each length to 255, on four threads, and returns how much was compared.
fn each_length(test: impl Fn(usize) -> usize + Sync) -> usize {
    let test = &test;
    thread::scope(|scope| {
        let some = |first: usize| scope.spawn(move || (first..=255).step_by(4).map(test).sum::<usize>());
        let threads = [0, 1, 2, 3].map(some);
        threads.into_iter().map(|thread| thread.join().expect("no panic")).sum()
    })
}

/// A text with a character at a place.
fn with(text: &str, at: usize, ch: char) -> String {
    let mut made = text.to_string();
    made.replace_range(at..at + ch.len_utf8(), ch.encode_utf8(&mut [0; 4]));
    made
}

#[test]
fn texts_that_differ_at_one_place() {
    let count = each_length(|len| {
        let text = letters(len);
        let mut count = at_some_capacities((&text, &text));
        for place in 0..len {
            // Each place of each length has a pair of ASCII and, where it fits, a wider one; which, changes.
            let (ascii, wide) = PAIRS.split_at(3);
            for (less, more) in [ascii[(place + len) % ascii.len()], wide[(place * 3 + len) % wide.len()]] {
                if place + less.len_utf8() > len {
                    continue;
                }
                let (one, other) = (with(&text, place, less), with(&text, place, more));
                count += at::<255>((&one, &other));
                // The longer of the two is less.
                count += at::<255>((&(one + "z"), &other));
            }
        }
        count
    });
    // Equal texts of 256 lengths, those up to 129 at two capacities. ASCII at each place; wider ones at 31,879 places of lengths
    // below 255, and at 253 of that length, where none is longer.
    assert_eq!(count, 256 + 130 + 2 * (32_385 + 31_879) + 255 + 253);
}

#[test]
fn each_pair_at_each_place_of_some_lengths() {
    let mut count = 0;
    for len in [1, 2, 4, 7, 15, 16, 17, 31, 32, 33, 48, 63, 64, 65] {
        let text = letters(len);
        for place in 0..len {
            for (less, more) in PAIRS {
                if place + less.len_utf8() <= len {
                    let (one, other) = (with(&text, place, *less), with(&text, place, *more));
                    count += at_some_capacities((&one, &other));
                    // What comes after the first difference is of no account.
                    let (one, other) = (one + "zz", other + "aa");
                    count += at_some_capacities((&one, &other));
                }
            }
        }
    }
    // The lengths have so many places for one byte, and for two, three and four, of which there are three pairs each, and two.
    assert_eq!(count, 4 * (3 * 398 + 3 * 384 + 3 * 371 + 2 * 359));
}

#[test]
fn each_two_lengths() {
    let text = letters(255);
    let count = each_length(|len| (0..=255).map(|other| at::<255>((&text[..len], &text[..other]))).sum());
    assert_eq!(count, 256 * 256);
}

#[test]
fn characters_of_two_widths() {
    let mut count = 0;
    for len in 0..=251 {
        for (less, more) in WIDTHS {
            let (mut one, mut other) = (letters(len), letters(len));
            one.push(*less);
            other.push(*more);
            count += at_some_capacities((&one, &other));
            one += "zzzzz";
            count += at_some_capacities((&one, &other));
        }
    }
    // (the widest of the pairs leave room for this many lengths, at 255 and at 129)
    let lengths = |capacity: usize, widest: [usize; 5]| widest.map(|width| capacity.min(251 + width) - width + 1);
    let (alone, behind) = ([2, 4, 3, 3, 4], [6, 6, 7, 7, 8]);
    let counts =
        [(255, alone), (129, alone), (255, behind), (129, behind)].map(|(capacity, widest)| lengths(capacity, widest));
    assert_eq!(count, counts.iter().flatten().sum());
}

#[test]
fn each_capacity_compares_full_texts() {
    fn full<const N: usize>() {
        let len = capacity::<N>();
        let text = letters(len);
        let mut count = at::<N>((&text, &text));
        for place in 0..len {
            count += at::<N>((&with(&text, place, '\0'), &with(&text, place, '\u{7F}')));
            count += at::<N>((&text[..place], &text));
        }
        assert_eq!(count, 1 + 2 * len);
    }
    full::<0>();
    full::<1>();
    full::<8>();
    full::<15>();
    full::<16>();
    full::<17>();
    full::<23>();
    full::<32>();
    full::<63>();
    full::<64>();
    full::<65>();
    full::<127>();
    full::<128>();
    full::<129>();
    full::<208>();
    full::<209>();
    full::<254>();
    full::<256>();
    full::<300>();
}

#[test]
fn drains_of_a_part_are_ordered_alike() {
    let mut count = 0;
    for len in 0..=63 {
        let text = letters(len);
        for place in 0..len {
            for (less, more) in PAIRS.iter().filter(|(less, _)| place + less.len_utf8() <= len) {
                let texts = (&*with(&text, place, *less), &*with(&text, place, *more));
                // (of a text with more on either side, in an array with more on either side)
                let part = |text: &str| {
                    let drained = behind::<70>(3, &format!("é{text}z")).drain(2..2 + text.len() as u8);
                    drained.expect("a part")
                };
                let drains = (part(texts.0), part(texts.1));
                are_ordered(&drains.0, &drains.1, texts);
                are_ordered(&drains.1, &drains.1.clone(), (texts.1, texts.1));
                count += at::<63>(texts);
            }
        }
    }
    // The lengths to 63, those to 62 and so on are these sums, for the pairs of one to four bytes.
    assert_eq!(count, 3 * 2016 + 3 * 1953 + 3 * 1891 + 2 * 1830);
}

/// A drain of all of a text.
fn drain_of(text: &str) -> Drain<255> {
    let mut string = ArrayString::<255>::from(text);
    string.drain(..).expect("all of it")
}

#[test]
fn drains_are_ordered_at_each_length() {
    let mut count = 0;
    for len in 1..=255 {
        let text = letters(len);
        let mut places = vec![0, 31, 63, 64, 127, 128, 191, len / 2, len - 1];
        places.extend(len.checked_sub(2));
        places.retain(|place| *place < len);
        for place in places {
            let texts = (&*with(&text, place, '\0'), &*with(&text, place, '\u{7F}'));
            are_ordered(&drain_of(texts.0), &drain_of(texts.1), texts);
            are_ordered(&drain_of(texts.0), &drain_of(texts.0), (texts.0, texts.0));
            are_ordered(&drain_of(&text[..place]), &drain_of(texts.0), (&text[..place], texts.0));
            count += 1;
        }
    }
    // Of the places three are in each text, or two in that of one byte, and the others in those that are longer.
    assert_eq!(count, 3 * 255 + 254 + [31, 63, 64, 127, 128, 191].map(|place| 255 - place).iter().sum::<usize>());
}

/// The texts of a size that differ from the first in one place, by a character of one to four bytes.
fn short_texts(size: usize) -> Vec<String> {
    let mut texts = vec!["m".repeat(size)];
    for place in 0..size {
        for ch in ['\0', 'l', 'n', '\u{7F}', '\u{80}', 'é', '€', '🤔'] {
            if place + ch.len_utf8() <= size {
                texts.push("m".repeat(place) + ch.encode_utf8(&mut [0; 4]) + &"m".repeat(size - place - ch.len_utf8()));
            }
        }
    }
    // Four of the characters have one byte, two have two, one has three, and one four.
    let places = |width: usize| (size + 1).saturating_sub(width);
    assert_eq!(texts.len(), 1 + 4 * places(1) + 2 * places(2) + places(3) + places(4));
    texts
}

fn compare<const N: usize>(one: &ArrayString<N>, other: &ArrayString<N>) {
    are_ordered(one, other, (one.as_str(), other.as_str()));
}

/// Each text of each size with one of each size, at the front of the array and as far behind as it may be.
fn compare_short<const N: usize>() {
    let most = N.min(18);
    for size in 0..=most {
        for text in short_texts(size) {
            for other_size in 0..=most {
                let other = "m".repeat(other_size);
                for (offset, other_offset) in [(0, 0), (N - size, 0), (0, N - other_size), (N - size, N - other_size)] {
                    compare(&behind::<N>(offset, &text), &behind::<N>(other_offset, &other));
                }
            }
        }
    }
}

#[test]
fn short_texts_are_ordered_as_str_is() {
    compare_short::<1>();
    compare_short::<2>();
    compare_short::<3>();
    compare_short::<4>();
    compare_short::<7>();
    compare_short::<8>();
    compare_short::<9>();
    compare_short::<15>();
    compare_short::<16>();
    compare_short::<17>();
    compare_short::<23>();
}

#[test]
fn a_short_text_is_compared_at_each_offset() {
    for size in 0..=18 {
        let text = "m".repeat(size);
        let mut other = text.clone();
        if other.pop().is_some() {
            other.push('n');
        }
        for offset in 0..=63 - size {
            compare(&behind::<63>(offset, &text), &behind::<63>(0, &other));
            compare(&behind::<63>(offset, &text), &behind::<63>(63 - size, &other));
            compare(&behind::<63>(offset, &text), &behind::<63>(63 - size, &text));
        }
    }
}

#[test]
fn bytes_behind_a_text_are_not_compared() {
    for size in 0..=18 {
        let text = "m".repeat(size);
        compare::<40>(&between("", &text, &"a".repeat(20)), &between("", &text, &"z".repeat(20)));
    }
}
