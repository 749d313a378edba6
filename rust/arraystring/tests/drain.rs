//! What a drain gives from both ends, beside what `chars` of std gives of its text: each part of a long text, and each part of each short
//! text at each start offset, in each order of both ends.

use std::collections::hash_map::DefaultHasher;
use std::hash::{Hash, Hasher};
use std::iter::FusedIterator;

use arraystring::{ArrayString, Drain, MaxString};
use inputs::{CHARS, MOST, behind, texts_of};

mod inputs;

/// Asserts what a drain gives as a whole, and in walks from one end and from both.
fn is_left<const N: usize>(drain: &Drain<N>, left: &[char]) {
    let len = left.len();
    let folded = drain.clone().fold(0, |at, ch| {
        assert_eq!(ch, left[at], "{at} of {len}");
        at + 1
    });
    let folded_back = drain.clone().rfold(len, |end, ch| {
        assert_eq!(ch, left[end - 1], "{end} of {len}");
        end - 1
    });
    assert_eq!(
        (folded, folded_back, drain.clone().count(), Iterator::last(drain.clone())),
        (len, 0, len, left.last().copied())
    );
    let size = drain.as_str().len();
    assert_eq!(drain.size_hint(), (size.div_ceil(4), Some(size)));
    for skipped in [0, len / 2, len.saturating_sub(1), len] {
        let (mut one, mut other) = (drain.clone(), left.iter().copied());
        assert_eq!((one.nth(skipped), one.next_back()), (other.nth(skipped), other.next_back()), "{skipped} of {len}");
        let (mut one, mut other) = (drain.clone(), left.iter().copied());
        assert_eq!((one.nth_back(skipped), one.next()), (other.nth_back(skipped), other.next()), "{skipped} of {len}");
        assert_eq!((one.nth_back(len / 4), one.count()), (other.nth_back(len / 4), other.len()), "{skipped} of {len}");
    }
}

#[test]
fn a_drain_is_walked_from_each_front_and_each_back() {
    for text in texts_of(MOST) {
        let chars: Vec<char> = text.chars().collect();
        let mut whole = behind::<MOST>(0, &text).drain(..).expect("all of it");
        for front in 0..=chars.len() {
            let mut drain = whole.clone();
            for back in (front..=chars.len()).rev() {
                is_left(&drain, &chars[front..back]);
                drain.next_back();
            }
            whole.next();
        }
    }
}

/// Each text of characters of each width that has so many bytes at most.
fn short_texts(size: usize) -> Vec<String> {
    let mut texts = vec![String::new()];
    let mut at = 0;
    while at < texts.len() {
        let longer = ["a", "é", "€", "🤔"].map(|ch| texts[at].clone() + ch);
        texts.extend(longer.into_iter().filter(|text| text.len() <= size));
        at += 1;
    }
    texts
}

/// Asserts what is given in each order of both ends, and that nothing comes behind.
fn is_walked_in_each_order<const N: usize>(drain: &Drain<N>, part: &str) {
    let count = part.chars().count();
    for order in 0..1 << count {
        let (mut one, mut other) = (drain.clone(), part.chars());
        for at in 0..count {
            assert_eq!(one.as_str(), other.as_str());
            assert_eq!(one.size_hint(), other.size_hint());
            let given =
                if order >> at & 1 == 0 { (one.next(), other.next()) } else { (one.next_back(), other.next_back()) };
            assert_eq!(given.0, given.1, "{part:?} in order {order:b}");
        }
        assert_eq!((one.next(), one.next_back(), one.next()), (None, None, None));
        assert_eq!((one.as_str(), one.size_hint()), ("", (0, Some(0))));
    }
}

#[test]
fn each_part_of_each_short_text_at_each_offset() {
    fn at<const N: usize>() {
        for text in short_texts(N) {
            let boundaries: Vec<_> = (0..=text.len()).filter(|at| text.is_char_boundary(*at)).collect();
            for offset in 0..=N - text.len() {
                for (at, start) in boundaries.iter().enumerate() {
                    for end in &boundaries[at..] {
                        let mut string = behind::<N>(offset, &text);
                        let drain = string.drain(*start..*end).expect("a part");
                        assert_eq!(string, *format!("{}{}", &text[..*start], &text[*end..]));
                        assert_eq!(drain.as_str(), &text[*start..*end]);
                        is_walked_in_each_order(&drain, &text[*start..*end]);
                        is_left(&drain, &text[*start..*end].chars().collect::<Vec<_>>());
                    }
                }
            }
        }
    }
    at::<0>();
    at::<1>();
    at::<2>();
    at::<3>();
    at::<4>();
    at::<5>();
    at::<6>();
}

#[test]
fn the_size_hint_bounds_what_is_left() {
    let of_width = ["m", "é", "€", "🤔"];
    for len in 0..=60 {
        let mixed: String = (0..len).map(|at| of_width[at * 7 % 4]).collect();
        for text in of_width.map(|ch| ch.repeat(len)).into_iter().chain([mixed]) {
            for backs in 0..3 {
                let mut string = MaxString::try_from_str(&format!("é{text}z")).expect("it fits");
                let mut drain = string.drain(2..string.len() - 1).expect("a part");
                let mut left = drain.as_str().chars().count();
                loop {
                    let (size, hint) = (drain.as_str().len(), drain.size_hint());
                    assert_eq!(hint, (size.div_ceil(4), Some(size)));
                    assert_eq!(hint, drain.as_str().chars().size_hint());
                    assert!(hint.0 <= left && Some(left) <= hint.1 && drain.clone().count() == left);
                    let given = if left % 3 < backs { drain.next_back() } else { drain.next() };
                    if given.is_none() {
                        break;
                    }
                    left -= 1;
                }
                assert_eq!((left, drain.size_hint()), (0, (0, Some(0))));
            }
        }
    }
}

fn hash_of(value: &impl Hash) -> u64 {
    let mut state = DefaultHasher::new();
    value.hash(&mut state);
    state.finish()
}

/// A drain that has given some characters, behind others in its array.
fn drain_of(before: &str, text: &str) -> Drain<32> {
    let mut drain = behind::<32>(9, &format!("{before}{text}z")).drain(..).expect("all of it");
    assert_eq!(drain.next_back(), Some('z'));
    assert!(before.chars().all(|ch| drain.next() == Some(ch)));
    drain
}

/// By what is left, whatever else is in their arrays.
#[test]
fn drains_are_compared_and_printed() {
    fn is_fused<I: FusedIterator + DoubleEndedIterator + Clone>(_: I) {}
    let chars = || CHARS.into_iter().map(String::from);
    let texts: Vec<_> = [String::new()].into_iter().chain(chars()).chain(chars().map(|ch| ch + "é€")).collect();
    for (one, other) in texts.iter().flat_map(|one| texts.iter().map(move |other| (&**one, &**other))) {
        let (first, second) = (drain_of("", one), drain_of("aé€", other));
        assert_eq!(
            (first == second, Ord::cmp(&first, &second)),
            (one == other, one.cmp(other)),
            "{one:?} and {other:?}"
        );
        assert_eq!(PartialOrd::partial_cmp(&first, &second), Some(one.cmp(other)));
        assert!(one != other || hash_of(&first) == hash_of(&second), "{one:?}");
    }
    is_fused(drain_of("", "a"));
    assert_eq!((Drain::<8>::default().as_str(), Drain::<0>::default().next()), ("", None));
    assert_eq!(format!("{:?}", drain_of("aé", "b\n€")), format!("Drain({:?})", "b\n€"));
}

/// The string is another from then on, and what was drained stays.
#[test]
fn a_drain_borrows_nothing() {
    let mut string = ArrayString::<8>::try_from_str("abcdé").expect("it fits");
    let drain = string.drain(1..3).expect("a part");
    string.clear();
    assert_eq!(string.push_str_truncate("zzzzzzzzz"), "z");
    assert_eq!((drain.as_str(), drain.clone().rev().collect::<String>()), ("bc", "cb".to_string()));
}
