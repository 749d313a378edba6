//! The text lent to be read and to be written: each way to lend it gives the bytes of the text and no other, at each start offset, and what
//! is written there is the text from then on.

use std::borrow::{Borrow, BorrowMut};
use std::ops::{Deref, DerefMut};
use std::panic::{AssertUnwindSafe, catch_unwind};

use arraystring::ArrayString;
use inputs::{at_capacities, behind, cut, edges, letters, mixed, some_offsets, texts_of};

mod inputs;

/// The ways in which a string lends its text to be written.
fn ways<const N: usize>() -> [fn(&mut ArrayString<N>) -> &mut str; 7] {
    [
        |string| string.as_mut_str(),
        |string| DerefMut::deref_mut(&mut *string).borrow_mut(),
        |string| AsMut::<str>::as_mut(string),
        |string| BorrowMut::<str>::borrow_mut(string),
        |string| &mut string[..],
        |string| &mut string[0..],
        |string| {
            let len = string.len();
            &mut string[..len]
        },
    ]
}

/// What a string lends to be read, in each way.
fn read<const N: usize>(string: &ArrayString<N>) -> [&[u8]; 8] {
    let texts: [&str; 5] =
        [string.as_str(), string.deref(), string.as_ref(), Borrow::<str>::borrow(string), &string[..]];
    let [one, two, three, four, five] = texts.map(str::as_bytes);
    [one, two, three, four, five, string.as_bytes(), string.as_ref(), &string.as_bytes()[..string.len()]]
}

/// Asserts that a string lends its text in each way, and what it is after a write there: also when it is edited then.
fn is_lent<const N: usize>(string: &ArrayString<N>, text: &str) {
    for lent in read(string) {
        assert!(std::ptr::eq(lent, string.as_bytes()) && lent == text.as_bytes(), "{text:?} at {N}");
    }
    let mut wanted = text.to_ascii_uppercase();
    wanted.push_str(cut("é~", N - text.len()));
    for lend in ways::<N>() {
        let mut written = *string;
        let place = written.as_str().as_ptr();
        let lent = lend(&mut written);
        assert_eq!((&*lent, lent.as_ptr()), (text, place), "{N}");
        lent.make_ascii_uppercase();
        assert_eq!((written.as_str(), written.len()), (&wanted[..text.len()], text.len()), "{N}");
        written.push_str_truncate("é~");
        assert_eq!(written.as_str(), wanted, "{N}");
    }
    assert_eq!(string.as_str(), text);
}

#[test]
fn a_text_is_lent_at_each_offset() {
    /// Each length and each start offset, of which the larger arrays have some.
    fn at<const N: usize>() {
        for len in 0..=N {
            let room = N - len;
            let offsets = if N > 65 { some_offsets(room) } else { (0..=room).collect() };
            for offset in offsets {
                for text in if N > 33 { vec![mixed(len, len % 11)] } else { texts_of(len).into() } {
                    is_lent(&behind::<N>(offset, &text), &text);
                }
            }
        }
    }
    at_capacities!(at);
}

/// A string goes into the greatest, and into one that is as large.
#[test]
fn a_text_is_widened_at_each_offset() {
    fn at<const N: usize>() {
        for len in 0..=N {
            for offset in [0, 1, (N - len) / 2, N - len] {
                let text = if offset == 1 { letters(len) } else { mixed(len, len % 11) };
                let string = behind::<N>(offset, &text);
                let (mut widened, same) = (string.widen::<255>(), string.widen::<N>());
                assert_eq!((widened.as_str(), same.as_str()), (&*text, &*text), "{N} {offset}");
                assert_eq!(widened.push_str_truncate(&"m".repeat(256)).len(), 256 - (255 - len));
                assert!(widened.starts_with(&*text) && widened.is_full());
            }
        }
    }
    at_capacities!(at);
}

/// Asserts what is written through a part, by each range that has these ends.
fn is_written_in_part<const N: usize>(string: &ArrayString<N>, (start, end): (usize, usize)) {
    let mut wanted = string.to_string();
    wanted[start..end].make_ascii_uppercase();
    let (first, last, len) = (start, end, string.len());
    let write = |lend: &dyn Fn(&mut ArrayString<N>) -> &mut str| {
        let mut written = *string;
        lend(&mut written).make_ascii_uppercase();
        assert_eq!(written.as_str(), wanted, "{N} {start} {end}");
    };
    write(&|string| &mut string[first..last]);
    if last > first {
        write(&|string| &mut string[first..=last - 1]);
    }
    if last == len {
        write(&|string| &mut string[first..]);
    }
    if first == 0 {
        write(&|string| &mut string[..last]);
    }
    if first == 0 && last > 0 {
        write(&|string| &mut string[..=last - 1]);
    }
}

#[test]
fn a_part_is_lent_at_each_offset() {
    fn at<const N: usize>() {
        for text in edges(N).into_iter().filter(|len| *len <= N).flat_map(texts_of) {
            for offset in some_offsets(N - text.len()) {
                let string = behind::<N>(offset, &text);
                let ends: Vec<usize> = (0..=text.len()).filter(|at| text.is_char_boundary(*at)).collect();
                for start in ends.iter().filter(|at| N <= 33 || **at < 3 || **at % 50 == 0 || **at + 3 > text.len()) {
                    for end in ends.iter().filter(|end| *end >= start) {
                        is_written_in_part(&string, (*start, *end));
                    }
                }
            }
        }
    }
    at_capacities!(at);
}

#[test]
fn a_part_that_is_none_panics_as_that_of_a_text() {
    fn at<const N: usize>() {
        let places = || (0..8).chain([255, 256, 257, 256 + 3, 65536, usize::MAX - 1, usize::MAX]);
        for text in ["", "a", "aé", "€é", "🤔a"].into_iter().filter(|text| text.len() <= N) {
            let string = behind::<N>(N, text);
            for (start, end) in places().flat_map(|start| places().map(move |end| (start, end))) {
                let part = text.get(start..end);
                let mut written = string;
                let lent = catch_unwind(AssertUnwindSafe(|| written[start..end].make_ascii_uppercase()));
                assert_eq!(lent.is_ok(), part.is_some(), "{text:?} {start} {end}");
                assert_eq!(written.len(), text.len());
                assert_eq!(
                    catch_unwind(|| string[start..end].to_string()).ok().as_deref(),
                    part,
                    "{text:?} {start} {end}"
                );
                assert_eq!((string.get(start..end), string.get(start..=end)), (part, text.get(start..=end)));
                assert_eq!(string.is_char_boundary(start), text.is_char_boundary(start));
            }
        }
    }
    at_capacities!(at: 0 1 2 4 5 8 255);
}

/// What `str` writes in parts, and not by one call alone.
#[test]
fn two_parts_are_lent_together() {
    for len in 0..=63 {
        for offset in some_offsets(63 - len) {
            for at in 0..=len {
                let mut string = behind::<63>(offset, &letters(len));
                let (front, back) = string.split_at_mut(at);
                front.make_ascii_uppercase();
                back.make_ascii_lowercase();
                let wanted = letters(len)[..at].to_ascii_uppercase() + &letters(len)[at..].to_ascii_lowercase();
                assert_eq!(string.as_str(), wanted);
            }
        }
    }
}
