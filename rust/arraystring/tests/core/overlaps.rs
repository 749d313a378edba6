//! Copies whose two runs overlap, in both directions and at each distance. `rust/shipped` runs all tests over a `memcpy` that copies
//! from the front and over one that copies from the back: a copy that must not overlap and is made where it does then leaves
//! other bytes under one of the two. The variable `ARRAYSTRING_MEMCPY` of the environment says which.

use std::ffi::c_void;
use std::hint::black_box;

use crate::leaf::MaybeByte;
use crate::utils::shift;
use crate::{ArrayString, behind, capacity, places, values};

type Copy = unsafe extern "C" fn(*mut c_void, *const c_void, usize) -> *mut c_void;

unsafe extern "C" {
    fn memcpy(to: *mut c_void, from: *const c_void, len: usize) -> *mut c_void;
    fn memmove(to: *mut c_void, from: *const c_void, len: usize) -> *mut c_void;
}

/// Letters after a copy of three of them, from one place to another.
fn copied(copy: Copy, from: usize, to: usize) -> String {
    let mut letters = *b"abcdefgh";
    // SAFETY: both runs lie in the array. Where they overlap, this is no copy of C's, but of the function that is asked.
    unsafe {
        let all = letters.as_mut_ptr();
        black_box(copy)(all.add(to).cast(), all.add(from).cast(), black_box(3));
    }
    String::from_utf8_lossy(&letters).into_owned()
}

#[test]
#[cfg_attr(miri, ignore = "Miri has no library of C")]
fn memcpy_and_memmove_are_those_of_the_environment() {
    assert_eq!([copied(memcpy, 0, 5), copied(memcpy, 5, 0)], ["abcdeabc", "fghdefgh"]);
    assert_eq!([copied(memmove, 0, 1), copied(memmove, 1, 0)], ["aabcefgh", "bcddefgh"]);
    assert_eq!([copied(memmove, 2, 4), copied(memmove, 4, 2)], ["abcdcdeh", "abefgfgh"]);
    let told = std::env::var("ARRAYSTRING_MEMCPY").ok();
    let wanted = match told.as_deref() {
        None => return,
        Some("forward") => ["aaaaefgh", "bcddefgh"],
        Some("backward") => ["aabcefgh", "ddddefgh"],
        Some(other) => panic!("ARRAYSTRING_MEMCPY is {other}"),
    };
    assert_eq!([copied(memcpy, 0, 1), copied(memcpy, 1, 0)], wanted);
}

/// Moves a run by `shift`, and asserts that it lies where it was to go, and that all else is as it was.
fn is_moved<const N: usize>(from: usize, to: usize, len: usize) {
    let before: [MaybeByte; N] = places();
    let (mut array, mut wanted) = (before, before);
    shift(&mut array, from, to, len);
    wanted[to..to + len].copy_from_slice(&before[from..from + len]);
    let (array, wanted) = (values(&array), values(&wanted));
    assert!(array == wanted, "{len} bytes from {from} to {to} of {N}: {array:?}");
}

/// How far a run of a length is moved: each way that overlaps where the run is short, and of a long one those about the sizes of
/// vectors, half of it and all but a few bytes.
fn distances(len: usize, most: usize) -> Vec<usize> {
    let mut distances: Vec<usize> = match len {
        0..=40 => (1..=len).collect(),
        _ => [1, 2, 7, 8, 15, 16, 17, 31, 32, 33, 63, 64, 65, 127, 128, len / 2, len - 1, len].into(),
    };
    distances.retain(|distance| *distance <= len.min(most));
    distances.sort_unstable();
    distances.dedup();
    distances
}

/// Moves runs of each length by each distance, to either side, at both ends of the array. Returns how many moves overlapped.
fn overlaps<const N: usize>() -> usize {
    let mut count = 0;
    for len in 1..=N {
        for distance in distances(len, N - len) {
            for first in [0, N - len - distance] {
                is_moved::<N>(first, first + distance, len);
                is_moved::<N>(first + distance, first, len);
                count += if distance < len { 2 } else { 0 };
            }
        }
        is_moved::<N>(N - len, N - len, len);
    }
    count
}

#[test]
fn runs_that_overlap_are_moved_at_each_length() {
    let short =
        [overlaps::<2>(), overlaps::<5>(), overlaps::<9>(), overlaps::<17>(), overlaps::<33>(), overlaps::<40>()];
    assert_eq!(short, [0, 16, 64, 256, 1_024, 1_520]);
    let long =
        [overlaps::<64>(), overlaps::<65>(), overlaps::<80>(), overlaps::<128>(), overlaps::<130>(), overlaps::<160>()];
    assert_eq!(long, [3_284, 3_344, 4_124, 6_248, 6_352, 8_048]);
    let longest = [overlaps::<255>(), overlaps::<256>(), overlaps::<257>(), overlaps::<300>(), overlaps::<520>()];
    assert_eq!(longest, [13_408, 13_468, 13_528, 16_308, 30_520]);
}

/// A text of a size, whose neighbours differ.
fn letters(size: usize) -> String {
    (0..size).map(|at| (b'!' + (at * 37 % 90) as u8) as char).collect()
}

/// Edits of a text that move what stands behind them, and of a string of it, which begins at an offset.
fn edited<const N: usize>(text: &str, offset: usize, at: usize, more: usize) {
    let (at, index, given) = (at.min(text.len()), at.min(text.len()) as u8, letters(more));
    let string: ArrayString<N> = behind(offset, text);
    let end = (at + more).min(text.len());
    let (mut inserted, mut wanted) = (string, text.to_string());
    if text.len() + more <= capacity::<N>() {
        inserted.try_insert_str(index, &given).expect("room");
        wanted.insert_str(at, &given);
    }
    assert_eq!(inserted.as_str(), wanted, "{text} {offset} {at} {more}");
    let (mut drained, mut wanted) = (string, text.to_string());
    let taken = drained.drain(index..end as u8).expect("a part");
    assert_eq!((taken.as_str(), drained.as_str()), (&text[at..end], (text[..at].to_string() + &text[end..]).as_str()));
    wanted.replace_range(at..end, "-");
    let mut replaced = string;
    if wanted.len() <= capacity::<N>() {
        replaced.replace_range(index..end as u8, "-").expect("room");
        assert_eq!(replaced.as_str(), wanted, "{text} {offset} {at} {more}");
    }
}

/// Edits texts of each size and offset that an array holds, at some places.
fn edited_at_each_size<const N: usize>() {
    let capacity = capacity::<N>();
    for size in (0..=capacity).rev().step_by(1 + capacity / 50) {
        let text = letters(size);
        for offset in [0, 1, 8, 17, 40, 64, 130, capacity - size] {
            for at in [0, 1, size / 3, size / 2, size.saturating_sub(1), size] {
                for more in [1, 2, 9, 18, 40, 70, 140, capacity - size] {
                    if offset + size <= capacity {
                        edited::<N>(&text, offset, at, more);
                    }
                }
            }
        }
    }
}

#[test]
fn edits_move_what_stands_behind_them() {
    edited_at_each_size::<23>();
    edited_at_each_size::<63>();
    edited_at_each_size::<130>();
    edited_at_each_size::<255>();
    edited_at_each_size::<300>();
}

/// Moves each run of more than 64 bytes, which one call moves, from each offset to each. Returns how many moves there were.
fn moved_by_a_call<const N: usize>() -> usize {
    let mut count = 0;
    for len in 65..=N {
        for (from, to) in (0..=N - len).flat_map(|from| (0..=N - len).map(move |to| (from, to))) {
            is_moved::<N>(from, to, len);
            count += 1;
        }
    }
    count
}

#[test]
fn long_runs_are_moved_from_each_offset_to_each() {
    let counts = [moved_by_a_call::<65>(), moved_by_a_call::<80>(), moved_by_a_call::<129>(), moved_by_a_call::<160>()];
    // The sums of the first 1, 16, 65 and 96 squares.
    assert_eq!(counts, [1, 1_496, 93_665, 299_536]);
}

/// Appends to texts of each size at each offset: what ends where the array does, a byte more, what fills the string, and a byte
/// more. Returns how often the text moved to the front, and how often it was refused.
fn appended_at_each_offset<const N: usize>() -> (usize, usize) {
    let capacity = capacity::<N>();
    let (mut moved, mut refused) = (0, 0);
    for size in 0..=capacity {
        let text = letters(size);
        for offset in 0..=capacity - size {
            let string: ArrayString<N> = behind(offset, &text);
            let (free, room) = (capacity - offset - size, capacity - size);
            for more in [free, free + 1, room, room + 1] {
                let (given, mut appended) = (letters(more), string);
                let is_refused = appended.try_push_str(&given).is_err();
                let wanted = if is_refused { text.clone() } else { text.clone() + &given };
                assert_eq!((is_refused, appended.as_str()), (more > room, wanted.as_str()), "{size} {offset} {more}");
                moved += usize::from(free < more && more <= room);
                refused += usize::from(is_refused);
            }
            for ch in ['b', 'é', '€', '🤔'] {
                let mut appended = string;
                let is_refused = appended.try_push(ch).is_err();
                let wanted = if is_refused { text.clone() } else { format!("{text}{ch}") };
                let is_wanted = (ch.len_utf8() > room, wanted.as_str());
                assert_eq!((is_refused, appended.as_str()), is_wanted, "{size} {offset} {ch}");
            }
        }
    }
    (moved, refused)
}

#[test]
fn a_text_moves_to_the_front_from_each_offset() {
    // Two moves at each of the offsets above 0, and a refusal at each offset: at 0, where no room is in front, it is two.
    fn wanted(capacity: usize) -> (usize, usize) {
        let above: usize = (0..=capacity).map(|size| capacity - size).sum();
        (2 * above, above + 2 * (capacity + 1))
    }
    assert_eq!(appended_at_each_offset::<1>(), wanted(1));
    assert_eq!(appended_at_each_offset::<23>(), wanted(23));
    assert_eq!(appended_at_each_offset::<64>(), wanted(64));
    assert_eq!(appended_at_each_offset::<80>(), wanted(80));
    assert_eq!(appended_at_each_offset::<255>(), wanted(255));
    assert_eq!(appended_at_each_offset::<300>(), wanted(255));
}
