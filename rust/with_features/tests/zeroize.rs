//! `zeroize` on strings and drains of each capacity, with their texts at each offset: what is in their memory then, of a text or not.

use std::{ptr, slice};

use arraystring::{ArrayString, Drain};
use inputs::at_each_capacity;
use zeroize::Zeroize;

mod inputs;

/// The bytes of a string or a drain whose array was full once.
fn memory_of<T>(value: &T) -> &[u8] {
    // SAFETY: each byte was written, since the array was full, and there is no padding.
    unsafe { slice::from_raw_parts(ptr::from_ref(value).cast(), size_of::<T>()) }
}

/// A string whose array is full of letters, of which the text is a part.
fn within<const N: usize>(start: usize, len: usize) -> ArrayString<N> {
    let mut string = ArrayString::<N>::try_from_str(&"m".repeat(N)).unwrap();
    string.drain(..start).unwrap();
    string.truncate(len).unwrap();
    assert_eq!(string, *"m".repeat(len));
    assert_eq!(memory_of(&string)[2..], [b'm'; 255][..N]);
    string
}

/// Some lengths from 0 to the most: all the small ones, the half, and the greatest.
fn lengths(most: usize) -> impl Iterator<Item = usize> {
    [0, 1, 2, most / 2, most.saturating_sub(1), most].into_iter().filter(move |len| *len <= most)
}

#[test]
fn each_byte_of_a_string_is_zero() {
    fn at<const N: usize>(count: &mut usize) {
        for (start, len) in (0..=N).flat_map(|start| lengths(N - start).map(move |len| (start, len))) {
            let mut string = within::<N>(start, len);
            string.zeroize();
            assert_eq!(*memory_of(&string), [0; 257][..N + 2], "{N} {start} {len}");
            assert_eq!((string.as_str(), string.remaining_capacity()), ("", N));
            string.try_push_str(&"n".repeat(N)).unwrap();
            assert_eq!(string, *"n".repeat(N));
            *count += 1;
        }
    }
    let mut count = 0;
    at_each_capacity!(at(&mut count));
    assert!(count > 4 * 256 * 257 / 2, "{count}");
}

#[test]
fn each_byte_of_a_drain_is_zero() {
    fn at<const N: usize>(count: &mut usize) {
        for (start, len) in (0..=N).flat_map(|start| lengths(N - start).map(move |len| (start, len))) {
            let mut string = within::<N>(start, N - start);
            let mut drained: Drain<N> = string.drain(..len).unwrap();
            drained.next();
            drained.next_back();
            assert_eq!(memory_of(&drained)[3..], [b'm'; 255][..N]);
            drained.zeroize();
            assert_eq!(*memory_of(&drained), [0; 258][..N + 3], "{N} {start} {len}");
            assert_eq!(drained.as_str(), "");
            assert_eq!((drained.next(), drained.next_back()), (None, None));
            assert_eq!(string, *"m".repeat(N - start - len));
            *count += 1;
        }
    }
    let mut count = 0;
    at_each_capacity!(at(&mut count));
    assert!(count > 4 * 256 * 257 / 2, "{count}");
}
