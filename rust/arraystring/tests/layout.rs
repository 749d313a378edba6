//! How much room a string takes, and how it lies there.

use arraystring::{ArrayString, CacheString, Drain, Error, MaxString, OutOfBounds, SmallString, Utf8, Utf16};
use inputs::at_capacities;

mod inputs;

/// Two bytes more than the capacity: where the text begins, and how long it is. Nothing is aligned, so an array or a struct of strings has
/// no gap.
#[test]
fn a_string_takes_two_bytes_more_than_its_capacity() {
    fn at<const N: usize>() {
        struct Row<const N: usize> {
            _flag: bool,
            _name: ArrayString<N>,
            _other: ArrayString<N>,
        }
        assert_eq!((size_of::<ArrayString<N>>(), align_of::<ArrayString<N>>()), (N + 2, 1));
        assert_eq!((size_of::<[ArrayString<N>; 3]>(), size_of::<Row<N>>()), (3 * (N + 2), 2 * (N + 2) + 1));
        // Each byte of a string may have each value, so an `Option` needs another one.
        assert_eq!((size_of::<Option<ArrayString<N>>>(), align_of::<Option<ArrayString<N>>>()), (N + 3, 1));
        assert_eq!((size_of::<Drain<N>>(), align_of::<Drain<N>>()), (N + 3, 1));
    }
    at_capacities!(at);
    let sizes = [size_of::<SmallString>(), size_of::<CacheString>(), size_of::<MaxString>()];
    assert_eq!(sizes, [25, 65, 257]);
}

#[test]
fn a_refusal_takes_no_more_than_a_byte() {
    assert_eq!([size_of::<Utf8>(), size_of::<Utf16>(), size_of::<OutOfBounds>()], [0; 3]);
    assert_eq!([size_of::<Result<(), Error>>(), size_of::<Result<(), OutOfBounds>>(), size_of::<Error>()], [1; 3]);
}
