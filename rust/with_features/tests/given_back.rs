//! The zeroes that nobody reads: what is in the memory of a string when it is given back. A plain write of zeroes would be left out of an
//! optimised build there, which is why this is run by one, too.

use std::hint::black_box;
use std::ptr;

use arraystring::ArrayString;
use with_features::given_back::GIVEN_BACK;
use zeroize::{Zeroize, Zeroizing};

/// How many bytes of a value on the heap are no zeroes when its memory is given back, after what was done with it last.
#[inline(never)]
fn left_by<T>(value: T, last: impl FnOnce(&mut T)) -> usize {
    let mut value = black_box(Box::new(value));
    GIVEN_BACK.set((ptr::from_ref(&*value).addr(), None));
    last(&mut value);
    drop(value);
    GIVEN_BACK.get().1.unwrap()
}

/// A string whose array is full of letters, of which the text are those from an index on.
fn full_of_letters<const N: usize>(start: usize) -> ArrayString<N> {
    let mut string = ArrayString::<N>::try_from_str(&"m".repeat(N)).unwrap();
    string.drain(..start).unwrap();
    string
}

#[test]
fn the_writes_are_not_left_out() {
    fn at<const N: usize>() {
        for start in 0..=N {
            let string = full_of_letters::<N>(start);
            assert!(left_by(string, |_| ()) >= N);
            assert_eq!(left_by(string, |string| string.zeroize()), 0);
            assert_eq!(left_by(Zeroizing::new(string), |_| ()), 0);
            let drained = { string }.drain(..).unwrap();
            assert!(left_by(drained.clone(), |_| ()) >= N);
            assert_eq!(left_by(drained, |drained| drained.zeroize()), 0);
        }
    }
    at::<0>();
    at::<1>();
    at::<7>();
    at::<8>();
    at::<23>();
    at::<64>();
    at::<255>();
}

#[test]
fn strings_in_a_pair_are_made_zero_with_it() {
    let login = (full_of_letters::<23>(3), full_of_letters::<255>(7));
    assert!(left_by(login, |_| ()) >= 23 + 255);
    assert_eq!(left_by(Zeroizing::new(login), |_| ()), 0);
}
