//! Calls on strings of greater capacities, and random ones on what the call before left, each beside the model: what it answers, the
//! text that it leaves, and at which offset that begins, since one that is wrong leaves the same text.
//!
//! The strings have each length at each start offset at small capacities, and at greater ones those at both ends and in the middle. The
//! variable `ARRAYSTRING_CALLS` of the environment says how many random calls are made at each capacity. Where a run is slow,
//! `ARRAYSTRING_SHARE` says that each n-th string is played, and no other.

use std::ops::Bound::{Excluded, Included, Unbounded};

use self::calls::{Call, Calls, at_an_index, of_a_text, of_what_is_made, on_a_range};
use self::given::{CHARS, Given, Random, text};
use crate::limited::{Ends, Limited};
use crate::{ArrayString, behind, capacity};

mod calls;
mod given;

/// A string and its model.
#[derive(Clone)]
struct Pair<const N: usize>(ArrayString<N>, Limited);

impl<const N: usize> Pair<N> {
    /// Of a text at an offset.
    fn behind(offset: usize, text: &str) -> Self {
        Pair(behind(offset, text), Limited::new(offset, text, capacity::<N>()))
    }

    /// Makes a call on both.
    fn call(&mut self, (name, call): &(&str, Call<N>), given: &Given) {
        let before = self.1.clone();
        let told = || format!("{name} of {before:?}, given {given:?}");
        if let Err(wrong) = call(&mut self.0, &mut self.1, given) {
            panic!("{} answers {wrong}", told());
        }
        // (bytes first: what is no text can't be printed as one)
        assert_eq!(self.0.as_bytes(), self.1.text.as_bytes(), "after {}", told());
        assert_eq!((self.0.as_str(), self.0.len() as usize), (&*self.1.text, self.1.text.len()), "after {}", told());
        assert_eq!(usize::from(self.0.start), self.1.start, "the start offset after {}", told());
    }

    /// Makes each of these calls, and says how many that are.
    fn each(&self, calls: &Calls<N>, given: &Given) -> usize {
        calls.iter().for_each(|call| self.clone().call(call, given));
        calls.len()
    }
}

/// How far capacities, lengths, offsets and indices are gone through one by one.
const SMALL: usize = 9;

/// Places up to the greatest: all of few, and of many those at both ends and in the middle.
fn places(most: usize) -> Vec<usize> {
    let ends = |at: usize| [at, (most / 2 + at).saturating_sub(1), most.saturating_sub(at)];
    let some = [0, 1, 2, 3, 4, 15, 16].into_iter().flat_map(ends).filter(|at| *at <= most);
    let mut places: Vec<_> = if most <= SMALL { (0..=most).collect() } else { some.collect() };
    places.sort_unstable();
    places.dedup();
    places
}

/// Indices of a text of a length: its places, one past it, and the greatest.
fn indices(len: usize) -> Vec<u8> {
    let mut indices: Vec<_> = places(len).into_iter().chain([len + 1, 255]).map(|at| at.min(255) as u8).collect();
    indices.dedup();
    indices
}

/// Ranges between some indices.
fn ranges(indices: &[u8]) -> Vec<Ends> {
    let mut ranges = vec![(Unbounded, Unbounded)];
    for start in indices {
        ranges.extend([(Included(*start), Unbounded), (Unbounded, Excluded(*start)), (Unbounded, Included(*start))]);
        ranges.extend(
            indices.iter().flat_map(|end| [(Included(*start), Excluded(*end)), (Excluded(*start), Included(*end))]),
        );
    }
    ranges
}

/// The strings of a capacity: of each kind of text at small ones, and else of one kind each.
fn strings<const N: usize>() -> Vec<Pair<N>> {
    let capacity = capacity::<N>();
    let at_each_offset = |len| places(capacity - len).into_iter().map(move |offset| (len, offset));
    let places = places(capacity).into_iter().flat_map(at_each_offset);
    let of_each_kind = places.flat_map(|(len, offset)| {
        let kinds = if capacity <= SMALL { 0..CHARS.len() } else { len + offset..len + offset + 1 };
        kinds.map(move |kind| Pair::behind(offset, &text(kind, len)))
    });
    of_each_kind.step_by(told("ARRAYSTRING_SHARE").unwrap_or(1)).collect()
}

/// Makes each call on each string of a capacity, and says how many that are.
fn each_call<const N: usize>() -> usize {
    let (of_a_text, at_an_index, on_a_range) = (of_a_text(), at_an_index(), on_a_range());
    let (mut made, mut turn) = (0, 0);
    for pair in strings::<N>() {
        let (len, room) = (pair.1.text.len(), pair.1.room());
        let behind = room - pair.1.start;
        let sizes = [0, 1, 2, 3, 4, 7, 8, 16, behind, behind + 1, room, room + 1, room + 20];
        // There are 13 sizes, a prime, so each meets each index and each range at one string or another.
        let mut call = |calls: &Calls<N>, index, range| {
            turn += 1;
            let text = text(turn, sizes[turn % sizes.len()]);
            let panics_at = (turn % 3 == 0).then_some(turn / 3 % 5);
            made += pair.each(calls, &Given { text: &text, index, range, pattern: turn * 37, panics_at });
        };
        sizes.iter().for_each(|_| call(&of_a_text, 0, (Unbounded, Unbounded)));
        let indices = indices(len);
        indices.iter().chain(&indices).for_each(|index| call(&at_an_index, *index, (Unbounded, Unbounded)));
        let ranges = ranges(&indices);
        for (at, range) in ranges.iter().enumerate().skip((len + behind) % 7).step_by(1 + ranges.len() / 48) {
            call(&on_a_range, at as u8, *range);
        }
    }
    made
}

/// Makes a string of each size in each way.
fn each_constructor<const N: usize>() -> usize {
    let (calls, mut made) = (of_what_is_made(), 0);
    let (capacity, pair) = (capacity::<N>(), Pair::<N>::behind(0, ""));
    for size in (0..=capacity + 20).chain([300, 520]) {
        for kind in 0..CHARS.len() {
            let given = text(kind, size);
            for (pattern, panics_at) in [(size * 7 + 1, None), (size + kind, (kind == 0).then_some(size / 3))] {
                let index = (size * 3 / 4).min(255) as u8;
                made += pair.each(&calls, &Given { pattern, panics_at, index, ..Given::of(&given) });
            }
        }
    }
    made
}

/// Makes random calls, each on what the one before it left.
fn random_calls<const N: usize>() -> usize {
    let made = told("ARRAYSTRING_CALLS").unwrap_or(if cfg!(debug_assertions) { 2_000 } else { 10_000 });
    let calls = [of_a_text(), at_an_index(), on_a_range(), of_what_is_made()].concat();
    let (mut random, mut pair) = (Random(N as u64 + 1), Pair::<N>::behind(0, ""));
    for _ in 0..made {
        let given = random.text(capacity::<N>());
        let len = pair.1.text.len();
        let (start, end) = (random.place(len), random.place(len));
        let given = Given {
            index: random.place(len),
            range: (random.bound(start), random.bound(end)),
            pattern: random.below(usize::MAX),
            panics_at: (random.below(4) == 0).then(|| random.below(8)),
            ..Given::of(&given)
        };
        let call = random.below(calls.len());
        pair.call(&calls[call], &given);
        if random.below(3) == 0 {
            pair = Pair::behind(random.below(pair.1.room() + 1), &pair.1.text);
        }
    }
    made
}

/// What a variable of the environment says.
fn told(name: &str) -> Option<usize> {
    std::env::var(name).ok().map(|number| number.parse().expect("the variable is a number"))
}

/// Declares a test for each capacity, so that they run beside each other.
macro_rules! at_capacities {
    ($($test:ident $capacity:literal)*) => {$(
        #[test]
        fn $test() {
            let made = (each_call::<$capacity>(), each_constructor::<$capacity>(), random_calls::<$capacity>());
            println!("at {}: {made:?} calls", $capacity);
            assert!(made.0 > 100 && made.1 > 1_000 && made.2 > 0, "{made:?}");
        }
    )*};
}

at_capacities! {
    at_0 0 at_1 1 at_2 2 at_3 3 at_4 4 at_7 7 at_8 8 at_15 15 at_16 16 at_17 17 at_23 23 at_63 63 at_128 128 at_255 255 at_256 256 at_300 300
}
