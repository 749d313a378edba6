//! Tests of the core: of the files that are made of the proved sources and of the `leaf` below them, which are a part of this test as they
//! are of the crate. So it calls a string of the core by its own names, and sees where a text begins in its array.
//!
//! `tables` plays the tables that the tests of the sources play, in the same words. `every_state` makes each call on every string of a
//! small capacity, and `runs` on strings of greater ones, each beside the `String` with a limit of `limited`. The others go through
//! what their names say.

#[path = "../../src"]
mod sources {
    pub(crate) mod leaf;
    #[rustfmt::skip]
    pub(crate) mod proved;
}

#[path = "../inputs/mod.rs"]
mod inputs;

mod boundaries;
mod bytes_written;
mod decoding;
mod every_state;
mod layout;
mod limited;
mod order;
mod overlaps;
mod runs;
mod tables;

use proved::base::error::{Error, OutOfBounds, Utf8};
use proved::base::{utf16, utils};
use proved::string::array_string::is_char_boundary;
use proved::string::{ArrayString, Drain};
use sources::{leaf, proved};

/// How many bytes a string holds.
fn capacity<const N: usize>() -> usize {
    N.min(255)
}

/// A string of a text that lies between two others in its array. What is behind all three was never written.
fn between<const N: usize>(before: &str, text: &str, behind: &str) -> ArrayString<N> {
    let mut string = ArrayString { start: before.len() as u8, size: text.len() as u8, array: ArrayString::new().array };
    leaf::write_bytes(&mut string.array, [before, text, behind].concat().as_bytes(), 0);
    string
}

/// A string whose text begins at an offset of its array.
fn behind<const N: usize>(offset: usize, text: &str) -> ArrayString<N> {
    assert!(offset + text.len() <= capacity::<N>(), "{text:?} has no room at {offset} of {N}");
    between(&"~".repeat(offset), text, "")
}

/// What a drain gives. Its bytes are looked at first, since `chars` of what is no text may abort the run.
fn given_by<const N: usize>(drain: Drain<N>) -> String {
    assert!(std::str::from_utf8(drain.as_str().as_bytes()).is_ok(), "a drain of {:x?}", drain.as_str().as_bytes());
    drain.collect()
}

/// So many places with a value each, of which those near each other differ.
fn places<const N: usize>() -> [leaf::MaybeByte; N] {
    std::array::from_fn(|at| leaf::MaybeByte::new((at * 37 + at / 256) as u8))
}

/// The bytes of an array of which each has a value.
fn values(places: &[leaf::MaybeByte]) -> &[u8] {
    leaf::part_of_length(places, 0, places.len())
}
