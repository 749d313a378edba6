// Made from crates/arraystring_base/src/moves.rt by rust/generate.py: change that, and run this.
//! The two moves of bytes: `shift` moves bytes inside an array, and `write_over` writes given bytes into one.
//! Each has a second form, `shift_on_cold_path` and `write_by_call`, for code that seldom runs. What makes them
//! fast is in this file and in `leaf`.
//!
//! A run, which is so many bytes side by side, moves as its first `K` bytes and its last `K`. The two may
//! overlap, so both are read before the first is written. `memmove` moves short runs in this way too. A byte
//! that both have is written twice, to one offset, and counts as one move. They are read as vectors, since
//! those stay in registers; arrays of bytes would be put on the stack. `N` is a constant, so the compiler
//! leaves out the sizes that an array of `N` bytes can't have. `write_over` writes 16 bytes or more by a call,
//! of `write_bytes`, which takes a slice and so stands once in a program.

use crate::leaf::{move_16_or_more, move_on_cold_path, put_vector, vector_at, write_bytes};

/// Moves `len` bytes of the array from the offset `from` to the offset `to`; the two runs may
/// overlap. Each byte counts as one move, also if it is written twice on the way. If `from` is `to`,
/// no move is counted. No byte outside the target changes.
///
/// # Precondition
///
/// Both runs must lie in the array, and the count of moves plus `len` must be below 2^64.
#[inline(always)]
pub fn shift<const N: usize>(
    array: &mut [crate::leaf::MaybeByte; N],
    from: usize,
    to: usize,
    len: usize,
) {
    if from != to {
        let all = &mut array[..];
        if N < 16 || len < 16 {
            move_short_run::<N>(all, from, to, len);
        } else {
            move_16_or_more::<N>(all, from, to, len);
        }
    }
}

/// Moves and counts as `shift` does. It is for code that seldom runs. (In the Cargo crate it is one `memmove`,
/// which is less code than the tests of the length in `shift`.)
///
/// # Precondition
///
/// Both runs must lie in the array, and the count of moves plus `len` must be below 2^64.
#[inline(always)]
pub fn shift_on_cold_path<const N: usize>(
    array: &mut [crate::leaf::MaybeByte; N],
    from: usize,
    to: usize,
    len: usize,
) {
    move_on_cold_path(array, from, to, len);
}

/// Moves `len` bytes: fewer than 16, and at most `N`. `N` is a constant, so the compiler leaves out the
/// branches for more bytes.
#[inline(always)]
fn move_short_run<const N: usize>(all: &mut [crate::leaf::MaybeByte], from: usize, to: usize, len: usize) {
    if N >= 4 && len >= 4 {
        if N >= 8 && len >= 8 {
            move_by_two_vectors::<8>(all, from, to, len);
        } else {
            move_by_two_vectors::<4>(all, from, to, len);
        }
    } else if N >= 2 && len >= 2 {
        move_by_two_vectors::<2>(all, from, to, len);
    } else if len == 1 {
        move_by_two_vectors::<1>(all, from, to, len);
    }
}

/// Moves `len` bytes, at least `K` and at most `2 * K`: the first `K` and the last `K`, which may overlap.
#[inline(always)]
pub(crate) fn move_by_two_vectors<const K: usize>(
    all: &mut [crate::leaf::MaybeByte],
    from: usize,
    to: usize,
    len: usize,
) {
    let rest = len - K;
    let first = vector_at::<K>(all, from);
    let last = vector_at::<K>(all, from + rest);
    put_vector(all, to, first);
    put_vector(all, to + rest, last);
}

/// Writes `given` over the bytes of the array from the offset `at` on. No other byte changes.
///
/// # Precondition
///
/// `given` must fit into the array from there.
#[inline(always)]
pub fn write_over<const N: usize>(array: &mut [crate::leaf::MaybeByte; N], at: usize, given: &[u8]) {
    let all = &mut array[..];
    if N < 16 || given.len() < 16 {
        write_short_run::<N>(all, at, given);
    } else {
        write_bytes(all, given, at);
    }
}

/// Writes as `write_over` does, by one call at any length. It is for new strings and for code that seldom runs,
/// where the tests of the length in `write_over` would only be more code.
///
/// # Precondition
///
/// `given` must fit into the array from there.
#[inline(always)]
pub fn write_by_call<const N: usize>(array: &mut [crate::leaf::MaybeByte; N], at: usize, given: &[u8]) {
    write_bytes(&mut array[..], given, at);
}

/// Writes `given`: fewer than 16 bytes, and at most `N`. The compiler leaves out the branches for more bytes.
#[inline(always)]
fn write_short_run<const N: usize>(all: &mut [crate::leaf::MaybeByte], at: usize, given: &[u8]) {
    let len = given.len();
    if N >= 4 && len >= 4 {
        if N >= 8 && len >= 8 {
            write_by_two_vectors::<8>(all, at, given);
        } else {
            write_by_two_vectors::<4>(all, at, given);
        }
    } else if N >= 2 && len >= 2 {
        write_by_two_vectors::<2>(all, at, given);
    } else if len == 1 {
        write_by_two_vectors::<1>(all, at, given);
    }
}

/// Writes `given`, at least `K` and at most `2 * K` bytes: the first `K` and the last `K`, which may overlap.
#[inline(always)]
fn write_by_two_vectors<const K: usize>(all: &mut [crate::leaf::MaybeByte], at: usize, given: &[u8]) {
    let rest = given.len() - K;
    let first = vector_at::<K>(given, 0);
    let last = vector_at::<K>(given, rest);
    put_vector(all, at, first);
    put_vector(all, at + rest, last);
}
