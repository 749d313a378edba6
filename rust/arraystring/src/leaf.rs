//! By hand, as no other file of the core is: what the proved code does without a test of bounds.
//!
//! Each function but `value` and `part_mut` has the name and the contract of one in crates/arraystring_base/src/leaf.rt. Of each call in
//! `proved` it is proved that it keeps what the contract requires. Here that is asserted with debug assertions, with the feature `checked`,
//! and where a `usize` has not the 64 bits of the proofs.

use core::mem::MaybeUninit;
use core::{ptr, slice};

/// Whether each access is tested: in debug builds, with the feature `checked`, and where a `usize` does not have 64 bits, for which the
/// proofs hold. Elsewhere the proofs make the tests needless.
pub(crate) const CHECKS_ACCESS: bool =
    cfg!(any(debug_assertions, feature = "checked", not(target_pointer_width = "64")));

/// Asserts the preconditions of a function (what its contract in Rattle `requires`), if `CHECKS_ACCESS`. Else it does nothing.
macro_rules! required {
    ($($condition:expr),*) => {
        if $crate::leaf::CHECKS_ACCESS {
            $(assert!($condition, concat!("it is required that `", stringify!($condition), "`"));)*
        }
    };
}

/// A byte of the array of a string. It has no value before one is written.
pub(crate) type MaybeByte = MaybeUninit<u8>;

/// The content of a place in a new array: no value, or 0 if `CHECKS_ACCESS`. Where accesses are tested, a wrong index panics. By then the
/// size may be raised, and the byte not yet written. Because of the 0, its place has a value even if the text is read after the panic.
pub(crate) const NEW_BYTE: MaybeByte = if CHECKS_ACCESS { MaybeByte::new(0) } else { MaybeByte::uninit() };

/// A byte that can be read: a `u8` of a text, or a place of a string's array after it was written. Both are laid out as a `u8`.
pub(crate) trait ReadableByte: Copy {
    fn value(self) -> u8;
}

impl ReadableByte for u8 {
    #[inline(always)]
    fn value(self) -> u8 {
        self
    }
}

impl ReadableByte for MaybeByte {
    #[inline(always)]
    fn value(self) -> u8 {
        // SAFETY: the proved code reads only bytes of texts, and these were written.
        unsafe { self.assume_init() }
    }
}

/// The byte at an index.
///
/// ```text
/// requires { at < length bytes.now }
/// ensures { result ≡ slice_index bytes.now at }
/// ```
#[inline(always)]
pub(crate) fn byte(bytes: &[impl ReadableByte], at: usize) -> u8 {
    required!(at < bytes.len());
    // SAFETY: the index is within `bytes`, as is required.
    unsafe { bytes.get_unchecked(at) }.value()
}

/// Writes the `K` bytes of an array into `all`, from index `at` on. (`put_vector` does this with an array that `vector_at` returned, which
/// may have bytes without a value.)
///
/// ```text
/// requires { at + K ≤ length all.old }
/// ensures { all.new ≡ take at all.old ++ (bytes.entry ++ drop (at + K) all.old) }
/// ```
#[inline(always)]
pub(crate) fn put_array<const K: usize>(all: &mut [MaybeByte], at: usize, bytes: [u8; K]) {
    required!(at <= all.len(), K <= all.len() - at);
    // SAFETY: the `K` bytes from `at` on are within `all`, as is required, and a `u8` is laid out as a `MaybeByte`. (`put_vector`
    // is not called here, because turning each `u8` into a `MaybeByte` would put a call into `write_non_ascii_at`, and rustc
    // would then not inline that function in another crate.)
    unsafe { all.as_mut_ptr().add(at).cast::<[u8; K]>().write(bytes) };
}

/// The `len` bytes from `start` on.
///
/// ```text
/// requires { start + len ≤ length bytes.now }
/// ensures { result.now ≡ take len (drop start bytes.now) }
/// ```
#[inline(always)]
pub(crate) const fn part_of_length(bytes: &[MaybeByte], start: usize, len: usize) -> &[u8] {
    required!(start <= bytes.len(), len <= bytes.len() - start);
    // SAFETY: the part is within `bytes`, as is required. Each of its places has a value, because the proved code borrows only
    // bytes of texts, and these were written.
    unsafe { slice::from_raw_parts(bytes.as_ptr().add(start).cast(), len) }
}

/// The bytes from `start` to `end`, borrowed to be written.
#[inline(always)]
pub(crate) fn part_mut(bytes: &mut [MaybeByte], start: usize, end: usize) -> &mut [u8] {
    required!(start <= end, end <= bytes.len());
    // SAFETY: the part is within `bytes`, as is required. Each of its places has a value, because the proved code and `as_mut_str`
    // borrow only bytes of texts, and these were written.
    unsafe { slice::from_raw_parts_mut(bytes.as_mut_ptr().add(start).cast(), end - start) }
}

/// Turns each byte a..z from `start` to `end` into the capital letter.
///
/// ```text
/// requires order { start ≤ end }
/// requires within { end ≤ length all.old }
/// ensures { all.new ≡ take start all.old
///     ++ (map to_ascii_uppercase (take (end - start) (drop start all.old)) ++ drop end all.old) }
/// ```
#[inline(always)]
pub(crate) fn uppercase_between(all: &mut [MaybeByte], start: usize, end: usize) {
    part_mut(all, start, end).make_ascii_uppercase();
}

/// Turns each byte A..Z from `start` to `end` into the small letter.
///
/// ```text
/// requires order { start ≤ end }
/// requires within { end ≤ length all.old }
/// ensures { all.new ≡ take start all.old
///     ++ (map to_ascii_lowercase (take (end - start) (drop start all.old)) ++ drop end all.old) }
/// ```
#[inline(always)]
pub(crate) fn lowercase_between(all: &mut [MaybeByte], start: usize, end: usize) {
    part_mut(all, start, end).make_ascii_lowercase();
}

/// The text before a boundary.
///
/// ```text
/// requires { IsCharBoundary text.now end }
/// ensures { result.now ≡ take end text.now }
/// ```
#[inline(always)]
pub(crate) fn text_before_boundary(text: &str, end: usize) -> &str {
    required!(text.is_char_boundary(end));
    // SAFETY: the index is a boundary, as is required.
    unsafe { text.get_unchecked(..end) }
}

/// The text from a boundary on.
///
/// ```text
/// requires { IsCharBoundary text.now start }
/// ensures { result.now ≡ drop start text.now }
/// ```
#[inline(always)]
pub(crate) fn text_from_boundary(text: &str, start: usize) -> &str {
    required!(text.is_char_boundary(start));
    // SAFETY: the index is a boundary, as is required.
    unsafe { text.get_unchecked(start..) }
}

/// Moves `len` bytes by one call.
///
/// ```text
/// requires source { from + len ≤ N }
/// requires target { to + len ≤ N }
/// ensures { array.new
///     ≡ take to array.old ++ (take len (drop from array.old) ++ drop (to + len) array.old) }
/// ```
#[inline(always)]
pub(crate) fn move_on_cold_path<const N: usize>(array: &mut [MaybeByte; N], from: usize, to: usize, len: usize) {
    required!(from <= N, len <= N - from, to <= N, len <= N - to);
    let bytes = array.as_mut_ptr();
    // SAFETY: both runs are within `array`, as is required, and `ptr::copy` lets them overlap.
    unsafe { ptr::copy(bytes.add(from), bytes.add(to), len) };
}

/// Moves `len` bytes: 16 or more, and at most `N`.
///
/// ```text
/// requires source { from + len ≤ length all.old }
/// requires target { to + len ≤ length all.old }
/// requires most { len ≤ N }
/// requires long { 16 ≤ len }
/// ensures { all.new
///     ≡ take to all.old ++ (take len (drop from all.old) ++ drop (to + len) all.old) }
/// ```
#[inline(always)]
pub(crate) fn move_16_or_more<const N: usize>(all: &mut [MaybeByte], from: usize, to: usize, len: usize) {
    required!(from <= all.len(), len <= all.len() - from, to <= all.len(), len <= all.len() - to, len <= N, 16 <= len);
    let bytes = all.as_mut_ptr();
    // SAFETY: both runs are within `all`, as is required, and `ptr::copy` lets them overlap.
    unsafe { ptr::copy(bytes.add(from), bytes.add(to), len) };
}

/// Writes any number of bytes.
///
/// ```text
/// requires { at + length given.now ≤ length all.old }
/// ensures { all.new ≡ take at all.old ++ (given.now ++ drop (at + length given.now) all.old) }
/// ```
#[inline(always)]
pub(crate) fn write_bytes(all: &mut [MaybeByte], given: &[u8], at: usize) {
    required!(at <= all.len(), given.len() <= all.len() - at);
    // SAFETY: the target is within `all`, as is required. It is borrowed mutably, so it does not overlap `given`.
    unsafe { ptr::copy_nonoverlapping(given.as_ptr().cast(), all.as_mut_ptr().add(at), given.len()) };
}

/// The `K` bytes of `given` from index `at` on, as an array of places. (In Rattle it is a vector, hence the name.)
///
/// ```text
/// requires { at + K ≤ length given.now }
/// ensures { result ≡ take K (drop at given.now) }
/// ```
#[inline(always)]
pub(crate) fn vector_at<const K: usize>(given: &[impl ReadableByte], at: usize) -> [MaybeByte; K] {
    required!(at <= given.len(), K <= given.len() - at);
    // SAFETY: the `K` bytes are within `given`, as is required. Each `ReadableByte` is laid out as a `MaybeByte`, which may have no value.
    unsafe { given.as_ptr().add(at).cast::<[MaybeByte; K]>().read() }
}

/// Writes the `K` bytes that `vector_at` returned, some of which may have no value, into `all`, from index `at` on.
///
/// ```text
/// requires { at + K ≤ length all.old }
/// ensures { all.new ≡ take at all.old ++ (bytes.entry ++ drop (at + K) all.old) }
/// ```
#[inline(always)]
pub(crate) fn put_vector<const K: usize>(all: &mut [MaybeByte], at: usize, bytes: [MaybeByte; K]) {
    required!(at <= all.len(), K <= all.len() - at);
    // SAFETY: the `K` places from index `at` on are within `all`, as is required.
    unsafe { all.as_mut_ptr().add(at).cast::<[MaybeByte; K]>().write(bytes) };
}
