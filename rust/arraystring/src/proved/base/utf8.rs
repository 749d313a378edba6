// Made from crates/arraystring_base/src/utf8.rt by rust/generate.py: change that, and run this.
//! The UTF-8 of texts and characters: boundaries, cuts, the first and the last character of a text, and the
//! bytes of a character. Sizes and indices count bytes of UTF-8.

use crate::leaf::{byte, put_array, text_before_boundary};
use core::char;

/// Returns whether `at` is a boundary of `text`: the size of one of its prefixes of whole characters.
/// Returns false if `at` is past the length of the text.
#[inline]
pub fn is_boundary(text: &str, at: usize) -> bool {
    text.is_char_boundary(at)
}

/// Returns the longest prefix of whole characters of `text` that takes at most `size` bytes,
/// borrowed from the text.
#[inline]
pub fn truncate_str(text: &str, size: u8) -> &str {
    let limit = size as usize;
    if text.len() <= limit {
        return text;
    }
    let end = last_boundary(text, limit);
    text_before_boundary(text, end)
}

/// The last boundary that is not past `limit`. Looks once at each byte from `limit` back to that boundary.
#[inline]
fn last_boundary(text: &str, limit: usize) -> usize {
    let all = text.as_bytes();
    let mut end = limit;
    // The first byte of a text continues no character, and at most three bytes in a row do. So `limit - end < 3`
    // changes no result. It is for the compiler, which unrolls the loop.
    while is_continuation(look(all, end)) && limit - end < 3 {
        end -= 1;
    }
    end
}

/// Most programs need no count, and write `bytes[at]`. This call returns that byte, and counts one look
/// in `steps`.
///
/// # Precondition
///
/// The index must be below the length, and the count of looks of `steps` must be below 2^64 - 1.
#[inline]
pub fn look(bytes: &[u8], at: usize) -> u8 {
    byte(bytes, at)
}

/// Whether a byte continues a character that began before it.
#[inline]
fn is_continuation(byte: u8) -> bool {
    matches!(byte, 0x80..=0xBF)
}

/// Returns the first character of `text`, and how many bytes it takes.
///
/// # Precondition
///
/// The text must not be empty.
#[inline]
pub fn first_char_and_width(text: &str) -> (char, usize) {
    let all = text.as_bytes();
    let first = byte(all, 0) as u32;
    if first < 0x80 {
        // SAFETY: a number below 0x80 is a scalar value.
        return (unsafe { char::from_u32_unchecked(first) }, 1);
    }
    let second = byte(all, 1) as u32;
    if first < 0xE0 {
        let code = (first - 0xC0) * 64 + (second - 0x80);
        // SAFETY: the bytes of a `&str` are UTF-8. `first` begins a character of two bytes and `second` continues it,
        // so `code` is its number, a scalar value.
        return (unsafe { char::from_u32_unchecked(code) }, 2);
    }
    let third = byte(all, 2) as u32;
    if first < 0xF0 {
        let code = (first - 0xE0) * 4096 + (second - 0x80) * 64 + (third - 0x80);
        // SAFETY: the bytes of a `&str` are UTF-8. `first` begins a character of three bytes and the two behind it
        // continue it, so `code` is its number, a scalar value.
        return (unsafe { char::from_u32_unchecked(code) }, 3);
    }
    let fourth = byte(all, 3) as u32;
    let front = (first - 0xF0) * 262_144 + (second - 0x80) * 4096;
    let code = front + (third - 0x80) * 64 + (fourth - 0x80);
    // SAFETY: the bytes of a `&str` are UTF-8. `first` begins a character of four bytes and the three behind it
    // continue it, so `code` is its number, a scalar value.
    (unsafe { char::from_u32_unchecked(code) }, 4)
}

/// Returns the index at which the last character of `text` begins, and that character. Returns `None` if the
/// text is empty. It makes at most four looks, and at least one if there is a character. It moves no byte.
///
/// # Precondition
///
/// The count of looks plus four must be below 2^64.
#[inline]
pub fn last_char_with_start(text: &str) -> Option<(usize, char)> {
    if text.is_empty() {
        return None;
    }
    let (start, ch) = last_char_of_nonempty(text);
    Some((start, ch))
}

/// The last character of a text that has one, and where it begins. The bytes are read from the end
/// back to the one that does not continue a character.
#[inline]
fn last_char_of_nonempty(text: &str) -> (usize, char) {
    let all = text.as_bytes();
    let end = all.len();
    let last = look(all, end - 1) as u32;
    if last < 0x80 {
        // SAFETY: a number below 0x80 is a scalar value.
        return (end - 1, unsafe { char::from_u32_unchecked(last) });
    }
    let second = look(all, end - 2) as u32;
    if second >= 0xC0 {
        let code = (second - 0xC0) * 64 + (last - 0x80);
        // SAFETY: the bytes of a `&str` are UTF-8. `second` begins a character and `last` continues it, so `code` is
        // its number, a scalar value.
        return (end - 2, unsafe { char::from_u32_unchecked(code) });
    }
    let third = look(all, end - 3) as u32;
    if third >= 0xC0 {
        let code = (third - 0xE0) * 4096 + (second - 0x80) * 64 + (last - 0x80);
        // SAFETY: the bytes of a `&str` are UTF-8. `third` begins a character and the two behind it continue it, so
        // `code` is its number, a scalar value.
        return (end - 3, unsafe { char::from_u32_unchecked(code) });
    }
    let fourth = look(all, end - 4) as u32;
    let front = (fourth - 0xF0) * 262_144 + (third - 0x80) * 4096;
    let code = front + (second - 0x80) * 64 + (last - 0x80);
    // SAFETY: the bytes of a `&str` are UTF-8. `fourth` begins a character, since none has more than four bytes, and the
    // three behind it continue it, so `code` is its number, a scalar value.
    (end - 4, unsafe { char::from_u32_unchecked(code) })
}

/// Writes the UTF-8 of `ch` into the array, starting at the offset `at`, and returns the number of
/// bytes that it takes. No other byte changes.
///
/// # Precondition
///
/// `at` plus the number of bytes of the UTF-8 of `ch` must be at most `N`.
#[inline(always)]
pub fn encode<const N: usize>(ch: char, array: &mut [crate::leaf::MaybeByte; N], at: usize) -> usize {
    let code = ch as u32;
    let all = &mut array[..];
    if code < 0x80 {
        put_array(all, at, [code as u8]);
        return 1;
    }
    write_non_ascii_at(ch, all, at)
}

/// Writes the UTF-8 of a character that is not ASCII into `all` from index `at` on, and returns its width. The
/// compiler may inline it, and does where that pays. In a function that is marked `cold` it stays a call.
fn write_non_ascii_at(ch: char, all: &mut [crate::leaf::MaybeByte], at: usize) -> usize {
    let code = ch as u32;
    let last = (0x80 + code % 64) as u8;
    if code < 0x800 {
        let first = (0xC0 + code / 64) as u8;
        put_array(all, at, [first, last]);
        return 2;
    }
    let before_last = (0x80 + code / 64 % 64) as u8;
    if code < 0x1_0000 {
        let first = (0xE0 + code / 4096) as u8;
        put_array(all, at, [first, before_last, last]);
        return 3;
    }
    let first = (0xF0 + code / 262_144) as u8;
    let second = (0x80 + code / 4096 % 64) as u8;
    put_array(all, at, [first, second, before_last, last]);
    4
}
