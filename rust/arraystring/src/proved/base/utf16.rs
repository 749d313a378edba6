// Made from crates/arraystring_base/src/utf16.rt by rust/generate.py: change that, and run this.
//! UTF-16, read as characters and lone surrogates (the Unicode Standard, section 3.9).

use core::char;
use core::iter::FusedIterator;

/// What UTF-16 units are read as: a character, or a lone surrogate.
#[derive(Clone, Copy, PartialEq, Eq, Debug)]
pub enum Unit16 {
    /// A character: a unit that is no surrogate, or a high surrogate and the low one after it.
    Char(char),
    /// A surrogate that has no partner.
    Lone(u16),
}

/// An iterator that reads UTF-16 units, in order, as characters and lone surrogates. There is only
/// one way to read them. It allocates nothing.
///
/// In contracts it is the list of the items that are left.
pub struct Units<'a> {
    pub(crate) rest: &'a [u16],
}

impl<'a> Units<'a> {
    /// Returns an iterator over the characters and lone surrogates of `units`.
    #[inline]
    pub fn new(units: &'a [u16]) -> Self {
        Units { rest: units }
    }
}

/// The items that are left, from the front.
impl<'a> Iterator for Units<'a> {
    type Item = Unit16;

    /// Returns the next character or lone surrogate. Once none is left, it always returns `None`.
    #[inline]
    fn next(&mut self) -> Option<Unit16> {
        let (first, rest) = self.rest.split_first()?;
        let unit = *first;
        if let Some(ch) = char::from_u32(unit as u32) {
            self.rest = rest;
            return Some(Unit16::Char(ch));
        }
        if let Some((ch, rest)) = pair_char_and_rest(unit, rest) {
            self.rest = rest;
            return Some(Unit16::Char(ch));
        }
        self.rest = rest;
        Some(Unit16::Lone(unit))
    }
}

/// Once no item is left, `next` always returns `None`.
impl<'a> FusedIterator for Units<'a> {}

/// The character of the pair that `high` begins, and the units after the pair, or `None` if there is no pair.
#[inline]
fn pair_char_and_rest(high: u16, rest: &[u16]) -> Option<(char, &[u16])> {
    if !is_high_surrogate(high) {
        return None;
    }
    let (second, rest) = rest.split_first()?;
    let low = *second;
    if !is_low_surrogate(low) {
        return None;
    }
    let ch = char::from_u32(0x1_0000 + (high as u32 - 0xD800) * 0x400 + (low as u32 - 0xDC00))?;
    Some((ch, rest))
}

/// Whether a unit is a surrogate that begins a pair.
#[inline]
fn is_high_surrogate(unit: u16) -> bool {
    matches!(unit, 0xD800..=0xDBFF)
}

/// Whether a unit is a surrogate that ends a pair.
#[inline]
fn is_low_surrogate(unit: u16) -> bool {
    matches!(unit, 0xDC00..=0xDFFF)
}
