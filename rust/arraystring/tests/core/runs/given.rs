//! What calls are given.

use std::ops::Bound;
use std::panic::{AssertUnwindSafe, catch_unwind, resume_unwind};

use crate::limited::{Ends, Limited};

/// What a call is given. It takes of it what it needs.
#[derive(Clone, Copy, Debug)]
pub struct Given<'a> {
    pub text: &'a str,
    pub index: u8,
    pub range: Ends,
    /// Decides by its bits which characters are kept, where a text is cut into pieces, and what is no UTF-8 or UTF-16.
    pub pattern: usize,
    /// After how many items an iterator or a closure panics.
    pub panics_at: Option<usize>,
}

/// Characters of each width, letters of both cases, white space, and the least and the greatest of each width.
pub const CHARS: [&[char]; 4] = [
    &['a', 'B', '9', 'z'],
    &['é', '€', '🤔', 'Q'],
    &[' ', '\u{2003}', 'É', '\u{85}', 'Z'],
    &['\u{80}', '\u{7FF}', '\u{800}', '\u{FFFF}', '\u{10000}', '\u{10FFFF}', '\0', '\u{7F}', '\u{D7FF}', '\u{E01EF}'],
];

/// A text of so many bytes.
pub fn text(kind: usize, len: usize) -> String {
    let mut text = String::new();
    for ch in CHARS[kind % CHARS.len()].iter().cycle().skip(kind + len) {
        if text.len() == len {
            break;
        }
        text.push(if text.len() + ch.len_utf8() <= len { *ch } else { 'M' });
    }
    text
}

/// What is asked of the closure of `retain`, and whether it panicked.
pub type Asked = (String, bool);

impl<'a> Given<'a> {
    pub fn of(text: &'a str) -> Self {
        Given { text, index: 0, range: (Bound::Unbounded, Bound::Unbounded), pattern: 0, panics_at: None }
    }

    /// The characters of the text, a piece each.
    pub fn characters(&self) -> Vec<&'a str> {
        self.text.split_inclusive(|_| true).collect()
    }

    /// Pieces of the text.
    pub fn pieces(&self) -> Vec<&'a str> {
        let mut at = 0;
        let ends = |_: char| {
            at += 1;
            self.pattern >> (at % 16) & 1 == 1
        };
        self.text.split_inclusive(ends).collect()
    }

    /// How many of some items a call leaves that is lent them, and whether it met the panic of their iterator.
    pub fn left_of(&self, items: &[&'a str], call: impl FnOnce(&mut dyn Iterator<Item = &'a str>)) -> (usize, bool) {
        let (mut left, mut asked) = (items.iter().copied(), 0);
        let mut items = std::iter::from_fn(|| {
            if self.panics_at == Some(asked) {
                resume_unwind(Box::new(()));
            }
            asked += 1;
            left.next()
        });
        let has_panicked = catch_unwind(AssertUnwindSafe(|| call(&mut items))).is_err();
        (left.len(), has_panicked)
    }

    /// The same of the model.
    pub fn left_by(&self, items: &[&str], model: &mut Limited) -> (usize, bool) {
        let until = self.panics_at.unwrap_or(usize::MAX).min(items.len());
        match model.extend(&items[..until]) {
            Err(taken) => (items.len() - taken, false),
            Ok(()) => (items.len() - until, self.panics_at == Some(until)),
        }
    }

    /// Lends the closure of `retain`: it keeps by the pattern.
    pub fn asked(&self, retain: impl FnOnce(&mut dyn FnMut(char) -> bool)) -> Asked {
        let (mut asked, mut at) = (String::new(), 0);
        let mut keeps = |ch| {
            if self.panics_at == Some(at) {
                resume_unwind(Box::new(()));
            }
            asked.push(ch);
            at += 1;
            self.pattern >> (at % 16) & 1 == 1
        };
        let has_panicked = catch_unwind(AssertUnwindSafe(|| retain(&mut keeps))).is_err();
        (asked, has_panicked)
    }

    /// The bytes of the text, of which one may be of no text, or the last ones be missing.
    pub fn bytes(&self) -> Vec<u8> {
        let mut bytes = self.text.as_bytes().to_vec();
        match self.pattern % 4 {
            1 => bytes.truncate(self.index as usize),
            2 if !bytes.is_empty() => {
                let at = self.index as usize % bytes.len();
                bytes[at] = 0xFF;
            }
            _ => {}
        }
        bytes
    }

    /// The UTF-16 of the text, in which there may be half of a pair.
    pub fn units(&self) -> Vec<u16> {
        let mut units: Vec<_> = self.text.encode_utf16().collect();
        if self.pattern % 3 == 1 {
            let half = [0xD800, 0xDC00, 0xDBFF, 0xDFFF][self.pattern / 3 % 4];
            units.insert(self.index as usize % (units.len() + 1), half);
        }
        units
    }
}

/// Numbers that look random and are the same in each run.
pub struct Random(pub u64);

impl Random {
    /// The next number below `limit`. (`splitmix64` of Steele, Lea and Flood.)
    pub fn below(&mut self, limit: usize) -> usize {
        self.0 = self.0.wrapping_add(0x9E37_79B9_7F4A_7C15);
        let mut mixed = self.0;
        mixed = (mixed ^ (mixed >> 30)).wrapping_mul(0xBF58_476D_1CE4_E5B9);
        mixed = (mixed ^ (mixed >> 27)).wrapping_mul(0x94D0_49BB_1331_11EB);
        ((mixed ^ (mixed >> 31)) % limit as u64) as usize
    }

    /// A text, mostly of few bytes, and of up to twenty more than a capacity.
    pub fn text(&mut self, capacity: usize) -> String {
        let most = if self.below(4) == 0 { capacity + 20 } else { 8 };
        let (kind, len) = (self.below(12), self.below(most + 1));
        text(kind, len)
    }

    /// An index that is mostly in a text of a length, or the greatest.
    pub fn place(&mut self, len: usize) -> u8 {
        if self.below(16) == 0 { 255 } else { self.below(len + 2).min(255) as u8 }
    }

    pub fn bound(&mut self, at: u8) -> Bound<u8> {
        [Bound::Included(at), Bound::Excluded(at), Bound::Included(at), Bound::Unbounded][self.below(4)]
    }
}
