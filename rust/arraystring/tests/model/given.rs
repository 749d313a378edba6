//! What calls are given: a text of each length up to twice what any string takes, in characters, in pieces, as UTF-8 and UTF-16 with and
//! without a fault; a character; indices in a text, past it and past a byte; and ranges of each kind.

use std::cell::Cell;
use std::fmt::{self, Display};
use std::sync::OnceLock;

use crate::inputs::{CHARS, GIVEN, letters, mixed};
use crate::ranges::{Ends, KINDS};

/// A text, made once for all capacities.
#[derive(Clone, Copy)]
pub struct Source {
    pub text: &'static str,
    /// Its characters, each as a text.
    pub characters: &'static [&'static str],
    /// The text in pieces, of which some are empty.
    pub pieces: &'static [&'static str],
    /// Its UTF-8, or that with a fault somewhere.
    pub bytes: &'static [u8],
    /// Its UTF-16, or that with a lone surrogate somewhere.
    pub units: &'static [u16],
}

/// How many texts there are of each length.
pub const VARIANTS: usize = 4;

/// The texts of a length.
pub fn sources(len: usize) -> &'static [Source; VARIANTS] {
    static ALL: OnceLock<Vec<[Source; VARIANTS]>> = OnceLock::new();
    &ALL.get_or_init(|| GIVEN.map(of_length).collect())[len]
}

fn of_length(len: usize) -> [Source; VARIANTS] {
    let texts = [letters(len), mixed(len, 0), mixed(len, len % CHARS.len()), spaced(len)];
    let mut variant = 0;
    texts.map(|text| {
        variant += 1;
        source(text, len + variant, variant % 2 == 0)
    })
}

/// A text with white space of each width at both ends, as much as goes there.
fn spaced(len: usize) -> String {
    let (front, back) = ("\u{3000}\t \u{A0}", "\u{85}  \u{2003}\n");
    match len.checked_sub(front.len() + back.len()) {
        Some(rest) => front.to_string() + &mixed(rest, 5) + back,
        None => " ".repeat(len),
    }
}

/// A source of a text, whose bytes and units have a fault if they are to have one, at a place that a number decides.
fn source(text: String, number: usize, has_fault: bool) -> Source {
    let text: &str = text.leak();
    let characters: Vec<&str> = text.split_inclusive(|_| true).collect();
    let mut at = number;
    let mut pieces: Vec<&str> = text
        .split_inclusive(|_: char| {
            at += 1;
            at % 5 == 0 || at % 3 == 0
        })
        .collect();
    for place in [0, pieces.len() / 2, pieces.len()] {
        pieces.insert(place, "");
    }
    let (mut bytes, mut units): (Vec<u8>, Vec<u16>) = (text.into(), text.encode_utf16().collect());
    if has_fault {
        bytes.insert(number * 7 % (bytes.len() + 1), [0x80, 0xC0, 0xED, 0xF5, 0xFF][number % 5]);
        units.insert(number * 7 % (units.len() + 1), [0xD800, 0xDBFF, 0xDC00, 0xDFFF][number % 4]);
    }
    Source { text, characters: characters.leak(), pieces: pieces.leak(), bytes: bytes.leak(), units: units.leak() }
}

/// What one call is given.
pub struct Given {
    pub source: Source,
    pub ch: char,
    pub at: usize,
    pub range: Ends,
    /// The answers of a closure, one bit for each.
    pub answers: u64,
    /// How many items of an iterator were asked for.
    pub asked: Cell<usize>,
}

impl Given {
    pub fn text(&self) -> &'static str {
        self.source.text
    }

    /// The characters, which are counted as they are asked for.
    pub fn characters(&self) -> impl Iterator<Item = char> + '_ {
        self.source.text.chars().inspect(|_| self.asked.set(self.asked.get() + 1))
    }

    /// The pieces, which are counted as they are asked for.
    pub fn pieces(&self) -> impl Iterator<Item = &'static str> + '_ {
        self.source.pieces.iter().copied().inspect(|_| self.asked.set(self.asked.get() + 1))
    }

    /// What prints the pieces one by one.
    pub fn printed(&self) -> Printed {
        Printed(self.source.pieces)
    }

    /// What the closure says to the character at a place.
    pub fn keeps(&self, at: usize) -> bool {
        self.answers >> (at % 64) & 1 == 0
    }
}

impl fmt::Debug for Given {
    fn fmt(&self, f: &mut fmt::Formatter<'_>) -> fmt::Result {
        let Given { source, ch, at, range, .. } = self;
        write!(f, "{ch:?} at {at}, {range:?}, {:?} in {:?}", source.text, source.pieces)
    }
}

pub struct Printed(&'static [&'static str]);

impl Display for Printed {
    fn fmt(&self, f: &mut fmt::Formatter<'_>) -> fmt::Result {
        self.0.iter().try_for_each(|piece| f.write_str(piece))
    }
}

/// Numbers that look random and are the same in each run.
pub struct Random(pub u64);

impl Random {
    /// The next number. (`splitmix64` of Steele, Lea and Flood.)
    fn next(&mut self) -> u64 {
        self.0 = self.0.wrapping_add(0x9E37_79B9_7F4A_7C15);
        let mut mixed = self.0;
        mixed = (mixed ^ (mixed >> 30)).wrapping_mul(0xBF58_476D_1CE4_E5B9);
        mixed = (mixed ^ (mixed >> 27)).wrapping_mul(0x94D0_49BB_1331_11EB);
        mixed ^ (mixed >> 31)
    }

    /// The next number below a limit.
    pub fn below(&mut self, limit: usize) -> usize {
        (self.next() % limit as u64) as usize
    }

    /// A text of a length that has something to do with the room that is left: it is short, or nearly fits, or has any length.
    pub fn source(&mut self, room: usize) -> Source {
        let len = match self.below(4) {
            0 => self.below(7),
            1 => self.below(521),
            2 => self.below(room + 1),
            _ => (room + self.below(8)).saturating_sub(2),
        };
        sources(len)[self.below(VARIANTS)]
    }

    /// An index that is mostly in a text of a length, or past it, or past a byte: there it is often one that in a byte is in the text.
    pub fn index(&mut self, len: usize) -> usize {
        match self.below(16) {
            0 => self.below(300),
            1 => usize::MAX - self.below(3),
            2 => 256 * (1 + self.below(300)) + self.below(len + 1),
            3 => [0, len, len + 1, len.saturating_sub(1)][self.below(4)],
            4 => [255, 256, 257, 300, 65536][self.below(5)],
            _ => self.below(len + 1),
        }
    }

    /// What a call is given on a text of a length that leaves so much room.
    pub fn given(&mut self, len: usize, room: usize) -> Given {
        let (one, other) = (self.index(len), self.index(len));
        let (start, end) = if self.below(8) == 0 { (one, other) } else { (one.min(other), one.max(other)) };
        Given {
            source: self.source(room),
            ch: CHARS[self.below(CHARS.len())],
            at: self.index(len),
            range: Ends::of_kind(self.below(KINDS), start, end),
            answers: self.next() & self.next(),
            asked: Cell::new(0),
        }
    }
}
