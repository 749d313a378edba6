//! A `String` with a limit, by the rules of the documentation: what each call has to return, the text that it has to leave, and where in
//! the array of a string that text begins then.

use std::ops::Bound;

use crate::inputs::cut;
use crate::{Error, OutOfBounds, Utf8};

/// The ends of a range over `u8`.
pub type Ends = (Bound<u8>, Bound<u8>);

/// The same range over `usize`, which std's calls take.
pub fn wide((start, end): Ends) -> (Bound<usize>, Bound<usize>) {
    (start.map(usize::from), end.map(usize::from))
}

#[derive(Clone, Debug, PartialEq)]
pub struct Limited {
    pub text: String,
    /// The start offset. A removal at the front raises it, and nothing else does.
    pub start: usize,
    capacity: usize,
}

impl Limited {
    pub fn new(start: usize, text: &str, capacity: usize) -> Self {
        Limited { text: text.to_string(), start, capacity }
    }

    pub fn room(&self) -> usize {
        self.capacity - self.text.len()
    }

    /// Moves the text to the start of the array, if it has no room where it was.
    fn settle(&mut self) {
        if self.start + self.text.len() > self.capacity {
            self.start = 0;
        }
    }

    pub fn try_push_str(&mut self, given: &str) -> Result<(), OutOfBounds> {
        if given.len() > self.room() {
            return Err(OutOfBounds);
        }
        self.push_str(given);
        Ok(())
    }

    pub fn push_str(&mut self, given: &str) {
        let room = self.room();
        self.text.push_str(cut(given, room));
        self.settle();
    }

    /// Adds pieces before the first that does not fit, of which it adds what fits. Returns `Err` of how many it takes if there is one.
    pub fn extend(&mut self, pieces: &[&str]) -> Result<(), usize> {
        for (at, piece) in pieces.iter().enumerate() {
            if self.try_push_str(piece).is_err() {
                self.push_str(piece);
                return Err(at + 1);
            }
        }
        Ok(())
    }

    /// How many of some pieces it leaves when it is extended by them.
    pub fn left_of(&mut self, pieces: &[&str]) -> usize {
        pieces.len() - self.extend(pieces).err().unwrap_or(pieces.len())
    }

    /// The index, if it is a boundary.
    fn boundary(&self, index: u8) -> Result<usize, Error> {
        let index = usize::from(index);
        if index > self.text.len() {
            return Err(Error::OutOfBounds);
        }
        if self.text.is_char_boundary(index) { Ok(index) } else { Err(Error::Utf8) }
    }

    pub fn try_insert_str(&mut self, index: u8, given: &str) -> Result<(), Error> {
        if usize::from(index) <= self.text.len() && given.len() > self.room() {
            return Err(Error::OutOfBounds);
        }
        self.insert_str(index, given)
    }

    pub fn insert_str(&mut self, index: u8, given: &str) -> Result<(), Error> {
        let index = self.boundary(index)?;
        let room = self.room();
        self.text.insert_str(index, cut(given, room));
        self.settle();
        Ok(())
    }

    pub fn remove(&mut self, index: u8) -> Result<char, Error> {
        let index = self.boundary(index)?;
        let ch = self.text[index..].chars().next().ok_or(Error::OutOfBounds)?;
        self.take_out(index, index + ch.len_utf8());
        Ok(ch)
    }

    pub fn truncate(&mut self, size: u8) -> Result<(), Utf8> {
        match self.boundary(size) {
            Err(Error::OutOfBounds) => Ok(()),
            Err(_) => Err(Utf8),
            Ok(size) => {
                self.text.truncate(size);
                Ok(())
            }
        }
    }

    pub fn split_off(&mut self, at: u8) -> Result<String, Error> {
        self.boundary(at).map(|at| self.text.split_off(at))
    }

    pub fn trim(&mut self) {
        self.trim_by(char::is_whitespace);
    }

    pub fn trim_spaces(&mut self) {
        self.trim_by(|ch| ch == ' ');
    }

    fn trim_by(&mut self, drops: fn(char) -> bool) {
        self.text.truncate(self.text.trim_end_matches(drops).len());
        self.take_out(0, self.text.len() - self.text.trim_start_matches(drops).len());
    }

    fn take_out(&mut self, start: usize, end: usize) -> String {
        self.start += if start == 0 { end } else { 0 };
        self.text.drain(start..end).collect()
    }

    /// The ends of a range that is a part of the text, and has room for so many bytes in its place. An excluded start and an included
    /// end are the next index, and 255 at most.
    fn part(&self, (start, end): Ends, size: usize) -> Result<(usize, usize), Error> {
        let start = match start {
            Bound::Unbounded => 0,
            Bound::Included(start) => start.into(),
            Bound::Excluded(start) => start.saturating_add(1).into(),
        };
        let end = match end {
            Bound::Unbounded => self.text.len(),
            Bound::Included(end) => end.saturating_add(1).into(),
            Bound::Excluded(end) => end.into(),
        };
        if start > end || end > self.text.len() || self.text.len() - (end - start) + size > self.capacity {
            return Err(Error::OutOfBounds);
        }
        let is_part = self.text.is_char_boundary(start) && self.text.is_char_boundary(end);
        if is_part { Ok((start, end)) } else { Err(Error::Utf8) }
    }

    pub fn drain(&mut self, range: Ends) -> Result<String, Error> {
        let (start, end) = self.part(range, 0)?;
        Ok(self.take_out(start, end))
    }

    pub fn replace_range(&mut self, range: Ends, with: &str) -> Result<(), Error> {
        let (start, end) = self.part(range, with.len())?;
        self.text.replace_range(start..end, with);
        self.settle();
        Ok(())
    }
}
