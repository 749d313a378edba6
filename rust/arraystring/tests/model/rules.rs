//! A `String` that refuses and cuts by the rules of the documentation, which are written here once more, over std's calls.

use arraystring::{Error, OutOfBounds, Utf8, Utf16};
use std::fmt;

use crate::given::Given;
use crate::inputs::cut;

/// What a call returns.
#[derive(Debug, PartialEq)]
pub enum Value {
    Nothing,
    Char(char),
    Popped(Option<char>),
    Text(String),
    Part(Option<String>),
    /// Whether anything was left.
    Left(bool),
}

/// What a call refuses with. Each type of an error is told from the others.
#[derive(Clone, Copy, Debug, PartialEq)]
pub enum Refusal {
    Error(Error),
    OutOfBounds(OutOfBounds),
    Utf8(Utf8),
    Utf16(Utf16),
    Format(fmt::Error),
}

pub type Answer = Result<Value, Refusal>;

macro_rules! becomes {
    ($($from:ty => $made:ident :: $case:ident;)*) => {$(
        impl From<$from> for $made {
            fn from(from: $from) -> Self {
                $made::$case(from)
            }
        }
    )*};
}

becomes! {
    Error => Refusal::Error;
    OutOfBounds => Refusal::OutOfBounds;
    Utf8 => Refusal::Utf8;
    Utf16 => Refusal::Utf16;
    fmt::Error => Refusal::Format;
    char => Value::Char;
    Option<char> => Value::Popped;
    String => Value::Text;
    bool => Value::Left;
}

impl From<()> for Value {
    fn from((): ()) -> Self {
        Value::Nothing
    }
}

impl From<&str> for Value {
    fn from(text: &str) -> Self {
        Value::Text(text.to_string())
    }
}

/// What a call returned, of whatever type.
pub trait Returned {
    fn answer(self) -> Answer;
}

impl<T: Into<Value>, E: Into<Refusal>> Returned for Result<T, E> {
    fn answer(self) -> Answer {
        self.map(T::into).map_err(E::into)
    }
}

macro_rules! never_refused {
    ($($returned:ty)*) => {$(
        impl Returned for $returned {
            fn answer(self) -> Answer {
                Ok(self.into())
            }
        }
    )*};
}

never_refused! { () bool Option<char> }

pub fn answer(returned: impl Returned) -> Answer {
    returned.answer()
}

/// What fills the room that is left.
pub const FILLER: &str = match std::str::from_utf8(&[b'~'; 255]) {
    Ok(filler) => filler,
    Err(_) => panic!("it is ASCII"),
};

/// The text that a string has to have, and its capacity.
pub struct Model {
    pub text: String,
    pub capacity: usize,
}

impl Model {
    pub fn room(&self) -> usize {
        self.capacity - self.text.len()
    }

    /// The room that a text of a length would leave.
    pub fn room_behind(&self, len: usize) -> usize {
        self.capacity - len
    }

    /// A text fits if the string with it is not larger than the capacity.
    fn fits(&self, text: &str) -> Result<(), OutOfBounds> {
        if self.text.len() + text.len() <= self.capacity { Ok(()) } else { Err(OutOfBounds) }
    }

    /// Refuses an index past the text, and then one inside a character.
    fn index(&self, at: usize) -> Result<(), Error> {
        match at {
            at if at > self.text.len() => Err(Error::OutOfBounds),
            at if !self.text.is_char_boundary(at) => Err(Error::Utf8),
            _ => Ok(()),
        }
    }

    /// The ends of a range. One that ends before it starts, or past the text, is refused.
    fn ends(&self, given: &Given) -> Result<(usize, usize), Error> {
        let (start, end) = given.range.within(self.text.len());
        if start > end || end > self.text.len() as u128 {
            return Err(Error::OutOfBounds);
        }
        Ok((start as usize, end as usize))
    }

    /// Refuses what does not fit, and appends it otherwise.
    pub fn push_whole(&mut self, text: &str) -> Result<(), OutOfBounds> {
        self.fits(text)?;
        self.text.push_str(text);
        Ok(())
    }

    /// Appends the longest prefix of whole characters that fits, and returns the rest.
    pub fn push_cut<'a>(&mut self, text: &'a str) -> &'a str {
        let fitting = cut(text, self.room());
        self.text.push_str(fitting);
        &text[fitting.len()..]
    }

    /// Appends the same. Nothing is refused.
    pub fn push_fitting(&mut self, text: &str) -> Result<(), Refusal> {
        self.push_cut(text);
        Ok(())
    }

    /// Appends the same, and returns whether anything was left.
    pub fn is_cut(&mut self, text: &str) -> bool {
        !self.push_cut(text).is_empty()
    }

    /// Appends pieces to the first that does not fit, which is refused.
    pub fn write_pieces(&mut self, pieces: &[&str]) -> fmt::Result {
        pieces.iter().try_for_each(|piece| self.push_whole(piece).map_err(|_| fmt::Error))
    }

    /// An iterator is asked for no item behind the first that does not fit.
    pub fn asks(&self, items: &[&str], given: &Given) {
        let mut size = self.text.len();
        let refused = items.iter().position(|item| {
            size += item.len();
            size > self.capacity
        });
        given.asked.set(refused.map_or(items.len(), |at| at + 1));
    }

    /// Inserts a text. It is refused first if the index is past the text, or if it does not fit.
    pub fn insert_whole(&mut self, at: usize, text: &str) -> Result<(), Error> {
        let (index, fits) = (self.index(at), self.fits(text));
        if index == Err(Error::OutOfBounds) || fits.is_err() {
            return Err(Error::OutOfBounds);
        }
        index?;
        self.text.insert_str(at, text);
        Ok(())
    }

    /// Inserts the longest prefix of whole characters that fits, and returns the rest.
    pub fn insert_cut<'a>(&mut self, at: usize, text: &'a str) -> Result<&'a str, Error> {
        self.index(at)?;
        let fitting = cut(text, self.room());
        self.text.insert_str(at, fitting);
        Ok(&text[fitting.len()..])
    }

    /// A range outside the text is refused, then a result that does not fit, then an end inside a character.
    pub fn replace_range(&mut self, given: &Given) -> Result<(), Error> {
        let (start, end) = self.ends(given)?;
        if self.text.len() - (end - start) + given.text().len() > self.capacity {
            return Err(Error::OutOfBounds);
        }
        self.index(start).and(self.index(end))?;
        self.text.replace_range(start..end, given.text());
        Ok(())
    }

    pub fn drain(&mut self, given: &Given) -> Result<String, Error> {
        let (start, end) = self.ends(given)?;
        self.index(start).and(self.index(end))?;
        Ok(self.text.drain(start..end).collect())
    }

    /// An index that is not below the length is refused, then one inside a character.
    pub fn remove(&mut self, at: usize) -> Result<char, Error> {
        if at == self.text.len() {
            return Err(Error::OutOfBounds);
        }
        self.index(at)?;
        Ok(self.text.remove(at))
    }

    /// Nothing changes if the text has no more bytes. Else an index inside a character is refused.
    pub fn truncate(&mut self, len: usize) -> Result<(), Utf8> {
        if len < self.text.len() {
            self.index(len).map_err(|_| Utf8)?;
        }
        self.text.truncate(len);
        Ok(())
    }

    /// The answer has what is split off, and that with its room filled: it has the capacity of the string.
    pub fn split_off(&mut self, at: usize) -> Result<String, Error> {
        self.index(at)?;
        let split = self.text.split_off(at);
        Ok(format!("{split}|{split}{}", &FILLER[split.len()..self.capacity]))
    }

    /// The answer has the characters that were asked about.
    pub fn retain(&mut self, given: &Given) -> String {
        let all = self.text.clone();
        self.text = all.chars().enumerate().filter(|(at, _)| given.keeps(*at)).map(|(_, ch)| ch).collect();
        all
    }

    /// The part in the range, if it is one.
    pub fn part(&self, given: &Given) -> Option<(usize, usize)> {
        let (start, end) = self.ends(given).ok()?;
        self.index(start).and(self.index(end)).ok().map(|()| (start, end))
    }

    /// What becomes of a string that is made anew. One that is refused leaves that which was there.
    pub fn made<E>(&mut self, make: impl FnOnce(&mut Model) -> Result<(), E>) -> Result<(), E> {
        let mut made = Model { text: String::new(), capacity: self.capacity };
        make(&mut made)?;
        self.text = made.text;
        Ok(())
    }

    /// What is no UTF-8 is refused first, then what does not fit.
    pub fn push_utf8(&mut self, bytes: &[u8]) -> Result<(), Error> {
        Ok(self.push_whole(std::str::from_utf8(bytes)?)?)
    }

    /// The first character that does not fit or lone surrogate decides.
    pub fn push_utf16(&mut self, units: &[u16]) -> Result<(), Error> {
        char::decode_utf16(units.iter().copied())
            .try_for_each(|read| Ok(self.push_whole(read?.encode_utf8(&mut [0; 4]))?))
    }

    /// A lone surrogate right behind the prefix that fits is refused, and what comes behind a character that does not fit has no effect.
    pub fn push_utf16_cut(&mut self, units: &[u16]) -> Result<(), Utf16> {
        match self.push_utf16(units) {
            Err(Error::Utf16) => Err(Utf16),
            _ => Ok(()),
        }
    }
}
