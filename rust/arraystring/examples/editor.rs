//! A line that is edited at a cursor. Each result was worked out by hand.

use std::fmt;

use arraystring::{ArrayString, Error};

/// What is typed, of at most 8 bytes.
type Name = ArrayString<8>;

enum Key {
    Char(char),
    Left,
    Home,
    Backspace,
    KillToEnd,
}

/// The text, and the byte at which the cursor stands. It is always one where a character begins or the text ends.
#[derive(Default)]
struct Line {
    text: Name,
    cursor: usize,
}

impl Line {
    fn text(&self) -> Name {
        self.text
    }

    /// Presses the keys of a text one after the other, up to the first that is refused.
    fn type_text(&mut self, text: &str) -> Result<(), Error> {
        text.chars().try_for_each(|ch| self.press(Key::Char(ch)))
    }

    /// Nothing has changed where a key is refused.
    fn press(&mut self, key: Key) -> Result<(), Error> {
        match key {
            Key::Char(ch) => {
                self.text.try_insert(self.cursor, ch)?;
                self.cursor += ch.len_utf8();
            }
            Key::Left => self.cursor = self.before_cursor()?,
            Key::Home => self.cursor = 0,
            Key::Backspace => {
                self.cursor = self.before_cursor()?;
                self.text.remove(self.cursor)?;
            }
            Key::KillToEnd => self.text.truncate(self.cursor)?,
        }
        Ok(())
    }

    /// Where the character before the cursor begins.
    fn before_cursor(&self) -> Result<usize, Error> {
        let (at, _) = self.text[..self.cursor].char_indices().next_back().ok_or(Error::OutOfBounds)?;
        Ok(at)
    }
}

/// The text with a bar at the cursor.
impl fmt::Display for Line {
    fn fmt(&self, f: &mut fmt::Formatter<'_>) -> fmt::Result {
        write!(f, "{}|{}", &self.text[..self.cursor], &self.text[self.cursor..])
    }
}

/// A name is typed, with its mistakes. What does not fit, or is not there to be taken out, is refused.
fn type_a_name() -> Result<Name, Error> {
    let mut line = Line::default();
    line.type_text("jörk")?;
    assert_eq!(line.to_string(), "jörk|");
    line.press(Key::Backspace)?;
    line.press(Key::Char('g'))?;
    line.press(Key::Home)?;
    assert_eq!(line.press(Key::Backspace), Err(Error::OutOfBounds));
    line.type_text("an ")?;
    // `an jörg` has 8 bytes, since `ö` has two, and so it is full.
    assert_eq!(line.press(Key::Char('x')), Err(Error::OutOfBounds));
    assert_eq!(line.to_string(), "an |jörg");
    line.press(Key::Left)?;
    line.press(Key::KillToEnd)?;
    assert_eq!(line.to_string(), "an|");
    line.type_text("n")?;
    Ok(line.text())
}

fn main() -> Result<(), Error> {
    assert_eq!(type_a_name()?, "ann");
    println!("all as it was worked out");
    Ok(())
}
