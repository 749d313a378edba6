//! What a `Display` prints: by `write_str`, by `write_char` and by `write_fmt`, and whether it keeps the error of a piece that is
//! refused, or goes on as if nothing had been. What each of its writes returned is noted, too.

use std::cell::RefCell;
use std::fmt::{self, Display, Write};

use crate::inputs::{CHARS, GIVEN, at_capacities, behind, cut, edges, letters, texts_of};

/// How a piece is printed.
#[derive(Clone, Copy, Debug, PartialEq)]
enum By {
    Str,
    /// Character by character.
    Chars,
    Format,
}

const WAYS: [By; 3] = [By::Str, By::Chars, By::Format];

/// A row that prints its pieces, each in its way, and notes whether each write was taken.
#[derive(Debug)]
struct Row<'a> {
    pieces: &'a [(By, &'a str)],
    keeps_errors: bool,
    /// Whether it fails behind its pieces, where all of them may have been taken.
    fails: bool,
    noted: RefCell<Vec<bool>>,
}

impl<'a> Row<'a> {
    fn new(pieces: &'a [(By, &'a str)], keeps_errors: bool) -> Self {
        Row { pieces, keeps_errors, fails: false, noted: RefCell::default() }
    }

    /// The texts that are written, each whole or not.
    fn writes(&self) -> Vec<String> {
        let writes = |(by, piece): &(By, &str)| match by {
            By::Chars => piece.chars().map(String::from).collect(),
            By::Str | By::Format => vec![piece.to_string()],
        };
        self.pieces.iter().flat_map(writes).collect()
    }

    /// What is taken of it where there is room for so many bytes, and of which writes.
    fn taken(&self, room: usize) -> (String, Vec<bool>) {
        let (mut text, mut noted) = (String::new(), Vec::new());
        for write in self.writes() {
            let fits = text.len() + write.len() <= room;
            noted.push(fits);
            if fits {
                text.push_str(&write);
            } else if self.keeps_errors {
                break;
            }
        }
        (text, noted)
    }

    /// Asserts what was returned, what is left in a string of a capacity, and what each write returned, where the row is taken
    /// whole or not at all, or piece by piece.
    fn left(&self, returned: fmt::Result, left: &str, before: &str, capacity: usize, is_one: bool) {
        let (added, noted) = self.taken(capacity - before.len());
        let is_whole = noted.iter().all(|fits| *fits) && !self.fails;
        let added = if is_one && !is_whole { "" } else { &*added };
        assert_eq!(left.strip_prefix(before), Some(added), "{before:?} and {self:?}");
        assert_eq!(
            returned.is_ok(),
            is_whole || !is_one && !self.keeps_errors && !self.fails,
            "{before:?} and {self:?}"
        );
        assert_eq!(*self.noted.borrow(), noted, "{before:?} and {self:?}");
    }

    /// Asserts the same of a row that is cut.
    fn left_cut(&self, returned: Result<bool, fmt::Error>, left: &str, before: &str, capacity: usize) {
        let (room, all) = (capacity - before.len(), self.writes().concat());
        let is_cut = all.len() > room;
        let (added, wanted) = match self.fails && !is_cut {
            true => ("", Err(fmt::Error)),
            false => (cut(&all, room), Ok(is_cut)),
        };
        assert_eq!((left.strip_prefix(before), returned), (Some(added), wanted), "{before:?} and {self:?}");
        // Each write up to the cut is taken, and none from there on.
        let ends = self.writes().into_iter().scan(0, |end, write| {
            *end += write.len();
            Some(*end)
        });
        let mut noted: Vec<_> = ends.map(|end| end <= room).collect();
        if self.keeps_errors {
            noted.truncate(noted.iter().take_while(|fits| **fits).count() + 1);
        }
        assert_eq!(*self.noted.borrow(), noted, "{before:?} and {self:?}");
    }

    /// Notes what a write returned, and says whether it is kept.
    fn after(&self, written: fmt::Result) -> fmt::Result {
        self.noted.borrow_mut().push(written.is_ok());
        if self.keeps_errors { written } else { Ok(()) }
    }
}

impl Display for Row<'_> {
    fn fmt(&self, f: &mut fmt::Formatter<'_>) -> fmt::Result {
        self.noted.borrow_mut().clear();
        for (by, piece) in self.pieces {
            match by {
                By::Str => self.after(f.write_str(piece))?,
                By::Chars => piece.chars().try_for_each(|ch| self.after(f.write_char(ch)))?,
                By::Format => self.after(f.write_fmt(format_args!("{piece}")))?,
            }
        }
        if self.fails { Err(fmt::Error) } else { Ok(()) }
    }
}

/// Asserts what a string takes of a row, by `try_write`, by `write!` and by `write_truncate`.
macro_rules! is_printed {
    ($string:expr, $capacity:expr, $row:expr) => {{
        let (string, row): (_, &Row) = ($string, $row);
        let (mut tried, mut written, mut truncated) = (string, string, string);
        let returned = tried.try_write(format_args!("{row}"));
        row.left(returned, tried.as_str(), string.as_str(), $capacity, true);
        let returned = written.write_fmt(format_args!("{row}"));
        row.left(returned, written.as_str(), string.as_str(), $capacity, false);
        let returned = truncated.write_truncate(format_args!("{row}"));
        row.left_cut(returned, truncated.as_str(), string.as_str(), $capacity);
    }};
}

/// Asserts what a string takes of pieces in each way, with errors kept and ignored.
fn in_each_way<const N: usize>(before: &str, pieces: [&str; 3]) {
    let string = behind::<N>((N - before.len()) / 2, before);
    for way in WAYS {
        for keeps_errors in [true, false] {
            let pieces = [(way, pieces[0]), (By::Str, pieces[1]), (way, pieces[2])];
            is_printed!(string, N, &Row::new(&pieces, keeps_errors));
        }
    }
}

#[test]
fn a_character_of_each_width_at_each_length() {
    fn at<const N: usize>() {
        for len in 0..=N {
            let before = letters(len);
            // Where there is room for all of them, one will do.
            for ch in CHARS.into_iter().take(if N - len > 16 { 1 } else { CHARS.len() }) {
                let ch = ch.to_string();
                in_each_way::<N>(&before, [&ch, "a", &ch]);
                in_each_way::<N>(&before, [&ch, "", "bcd"]);
            }
        }
    }
    at_capacities!(at);
}

#[test]
fn pieces_of_each_length() {
    fn at<const N: usize>() {
        for len in GIVEN {
            let text = &texts_of(len)[len % 3];
            // (two of these lengths with each text)
            for before in [len % 2, [N / 2, N][len / 2 % 2]] {
                let string = behind::<N>(0, &letters(before.min(N)));
                // What is far too long is refused at its first character as at each other one, so one way will do.
                let way = if len > N + 16 { By::Format } else { WAYS[(len / 4 + before) % 3] };
                let pieces = [(By::Str, "a"), (way, text.as_str()), (By::Chars, "é")];
                is_printed!(string, N, &Row::new(&pieces, way != By::Str && len % 2 == 0));
            }
        }
    }
    at_capacities!(at);
}

#[test]
fn pieces_that_fill_the_room() {
    fn at<const N: usize>() {
        for len in edges(N).into_iter().filter(|len| *len <= N) {
            let room = N - len;
            for first in edges(room) {
                for second in [0, 1, room.saturating_sub(first), (room + 1).saturating_sub(first)] {
                    let (first, second) = (&texts_of(first)[first % 3], &texts_of(second)[second % 3]);
                    in_each_way::<N>(&letters(len), [first, second, ""]);
                }
            }
        }
    }
    at_capacities!(at: 0 1 2 3 4 7 8 16 23 64 128 255);
}

#[test]
fn a_row_that_fails_behind_its_pieces() {
    fn at<const N: usize>() {
        for len in 0..=N {
            let string = behind::<N>((N - len) / 2, &letters(len));
            for given in [0, 1, N - len, N - len + 1] {
                let text = letters(given);
                for (by, keeps_errors) in [(By::Str, true), (By::Str, false), (By::Format, false)] {
                    let pieces = [(by, text.as_str())];
                    is_printed!(string, N, &Row { fails: true, ..Row::new(&pieces, keeps_errors) });
                }
            }
        }
    }
    at_capacities!(at);
}

#[test]
fn a_width_is_filled_by_characters() {
    /// `core` prints each character of a fill by `write_char`.
    fn at<const N: usize>() {
        for len in edges(N).into_iter().filter(|len| *len <= N) {
            for width in edges(N - len) {
                let (before, filled) = (letters(len), format!("{:€>width$}|{:*<width$}", 'é', 7));
                let mut string = behind::<N>((N - len) / 2, &before);
                let fits = len + filled.len() <= N;
                assert_eq!(string.try_write(format_args!("{:€>width$}|{:*<width$}", 'é', 7)).is_ok(), fits);
                assert_eq!(string.as_str(), if fits { before + &filled } else { before }, "{N} {width}");
            }
        }
    }
    at_capacities!(at);
}
