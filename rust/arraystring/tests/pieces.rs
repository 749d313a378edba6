//! Rows of several pieces: `try_write` takes one whole or leaves the text as it was, also where a `Display` in it fails or panics,
//! `write!` keeps what came before the piece that is refused, and `write_truncate` takes the longest prefix, and says whether it cut.

use std::fmt::{self, Display, Write};
use std::panic::{AssertUnwindSafe, catch_unwind, resume_unwind};

use arraystring::{ArrayString, Error, SmallString};
use inputs::{at_capacities, behind, cut, edges};

mod inputs;

/// How a row ends.
#[derive(Clone, Copy, Debug, PartialEq)]
enum End {
    Whole,
    /// A piece is refused.
    Refused,
    /// A `Display` returns an error of its own.
    Failed,
    Panicked,
}

/// A row that prints its pieces one by one.
#[derive(Clone, Copy, Debug)]
struct Row<'a> {
    pieces: &'a [&'a str],
    /// How it ends before it prints the piece at a place, or behind the last.
    stop: Option<(usize, End)>,
    /// Whether it goes on behind a piece that is refused, as if nothing had been.
    goes_on: bool,
}

impl Row<'_> {
    /// A row that prints all of these.
    fn of<'a>(pieces: &'a [&'a str]) -> Row<'a> {
        Row { pieces, stop: None, goes_on: false }
    }

    /// How it ends before it prints the piece at a place, if it does.
    fn stopped(&self, at: usize) -> Option<End> {
        self.stop.filter(|(before, _)| *before == at).map(|(_, end)| end)
    }

    fn stops(&self, at: usize) -> fmt::Result {
        match self.stopped(at) {
            None => Ok(()),
            // (no hook is called, so nothing is printed)
            Some(End::Panicked) => resume_unwind(Box::new("a row")),
            Some(_) => Err(fmt::Error),
        }
    }

    /// What is taken of it where there is room for so many bytes, and how it ends.
    fn taken(&self, room: usize) -> (String, End) {
        let (mut text, mut end) = (String::new(), End::Whole);
        for (at, piece) in self.pieces.iter().enumerate() {
            if let Some(stopped) = self.stopped(at) {
                return (text, stopped);
            }
            if text.len() + piece.len() <= room {
                text += piece;
                continue;
            }
            end = End::Refused;
            if !self.goes_on {
                return (text, end);
            }
        }
        (text, self.stopped(self.pieces.len()).unwrap_or(end))
    }

    /// What is taken of it where it is cut to so many bytes, and what is returned, or that it panics.
    fn truncated(&self, room: usize) -> (String, Option<Result<bool, fmt::Error>>) {
        let (stop, end) = self.stop.unwrap_or((self.pieces.len(), End::Whole));
        let printed = self.pieces[..stop].concat();
        let kept = cut(&printed, room);
        let is_cut = kept.len() < printed.len();
        match end {
            // (behind a cut it does not come so far, unless it goes on)
            End::Panicked if !is_cut || self.goes_on => (String::new(), None),
            End::Failed if !is_cut => (String::new(), Some(Err(fmt::Error))),
            _ => (kept.to_string(), Some(Ok(is_cut))),
        }
    }
}

impl Display for Row<'_> {
    fn fmt(&self, f: &mut fmt::Formatter<'_>) -> fmt::Result {
        for (at, piece) in self.pieces.iter().enumerate() {
            self.stops(at)?;
            let written = f.write_str(piece);
            if !self.goes_on {
                written?;
            }
        }
        self.stops(self.pieces.len())
    }
}

/// Makes a call, and returns `None` where it panics.
fn unless_it_panics<T>(call: impl FnOnce() -> T) -> Option<T> {
    catch_unwind(AssertUnwindSafe(call)).ok()
}

/// Writes a row to a string, and asserts what comes of it.
fn is_whole_or_not_at_all<const N: usize>(string: &ArrayString<N>, row: Row) {
    let (before, capacity) = (string.as_str(), N);
    let (taken, end) = row.taken(capacity - before.len());
    let told = || format!("{N}: {before:?} and {row:?}");
    let (result, after) = match end {
        End::Whole => (Some(Ok(())), format!("{before}{taken}")),
        End::Refused | End::Failed => (Some(Err(fmt::Error)), before.to_string()),
        End::Panicked => (None, before.to_string()),
    };
    let mut tried = *string;
    assert_eq!(unless_it_panics(|| tried.try_write(format_args!("{row}"))), result, "{}", told());
    assert_eq!((tried.as_str(), tried.len()), (&*after, after.len()), "{}", told());
    // The room is what it was, too.
    assert!(tried.try_push_str(&"m".repeat(capacity - after.len())).is_ok() && tried.is_full(), "{}", told());
    assert!(tried.starts_with(&after), "{}", told());

    let result = if end == End::Refused && row.goes_on { Some(Ok(())) } else { result };
    let mut written = *string;
    assert_eq!(unless_it_panics(|| write!(written, "{row}")), result, "{}", told());
    assert_eq!(written, *format!("{before}{taken}"), "{}", told());
    is_cut_and_says_so(string, row);
}

/// Asserts what a string takes of a row that is cut, that the room is what is left, and that nothing but the end was written.
fn is_cut_and_says_so<const N: usize>(string: &ArrayString<N>, row: Row) {
    let (before, mut truncated) = (string.as_str(), *string);
    let (taken, result) = row.truncated(N - before.len());
    let told = || format!("{N}: {before:?} and {row:?}");
    assert_eq!(unless_it_panics(|| truncated.write_truncate(format_args!("{row}"))), result, "{}", told());
    let after = format!("{before}{taken}");
    assert_eq!((truncated.as_str(), truncated.len()), (&*after, after.len()), "{}", told());
    let room = "m".repeat(N - after.len());
    assert!(truncated.try_push_str(&room).is_ok() && truncated.is_full(), "{}", told());
    assert_eq!(truncated.as_str(), after + &room, "{}", told());
}

/// Each way of two pieces to stop, and none.
const STOPS: [Option<(usize, End)>; 7] = [
    None,
    Some((0, End::Failed)),
    Some((1, End::Failed)),
    Some((2, End::Failed)),
    Some((0, End::Panicked)),
    Some((1, End::Panicked)),
    Some((2, End::Panicked)),
];

/// Texts of each length to a size, of letters, and of wider characters where they fill it.
fn texts(size: usize) -> Vec<String> {
    let mut texts: Vec<_> = (0..=size).map(|len| "m".repeat(len)).collect();
    for ch in ["é", "€", "🤔"] {
        texts.extend((1..=size / ch.len()).map(|count| ch.repeat(count)));
    }
    texts
}

#[test]
fn two_pieces_of_each_length_at_each_length() {
    fn at<const N: usize>() {
        for before in texts(N) {
            let rests = [0, 1, N - before.len()];
            for string in rests.map(|offset| behind::<N>(offset.min(N - before.len()), &before)) {
                for first in 0..=N + 1 {
                    for second in 0..=N + 1 {
                        let (first, second) = ("a".repeat(first), "b".repeat(second));
                        is_whole_or_not_at_all(&string, Row::of(&[&first, &second]));
                    }
                }
            }
        }
    }
    at_capacities!(at: 0 1 2 3 4 5 6 7 8 9 10 11 12 13 14 15 16 17 18 19 20);
}

#[test]
fn each_display_stops_at_each_place() {
    fn at<const N: usize>() {
        for before in 0..=N {
            let room = N - before;
            let string = behind::<N>(room.min(2), &"m".repeat(before));
            for first in [0, 1, room / 2, room, room + 1] {
                for second in [0, 1, room.saturating_sub(first), room + 1 - first.min(room)] {
                    let (first, second) = ("a".repeat(first), "b".repeat(second));
                    for stop in STOPS {
                        for goes_on in [false, true] {
                            is_whole_or_not_at_all(&string, Row { pieces: &[&first, &second], stop, goes_on });
                        }
                    }
                }
            }
        }
    }
    at_capacities!(at: 0 1 2 3 4 5 6 7 8 9 10 11 12 13 14 15 16 17 18 19 20 63 255);
}

#[test]
fn wide_pieces_are_cut_at_no_place() {
    fn at<const N: usize>() {
        for before in texts(N.min(20)) {
            let string = behind::<N>((N - before.len()).min(1), &before);
            for first in ["", "a", "é", "€", "🤔", "aé", "é€🤔"] {
                for second in ["a", "é", "€", "🤔", "🤔é"] {
                    for (stop, goes_on) in STOPS.into_iter().flat_map(|stop| [(stop, false), (stop, true)]) {
                        is_whole_or_not_at_all(&string, Row { pieces: &[first, second], stop, goes_on });
                    }
                }
            }
        }
    }
    at_capacities!(at: 0 1 2 3 4 5 6 7 8 9 10 11 12 13 14 15 16 17 18 19 20);
}

#[test]
fn long_pieces_fill_long_strings() {
    fn at<const N: usize>(lengths: &[usize]) {
        for before in lengths {
            let room = N - before;
            let string = behind::<N>(room / 2, &"m".repeat(*before));
            for first in 0..=room + 1 {
                for second in [0, 1, room.saturating_sub(first), room + 1 - first.min(room), 255, 256, 511] {
                    let (first, second) = ("a".repeat(first), "b".repeat(second));
                    is_whole_or_not_at_all(&string, Row::of(&[&first, "", &second]));
                }
            }
        }
    }
    at::<63>(&(0..=63).collect::<Vec<_>>());
    at::<255>(&[0, 1, 2, 126, 127, 128, 253, 254, 255]);
    at::<254>(&[0, 1, 253, 254]);
}

#[test]
fn what_is_cut_at_each_offset() {
    fn at<const N: usize>() {
        for before in edges(N).into_iter().filter(|before| *before <= N) {
            let room = N - before;
            for offset in 0..=room {
                let string = behind::<N>(offset, &"m".repeat(before));
                let first = "a".repeat(room.saturating_sub(2));
                for pieces in [["🤔", "b"], ["é", "b"], ["b", "€"], ["", "b"]] {
                    let pieces = [&first, pieces[0], pieces[1], "c"];
                    is_cut_and_says_so(&string, Row { pieces: &pieces, stop: None, goes_on: offset % 2 == 0 });
                }
                is_cut_and_says_so(&string, Row::of(&[&first, "dd"]));
            }
        }
    }
    at_capacities!(at);
}

fn text_of<const N: usize>(text: &str) -> ArrayString<N> {
    ArrayString::try_from_str(text).expect("it fits")
}

/// Asserts that a string takes the arguments as a `String` does if there is room, and else stays; and that a prefix of them is cut.
fn is_formatted<const N: usize>(arguments: fmt::Arguments) {
    let printed = arguments.to_string();
    for before in 0..=N {
        let text = "m".repeat(before);
        let mut string = behind::<N>((N - before).min(1), &text);
        let fits = before + printed.len() <= N;
        assert_eq!(string.try_write(arguments).is_ok(), fits, "{N} {before} {printed}");
        let mut truncated = behind::<N>((N - before).min(1), &text);
        assert_eq!(truncated.write_truncate(arguments), Ok(!fits), "{N} {before} {printed}");
        assert_eq!(truncated.as_str(), text.clone() + cut(&printed, N - before), "{N} {before} {printed}");
        assert_eq!(string.as_str(), if fits { text + &printed } else { text }, "{N} {before} {printed}");
    }
}

#[test]
fn each_format_is_whole_or_not_there() {
    fn at<const N: usize>() {
        is_formatted::<N>(format_args!(""));
        is_formatted::<N>(format_args!("no argument"));
        is_formatted::<N>(format_args!("{}-{}", "abcd", "efghi"));
        is_formatted::<N>(format_args!("{:>6}|{:<4}|{:^5}", 7, "é", '€'));
        is_formatted::<N>(format_args!("{:?} {:#x} {:08.3}", Some("a\n"), 255, 1.5));
        is_formatted::<N>(format_args!("{}{}", text_of::<8>("aé€"), text_of::<63>("🤔")));
        is_formatted::<N>(format_args!("{:?}", [1, 23, 456]));
    }
    at_capacities!(at: 0 1 2 3 4 5 6 7 8 9 10 11 12 13 14 15 16 17 18 19 20 63 255);
}

#[test]
fn a_display_without_an_end_is_cut() {
    struct Endless;
    impl Display for Endless {
        fn fmt(&self, f: &mut fmt::Formatter<'_>) -> fmt::Result {
            loop {
                f.write_str("é")?;
            }
        }
    }
    let mut line = text_of::<8>("x");
    assert_eq!(line.write_truncate(format_args!("{Endless}")), Ok(true));
    assert_eq!(line, "xééé");
}

#[test]
fn a_row_is_written_after_one_that_panicked() {
    let mut line = text_of::<8>("x");
    let row = Row { pieces: &["abc", "def"], stop: Some((2, End::Panicked)), goes_on: false };
    assert_eq!(unless_it_panics(|| line.try_write(format_args!("{row}{row}"))), None);
    assert_eq!((line.try_write(format_args!("{}-{}", 1, 2)), line.as_str()), (Ok(()), "x1-2"));
    assert_eq!(unless_it_panics(|| line.write_truncate(format_args!("{row}"))), Some(Ok(true)));
    assert_eq!(line, "x1-2abcd");
}

/// A row that is refused makes nothing, also one that passes over that.
#[test]
fn a_display_that_fails_makes_nothing() {
    fn line(row: &Row) -> Result<ArrayString<4>, Error> {
        let mut line = text_of("~");
        line.try_write(format_args!("{row}"))?;
        Ok(line)
    }
    let row = |stop| Row { pieces: &["abc"], stop, goes_on: true };
    let (failing, passing) = (row(Some((1, End::Failed))), row(None));
    assert_eq!((line(&failing), line(&passing)), (Err(Error::OutOfBounds), Ok(text_of("~abc"))));
    assert_eq!(ArrayString::<4>::try_from_format(format_args!("{failing}")), Err(fmt::Error));
    assert_eq!(ArrayString::<2>::try_from_format(format_args!("{passing}")), Err(fmt::Error));
    let long = "m".repeat(21);
    assert_eq!(SmallString::try_from_format(format_args!("{long}{passing}")), Err(fmt::Error));
    assert_eq!(
        SmallString::try_from_format(format_args!("{}{passing}", &long[1..])),
        Ok(text_of(&format!("{}abc", &long[1..])))
    );
}
