//! Small programs over 4,000 rows, words or messages. Each is a function whose name ends in `measured`, whose instructions are counted, and
//! which gives the texts that it makes to its caller.

use std::fmt::{self, Display};
use std::hint::black_box;

use crate::Side;
use crate::rows::{self, CITY, CODE, LINE, LONG, NAME, SHORT};
use crate::texts::{OfArrayvec, OfCrate, OfString, Text, Texts};

/// Who counts the programs, or compares what they give.
pub trait Runner {
    /// What follows is the program of a title.
    fn begin(&mut self, title: &'static str);
    /// A program gives a text.
    fn see(&mut self, text: &str);
}

/// What a program puts in has room, so that `String` makes no test and reserves nothing.
const ANY: usize = usize::MAX;

/// A row that was read. Rows are in order by city, name and code.
#[derive(Debug, PartialEq, Eq, PartialOrd, Ord)]
struct Row<City, Name, Code> {
    city: City,
    name: Name,
    code: Code,
}

type RowOf<S> = Row<<S as Texts>::Of<CITY>, <S as Texts>::Of<NAME>, <S as Texts>::Of<CODE>>;

#[inline(never)]
fn read_measured<S: Texts>(lines: &str) -> Vec<RowOf<S>> {
    // (What growing takes depends on what the allocator was asked for before.)
    let mut rows = Vec::with_capacity(rows::ROWS);
    rows.extend(lines.lines().map(|line| row_of::<S>(line).expect("a line has three fields")));
    rows
}

fn row_of<S: Texts>(line: &str) -> Option<RowOf<S>> {
    let (name, others) = line.split_once(',')?;
    let (city, code) = others.split_once(',')?;
    Some(Row { city: Text::try_of(city, ANY)?, name: Text::try_of(name, ANY)?, code: Text::try_of(code, ANY)? })
}

#[inline(never)]
fn sort_measured<S: Texts>(rows: &mut [RowOf<S>]) {
    rows.sort();
}

/// A buffer that each character of a line is pushed to, and that is cleared at its end.
#[inline(never)]
fn line_buffer_measured<T: Text>(lines: &str, runner: &mut impl Runner) {
    let mut line = T::with_room(0);
    for ch in lines.chars() {
        if ch == '\n' {
            runner.see(&line);
            line.make_empty();
        } else {
            assert!(line.offer_char(ch, ANY));
        }
    }
}

/// A line of a log that is kept: it is cleared, and what fits of a message is put behind a prefix. A constant one is known to the compiler.
#[inline(never)]
fn kept_line_measured<T: Text>(prefix: impl Fn() -> &'static str, messages: &[String], runner: &mut impl Runner) {
    let mut line = T::with_room(0);
    for message in messages {
        line.make_empty();
        assert!(line.offer_text(prefix(), ANY));
        line.push_what_fits(message, LINE);
        runner.see(&line);
    }
}

/// What a function makes of each word or message.
#[inline(never)]
fn made_measured<T: Text>(words: &[String], make: impl Fn(&str) -> T, runner: &mut impl Runner) {
    words.iter().for_each(|word| runner.see(&make(word)));
}

#[inline(never)]
fn log_line<T: Text>(message: &str) -> T {
    let mut line = T::with_room(0);
    assert!(line.offer_text(PREFIX, ANY));
    line.push_what_fits(message, LINE);
    line
}

/// The last characters of a text. For each that does not fit, the first leave.
#[inline(never)]
fn window_measured<T: Text>(characters: &str) -> T {
    let mut window = T::with_room(0);
    for ch in characters.chars() {
        while !window.offer_char(ch, LONG) {
            window.remove_first();
        }
    }
    window
}

/// Why a word becomes no string.
#[derive(Debug)]
enum Refused {
    TooLong,
    Empty,
    Remark,
    Option,
}

#[inline(never)]
fn word_of<T: Text>(word: &str, most: usize) -> Result<T, Refused> {
    T::try_of(word, most).ok_or(Refused::TooLong)
}

#[inline(never)]
fn word_if_not_empty<T: Text>(word: &str, most: usize) -> Result<T, Refused> {
    let text: T = word_of(word, most)?;
    if text.is_empty() { Err(Refused::Empty) } else { Ok(text) }
}

#[inline(never)]
fn word_if_no_remark<T: Text>(word: &str, most: usize) -> Result<T, Refused> {
    let text: T = word_if_not_empty(word, most)?;
    if text.starts_with('#') { Err(Refused::Remark) } else { Ok(text) }
}

#[inline(never)]
fn word_if_no_option<T: Text>(word: &str, most: usize) -> Result<T, Refused> {
    let text: T = word_if_no_remark(word, most)?;
    if text.starts_with('-') { Err(Refused::Option) } else { Ok(text) }
}

/// Each word that is one. Four functions hand a `Result` of it on.
#[inline(never)]
fn results_measured<T: Text>(words: &[String], most: usize, runner: &mut impl Runner) {
    words.iter().for_each(|word| match word_if_no_option::<T>(word, most) {
        Ok(text) => runner.see(&text),
        Err(refused) => runner.see(&format!("{refused:?}")),
    });
}

/// Two digits for each byte.
#[inline(never)]
fn digits<T: Text>(word: &str) -> T {
    let digit = |number: u8| char::from(b"0123456789abcdef"[usize::from(number)]);
    let mut digits = T::with_room(0);
    for byte in word.as_bytes() {
        assert!(digits.offer_char(digit(byte >> 4), ANY));
        assert!(digits.offer_char(digit(byte & 15), ANY));
    }
    digits
}

/// An error that a program shows: a line, and its word.
struct Unknown<'a>(usize, &'a str);

impl Display for Unknown<'_> {
    fn fmt(&self, f: &mut fmt::Formatter<'_>) -> fmt::Result {
        write!(f, "line {}: unknown word `{}`", self.0, self.1)
    }
}

#[inline(never)]
fn error_text<T: Text>(error: &Unknown) -> T {
    let mut text = T::with_room(0);
    write!(text, "{error}").expect("it fits");
    text
}

#[inline(never)]
fn errors_measured<T: Text>(words: &[String], runner: &mut impl Runner) {
    let errors = words.iter().enumerate().map(|(line, word)| Unknown(line, word));
    errors.for_each(|error| runner.see(&error_text::<T>(&error)));
}

/// 26 bytes.
const PREFIX: &str = "2026-11-29T12:00:00Z INFO ";

/// Runs each program over the strings of a side, if it has them.
pub fn run_all(side: Side, runner: &mut impl Runner) {
    match side {
        Side::Crate => run_over::<OfCrate>(runner),
        Side::String => run_over::<OfString>(runner),
        Side::Arrayvec => run_over::<OfArrayvec>(runner),
        Side::Proved => {}
    }
}

fn run_over<S: Texts>(runner: &mut impl Runner) {
    let lines = black_box(rows::lines());
    let [short, long, line] = [SHORT, LONG, LINE].map(|most| black_box(rows::words(1, most)));
    run_rows::<S>(&lines, runner);
    run_lines::<S>(&lines, &line, runner);
    runner.begin("`Result` of 23: by four functions");
    results_measured::<S::Of<SHORT>>(&short, black_box(SHORT), runner);
    runner.begin("`Result` of 63: by four functions");
    results_measured::<S::Of<LONG>>(&long, black_box(LONG), runner);
    runner.begin("`Result` of 255: by four functions");
    results_measured::<S::Of<LINE>>(&line, black_box(LINE), runner);
    runner.begin("hex writer: two digits for each of up to 23 bytes, in 63");
    made_measured(&short, digits::<S::Of<LONG>>, runner);
    runner.begin("error text of 255: a `Display` printed into a new string");
    errors_measured::<S::Of<LINE>>(&long, runner);
}

fn run_rows<S: Texts>(lines: &str, runner: &mut impl Runner) {
    runner.begin("rows: read from lines");
    let mut rows = read_measured::<S>(lines);
    runner.see(&format!("{rows:?}"));
    runner.begin("rows: sorted");
    sort_measured::<S>(&mut rows);
    runner.see(&format!("{rows:?}"));
}

fn run_lines<S: Texts>(lines: &str, messages: &[String], runner: &mut impl Runner) {
    runner.begin("line buffer of 255: each character pushed, and cleared");
    line_buffer_measured::<S::Of<LINE>>(lines, runner);
    runner.begin("log line of 255 that is kept: cut behind a prefix");
    let prefix = black_box(PREFIX);
    kept_line_measured::<S::Of<LINE>>(|| prefix, &black_box(rows::words(LINE + 1, 2 * LINE)), runner);
    runner.begin("log line of 255 that is kept: behind a constant, most fit");
    kept_line_measured::<S::Of<LINE>>(|| PREFIX, messages, runner);
    runner.begin("log line of 255 that a function makes: behind a constant, most fit");
    made_measured(messages, log_line::<S::Of<LINE>>, runner);
    runner.begin("window of 63: refused, the first out, pushed");
    let characters: String = lines.chars().take(rows::ROWS).collect();
    runner.see(&window_measured::<S::Of<LONG>>(&characters));
}
