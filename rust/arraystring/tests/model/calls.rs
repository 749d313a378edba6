//! Each call of the face as a row: its name, what it is given, how it is made, and by which rule it answers. Those of `call_list.rs` are
//! made as they are; those below it are unsafe, are a trait's, or have more asked of them.

use std::fmt::Write;

use arraystring::{ArrayString, Drain, Utf8, try_format};

use crate::given::Given;
use crate::rules::{Answer, FILLER, Model, Refusal, Value, answer};

/// A call on something, with its name, and the words for what it is given.
pub struct Row<S> {
    pub name: &'static str,
    pub given: &'static [&'static str],
    pub call: fn(&mut S, &Given) -> Answer,
}

/// What a word of the list stands for.
#[rustfmt::skip]
macro_rules! given {
    (ch, $given:ident) => { $given.ch };
    (text, $given:ident) => { $given.text() };
    (characters, $given:ident) => { $given.characters() };
    (pieces, $given:ident) => { $given.pieces() };
    (printed, $given:ident) => { format_args!("{}", $given.printed()) };
    (bytes, $given:ident) => { $given.source.bytes };
    (units, $given:ident) => { $given.source.units };
    (at, $given:ident) => { $given.at };
    (range, $given:ident) => { $given.range.clone() };
}

/// Defines the rows of calls on a string, and those of the rules, in the same order.
macro_rules! rows {
    ($strings:ident, $models:ident; $($name:expr, [$($word:ident),*],
        |$string:ident, $given:ident| $call:expr, |$model:tt, $of:tt| $rule:expr;)*) => {
        #[allow(unused_variables, reason = "some calls are given nothing")]
        fn $strings<const N: usize>() -> Vec<Row<ArrayString<N>>> {
            vec![$(Row { name: $name, given: &[$(stringify!($word)),*], call: |$string, $given| $call }),*]
        }

        fn $models() -> Vec<Row<Model>> {
            vec![$(Row { name: $name, given: &[$(stringify!($word)),*], call: |$model, $of| $rule }),*]
        }
    };
}

/// The list of the edits: each call and its rule answer what they return.
macro_rules! edits {
    ($($name:ident($($word:ident),*) => |$model:tt, $of:tt| $rule:expr;)*) => {
        rows! { edits, rules_of_edits; $(stringify!($name), [$($word),*],
            |string, given| answer(string.$name($(given!($word, given)),*)), |$model, $of| answer($rule);)* }
    };
}

/// The list of what makes a string: it takes the place of the one before. The rule is of a model without a text.
macro_rules! constructors {
    ($($name:ident($($word:ident),*) => |$made:tt, $of:tt| $rule:expr;)*) => {
        rows! { constructors, rules_of_constructors; $(stringify!($name), [$($word),*],
            |string, given| ArrayString::<N>::$name($(given!($word, given)),*).put_in(string),
            |model, $of| answer(model.made(|$made| $rule));)* }
    };
}

include!("call_list.rs");

/// The calls that no list has.
macro_rules! by_hand {
    ($($name:literal($($word:ident),*): |$string:ident, $given:ident| $call:expr => |$model:ident| $rule:expr;)*) => {
        rows! { by_hand, rules_by_hand; $($name, [$($word),*], |$string, $given| $call, |$model, $given| $rule;)* }
    };
}

pub fn on_a_string<const N: usize>() -> Vec<Row<ArrayString<N>>> {
    edits().into_iter().chain(constructors()).chain(by_hand()).collect()
}

pub fn on_a_model() -> Vec<Row<Model>> {
    rules_of_edits().into_iter().chain(rules_of_constructors()).chain(rules_by_hand()).collect()
}

by_hand! {
    // What is added at the end.
    "push_str_truncate"(text): |string, given| {
        let rest = string.push_str_truncate(given.text());
        is_end_of(given.text(), rest);
        Ok(rest.into())
    } => |model| Ok(model.push_cut(given.text()).into());
    "push_unchecked"(ch): |string, given| done(if given.ch.len_utf8() <= N - string.len() {
        // SAFETY: it fits.
        unsafe { string.push_unchecked(given.ch) };
    }) => |model| done(_ = model.push_whole(&given.ch.to_string()));
    "push_str_unchecked"(text): |string, given| done(if given.text().len() <= N - string.len() {
        // SAFETY: it fits.
        unsafe { string.push_str_unchecked(given.text()) };
    }) => |model| done(_ = model.push_whole(given.text()));
    "write!"(printed): |string, given| answer(write!(string, "{}", given.printed()))
        => |model| answer(model.write_pieces(given.source.pieces));

    // What is inserted.
    "insert_str_truncate"(at, text): |string, given| answer(string.insert_str_truncate(given.at, given.text()).inspect(|rest| {
        is_end_of(given.text(), rest);
    })) => |model| answer(model.insert_cut(given.at, given.text()));
    "insert_unchecked"(at, ch): |string, given| done(if string.as_str().is_char_boundary(given.at) && given.ch.len_utf8() <= N - string.len() {
        // SAFETY: the index is a boundary, and what is inserted fits.
        unsafe { string.insert_unchecked(given.at, given.ch) };
    }) => |model| done(_ = model.insert_whole(given.at, &given.ch.to_string()));
    "insert_str_unchecked"(at, text): |string, given| done(if string.as_str().is_char_boundary(given.at) && given.text().len() <= N - string.len() {
        // SAFETY: the index is a boundary, and what is inserted fits.
        unsafe { string.insert_str_unchecked(given.at, given.text()) };
    }) => |model| done(_ = model.insert_whole(given.at, given.text()));

    // What is removed.
    "retain"(): |string, given| {
        let mut asked = String::new();
        let mut at = 0;
        string.retain(|ch| {
            asked.push(ch);
            at += 1;
            given.keeps(at - 1)
        });
        Ok(asked.into())
    } => |model| Ok(model.retain(given).into());

    // Strings that are made whole.
    "of_constant"(text): |string, given| match given.text().len() {
        len if len > N => done(()),
        _ => ArrayString::of_constant(given.text()).put_in(string),
    } => |model| done(_ = model.made(|made| made.push_whole(given.text())));
    "parse"(text): |string, given| given.text().parse().put_in(string) => |model| answer(model.made(|made| made.push_whole(given.text())));
    "try_from &str"(text): |string, given| ArrayString::try_from(given.text()).put_in(string)
        => |model| answer(model.made(|made| made.push_whole(given.text())));
    "try_from char"(ch): |string, given| ArrayString::try_from(given.ch).put_in(string)
        => |model| answer(model.made(|made| made.push_whole(&given.ch.to_string())));
    "try_from fmt::Arguments"(printed): |string, given| ArrayString::try_from(format_args!("{}", given.printed())).put_in(string)
        => |model| answer(model.made(|made| made.write_pieces(&[given.text()])));
    "try_format!"(printed, ch): |string, given| try_format!("{}{}", given.printed(), given.ch).put_in(string)
        => |model| answer(model.made(|made| made.write_pieces(&[&format!("{}{}", given.text(), given.ch)])));
    "from_str_unchecked"(text): |string, given| match given.text().len() {
        len if len > N => done(()),
        // SAFETY: it fits.
        _ => unsafe { ArrayString::from_str_unchecked(given.text()) }.put_in(string),
    } => |model| done(_ = model.made(|made| made.push_whole(given.text())));
    "from_utf8_unchecked"(text): |string, given| match given.text().len() {
        len if len > N => done(()),
        // SAFETY: it is a text, and fits.
        _ => unsafe { ArrayString::from_utf8_unchecked(given.text().as_bytes()) }.put_in(string),
    } => |model| done(_ = model.made(|made| made.push_whole(given.text())));

    // What is lent, and what goes into a larger string.
    "as_mut_str"(): |string, _given| done(string.as_mut_str().make_ascii_uppercase()) => |model| done(model.text.make_ascii_uppercase());
    "index"(range): |string, given| Ok(Value::Part(part(string, given).map(|(start, end)| string[start..end].to_string())))
        => |model| Ok(Value::Part(model.part(given).map(|(start, end)| model.text[start..end].to_string())));
    "index_mut"(range): |string, given| done(if let Some((start, end)) = part(string, given) {
        string[start..end].make_ascii_lowercase();
    }) => |model| done(if let Some((start, end)) = model.part(given) {
        model.text[start..end].make_ascii_lowercase();
    });
    "widen"(): |string, _given| Ok(string.widen::<255>().into())
        => |model| Ok(format!("{}|{}{}", model.text, model.text, &FILLER[model.text.len()..]).into());
}

/// What a call that returns nothing answers.
fn done((): ()) -> Answer {
    Ok(Value::Nothing)
}

/// A string that was made, or why none was.
trait Made<const N: usize> {
    /// Puts it in the place of another string.
    fn put_in(self, string: &mut ArrayString<N>) -> Answer;
}

impl<const N: usize> Made<N> for ArrayString<N> {
    fn put_in(self, string: &mut ArrayString<N>) -> Answer {
        *string = self;
        done(())
    }
}

impl<const N: usize, E: Into<Refusal>> Made<N> for Result<ArrayString<N>, E> {
    fn put_in(self, string: &mut ArrayString<N>) -> Answer {
        answer(self.map(|made| *string = made))
    }
}

/// Asserts that a rest is lent from the end of the text that was given, and is no other text.
fn is_end_of(text: &str, rest: &str) {
    let end = &text.as_bytes()[text.len() - rest.len()..];
    assert!(std::ptr::eq(end, rest.as_bytes()), "{rest:?} of {text:?}");
}

/// A string with its text, and with its room filled.
impl<const N: usize> From<ArrayString<N>> for Value {
    fn from(string: ArrayString<N>) -> Self {
        let mut full = string;
        full.push_str_truncate(FILLER);
        Value::Text(format!("{}|{}", string.as_str(), full.as_str()))
    }
}

impl<const N: usize> From<Drain<N>> for Value {
    fn from(drain: Drain<N>) -> Self {
        drain.as_str().into()
    }
}

/// The ends of a range, if `get` of `str` has a part there.
fn part<const N: usize>(string: &ArrayString<N>, given: &Given) -> Option<(usize, usize)> {
    let (start, end) = given.range.within(string.len());
    let (start, end) = (start.try_into().ok()?, end.try_into().ok()?);
    string.get(start..end).map(|_| (start, end))
}
