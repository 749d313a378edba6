//! The calls, each on a string and on the model of it.

use std::fmt::{Debug, Write};

use super::given::Given;
use crate::decoding::{are_units_read, as_std};
use crate::every_state::{is_made_of, is_made_of_pieces};
use crate::inputs::{cut, hash_of};
use crate::limited::{Limited, wide};
use crate::utils::{is_boundary, truncate_str};
use crate::{ArrayString, Drain, capacity, given_by, is_char_boundary};

/// A call with what is given. It returns what is wrong with the answer.
pub type Call<const N: usize> = fn(&mut ArrayString<N>, &mut Limited, &Given) -> Result<(), String>;

/// Calls with their names.
pub type Calls<const N: usize> = Vec<(&'static str, Call<N>)>;

fn told<T: Debug + PartialEq<U>, U: Debug>(answer: T, wanted: U) -> Result<(), String> {
    if answer == wanted { Ok(()) } else { Err(format!("{answer:?}, where {wanted:?} is due")) }
}

/// Of what asserts its answers by itself.
fn asserted<T>(_: T) -> Result<(), String> {
    Ok(())
}

/// What a call answers for each character.
fn each<T>(text: &str, call: impl FnMut(char) -> T) -> Vec<T> {
    text.chars().map(call).collect()
}

/// The calls that are given no place, or a text alone.
pub fn of_a_text<const N: usize>() -> Calls<N> {
    vec![
        ("pop", |s, m, _| told(s.pop(), m.text.pop())),
        ("clear", |s, m, _| told(s.clear(), m.text.clear())),
        ("trim", |s, m, _| told(s.trim(), m.trim())),
        ("trim_spaces", |s, m, _| told(s.trim_spaces(), m.trim_spaces())),
        ("make_ascii_uppercase", |s, m, _| told(s.make_ascii_uppercase(), m.text.make_ascii_uppercase())),
        ("make_ascii_lowercase", |s, m, _| told(s.make_ascii_lowercase(), m.text.make_ascii_lowercase())),
        ("try_push", |s, m, given| {
            told(each(given.text, |ch| s.try_push(ch)), each(given.text, |ch| m.try_push_str(&ch.to_string())))
        }),
        ("write_char", |s, m, given| {
            let wanted = each(given.text, |ch| m.try_push_str(&ch.to_string()).is_ok());
            told(each(given.text, |ch| s.write_char(ch).is_ok()), wanted)
        }),
        ("try_push_str", |s, m, given| told(s.try_push_str(given.text), m.try_push_str(given.text))),
        ("push_str", |s, m, given| told(s.push_str(given.text), m.push_str(given.text))),
        ("write_str", |s, m, given| told(s.write_str(given.text).is_ok(), m.try_push_str(given.text).is_ok())),
        ("add", |s, m, given| told(*s = *s + given.text, m.push_str(given.text))),
        ("extend_chars", |s, m, given| {
            let characters = given.characters();
            let answer = given.left_of(&characters, |items| s.extend_chars(items.flat_map(str::chars)));
            told(answer, given.left_by(&characters, m))
        }),
        ("extend_strs", |s, m, given| {
            let pieces = given.pieces();
            told(given.left_of(&pieces, |items| s.extend_strs(items)), given.left_by(&pieces, m))
        }),
        ("push_unchecked", |s, m, given| {
            let fitting = cut(given.text, m.room());
            told(fitting.chars().for_each(|ch| s.push_unchecked(ch)), m.push_str(fitting))
        }),
        ("push_str_unchecked", |s, m, given| {
            let fitting = cut(given.text, m.room());
            told(s.push_str_unchecked(fitting), m.push_str(fitting))
        }),
        ("cmp", |s, m, given| {
            let (other, text) = (ArrayString::<N>::from(given.text), cut(given.text, capacity::<N>()));
            told((Ord::cmp(s, &other), *s == other), (m.text.as_str().cmp(text), m.text == text))
        }),
        ("shown", |s, m, _| told((s.to_string(), hash_of(s)), (m.text.clone(), hash_of(&m.text)))),
    ]
}

/// The calls that make a string of what is given. The last one leaves it.
pub fn of_what_is_made<const N: usize>() -> Calls<N> {
    vec![
        ("of a text", |_, _, given| asserted(is_made_of::<N>(given.text))),
        ("of pieces", |_, _, given| asserted(is_made_of_pieces::<N>(&given.pieces()))),
        ("of bytes", |_, _, given| asserted(as_std::<N>(&given.bytes()))),
        ("of units", |_, _, given| asserted(are_units_read::<N>(&given.units()))),
        ("try_from_chars", |_, _, given| {
            let (characters, mut made) = (given.characters(), None);
            let answer = given.left_of(&characters, |items| {
                made = Some(ArrayString::<N>::try_from_chars(items.flat_map(str::chars)).is_ok());
            });
            let wanted = given.left_by(&characters, &mut Limited::new(0, "", capacity::<N>()));
            told((answer, made), (wanted, (!wanted.1).then_some(given.text.len() <= capacity::<N>())))
        }),
        ("from_str_truncate", |s, m, given| {
            *m = Limited::new(0, cut(given.text, capacity::<N>()), capacity::<N>());
            told(*s = ArrayString::from_str_truncate(given.text), ())
        }),
    ]
}

/// The calls at an index.
pub fn at_an_index<const N: usize>() -> Calls<N> {
    vec![
        ("truncate", |s, m, given| told(s.truncate(given.index), m.truncate(given.index))),
        ("remove", |s, m, given| told(s.remove(given.index), m.remove(given.index))),
        ("split_off", |s, m, given| {
            let rest = s.split_off(given.index);
            let answer = rest.as_ref().map(|rest| (rest.to_string(), rest.start)).map_err(|error| *error);
            told(answer, m.split_off(given.index).map(|rest| (rest, 0)))
        }),
        ("is_char_boundary", |s, m, given| {
            let wanted = [m.text.is_char_boundary(given.index.into()); 2];
            told([is_char_boundary(s, given.index).is_ok(), is_boundary(s.as_str(), given.index.into())], wanted)
        }),
        ("truncate_str", |s, m, given| told(truncate_str(s.as_str(), given.index), cut(&m.text, given.index.into()))),
        ("try_insert", |s, m, given| {
            let wanted = each(given.text, |ch| m.try_insert_str(given.index, &ch.to_string()));
            told(each(given.text, |ch| s.try_insert(given.index, ch)), wanted)
        }),
        ("try_insert_str", |s, m, given| {
            told(s.try_insert_str(given.index, given.text), m.try_insert_str(given.index, given.text))
        }),
        ("insert_str", |s, m, given| {
            told(s.insert_str(given.index, given.text), m.insert_str(given.index, given.text))
        }),
        ("insert_unchecked", |s, m, given| {
            let ch = given.text.chars().next().unwrap_or('-');
            let is_made = m.try_insert_str(given.index, &ch.to_string()).is_ok();
            told(is_made.then(|| s.insert_unchecked(given.index, ch)), is_made.then_some(()))
        }),
        ("insert_str_unchecked", |s, m, given| {
            let is_made = m.try_insert_str(given.index, given.text).is_ok();
            told(is_made.then(|| s.insert_str_unchecked(given.index, given.text)), is_made.then_some(()))
        }),
        ("retain", |s, m, given| told(given.asked(|keeps| s.retain(keeps)), given.asked(|keeps| m.text.retain(keeps)))),
    ]
}

/// What a drain gives from both ends, by the bits of a number, beside the characters of a text.
fn walk<const N: usize>(mut drain: Drain<N>, removed: &str, ends: usize) -> Result<(), String> {
    told(given_by(drain), removed)?;
    told(drain.rev().collect::<String>(), removed.chars().rev().collect::<String>())?;
    let (mut chars, all) = (removed.chars(), drain);
    for turn in 0..6 {
        told((drain.as_str(), Ord::cmp(&drain, &all)), (chars.as_str(), chars.as_str().cmp(removed)))?;
        let from_front = ends >> turn & 1 == 1;
        told(
            if from_front { drain.next() } else { drain.next_back() },
            if from_front { chars.next() } else { chars.next_back() },
        )?;
    }
    told(drain.collect::<String>(), chars.as_str())
}

/// The calls on a range.
pub fn on_a_range<const N: usize>() -> Calls<N> {
    vec![
        ("get", |s, m, given| told(s.get(given.range), m.text.get(wide(given.range)))),
        ("slice", |s, m, given| {
            let part = m.text.get(wide(given.range));
            told(part.map(|_| s.slice(given.range)), part)
        }),
        ("make_ascii_uppercase_in", |s, m, given| {
            let part = m.text.get_mut(wide(given.range)).map(str::make_ascii_uppercase);
            told(part.map(|()| s.make_ascii_uppercase_in(given.range)), part)
        }),
        ("make_ascii_lowercase_in", |s, m, given| {
            let part = m.text.get_mut(wide(given.range)).map(str::make_ascii_lowercase);
            told(part.map(|()| s.make_ascii_lowercase_in(given.range)), part)
        }),
        ("drain", |s, m, given| match (s.drain(given.range), m.drain(given.range)) {
            (Ok(drain), Ok(removed)) => walk(drain, &removed, given.index.into()),
            (drain, removed) => told(drain.err(), removed.err()),
        }),
        ("replace_range", |s, m, given| {
            told(s.replace_range(given.range, given.text), m.replace_range(given.range, given.text))
        }),
    ]
}
