//! The calls that are counted, each once, with the cases on which it is counted. crates/bench_calls has those of the proved build by the
//! same names.

use std::cmp::Ordering;
use std::hash::{DefaultHasher, Hash, Hasher};

use crate::cases::{At, Case, Curve};
use crate::texts::Text as Compared;

/// The strings of a call, each at the start of a page: what `memcmp` takes depends on where in a page a text lies.
#[repr(align(4096))]
struct Page<T>(T);

/// What a call is given. The table names the fields that it takes.
struct Given<'a, T> {
    text: &'a mut T,
    other: &'a T,
    held: &'a str,
    bytes: &'a [u8],
    units: &'a [u16],
    given: &'a str,
    ch: char,
    start: usize,
    end: usize,
}

/// The calls of a side, each in a function of its own, `measured`, whose instructions are counted.
macro_rules! side {
    ($side:ident: $text:ty; $($name:ident($($field:ident: $type:ty),*) -> $answer:ty = $body:expr;)*) => {
        pub mod $side {
            use super::*;

            type Text<const N: usize> = $text;

            /// What the call answers on a case and leaves, as one number, if the side has the call.
            pub fn answer<const N: usize>(call: &str, case: &Case) -> Option<u64> {
                let mut text = Page(filled::<Text<N>>(N, &case.held, case.offset));
                let other = Page(filled::<Text<N>>(N, &case.given, 0));
                let it = case.given(&mut text.0, &other.0);
                let answer = match call {
                    $(stringify!($name) => {
                        #[inline(never)]
                        fn measured<const N: usize>($($field: $type),*) -> $answer {
                            $body
                        }
                        told(measured::<N>($(it.$field),*))
                    })*
                    _ => return None,
                };
                Some(told((answer, &text.0)))
            }
        }
    };
}

/// A row has the head of a call, its curves (a title, and the case at each length), and how it is made over the strings: by `all`, or by
/// the `crate`, and by both `peers` or each of them. Without a body for arrayvec it lacks the call.
macro_rules! calls {
    ($(fn $name:ident $given:tt -> $answer:ty:
        $($title:literal: $case:expr,)*
        $(all => $all:expr,)?
        $(crate => $crate_body:expr,)?
        $(peers => $peers:expr,)?
        $(String => $string:expr,)?
        $(arrayvec => $arrayvec:expr,)?
    )*) => {
        pub const CURVES: &[Curve] = &[$($(Curve { title: $title, call: stringify!($name), make: $case },)*)*];

        side! { of_crate: arraystring::ArrayString<N>;
            $($($name $given -> $answer = $all;)? $($name $given -> $answer = $crate_body;)?)*
        }
        side! { of_string: String; $(
            $($name $given -> $answer = $all;)? $($name $given -> $answer = $peers;)?
            $($name $given -> $answer = $string;)?
        )* }
        side! { of_arrayvec: arrayvec::ArrayString<N>; $(
            $($name $given -> $answer = $all;)? $($name $given -> $answer = $peers;)?
            $($name $given -> $answer = $arrayvec;)?
        )* }
    };
}

calls! {
    fn as_str(text: &Text<N>) -> &str:
        "`as_str`": At::text,
        crate => text.as_str(),
        peers => text,
    fn len(text: &Text<N>) -> usize:
        "`len`": At::text,
        all => text.len(),
    fn cmp(text: &Text<N>, other: &Text<N>) -> Ordering:
        "`cmp`, equal": At::equal,
        "`cmp`, the first differs": |at| at.differs(0),
        "`cmp`, the middle differs": |at| at.differs(at.size / 2),
        "`cmp`, the last differs": At::last_differs,
        all => text.cmp(other),
    fn less(text: &Text<N>, other: &Text<N>) -> bool:
        "`<`, the last differs": At::last_differs,
        all => text < other,
    fn eq(text: &Text<N>, other: &Text<N>) -> bool:
        "`==`, equal": At::equal,
        "`==`, the last differs": At::last_differs,
        all => text == other,
    fn hash(text: &Text<N>) -> u64:
        "`Hash`": At::text,
        all => told(text),
    fn new_try_push_str(held: &str) -> Text<N>:
        "`new` and `try_push_str`": At::text,
        all => {
            let mut text = Text::<N>::with_room(N);
            text.offer_text(held, N);
            text
        },
    fn try_from_str(held: &str) -> Option<Text<N>>:
        "`try_from_str`": At::text,
        crate => Text::try_from_str(held).ok(),
        String => limited::<N>(held),
        arrayvec => Text::from(held).ok(),
    fn from_str_truncate(held: &str) -> Text<N>:
        "`from_str_truncate`": At::text,
        crate => Text::from_str_truncate(held),
        String => limited::<N>(&held[..held.floor_char_boundary(N)]).unwrap_or_default(),
    fn from_chars_truncate(held: &str) -> Text<N>:
        "`from_chars_truncate`": At::text,
        "`from_chars_truncate`, mixed": At::text,
        crate => Text::from_chars_truncate(held.chars()),
        String => {
            let mut text = String::with_capacity(N);
            held.chars().all(|ch| text.offer_char(ch, N));
            text
        },
    fn try_from_utf8(bytes: &[u8]) -> Option<Text<N>>:
        "`try_from_utf8`": At::text,
        "`try_from_utf8`, mixed": At::text,
        crate => Text::try_from_utf8(bytes).ok(),
        String => limited::<N>(std::str::from_utf8(bytes).ok()?),
    fn from_utf16_truncate(units: &[u16]) -> Option<Text<N>>:
        "`from_utf16_truncate`": At::text,
        "`from_utf16_truncate`, mixed": At::text,
        crate => Text::from_utf16_truncate(units).ok(),
        String => {
            let mut text = String::with_capacity(N);
            for ch in char::decode_utf16(units.iter().copied()) {
                if !text.offer_char(ch.ok()?, N) {
                    break;
                }
            }
            Some(text)
        },
    fn clone(text: &Text<N>) -> Text<N>:
        "`clone`": At::text,
        all => Clone::clone(text),
    fn try_push_str(text: &mut Text<N>, given: &str) -> bool:
        "`try_push_str`": At::put,
        all => text.offer_text(given, N),
    fn push_str_truncate(text: &mut Text<N>, given: &str) -> ():
        "`push_str_truncate`": At::put,
        "`push_str_truncate` of too much, mixed": At::put_too_much,
        all => text.push_what_fits(given, N),
    fn try_push(text: &mut Text<N>, ch: char) -> bool:
        "`try_push`": At::room_for_one,
        "`try_push`, mixed": At::room_for_one,
        "`try_push`, no room behind": At::no_room_behind,
        all => text.offer_char(ch, N),
    fn window(text: &mut Text<N>) -> bool:
        "window: `remove(0)`, `try_push`": At::window,
        all => text.remove_first().is_some_and(|ch| text.offer_char(ch, N)),
    fn line(text: &mut Text<N>, held: &str) -> bool:
        "line buffer: `clear`, each `try_push`": At::text,
        all => {
            text.make_empty();
            held.chars().all(|ch| text.offer_char(ch, N))
        },
    fn lines(text: &mut Text<N>, given: &str, end: usize) -> bool:
        "lines: `try_push_str`, the first out, four times": At::lines,
        crate => (0..4).all(|_| text.offer_text(given, N) && text.replace_range(0..end, "").is_ok()),
        String => (0..4).all(|_| text.offer_text(given, N) && replaced::<N>(text, 0, end, "")),
    fn try_insert(text: &mut Text<N>, start: usize, ch: char) -> bool:
        "`try_insert` at the front": |at| Some(Case { start: 0, ..at.room_for_one()? }),
        "`try_insert`": At::room_for_one,
        "`try_insert`, mixed": At::room_for_one,
        "`try_insert`, no room behind": At::no_room_behind,
        crate => text.try_insert(start, ch).is_ok(),
        String => has_place::<N>(text, start, ch.len_utf8()).then(|| text.insert(start, ch)).is_some(),
    fn try_insert_str(text: &mut Text<N>, start: usize, given: &str) -> bool:
        "`try_insert_str`": At::put,
        crate => text.try_insert_str(start, given).is_ok(),
        String => has_place::<N>(text, start, given.len()).then(|| text.insert_str(start, given)).is_some(),
    fn replace_range(text: &mut Text<N>, start: usize, end: usize, given: &str) -> bool:
        "`replace_range`": At::put,
        crate => text.replace_range(start..end, given).is_ok(),
        String => replaced::<N>(text, start, end, given),
    fn pop(text: &mut Text<N>) -> Option<char>:
        "`pop`": At::text,
        "`pop`, mixed": At::text,
        all => text.pop(),
    fn remove(text: &mut Text<N>, start: usize) -> Option<char>:
        "`remove` at the front": At::front,
        "`remove` in the middle": At::text,
        "`remove` in the middle, mixed": At::text,
        crate => text.remove(start).ok(),
        peers => (start < text.len() && text.is_char_boundary(start)).then(|| text.remove(start)),
    fn truncate(text: &mut Text<N>, start: usize) -> bool:
        "`truncate` to half": At::text,
        crate => text.truncate(start).is_ok(),
        peers => text.len() <= start || text.is_char_boundary(start).then(|| text.truncate(start)).is_some(),
    fn trim_in_place(text: &mut Text<N>) -> ():
        "`trim_in_place`, half of it spaces": At::spaced,
        crate => text.trim_in_place(),
        String => {
            text.truncate(text.trim_end().len());
            text.drain(..text.len() - text.trim_start().len());
        },
    fn retain(text: &mut Text<N>, ch: char) -> ():
        "`retain`, one in ten dropped": At::text,
        "`retain`, one in four dropped, mixed": At::text,
        crate => text.retain(|it| it != ch),
        String => text.retain(|it| it != ch),
    fn split_off(text: &mut Text<N>, start: usize) -> Option<Text<N>>:
        "`split_off` of half": At::text,
        crate => text.split_off(start).ok(),
        String => text.is_char_boundary(start).then(|| text.split_off(start)),
    fn drain(text: &mut Text<N>, start: usize, end: usize) -> u32:
        "`drain` of a quarter, at the front": At::front,
        "`drain` of a quarter, walked": At::text,
        "`drain` of a quarter, walked, mixed": At::text,
        crate => text.drain(start..end).map_or(0, sum),
        String => if has_range(text, start, end) { sum(text.drain(start..end)) } else { 0 },
    fn drain_back(text: &mut Text<N>, start: usize, end: usize) -> u32:
        "`drain` of a quarter, walked from the back": At::text,
        crate => text.drain(start..end).map_or(0, |it| sum(it.rev())),
        String => if has_range(text, start, end) { sum(text.drain(start..end).rev()) } else { 0 },
}

impl Case {
    fn given<'a, T>(&'a self, text: &'a mut T, other: &'a T) -> Given<'a, T> {
        let Case { held, units, given, ch, start, end, .. } = self;
        Given { text, other, held, bytes: held.as_bytes(), units, given, ch: *ch, start: *start, end: *end }
    }
}

/// A string that holds a text, if it fits, behind so many bytes of its array.
fn filled<T: Compared>(most: usize, held: &str, offset: usize) -> T {
    let mut text = T::with_room(most);
    (0..offset).for_each(|_| _ = text.offer_char('.', most));
    text.offer_text(held, most);
    (0..offset).for_each(|_| _ = text.remove_first());
    text
}

/// An answer as a number, so that none is thrown away. It has the same hash in Rattle.
#[inline(always)]
fn told(answer: impl Hash) -> u64 {
    let mut hasher = DefaultHasher::new();
    answer.hash(&mut hasher);
    hasher.finish()
}

#[inline(always)]
fn sum(chars: impl Iterator<Item = char>) -> u32 {
    chars.fold(0, |sum, ch| sum.wrapping_add(ch as u32))
}

// What `String` lacks: it holds at most `N` bytes, has that room reserved, and makes the tests that the other sides make.

fn limited<const N: usize>(given: &str) -> Option<String> {
    (given.len() <= N).then(|| {
        let mut text = String::with_capacity(N);
        text.push_str(given);
        text
    })
}

fn has_place<const N: usize>(text: &str, index: usize, added: usize) -> bool {
    text.len() + added <= N && text.is_char_boundary(index)
}

fn has_range(text: &str, start: usize, end: usize) -> bool {
    start <= end && text.is_char_boundary(start) && text.is_char_boundary(end)
}

fn replaced<const N: usize>(text: &mut String, start: usize, end: usize, given: &str) -> bool {
    if !has_range(text, start, end) || text.len() - (end - start) + given.len() > N {
        return false;
    }
    text.replace_range(start..end, given);
    true
}
