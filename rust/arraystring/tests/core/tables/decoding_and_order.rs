//! What bytes and units are read as, how texts are cut, trimmed and compared, and what a drain gives.

use std::cmp::Ordering;

use super::at_capacity;
use super::rows::{Table, column, parsed, returned, rows};
use crate::inputs::{cut, hash_of};
use crate::utf16::{Unit16, Units};
use crate::utils::{is_boundary, truncate_str};
use crate::{ArrayString, Drain, Error};

/// How bytes among letters are read. The columns are, in hexadecimal but for the last,
///
///     first byte | as far as this one | bytes behind it | read
///
/// At each offset of each size stands one of the first bytes in turn, with the bytes behind it. Where these do not fit, std says
/// how all is read.
pub fn reading(table: &Table) -> usize {
    std::thread::scope(|scope| {
        let threads: Vec<_> = rows(&table.text).map(|row| scope.spawn(move || reading_of(row))).collect();
        threads.into_iter().map(|thread| thread.join().expect("no panic")).sum()
    })
}

/// Reads the bytes of one row.
fn reading_of(row: &str) -> usize {
    let byte = |digits: &str| u8::from_str_radix(digits, 16).expect("a byte");
    let rest: Vec<u8> = column(row, 2).split_whitespace().map(byte).collect();
    let mut turns = (byte(column(row, 0))..=byte(column(row, 1))).cycle();
    let mut bytes = [b'a'; 264];
    let (mut count, mut fitting) = (0, 0);
    for size in 1..258 {
        for at in 0..size {
            let end = at + 1 + rest.len();
            bytes[at] = turns.next().expect("a byte");
            bytes[at + 1..end].copy_from_slice(&rest);
            let given = &bytes[..size];
            if end <= size {
                assert_eq!(std::str::from_utf8(given).is_ok(), column(row, 3) == "ok", "{row}");
                fitting += 1;
            }
            as_in_std(row, given);
            count += 1;
            bytes[at..end].fill(b'a');
        }
    }
    let sum_to = |last: usize| last * (last + 1) / 2;
    assert_eq!((count, fitting), (sum_to(257), sum_to(257 - rest.len())), "{row}");
    1
}

/// Asserts that bytes are read whole and cut as std reads them.
fn as_in_std(row: &str, bytes: &[u8]) {
    let (whole, front) = (ArrayString::<255>::try_from_utf8(bytes), ArrayString::<255>::from_utf8(bytes));
    match std::str::from_utf8(bytes) {
        Ok(text) => {
            let front = front.expect("a text");
            assert_eq!(front.as_str(), cut(text, 255), "{row}");
            assert_eq!(whole, if text.len() < 256 { Ok(front) } else { Err(Error::OutOfBounds) }, "{row}");
        }
        Err(_) => assert_eq!((whole, front.is_err()), (Err(Error::Utf8), true), "{row}"),
    }
}

/// The order of pairs of texts. The columns are
///
///     less | greater
///
/// Each pair stands at each index among letters, in texts of each size.
pub fn orders(table: &Table) -> usize {
    at_capacity!(table.capacity(), orders_at, &table.text, 63 128 255)
}

fn orders_at<const N: usize>(table: &str) -> usize {
    let of_row = |row: &&str| {
        let sizes: usize = (0..N).map(|index| order_at::<N>(row, index)).sum();
        let last = N + 1 - column(row, 1).len();
        assert_eq!(sizes, last * (last + 1) / 2, "{row}");
    };
    rows(table).inspect(of_row).count()
}

/// The order of the pair of a row behind `index` letters. Behind it each byte says the opposite, and there are none behind the
/// shortest. One text begins at offset 0, and the other does, or behind it. What is before the pair is less. Returns in how many
/// sizes the pair was compared.
fn order_at<const N: usize>(row: &str, index: usize) -> usize {
    let (low, high) = ("abcde".repeat(60), "x".repeat(300));
    let (less, greater, front) = (column(row, 0), column(row, 1), &low[..index]);
    let end = index + greater.len();
    let Some(room) = N.checked_sub(end) else { return 0 };
    let offset = index * 7 % (room + 1);
    let behind = |offset: usize, parts: [&str; 3]| {
        let mut string = ArrayString::<N>::from(&high[..offset]);
        parts.iter().for_each(|part| string.push_str(part));
        assert!(string.drain(..offset as u8).is_ok());
        string
    };
    let (before, shortest) = (behind(offset, [front, "", ""]), behind(offset, [front, greater, ""]));
    let (mut one, mut other) = (behind(0, [front, less, &high]), behind(0, [front, greater, &low]));
    let mut moved = behind(offset, [front, greater, &low]);
    is_less(row, one.as_str(), other.as_str());
    for size in (end..=N).rev() {
        for string in [&mut one, &mut other, &mut moved] {
            assert_eq!(string.truncate(size as u8), Ok(()), "{row}");
        }
        is_less(row, &one, &other);
        is_less(row, &one, &moved);
        is_less(row, &one, &shortest);
        is_less(row, &before, &one);
        assert_eq!(Ord::cmp(&other, &moved), other.len().cmp(&moved.len()), "{row}");
        assert_eq!(other == moved, other.len() == moved.len(), "{row}");
        if size < 64 {
            is_less(row, &drain_all(one), &drain_all(moved));
        }
    }
    room + 1
}

fn drain_all<const N: usize>(mut string: ArrayString<N>) -> Drain<N> {
    string.drain(..).expect("all of it")
}

/// Asserts that a value is less than another by each comparison.
fn is_less<T: Ord + ?Sized>(row: &str, less: &T, greater: &T) {
    assert!(less < greater && less != greater, "{row}");
    assert_eq!((Ord::cmp(less, greater), Ord::cmp(greater, less)), (Ordering::Less, Ordering::Greater), "{row}");
}

/// What units are read as. The columns are units in hexadecimal, and characters and lone surrogates in hexadecimal. After the
/// last of these nothing is read any more.
pub fn units(table: &Table) -> usize {
    let unit = |digits: &str| u16::from_str_radix(digits, 16).expect("a unit");
    rows(&table.text)
        .inspect(|row| {
            let units: Vec<u16> = column(row, 0).split_whitespace().map(unit).collect();
            let mut walk = Units::new(&units);
            for word in column(row, 1).split_whitespace() {
                let wanted = word.parse().map_or_else(|_| Unit16::Lone(unit(word)), Unit16::Char);
                assert_eq!(walk.next(), Some(wanted), "{row}");
            }
            assert_eq!((walk.next(), walk.next()), (None, None), "{row}");
        })
        .count()
}

/// How texts are cut. The columns are a text, a size, and the text cut to it. The size is a boundary where the cut has it.
pub fn cuts(table: &Table) -> usize {
    rows(&table.text)
        .inspect(|row| {
            let (text, size, wanted) = (column(row, 0), parsed::<u8>(row, 1), column(row, 2));
            assert_eq!(is_boundary(text, size as usize), wanted.len() == size as usize, "{row}");
            assert_eq!(truncate_str(text, size), wanted, "{row}");
        })
        .count()
}

/// What is popped of texts. The columns are a text, where its last character begins, and that character.
pub fn last_characters(table: &Table) -> usize {
    rows(&table.text)
        .inspect(|row| {
            let mut text = ArrayString::<23>::from(column(row, 0));
            assert_eq!((text.pop(), text.len()), (column(row, 2).chars().next(), parsed(row, 1)), "{row}");
        })
        .count()
}

/// Walks over texts, from the back where a choice has a bit. The columns are how many choices there are, and the text.
pub fn walks(table: &Table) -> usize {
    rows(&table.text)
        .inspect(|row| {
            let text = column(row, 1);
            for choice in 0..parsed::<u32>(row, 0) {
                let (mut drain, mut wanted) = (drain_all(ArrayString::<23>::from(text)), text.chars());
                for step in 0..text.chars().count() {
                    let debugged = format!("Drain({:?})", wanted.as_str());
                    assert_eq!((drain.as_str(), format!("{drain:?}")), (wanted.as_str(), debugged), "{row}");
                    let (given, due) = if choice >> step & 1 == 0 {
                        (drain.next(), wanted.next())
                    } else {
                        (drain.next_back(), wanted.next_back())
                    };
                    assert_eq!(given, due, "{row}");
                }
                assert_eq!(drain.as_str(), "", "{row}");
                assert_eq!((drain.next(), drain.next_back()), (None, None), "{row}");
            }
        })
        .count()
}

/// Asserts what each step over a drain gives. The columns are
///
///     text, with what is taken out in `[ ]` | step | result | what is left
///
/// With no text, the step is one of the drain that the row above left, and first of a default drain. With no result, it gives
/// no character.
pub fn drains(table: &Table) -> usize {
    at_capacity!(table.capacity(), walk_drains, &table.text)
}

fn walk_drains<const N: usize>(table: &str) -> usize {
    let mut drain = Drain::<N>::default();
    rows(table)
        .inspect(|row| {
            if let Some((before, rest)) = column(row, 0).split_once('[') {
                let (inside, after) = rest.split_once(']').expect("the end of the part");
                let mut text = ArrayString::from_iterator([before, inside, after]);
                let start = before.len() as u8;
                drain = text.drain(start..start + inside.len() as u8).expect("the part");
                assert_eq!(text.as_str(), [before, after].concat(), "{row}");
            }
            let answer = if column(row, 1) == "next" { drain.next() } else { drain.next_back() };
            let wanted = (column(row, 2).chars().next(), column(row, 3).as_bytes());
            assert_eq!((answer, drain.as_str().as_bytes()), wanted, "{row}");
        })
        .count()
}

/// Comparisons of drains, of which `[ ]` has in it what is left after a step from each end. The columns are
///
///     one drain | `cmp` | | the other | order
pub fn drain_comparisons(table: &Table) -> usize {
    rows(&table.text)
        .inspect(|row| {
            let (one, other) = (left(column(row, 0)), left(column(row, 3)));
            let order = Ord::cmp(&one, &other);
            returned(row, order);
            assert_eq!(PartialOrd::partial_cmp(&one, &other), Some(order), "{row}");
            assert_eq!((one == other, one != other), (order.is_eq(), order.is_ne()), "{row}");
            let hash = hash_of(&one);
            assert_eq!((hash == hash_of(&other), hash), (order.is_eq(), hash_of(one.as_str())), "{row}");
        })
        .count()
}

fn left(written: &str) -> Drain<8> {
    let (before, rest) = written.split_once('[').expect("where it begins");
    let (inside, after) = rest.split_once(']').expect("where it ends");
    let mut drain = drain_all(ArrayString::from_iterator([before, inside, after]));
    if !before.is_empty() {
        drain.next();
    }
    if !after.is_empty() {
        drain.next_back();
    }
    assert_eq!(drain.as_str(), inside, "{written}");
    drain
}

/// Which characters are trimmed. The columns are
///
///     first character | last character | calls that trim each
///
/// where the characters are in hexadecimal. Each is after `a`, before it, and on both sides.
pub fn trims(table: &Table) -> usize {
    let character = |row: &str, at: usize| {
        char::from_u32(u32::from_str_radix(column(row, at), 16).expect("a number")).expect("a character")
    };
    rows(&table.text)
        .inspect(|row| {
            let calls = column(row, 2);
            for ch in character(row, 0)..=character(row, 1) {
                for text in [format!("a{ch}"), format!("{ch}a"), format!("{ch}a{ch}")] {
                    let [mut trimmed, mut without_spaces] = [ArrayString::<23>::from(text.as_str()); 2];
                    trimmed.trim();
                    without_spaces.trim_spaces();
                    let left = |is_trimmed: bool| if is_trimmed { "a" } else { text.as_str() };
                    let wanted = (left(!calls.is_empty()), left(calls.ends_with("trim_spaces")));
                    assert_eq!((trimmed.as_str(), without_spaces.as_str()), wanted, "{ch:?}");
                }
            }
        })
        .count()
}
