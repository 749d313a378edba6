//! What constructors make, of text and of units, and what iterators add.

use super::at_capacity;
use super::rows::{Table, column, rows};
use crate::{ArrayString, Error, OutOfBounds};

/// What was made: the text, or the name of the refusal.
fn told<const N: usize>(made: Result<ArrayString<N>, Error>) -> String {
    made.map_or_else(|refusal| refusal.to_string(), |made| made.as_str().to_string())
}

/// Asserts what is next in iterators that were lent.
fn next(row: &str, ch: Option<char>, piece: Option<&str>) {
    assert_eq!((ch, piece.unwrap_or("None")), (column(row, 4).chars().next(), column(row, 5)), "{row}");
}

/// Asserts what each constructor makes of a text. The columns are
///
///     text | the same in pieces | made whole | cut | next character | next piece
pub fn constructors(table: &Table) -> usize {
    at_capacity!(table.capacity(), made, &table.text)
}

fn made<const N: usize>(table: &str) -> usize {
    rows(table)
        .inspect(|row| {
            let (text, pieces) = (column(row, 0), column(row, 1));
            let whole = ArrayString::<N>::try_from_utf8(text.as_bytes());
            assert_eq!(told(whole), column(row, 2), "{row}");
            let (mut chars, mut rest) = (text.chars(), pieces.split(','));
            let others = [
                ArrayString::try_from_str(text),
                text.parse(),
                ArrayString::try_from_chars(&mut chars),
                ArrayString::try_from_iterator(rest.by_ref()),
            ];
            assert_eq!(others, [whole.ok().ok_or(OutOfBounds); 4], "{row}");
            next(row, chars.next(), rest.next());
            let cut = ArrayString::<N>::from_str_truncate(text);
            assert_eq!(cut.as_str(), column(row, 3), "{row}");
            let (mut chars, mut rest) = (text.chars(), pieces.split(','));
            let others = [text.into(), ArrayString::from_chars(&mut chars), ArrayString::from_iterator(rest.by_ref())];
            assert_eq!((others, ArrayString::from_utf8(text.as_bytes())), ([cut; 3], Ok(cut)), "{row}");
            next(row, chars.next(), rest.next());
            if whole.is_ok() {
                let unchecked = [
                    ArrayString::from_str_unchecked(text),
                    ArrayString::from_chars_unchecked(text.chars()),
                    ArrayString::from_iterator_unchecked(pieces.split(',')),
                    ArrayString::from_utf8_unchecked(text.as_bytes()),
                ];
                assert_eq!(unchecked, [cut; 4], "{row}");
            }
        })
        .count()
}

/// Asserts what is made of units. The columns are
///
///     units in hexadecimal | `try_from_utf16` | `from_utf16` | `from_utf16_lossy`
///
/// where the last three are texts, or the names of refusals.
pub fn texts_of_units(table: &Table) -> usize {
    at_capacity!(table.capacity(), made_of_units, &table.text)
}

fn made_of_units<const N: usize>(table: &str) -> usize {
    rows(table)
        .inspect(|row| {
            let units: Vec<u16> = column(row, 0)
                .split_whitespace()
                .map(|digits| u16::from_str_radix(digits, 16).expect("a unit"))
                .collect();
            let made = [
                told(ArrayString::<N>::try_from_utf16(&units)),
                told(ArrayString::<N>::from_utf16(&units).map_err(Error::from)),
                ArrayString::<N>::from_utf16_lossy(&units).to_string(),
            ];
            assert_eq!(made, [1, 2, 3].map(|at| column(row, at)), "{row}");
        })
        .count()
}

/// Asserts what is added from iterators that are lent. The columns are
///
///     text before | characters | pieces | text after | next character | next piece
pub fn extension(table: &Table) -> usize {
    at_capacity!(table.capacity(), extended, &table.text)
}

fn extended<const N: usize>(table: &str) -> usize {
    rows(table)
        .inspect(|row| {
            let (mut chars, mut pieces) = (column(row, 1).chars(), column(row, 2).split(','));
            let before = ArrayString::<N>::from(column(row, 0));
            let (mut by_chars, mut by_pieces) = (before, before);
            by_chars.extend_chars(&mut chars);
            by_pieces.extend_strs(pieces.by_ref());
            assert_eq!((by_chars.as_str(), by_pieces), (column(row, 3), by_chars), "{row}");
            next(row, chars.next(), pieces.next());
        })
        .count()
}
