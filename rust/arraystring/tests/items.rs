//! What iterators give: items of each kind, with empty ones among them, whatever is told of their number, more than a byte counts, without
//! an end, and behind an end. Of each call it is asserted what it takes, and how many items it asks for.

use std::borrow::Cow;
use std::cell::Cell;
use std::iter;

use arraystring::{ArrayString, OutOfBounds};
use inputs::{Told, at_capacities, behind, edges, hints, kept_and_taken, letters, texts_of, with_empty_ones};

mod inputs;

/// The least that is needed of an iterator, so that what takes one is compiled once for each kind of item.
type Any<'a, T> = Box<dyn Iterator<Item = T> + 'a>;

/// What an iterator tells of the number of its items.
type Hint = (usize, Option<usize>);

/// What a call returned, and how many items it asked for. (`Ok(true)` says that something was left.)
type Taken = (Result<bool, OutOfBounds>, usize);

/// Calls something with items that tell so much of their number.
fn taken<T>(items: Any<T>, hint: Hint, call: impl FnOnce(Told<Any<T>>) -> Result<bool, OutOfBounds>) -> Taken {
    let mut asked = 0;
    let returned = call(Told { items, hint, taken: &mut asked });
    (returned, asked)
}

/// Asserts what the calls that refuse and those that cut take of items, of which these are the texts, and what they leave of a string.
fn are_left<const N: usize>(string: &ArrayString<N>, [whole, cut]: [(&ArrayString<N>, Taken); 2], texts: &[&str]) {
    let (added, asked) = kept_and_taken(texts.iter().copied(), N - string.len());
    let is_whole = added == texts.concat();
    let returned = if is_whole { [Ok(false), Ok(false)] } else { [Err(OutOfBounds), Ok(true)] };
    assert_eq!([whole.1, cut.1], returned.map(|returned| (returned, asked)), "{string} {texts:?} at {N}");
    assert_eq!(cut.0.as_str(), format!("{string}{added}"), "{N}");
    assert_eq!(whole.0.as_str(), if is_whole { cut.0.as_str() } else { string.as_str() }, "{N}");
    // They go on as any string of their text.
    for after in [whole.0, cut.0] {
        let (mut after, mut again) = (*after, behind::<N>(0, after));
        assert_eq!(after.push_str_truncate("~é"), again.push_str_truncate("~é"));
        assert_eq!(after, again);
    }
}

/// Asserts what is taken of pieces of any kind, and made of them, whatever is told of their number.
fn pieces_are_taken<'a, const N: usize, T: AsRef<str>>(
    string: &ArrayString<N>,
    texts: &[&str],
    hints: &[Hint],
    items: &dyn Fn() -> Any<'a, T>,
) {
    for hint in hints.iter().copied() {
        let [mut whole, mut cut] = [*string; 2];
        let by_whole = taken(items(), hint, |items| whole.try_extend_strs(items).map(|()| false));
        let by_cut = taken(items(), hint, |items| Ok(cut.extend_strs_truncate(items)));
        are_left(string, [(&whole, by_whole), (&cut, by_cut)], texts);
        let [mut whole, mut cut] = [ArrayString::<N>::new(); 2];
        let by_whole = taken(items(), hint, |items| {
            whole = ArrayString::try_from_iterator(items)?;
            Ok(false)
        });
        let by_cut = taken(items(), hint, |items| {
            cut = ArrayString::from_iterator_truncate(items);
            Ok(cut != *texts.concat())
        });
        are_left(&ArrayString::new(), [(&whole, by_whole), (&cut, by_cut)], texts);
    }
}

/// The same of pieces that are lent.
fn lent_pieces_are_taken<const N: usize>(string: &ArrayString<N>, pieces: &[&str]) {
    pieces_are_taken(string, pieces, &hints(pieces.len()), &|| Box::new(pieces.iter().copied()) as Any<&str>);
}

/// The same of the characters of a text.
fn characters_are_taken<const N: usize>(string: &ArrayString<N>, text: &str) {
    let texts: Vec<&str> = text.split_inclusive(|_| true).collect();
    let items = || Box::new(text.chars()) as Any<char>;
    for hint in hints(texts.len()) {
        let [mut whole, mut cut] = [*string; 2];
        let by_whole = taken(items(), hint, |items| whole.try_extend_chars(items).map(|()| false));
        let by_cut = taken(items(), hint, |items| Ok(cut.extend_chars_truncate(items)));
        are_left(string, [(&whole, by_whole), (&cut, by_cut)], &texts);
        let [mut whole, mut cut] = [ArrayString::<N>::new(); 2];
        let by_whole = taken(items(), hint, |items| {
            whole = ArrayString::try_from_chars(items)?;
            Ok(false)
        });
        let by_cut = taken(items(), hint, |items| {
            cut = ArrayString::from_chars_truncate(items);
            Ok(cut != *text)
        });
        are_left(&ArrayString::new(), [(&whole, by_whole), (&cut, by_cut)], &texts);
    }
}

/// Each piece as a string. The text of every other one begins behind offset 0.
fn strings(pieces: &[&str]) -> Vec<ArrayString<20>> {
    pieces.iter().enumerate().map(|(at, piece)| behind(at % 2 * 7, piece)).collect()
}

/// Each piece, one lent and the next one owned.
fn lent_or_owned<'a>(pieces: &'a [&'a str]) -> impl Iterator<Item = Cow<'a, str>> {
    let texts = pieces.iter().enumerate();
    texts.map(|(at, piece)| if at % 2 == 0 { Cow::Borrowed(*piece) } else { Cow::Owned(piece.to_string()) })
}

/// Asserts what is taken of pieces, by each kind of what lends a text.
fn each_kind_is_taken<const N: usize>(string: &ArrayString<N>, pieces: &[&str]) {
    lent_pieces_are_taken(string, pieces);
    let hints = [(pieces.len(), Some(pieces.len())), (usize::MAX, Some(0))];
    let (strings, owned): (_, Vec<_>) = (strings(pieces), pieces.iter().map(|piece| piece.to_string()).collect());
    pieces_are_taken(string, pieces, &hints, &|| Box::new(pieces.iter()) as Any<&&str>);
    pieces_are_taken(string, pieces, &hints, &|| Box::new(strings.iter()) as Any<&ArrayString<20>>);
    pieces_are_taken(string, pieces, &hints, &|| Box::new(strings.iter().copied()) as Any<ArrayString<20>>);
    pieces_are_taken(string, pieces, &hints, &|| Box::new(owned.iter()) as Any<&String>);
    pieces_are_taken(string, pieces, &hints, &|| Box::new(owned.iter().cloned()) as Any<String>);
    pieces_are_taken(string, pieces, &hints, &|| {
        Box::new(owned.iter().map(|piece| Box::from(&**piece))) as Any<Box<str>>
    });
    pieces_are_taken(string, pieces, &hints, &|| Box::new(lent_or_owned(pieces)) as Any<Cow<str>>);
}

/// Cuts a text into pieces of one to so many characters.
fn pieces_of(text: &str, most: usize) -> Vec<&str> {
    let mut at = 0;
    text.split_inclusive(|_: char| {
        at += 1;
        at % most == 0 || at % 3 == 0
    })
    .collect()
}

#[test]
fn items_of_each_kind_are_taken_to_the_first_that_does_not_fit() {
    fn at<const N: usize>() {
        for len in edges(N).into_iter().filter(|len| *len <= N) {
            let string = behind::<N>((N - len) / 2, &letters(len));
            for given in edges(N - len).into_iter().chain([300]) {
                let text = &texts_of(given)[(given + len) % 3];
                characters_are_taken(&string, text);
                each_kind_is_taken(&string, &pieces_of(text, 1 + given % 3));
            }
        }
    }
    // Which kind it is does not depend on the capacity, and each is compiled at each, so not at all of the table.
    at_capacities!(at: 0 1 4 8 63 255);
}

#[test]
fn empty_items_are_taken_and_end_nothing() {
    fn at<const N: usize>() {
        for len in edges(N).into_iter().filter(|len| *len <= N) {
            let string = behind::<N>((N - len) / 2, &letters(len));
            for given in edges(N - len).into_iter().chain([256]) {
                let text = &texts_of(given)[given % 3];
                for pieces in with_empty_ones(&pieces_of(text, 2)) {
                    lent_pieces_are_taken(&string, &pieces);
                }
            }
        }
    }
    at_capacities!(at: 0 1 2 3 4 7 8 16 23 63 64 65 127 128 129 254 255);
}

/// More items than a byte counts, and than a string has bytes: empty pieces take no room, and a full string takes them, too.
#[test]
fn more_empty_items_than_a_byte_counts() {
    fn at<const N: usize>() {
        for len in [0, N / 2, N] {
            let string = behind::<N>(N, &letters(len));
            for count in [254, 255, 256, 257, 512, 1000] {
                let empty = vec![""; count];
                for pieces in [empty.clone(), [&empty[..], &["a"]].concat()] {
                    lent_pieces_are_taken(&string, &pieces);
                }
            }
        }
    }
    at_capacities!(at: 0 1 8 63 255);
}

#[test]
fn items_without_an_end_are_cut_or_refused() {
    fn at<const N: usize>() {
        for len in 0..=N {
            let (string, filled) =
                (behind::<N>((N - len) / 2, &letters(len)), letters(len) + &"é".repeat((N - len) / 2));
            let [mut by_char, mut by_piece, mut char_cut, mut piece_cut] = [string; 4];
            assert_eq!(by_char.try_extend_chars(iter::repeat('é')), Err(OutOfBounds));
            assert_eq!(by_piece.try_extend_strs(iter::repeat("é")), Err(OutOfBounds));
            assert!(char_cut.extend_chars_truncate(iter::repeat('é')));
            assert!(piece_cut.extend_strs_truncate(iter::repeat("é")));
            assert_eq!([by_char, by_piece], [string; 2]);
            assert_eq!([char_cut.as_str(), piece_cut.as_str()], [&*filled; 2]);
        }
        let filled = "é".repeat(N / 2);
        assert_eq!(ArrayString::<N>::try_from_chars(iter::repeat('é')), Err(OutOfBounds));
        assert_eq!(ArrayString::<N>::try_from_iterator(iter::repeat("é")), Err(OutOfBounds));
        assert_eq!(ArrayString::<N>::from_chars_truncate(iter::repeat('é')), *filled);
        assert_eq!(ArrayString::<N>::from_iterator_truncate(iter::repeat("é")), *filled);
    }
    at_capacities!(at);
}

/// An iterator that says it is at its end once, and goes on then, as std lets it.
struct Resumes(usize);

impl Iterator for Resumes {
    type Item = &'static str;

    fn next(&mut self) -> Option<&'static str> {
        self.0 += 1;
        (self.0 != 3).then_some("a")
    }
}

/// The first end is the end.
#[test]
fn an_iterator_is_asked_to_its_first_end() {
    let chars = || Resumes(0).map(|piece| piece.chars().next().expect("a character"));
    let mut all = [ArrayString::<8>::new(); 4];
    let [by_char, by_piece, char_cut, piece_cut] = &mut all;
    assert_eq!((by_char.try_extend_chars(chars()), by_piece.try_extend_strs(Resumes(0))), (Ok(()), Ok(())));
    assert!(!char_cut.extend_chars_truncate(chars()) && !piece_cut.extend_strs_truncate(Resumes(0)));
    assert_eq!(all, ["aa"; 4]);
    assert_eq!(ArrayString::<8>::try_from_chars(chars()).as_deref(), Ok("aa"));
    assert_eq!(ArrayString::<8>::try_from_iterator(Resumes(0)).as_deref(), Ok("aa"));
    assert_eq!(
        [ArrayString::<8>::from_chars_truncate(chars()), ArrayString::from_iterator_truncate(Resumes(0))],
        ["aa"; 2]
    );
}

/// What lends another text each time it is asked.
struct Lies<'a> {
    asked: &'a Cell<usize>,
    texts: [&'a str; 2],
}

impl AsRef<str> for Lies<'_> {
    fn as_ref(&self) -> &str {
        self.asked.set(self.asked.get() + 1);
        self.texts[(self.asked.get() - 1) % 2]
    }
}

/// Asserts that each call takes the text that an item lends first, and asks for none a second time.
fn is_asked_once<const N: usize>(before: &str, texts: [&str; 2]) {
    let (string, asked) = (behind::<N>(N, before), Cell::new(0));
    let item = || {
        asked.set(0);
        [Lies { asked: &asked, texts }]
    };
    let [mut whole, mut cut] = [string; 2];
    let calls: [&mut dyn FnMut() -> Result<bool, OutOfBounds>; 2] =
        [&mut || whole.try_extend_strs(item()).map(|()| false), &mut || Ok(cut.extend_strs_truncate(item()))];
    let by_calls = calls.map(|call| (call(), asked.get()));
    are_left(&string, [(&whole, by_calls[0]), (&cut, by_calls[1])], &texts[..1]);
    let made = ArrayString::<N>::try_from_iterator(item());
    assert_eq!((made.as_deref().ok(), asked.get()), ((texts[0].len() <= N).then_some(texts[0]), 1));
    let made = ArrayString::<N>::from_iterator_truncate(item());
    assert_eq!((made.as_str(), asked.get()), (inputs::cut(texts[0], N), 1));
}

#[test]
fn each_call_asks_an_item_once_for_its_text() {
    let lengths = [0, 1, 2, 7, 8, 9, 64, 65, 66, 300];
    for (one, other) in lengths.into_iter().flat_map(|one| lengths.map(|other| (one, other))) {
        for before in ["", "a", "abcdefgh"] {
            is_asked_once::<8>(before, [&letters(one), &"é".repeat(other)]);
            is_asked_once::<65>(before, [&letters(one), &"é".repeat(other)]);
        }
    }
}
