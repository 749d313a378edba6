//! Every call on every string of a small capacity, beside a `String` with a limit: every text of characters of one to four bytes,
//! at every start offset, with every bytes around it, and every argument of that kind.
//!
//! The variable `ARRAYSTRING_CAPACITY` of the environment says how far the capacities go.

mod edits;
mod looks;
mod made;
mod ranges;
mod states;

pub use self::made::{is_made_of, is_made_of_pieces};
use self::states::{MadeAndWanted, WIDTHS, at_each_capacity, cases, counts, string_counts, texts};

#[test]
fn every_string_is_there_once() {
    fn strings<const N: usize>() -> MadeAndWanted {
        let cases = cases::<N>(&WIDTHS);
        let texts = texts(&WIDTHS, N);
        assert_eq!(cases.iter().map(|case| &case.text).collect::<Vec<_>>(), texts.iter().collect::<Vec<_>>());
        assert_eq!(texts.len(), texts.iter().collect::<std::collections::BTreeSet<_>>().len());
        assert!(texts.iter().all(|text| text.chars().all(|ch| WIDTHS.contains(&ch)) && text.len() <= N));
        let mut made = 0;
        for (case, string) in cases.iter().flat_map(|case| case.strings.iter().map(move |string| (case, string))) {
            assert_eq!(string.as_str(), case.text);
            assert!(usize::from(string.start) + case.text.len() <= N, "{:?} at {} of {N}", case.text, string.start);
            made += 1;
        }
        (made, string_counts::<N>(&WIDTHS).iter().sum())
    }
    at_each_capacity!(strings);
    // Worked out by hand: each size has as many texts as the four before it together.
    assert_eq!(counts(&WIDTHS, 8), [1, 1, 2, 4, 8, 15, 29, 56, 108]);
}
