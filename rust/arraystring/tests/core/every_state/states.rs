//! What there is at a small capacity: every text, every string of it, and how many that are.

use std::fmt::Debug;

use crate::limited::Limited;
use crate::{ArrayString, between};

/// A character of each width in UTF-8.
pub const WIDTHS: [char; 4] = ['a', 'é', '€', '🤔'];

/// The greatest capacity whose states are gone through: what the variable `ARRAYSTRING_CAPACITY` of the environment says. Without
/// it a build with debug assertions, which is slow, stops at a smaller one.
fn greatest_capacity() -> usize {
    let told = std::env::var("ARRAYSTRING_CAPACITY").ok();
    told.map_or(if cfg!(debug_assertions) { 4 } else { 6 }, |told| {
        told.parse().expect("ARRAYSTRING_CAPACITY is a number")
    })
}

/// What a check returns: how many calls it made, and how many it had to make.
pub type MadeAndWanted = (usize, usize);

/// Calls a generic check at each capacity up to the greatest, and asserts that it made as many calls as it had to.
macro_rules! at_each_capacity {
    ($check:ident) => {
        $crate::every_state::states::checked_at_each_capacity(
            stringify!($check),
            &[$check::<0>, $check::<1>, $check::<2>, $check::<3>, $check::<4>, $check::<5>, $check::<6>, $check::<7>],
        )
    };
}
pub(crate) use at_each_capacity;

pub fn checked_at_each_capacity(name: &str, checks: &[fn() -> MadeAndWanted]) {
    let greatest = greatest_capacity();
    assert!(greatest < checks.len(), "no capacity of {greatest} is gone through");
    let mut all = 0;
    for (capacity, check) in checks[..=greatest].iter().enumerate() {
        let (made, wanted) = check();
        assert_eq!(made, wanted, "calls of {name} at {capacity}");
        all += made;
    }
    println!("{name}: {all} calls at capacities up to {greatest}");
    assert!(all > 0);
}

/// Every text of these characters that takes at most so many bytes, shorter ones first.
pub fn texts(characters: &[char], size: usize) -> Vec<String> {
    let mut of_size = vec![vec![String::new()]];
    for size in 1..=size {
        let fronts = |ch: &char| size.checked_sub(ch.len_utf8()).map(|front| (*ch, &of_size[front]));
        let longer = characters.iter().filter_map(fronts);
        let longer = longer.flat_map(|(ch, fronts)| fronts.iter().map(move |front| format!("{front}{ch}"))).collect();
        of_size.push(longer);
    }
    of_size.concat()
}

/// How many texts there are of each size, up to so many bytes: as many as of the sizes that one character less leaves.
pub fn counts(characters: &[char], size: usize) -> Vec<usize> {
    let mut counts = vec![1];
    for size in 1..=size {
        let fronts = characters.iter().filter_map(|ch| size.checked_sub(ch.len_utf8()));
        counts.push(fronts.map(|front| counts[front]).sum());
    }
    counts
}

/// How many characters a text has.
pub fn length(text: &str) -> usize {
    text.chars().count()
}

/// A text, and every string of it.
pub struct Case<const N: usize> {
    pub text: String,
    pub strings: Vec<ArrayString<N>>,
}

/// Every text of these characters that fits, with every string of it: at each start offset, with the bytes of every text before
/// it, and behind it either those of every text that fills the array, or none that was ever written.
pub fn cases<const N: usize>(characters: &[char]) -> Vec<Case<N>> {
    let texts = texts(characters, N);
    texts.iter().map(|text| Case { text: text.clone(), strings: strings_of(text, &texts) }).collect()
}

/// How many strings [`cases`] has of a text of a size, by what there is around it.
pub fn string_count<const N: usize>(characters: &[char], size: usize) -> usize {
    let (counts, room) = (counts(characters, N), N - size);
    let behind = |before: usize| counts[room - before] + usize::from(before < room);
    (0..=room).map(|before| counts[before] * behind(before)).sum()
}

/// How many strings [`cases`] has of the texts of each size.
pub fn string_counts<const N: usize>(characters: &[char]) -> Vec<usize> {
    let texts = counts(characters, N).into_iter().enumerate();
    texts.map(|(size, count)| count * string_count::<N>(characters, size)).collect()
}

fn strings_of<const N: usize>(text: &str, around: &[String]) -> Vec<ArrayString<N>> {
    let mut strings = Vec::new();
    for before in around.iter().filter(|before| before.len() + text.len() <= N) {
        let room = N - before.len() - text.len();
        let behind = around.iter().filter(|behind| behind.is_empty() || behind.len() == room);
        strings.extend(behind.map(|behind| between(before, text, behind)));
    }
    strings
}

/// What a call has to leave: the text, and by how much its start offset is greater where it does not have to be 0.
#[derive(Clone, Debug)]
pub struct Left {
    pub text: String,
    pub raised_by: usize,
}

impl<const N: usize> Case<N> {
    /// How many strings it has to have, whatever the list has, of characters of each width.
    pub fn string_count(&self) -> usize {
        string_count::<N>(&WIDTHS, self.text.len())
    }

    /// What a call returns and leaves, by the model.
    pub fn wanted<T>(&self, call: impl FnOnce(&mut Limited) -> T) -> (T, Left) {
        let mut model = Limited::new(0, &self.text, N);
        let returned = call(&mut model);
        (returned, Left { text: model.text, raised_by: model.start })
    }

    /// What a call returns that changes nothing.
    pub fn unchanged<T>(&self, returned: T) -> (T, Left) {
        self.wanted(|_| returned)
    }

    /// Makes a call on a copy of each string. Asserts what it returns, and what it leaves where. Says how many calls those are.
    pub fn each<T: PartialEq + Debug>(
        &self,
        name: impl Debug,
        wanted: &(T, Left),
        call: impl Fn(&mut ArrayString<N>) -> T,
    ) -> usize {
        self.each_by(&name, wanted, &call)
    }

    /// Compiled once for all calls that return the same type.
    fn each_by<T: PartialEq + Debug>(
        &self,
        name: &dyn Debug,
        (returned, left): &(T, Left),
        call: &dyn Fn(&mut ArrayString<N>) -> T,
    ) -> usize {
        // Counted one by one, so that a string that is left out is missed.
        let mut made = 0;
        for string in &self.strings {
            let (mut after, told) = (*string, || format!("{name:?} of {:?} at {} of {N}", self.text, string.start));
            let answer = call(&mut after);
            if answer != *returned {
                // (printed before the panic, since a text that is none may panic there, and a second panic aborts)
                let answer = format!("{answer:?}");
                panic!("{} returns {answer}, where {returned:?} is due", told());
            }
            assert_eq!(after.as_bytes(), left.text.as_bytes(), "after {}", told());
            let start = usize::from(string.start) + left.raised_by;
            let wanted = if start + left.text.len() > N { 0 } else { start };
            assert_eq!(usize::from(after.start), wanted, "the start offset after {}", told());
            made += 1;
        }
        made
    }
}
