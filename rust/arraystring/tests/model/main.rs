//! Each call of the face beside a `String` that refuses what does not fit, and cuts where the name says so: at every capacity from 0 to
//! 255, on a text of each length, at each start offset that removals at the front make, with indices and ends of ranges in the text, past
//! it, past a byte and at the greatest `usize`; and in long random runs.
//!
//! A build without debug assertions tries the capacities on which something could depend, because of all of them it would compile for
//! minutes.
//!
//! The variable `ARRAYSTRING_CALLS` of the environment says how many calls are made at each place of these tests at most. Where a run is
//! slow it is small.

use std::collections::BTreeSet;
use std::fs;
use std::panic::resume_unwind;
use std::sync::Mutex;
use std::sync::atomic::{AtomicUsize, Ordering};
use std::thread;

use arraystring::ArrayString;
use calls::{Row, on_a_model, on_a_string};
use given::{Given, Random, VARIANTS, sources};
use inputs::{GIVEN, MOST};
use ranges::{Ends, KINDS};
use rules::{Answer, FILLER, Model};

#[path = "../inputs/mod.rs"]
mod inputs;

mod calls;
mod given;
mod ranges;
mod rules;

/// A string of some capacity, of which all tests but the calls themselves are compiled once.
trait Tried {
    fn capacity(&self) -> usize;

    /// Takes a text, which begins behind some bytes of its array that are not used.
    fn set(&mut self, offset: usize, text: &str);

    fn call(&mut self, call: usize, given: &Given) -> Answer;

    /// Asserts that all that it shows is as a text has it, and that it has the room that the text leaves.
    fn assert_is(&self, text: &str, told: &dyn Fn() -> String);
}

struct Face<const N: usize> {
    string: ArrayString<N>,
    calls: Vec<Row<ArrayString<N>>>,
}

/// A new string of a capacity.
fn face<const N: usize>() -> Box<dyn Tried + Send> {
    Box::new(Face::<N> { string: ArrayString::new(), calls: on_a_string() })
}

/// The capacities that are tried, each with a new string: all of them where rustc does not optimise. Where it does, as in a release and for
/// an emulated machine, all of them would take it ten minutes.
#[cfg(all(debug_assertions, target_arch = "x86_64"))]
fn faces() -> Vec<Box<dyn Tried + Send>> {
    macro_rules! faces {
        ($($sixteen:literal)*) => {
            [$(faces!($sixteen, 0 1 2 3 4 5 6 7 8 9 10 11 12 13 14 15)),*]
        };
        ($sixteen:literal, $($one:literal)*) => {
            [$(face::<{ 16 * $sixteen + $one }>()),*]
        };
    }
    let faces: Vec<_> = faces!(0 1 2 3 4 5 6 7 8 9 10 11 12 13 14 15).into_iter().flatten().collect();
    assert_eq!(faces.iter().map(|face| face.capacity()).collect::<Vec<_>>(), (0..=MOST).collect::<Vec<_>>());
    faces
}

#[cfg(not(all(debug_assertions, target_arch = "x86_64")))]
fn faces() -> Vec<Box<dyn Tried + Send>> {
    macro_rules! faces {
        ($($capacity:literal)*) => {
            vec![$(face::<$capacity>()),*]
        };
    }
    faces!(0 1 2 3 4 7 8 9 15 16 17 23 31 32 33 63 64 65 127 128 129 254 255)
}

impl<const N: usize> Tried for Face<N> {
    fn capacity(&self) -> usize {
        N
    }

    fn set(&mut self, offset: usize, text: &str) {
        self.string = ArrayString::try_from_str(&FILLER[..offset]).expect("it fits");
        self.string.try_push_str(text).expect("it fits");
        assert_eq!(self.string.drain(..offset).map(|drain| drain.as_str().len()), Ok(offset));
    }

    fn call(&mut self, call: usize, given: &Given) -> Answer {
        (self.calls[call].call)(&mut self.string, given)
    }

    fn assert_is(&self, text: &str, told: &dyn Fn() -> String) {
        let string = &self.string;
        is_shown(string.as_bytes(), string.as_str(), text, told);
        let sizes = [string.len(), string.remaining_capacity(), string.capacity(), ArrayString::<N>::CAPACITY];
        assert_eq!(sizes, [text.len(), N - text.len(), N, N], "{}", told());
        assert_eq!((string.is_empty(), string.is_full()), (text.is_empty(), text.len() == N), "{}", told());
        let mut full = *string;
        full.push_str_truncate(FILLER);
        is_filled(full.as_bytes(), text, N, told);
    }
}

fn is_shown(bytes: &[u8], shown: &str, text: &str, told: &dyn Fn() -> String) {
    assert_eq!(shown, text, "{}", told());
    assert_eq!(bytes, text.as_bytes(), "{}", told());
    assert!(std::str::from_utf8(bytes).is_ok(), "{}", told());
}

fn is_filled(bytes: &[u8], text: &str, capacity: usize, told: &dyn Fn() -> String) {
    let (front, filler) = bytes.split_at(text.len().min(bytes.len()));
    assert_eq!(front, text.as_bytes(), "{}", told());
    assert_eq!((bytes.len(), filler), (capacity, &FILLER.as_bytes()[text.len()..capacity]), "{}", told());
}

/// A string and what it has to be.
struct Pair {
    face: Box<dyn Tried + Send>,
    model: Model,
    rules: Vec<Row<Model>>,
    /// How often both were compared after each call.
    compared: Vec<usize>,
}

impl Pair {
    fn new(face: Box<dyn Tried + Send>) -> Pair {
        let (model, rules) = (Model { text: String::new(), capacity: face.capacity() }, on_a_model());
        Pair { face, model, compared: vec![0; rules.len()], rules }
    }

    fn set(&mut self, offset: usize, text: &str) {
        self.face.set(offset, text);
        self.model.text.clear();
        self.model.text.push_str(text);
    }

    /// Makes a call on both, and compares what they answer, how many items they asked for, and what they are.
    fn call(&mut self, call: usize, given: &Given) {
        let Row { name, call: rule, .. } = self.rules[call];
        let (before, capacity) = (self.model.text.clone(), self.model.capacity);
        let told = || format!("{name} of {before:?} at {capacity} with {given:?}");
        given.asked.set(0);
        let answer = self.face.call(call, given);
        let asked = given.asked.replace(0);
        let wanted = rule(&mut self.model, given);
        assert_eq!((&answer, asked), (&wanted, given.asked.get()), "{}", told());
        assert!(wanted.is_ok() || name == "write!" || self.model.text == before, "{}", told());
        self.face.assert_is(&self.model.text, &told);
        self.compared[call] += 1;
    }

    /// Makes a call with what is random.
    fn random_call(&mut self, call: usize, random: &mut Random) {
        let given = random.given(self.model.text.len(), self.model.room());
        self.call(call, &given);
    }
}

/// How many calls are made at one place of a test: so many, if the environment does not say fewer.
fn calls_at_most(count: usize) -> usize {
    let told = std::env::var("ARRAYSTRING_CALLS").ok();
    told.map_or(count, |told| count.min(told.parse().expect("ARRAYSTRING_CALLS is a number")))
}

/// Runs a test at each capacity up to one, on several threads, and asserts that each call was compared there.
fn at_each(most: usize, test: fn(&mut Pair)) {
    let faces: Vec<_> = faces().into_iter().filter(|face| face.capacity() <= most).collect();
    let (count, tried) = (faces.len(), AtomicUsize::new(0));
    let pairs = Mutex::new(faces);
    let work = || {
        // (the greatest capacities are the first, and take the longest)
        while let Some(face) = { pairs.lock().expect("no panic").pop() } {
            let mut pair = Pair::new(face);
            test(&mut pair);
            let made = pair.rules.iter().zip(&pair.compared);
            let missing: Vec<_> = made.filter(|(_, count)| **count == 0).map(|(row, _)| row.name).collect();
            assert!(missing.is_empty(), "{missing:?} at {}", pair.model.capacity);
            tried.fetch_add(1, Ordering::Relaxed);
        }
    };
    thread::scope(|scope| {
        let threads = [0; 4].map(|_| scope.spawn(work));
        threads.map(|thread| thread.join().unwrap_or_else(|panic| resume_unwind(panic)))
    });
    assert_eq!(tried.into_inner(), count);
}

/// On each length each call is made, at start offsets one behind the other, so that each offset is met.
#[test]
fn each_call_on_each_length_and_start_offset() {
    at_each(MOST, |pair| {
        let mut random = Random(pair.model.capacity as u64);
        for len in 0..=pair.model.capacity {
            let (room, count) = (pair.model.room_behind(len), pair.rules.len());
            for at in 0..calls_at_most(count.max(room + 1)) {
                let text = sources(len)[random.below(VARIANTS)].text;
                pair.set((at + len) % (room + 1), text);
                pair.random_call((at + 7 * len) % count, &mut random);
            }
        }
    });
}

/// At the small capacities each call is made on each text at each start offset, many times.
#[test]
fn each_call_at_each_state_of_small_strings() {
    at_each(12, |pair| {
        let (capacity, count) = (pair.model.capacity, pair.rules.len());
        let mut random = Random(300 + capacity as u64);
        for len in 0..=capacity {
            let (offsets, texts) = (0..=pair.model.room_behind(len), sources(len));
            for (offset, call) in offsets.flat_map(|offset| (0..count).map(move |call| (offset, call))) {
                for at in 0..calls_at_most(6 * VARIANTS) {
                    pair.set(offset, texts[at % VARIANTS].text);
                    pair.random_call(call, &mut random);
                }
            }
        }
    });
}

/// A text of each length up to twice what any string takes is given to each call that takes one.
#[test]
fn each_length_that_is_given() {
    at_each(MOST, |pair| {
        let mut random = Random(600 + pair.model.capacity as u64);
        let count = pair.rules.len();
        for given_len in GIVEN {
            // About the capacity each call is made, and elsewhere some of them.
            let is_near = given_len.abs_diff(pair.model.capacity) <= 5 || given_len.abs_diff(256) <= 1;
            for at in 0..calls_at_most(if is_near { VARIANTS * count } else { 4 }) {
                let room = random.below(if is_near { 8 } else { 300 }).min(pair.model.capacity);
                let len = if at % 2 == 0 { 0 } else { pair.model.capacity - room };
                pair.set(random.below(pair.model.room_behind(len) + 1), sources(len)[0].text);
                let mut given = random.given(pair.model.text.len(), pair.model.room());
                given.source = sources(given_len)[at / 2 % VARIANTS];
                pair.call((at + 4 * given_len) % count, &given);
            }
        }
    });
}

/// Calls one after the other, at what the one before left.
#[test]
fn random_runs() {
    at_each(MOST, |pair| {
        let mut random = Random(1000 + pair.model.capacity as u64);
        for _ in 0..calls_at_most(1500) {
            let call = random.below(pair.rules.len());
            pair.random_call(call, &mut random);
        }
        // (the environment may say so few that not each was met)
        for call in 0..pair.rules.len() {
            pair.random_call(call, &mut random);
        }
    });
}

/// The indices about the ends of a text of a length, past it, and past a byte.
fn places(len: usize) -> Vec<usize> {
    let mut places =
        vec![0, 1, len / 2, len.saturating_sub(1), len, len + 1, 255, 256, 257, 256 + len / 2, 256 + len, 300];
    places.extend([65536, 65536 + len / 2, usize::MAX - 1, usize::MAX]);
    places.sort_unstable();
    places.dedup();
    places
}

/// The calls that are given what a word says.
fn calls_given(pair: &Pair, word: &str) -> Vec<usize> {
    (0..pair.rules.len()).filter(|call| pair.rules[*call].given.contains(&word)).collect()
}

/// The ranges of each kind with ends at each of the places, and each of the places as an index.
#[test]
fn each_kind_of_range_and_each_index() {
    for face in faces() {
        let mut pair = Pair::new(face);
        let mut random = Random(2000 + pair.model.capacity as u64);
        let capacity = pair.model.capacity;
        let len = [capacity, capacity / 2, capacity.saturating_sub(4)][capacity % 3];
        let text = sources(len)[1].text;
        let (by_index, by_range) = (calls_given(&pair, "at"), calls_given(&pair, "range"));
        assert!(by_index.len() > 7 && by_range.len() > 3, "{by_index:?} {by_range:?}");
        for call in by_index {
            for at in places(len) {
                pair.set(random.below(capacity - len + 1), text);
                let given = Given { at, ..random.given(len, capacity - len) };
                pair.call(call, &given);
            }
        }
        let ranges = places(len).into_iter().flat_map(|start| places(len).into_iter().map(move |end| (start, end)));
        for (at, (start, end)) in ranges.enumerate() {
            for kind in 0..KINDS {
                pair.set(random.below(capacity - len + 1), text);
                let given = Given { range: Ends::of_kind(kind, start, end), ..random.given(len, capacity - len) };
                pair.call(by_range[(at + kind) % by_range.len()], &given);
            }
        }
    }
}

/// The ranges of std themselves, and not what has their bounds.
#[test]
fn ranges_of_std_are_taken() {
    fn at<const N: usize>() {
        for text in ["", "aé€", "aé€🤔b"].into_iter().filter(|text| text.len() <= N) {
            for (start, end) in places(text.len()).into_iter().flat_map(|start| (0..=260).map(move |end| (start, end)))
            {
                for kind in 0..KINDS {
                    let ends = Ends::of_kind(kind, start, end);
                    let mut model = Model { text: text.to_string(), capacity: N };
                    let given = Given { range: ends.clone(), ..Random(0).given(text.len(), 0) };
                    let mut string = ArrayString::<N>::try_from_str(text).expect("it fits");
                    let drained = ranges::by_std!(ends, range => string.drain(range));
                    assert_eq!(
                        drained.map(|drain| drain.as_str().to_string()),
                        model.drain(&given),
                        "{text:?} {given:?}"
                    );
                    assert_eq!(string, *model.text, "{text:?} {given:?}");
                }
            }
        }
    }
    at::<0>();
    at::<6>();
    at::<255>();
}

/// The public calls of a string and of a drain that the sources have.
fn public_calls() -> BTreeSet<String> {
    let files = ["string", "construct", "edit", "whole", "unchecked", "lent", "macros", "drain"];
    let sources: String = files.map(|file| fs::read_to_string(format!("src/{file}.rs")).expect("a text")).concat();
    let functions =
        sources.split("    pub ").skip(1).map(|item| item.trim_start_matches("const ").trim_start_matches("unsafe "));
    let names = functions.filter_map(|item| item.strip_prefix("fn ")?.split_once(['<', '(']));
    names.map(|(name, _)| name.to_string()).collect()
}

/// A call that is not among those here is not tested beside a `String`.
#[test]
fn no_public_call_is_missing() {
    let shown =
        ["capacity", "len", "is_empty", "remaining_capacity", "is_full", "as_str", "as_bytes"].map(str::to_string);
    let rows = on_a_model().into_iter().map(|row| row.name.to_string());
    let tried: BTreeSet<_> = rows.chain(shown).collect();
    let public = public_calls();
    assert!(public.len() > 50, "{public:?}");
    let missing: Vec<_> = public.difference(&tried).collect();
    assert!(missing.is_empty(), "{missing:?}");
}
