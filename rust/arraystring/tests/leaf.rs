//! What `src/leaf.rs` does, which is a part of this test as it is of the crate: where its source's `requires` holds, each function answers
//! and changes what its source ensures, and nothing else changes, behind the slice neither. Where accesses are tested, the first
//! argument that breaks a `requires` panics and says what is required. Elsewhere no such call is made.

use std::collections::BTreeMap;
use std::fmt::Debug;
use std::fs;
use std::panic::{AssertUnwindSafe, catch_unwind};

#[path = "../src/leaf.rs"]
#[allow(unused_imports, reason = "the files that are made take `char` and `str` of it")]
mod leaf;

use leaf::*;

/// (said anew here, so that a build that lost its tests shows)
const TESTS: bool = cfg!(any(debug_assertions, feature = "checked", not(target_pointer_width = "64")));

/// The greatest length at whose places all is tried.
const MOST: usize = 40;

/// Lengths about the sizes of registers and the greatest text, which are tried at some places.
const LONGER: [usize; 8] = [63, 64, 65, 127, 128, 129, 255, 256];

/// How many bytes lie before a slice, and behind it.
const BESIDE: usize = 70;

/// Arguments that are past all, of which some make a sum wrap.
const PAST: [usize; 4] = [usize::MAX - 40, usize::MAX - 1, usize::MAX, usize::MAX / 2 + 1];

fn lengths() -> impl Iterator<Item = usize> {
    (0..=MOST).chain(LONGER)
}

/// Places in `len` bytes: each of few, and of many those at the start, in the middle and at the end.
fn places(len: usize) -> Vec<usize> {
    let near = [0, 1, 2, 15, 16, 17, 31, 32].into_iter().flat_map(|at| [at, len / 2 + at, len.saturating_sub(at)]);
    let mut places: Vec<_> = if len <= MOST { (0..=len).collect() } else { near.filter(|at| *at <= len).collect() };
    places.sort_unstable();
    places.dedup();
    places
}

/// The ranges between places of `len` bytes.
fn ranges(len: usize) -> Vec<(usize, usize)> {
    let places = places(len);
    places.iter().flat_map(|start| places.iter().map(move |end| (*start, *end))).filter(|at| at.0 <= at.1).collect()
}

/// Bytes of which those near each other differ, with letters of both cases among them.
fn bytes(len: usize) -> Vec<u8> {
    (0..len).map(|at| (at * 7 + at / 256 + 60) as u8).collect()
}

fn written(bytes: &[u8]) -> Vec<MaybeByte> {
    bytes.iter().copied().map(MaybeByte::new).collect()
}

fn values(places: &[MaybeByte]) -> Vec<u8> {
    places.iter().map(|place| byte(&[*place], 0)).collect()
}

/// Asserts that an edit of `len` places does what the plain one does, also to what lies beside them.
#[track_caller]
fn changes(len: usize, edit: impl FnOnce(&mut [MaybeByte]), plain: impl FnOnce(&mut [u8])) {
    let mut wanted = bytes(len + 2 * BESIDE);
    let mut all = written(&wanted);
    edit(&mut all[BESIDE..BESIDE + len]);
    plain(&mut wanted[BESIDE..BESIDE + len]);
    assert_eq!(values(&all), wanted);
}

/// Asserts that a call panics by what it requires, where that is tested.
#[track_caller]
fn refused<T: Debug>(call: impl FnOnce() -> T) {
    if TESTS {
        let why = catch_unwind(AssertUnwindSafe(call)).expect_err("no panic");
        let why = why.downcast_ref::<&str>().expect("a text");
        assert!(why.starts_with("it is required that `"), "{why}");
    }
}

/// Places past `len`: the first one, and some others.
fn places_past(len: usize) -> impl Iterator<Item = usize> {
    [len + 1, len + 16].into_iter().chain(PAST)
}

/// The ends of `len` bytes, and their middle.
fn ends(len: usize) -> [usize; 3] {
    [0, len / 2, len]
}

/// The functions of a source or of the leaf, each with the names of its parameters and its contract: what lies between two texts.
fn contracts(file: &str, between: (&str, &str)) -> BTreeMap<String, String> {
    let text = fs::read_to_string(file).expect("a text").replace("\n/// ", "\n");
    let contract = |item: &str| {
        let (_, signature) = item.split_once("fn ").filter(|_| !item.starts_with(' '))?;
        let (name, parameters) = (signature.split(['(', '<']).next()?, signature.split_once('(')?.1.split_once(')')?.0);
        let parameters: Vec<_> = parameters.split(',').filter_map(|it| Some(it.trim().split_once(':')?.0)).collect();
        let clauses = item.split_once(between.0)?.1.split_once(between.1)?.0;
        let clauses = clauses.split_whitespace().collect::<Vec<_>>().join(" ");
        Some((name.to_string(), format!("({}) {clauses}", parameters.join(", "))))
    };
    text.split("\n\n").filter_map(contract).collect()
}

/// (the package has no sources)
#[test]
fn each_function_has_the_contract_of_its_source() {
    let source = "../../crates/arraystring_base/src/leaf.rt";
    let here = contracts("src/leaf.rs", ("```text\nrequires", "```"));
    assert_eq!(here.len(), 12, "{here:?}");
    if fs::exists(source).expect("whether it is there") {
        let there = contracts(source, ("\n    requires", "\n{"));
        for (name, contract) in here {
            assert_eq!(Some(&contract), there.get(&name), "{name}");
        }
    }
}

#[test]
fn one_byte_is_read() {
    for len in lengths() {
        let (given, all) = (bytes(len), written(&bytes(len)));
        for at in (0..len).filter(|at| len <= MOST || places(len).contains(at)) {
            assert_eq!((byte(&given, at), byte(&all, at)), (given[at], given[at]));
        }
        for at in places_past(len).chain([len]) {
            refused(|| byte(&given, at));
            refused(|| byte(&all, at));
        }
    }
}

#[test]
fn a_part_is_borrowed_and_its_letters_are_turned() {
    const PART: &[u8] = part_of_length(&[MaybeByte::new(b'a'), MaybeByte::new(b'b'), NEW_BYTE], 1, 1);
    assert_eq!(PART, b"b");
    let mut count = 0;
    for len in lengths() {
        let (given, mut all) = (bytes(len), written(&bytes(len)));
        for (start, end) in ranges(len) {
            let found = part_of_length(&all, start, end - start);
            assert_eq!((found, found.as_ptr()), (&given[start..end], given_at(&all, start)));
            changes(len, |all| uppercase_between(all, start, end), |all| all[start..end].make_ascii_uppercase());
            changes(len, |all| lowercase_between(all, start, end), |all| all[start..end].make_ascii_lowercase());
            count += 1;
        }
        for start in ends(len) {
            for past in places_past(len) {
                refused(|| part_of_length(&all, start, past - start));
                refused(|| part_of_length(&all, past, start));
                refused(|| uppercase_between(&mut all, start, past));
                refused(|| lowercase_between(&mut all, start, past));
                refused(|| uppercase_between(&mut all, past, past));
                refused(|| lowercase_between(&mut all, past, past));
            }
            for end in ends(len).into_iter().filter(|end| *end < start) {
                refused(|| uppercase_between(&mut all, start, end));
                refused(|| lowercase_between(&mut all, start, end));
            }
        }
        assert_eq!(values(&all), given, "what is refused changes nothing");
    }
    assert!(count > 12_000, "{count}");
}

/// Where a place is.
fn given_at(all: &[MaybeByte], at: usize) -> *const u8 {
    all.as_ptr().wrapping_add(at).cast()
}

#[test]
fn a_few_bytes_are_read_and_written() {
    fn of<const K: usize>() {
        let new: [u8; K] = std::array::from_fn(|at| 200 - at as u8);
        let new_places = new.map(MaybeByte::new);
        for len in lengths() {
            let (given, mut all) = (bytes(len), written(&bytes(len)));
            for at in (0..=len).filter(|at| at + K <= len && (len <= MOST || places(len).contains(at))) {
                assert_eq!(values(&vector_at::<K>(&given, at)), given[at..at + K]);
                assert_eq!(values(&vector_at::<K>(&all, at)), given[at..at + K]);
                changes(len, |all| put_array(all, at, new), |all| all[at..at + K].copy_from_slice(&new));
                changes(len, |all| put_vector(all, at, new_places), |all| all[at..at + K].copy_from_slice(&new));
            }
            for at in places_past(len.saturating_sub(K)).chain((K > len).then_some(0)) {
                // (no bytes are within at the end of a slice, and nowhere else past its last one)
                if K > 0 || at > len {
                    refused(|| vector_at::<K>(&given, at));
                    refused(|| vector_at::<K>(&all, at));
                    refused(|| put_array(&mut all, at, new));
                    refused(|| put_vector(&mut all, at, new_places));
                }
            }
            assert_eq!(values(&all), given, "what is refused changes nothing");
        }
    }
    of::<0>();
    of::<1>();
    of::<2>();
    of::<3>();
    of::<4>();
    of::<8>();
    of::<16>();
    of::<32>();
    of::<64>();
}

#[test]
fn any_number_of_bytes_is_written() {
    for len in lengths() {
        let given = [vec![1; 30], bytes(len)].concat();
        for (at, end) in ranges(len) {
            let new = &given[len + 30 - (end - at)..];
            changes(len, |all| write_bytes(all, new, at), |all| all[at..end].copy_from_slice(new));
        }
        let mut all = written(&bytes(len));
        for at in ends(len) {
            refused(|| write_bytes(&mut all, &given[..len - at + 1], at));
            refused(|| write_bytes(&mut all, &given, at));
        }
        for at in places_past(len) {
            refused(|| write_bytes(&mut all, &[], at));
            refused(|| write_bytes(&mut all, &[1], at));
        }
        assert_eq!(values(&all), bytes(len), "what is refused changes nothing");
    }
}

#[test]
fn any_run_of_an_array_is_moved() {
    fn of<const N: usize>() {
        for (from, end) in ranges(N) {
            for to in places(N - (end - from)) {
                let edit = |all: &mut [MaybeByte]| {
                    move_on_cold_path::<N>(all.try_into().expect("N places"), from, to, end - from)
                };
                changes(N, edit, |all| all.copy_within(from..end, to));
            }
        }
        let mut all: [MaybeByte; N] = written(&bytes(N)).try_into().expect("N places");
        for run in ends(N) {
            for past in places_past(N - run) {
                refused(|| move_on_cold_path(&mut all, 0, past, run));
                refused(|| move_on_cold_path(&mut all, past, 0, run));
            }
        }
        assert_eq!(values(&all), bytes(N), "what is refused changes nothing");
    }
    of::<0>();
    of::<1>();
    of::<15>();
    of::<16>();
    of::<40>();
    of::<256>();
}

#[test]
fn a_long_run_is_moved() {
    fn of<const N: usize>() -> usize {
        let mut count = 0;
        for len in lengths() {
            for (from, end) in ranges(len).into_iter().filter(|(from, end)| (16..=N).contains(&(end - from))) {
                for to in places(len - (end - from)) {
                    let edit = |all: &mut [MaybeByte]| move_16_or_more::<N>(all, from, to, end - from);
                    changes(len, edit, |all| all.copy_within(from..end, to));
                    count += 1;
                }
            }
            let mut all = written(&bytes(len));
            for run in ends(len) {
                if !(16..=N).contains(&run) {
                    refused(|| move_16_or_more::<N>(&mut all, 0, len - run, run));
                }
                for past in places_past(len - run) {
                    refused(|| move_16_or_more::<N>(&mut all, 0, past, run));
                    refused(|| move_16_or_more::<N>(&mut all, past, 0, run));
                }
            }
            assert_eq!(values(&all), bytes(len), "what is refused changes nothing");
        }
        count
    }
    assert_eq!(of::<15>(), 0, "no run of 16 bytes is in 15");
    assert!(of::<16>() > 6_000);
    assert!(of::<40>() > 40_000);
    assert!(of::<256>() > of::<40>());
}

#[test]
fn a_text_is_cut_at_a_boundary() {
    let longer = ["aé€🤔".repeat(4), "é".repeat(127), "🤔".repeat(64)];
    let mut count = 0;
    let short = ["", "a", "é", "€", "🤔", "aé€🤔z", "🤔€éa"];
    for text in short.into_iter().chain(longer.iter().map(String::as_str)) {
        for at in 0..=text.len() + 5 {
            match (text.get(..at), text.get(at..)) {
                (Some(before), Some(behind)) => {
                    assert_eq!((text_before_boundary(text, at), text_from_boundary(text, at)), (before, behind));
                    assert_eq!(text_from_boundary(text, at).as_ptr(), text.as_ptr().wrapping_add(at));
                    count += 1;
                }
                _ => {
                    refused(|| text_before_boundary(text, at));
                    refused(|| text_from_boundary(text, at));
                }
            }
        }
        for at in PAST {
            refused(|| text_before_boundary(text, at));
            refused(|| text_from_boundary(text, at));
        }
    }
    assert_eq!(count, 1 + 2 + 2 + 2 + 2 + 6 + 5 + 17 + 128 + 65);
}

#[test]
fn a_new_place_has_a_value_where_accesses_are_tested() {
    if TESTS {
        assert_eq!(values(&[NEW_BYTE; 3]), [0; 3]);
    }
    let mut all = [NEW_BYTE; 40];
    write_bytes(&mut all, &bytes(30), 5);
    move_16_or_more::<40>(&mut all, 5, 0, 30);
    assert_eq!(part_of_length(&all, 0, 30), bytes(30));
}
