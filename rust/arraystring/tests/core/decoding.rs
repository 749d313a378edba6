//! What is read as text, beside std. Bytes are taken exactly where std takes them as UTF-8: each length, each place and each byte
//! of a fault. Units begin with a run of ASCII: each length of it up to past the capacity, and each kind of unit behind it.

use std::thread;

use crate::inputs::cut;
use crate::{ArrayString, Error, Utf8, capacity};

/// How many bytes the texts have at most: more than any string takes.
const MOST: usize = 300;

/// Asserts that bytes are taken or refused as std does it, and that what is taken is cut or refused for its size. Returns 1.
pub fn as_std<const N: usize>(bytes: &[u8]) -> usize {
    let wanted = std::str::from_utf8(bytes);
    let made = ArrayString::<N>::from_utf8(bytes);
    let whole = ArrayString::<N>::try_from_utf8(bytes);
    let Ok(text) = wanted else {
        assert_eq!((made, whole), (Err(Utf8), Err(Error::Utf8)), "{bytes:x?}");
        return 1;
    };
    let cut = cut(text, capacity::<N>());
    assert_eq!(made.as_ref().map(|made| made.as_bytes()), Ok(cut.as_bytes()), "{bytes:x?}");
    match whole {
        Ok(whole) => assert_eq!((whole.as_bytes(), text.len()), (bytes, cut.len()), "{bytes:x?}"),
        refused => assert!(refused == Err(Error::OutOfBounds) && text.len() > cut.len(), "{bytes:x?}"),
    }
    1
}

/// Makes a test of each number below a limit, on four threads, and returns how many texts were tried.
fn each_below(limit: usize, test: impl Fn(usize) -> usize + Sync) -> usize {
    let test = &test;
    thread::scope(|scope| {
        let some = |first: usize| scope.spawn(move || (first..limit).step_by(4).map(test).sum::<usize>());
        let threads = [0, 1, 2, 3].map(some);
        threads.into_iter().map(|thread| thread.join().expect("no panic")).sum()
    })
}

/// ASCII of some length, with each byte of it among them.
fn ascii(len: usize) -> Vec<u8> {
    (0..len).map(|at| (at * 7 % 128) as u8).collect()
}

/// Puts a byte that is not ASCII at each place of ASCII: each such byte, or those at the ends and one that changes.
fn one_fault_in_ascii(len: usize, is_each: bool) -> usize {
    let mut bytes = ascii(len);
    let mut count = as_std::<255>(&bytes);
    for at in 0..len {
        let byte = bytes[at];
        let some = vec![0x80, 0xFF, 0x80 + (at + len) as u8 % 0x80];
        for fault in if is_each { (0x80..=0xFF).collect() } else { some } {
            bytes[at] = fault;
            assert_eq!(ArrayString::<255>::from_utf8(&bytes), Err(Utf8), "{fault:x} at {at} of {len}");
            count += 1;
        }
        bytes[at] = byte;
    }
    count
}

#[test]
fn one_byte_from_80_on_at_each_place_of_ascii() {
    // Without optimisation all bytes at all lengths take a minute, so some lengths have some of the bytes there.
    let is_each = |len: usize| !cfg!(debug_assertions) || len <= 66 || (127..=129).contains(&len);
    let count = each_below(MOST + 1, |len| one_fault_in_ascii(len, is_each(len)));
    // The sum of all lengths, and of those in which each byte is tried.
    let (places, full) = (45_150, if cfg!(debug_assertions) { 2211 + 384 } else { 45_150 });
    assert_eq!(count, 301 + 128 * full + 3 * (places - full));
}

#[test]
fn one_byte_from_80_on_at_each_place_of_long_ascii() {
    // Around each multiple of 32 behind those of the test above, and the longest.
    let lengths: Vec<usize> =
        (MOST + 1..=520).filter(|len| len % 32 <= 1 || len % 32 == 31 || len % 100 == 0).collect();
    let count =
        each_below(lengths.len(), |at| one_fault_in_ascii(lengths[at], false) + as_std::<255>(&cut_short(lengths[at])));
    assert_eq!(count, lengths.iter().map(|len| 1 + 3 * len + 1).sum());
}

/// So many bytes of ASCII, of which the last is the first of a wider character.
fn cut_short(len: usize) -> Vec<u8> {
    [&ascii(len - 1)[..], &[0xC3]].concat()
}

#[test]
fn each_width_at_each_place_of_ascii() {
    let count = each_below(MOST + 1, |len| {
        let mut count = 0;
        for at in 0..=len {
            for ch in ['\0', '\u{7F}', '\u{80}', '\u{7FF}', '\u{800}', '\u{FFFF}', '\u{10000}', '\u{10FFFF}'] {
                let mut bytes = ascii(len);
                let spelled = ch.to_string();
                bytes.splice(at..at, spelled.bytes());
                count += as_std::<255>(&bytes);
                if ch.len_utf8() > 1 {
                    // Without its last byte.
                    bytes.remove(at + ch.len_utf8() - 1);
                    count += as_std::<255>(&bytes);
                }
            }
        }
        count
    });
    // Eight characters, and six without their last byte, at one place more than each length has.
    assert_eq!(count, (8 + 6) * (45_150 + 301));
}

#[test]
fn each_two_bytes_at_some_places() {
    let count = each_below(0x10000, |pair| {
        let two = (pair as u16).to_be_bytes();
        let places = [(0, 0), (0, 2), (2, 0), (13, 1), (14, 0), (15, 20), (31, 3), (62, 4)];
        places.map(|(before, after)| as_std::<255>(&[&ascii(before)[..], &two, &ascii(after)].concat())).iter().sum()
    });
    assert_eq!(count, 8 * 0x10000);
}

/// The bytes at which the rows of the table of well-formed bytes begin and end, and their neighbours (the Unicode Standard,
/// section 3.9).
const EDGES: &[u8] = &[
    0x00, 0x7F, 0x80, 0x8F, 0x90, 0x9F, 0xA0, 0xBF, 0xC0, 0xC1, 0xC2, 0xDF, 0xE0, 0xE1, 0xEC, 0xED, 0xEE, 0xEF, 0xF0,
    0xF1, 0xF3, 0xF4, 0xF5, 0xFF,
];

#[test]
fn each_four_bytes_of_the_edges() {
    let count = each_below(EDGES.len() * EDGES.len(), |two| {
        let (first, second) = (EDGES[two / EDGES.len()], EDGES[two % EDGES.len()]);
        let mut count = 0;
        for third in EDGES {
            let three = [first, second, *third];
            count += as_std::<255>(&three) + as_std::<255>(&[&ascii(16)[..], &three].concat());
            for fourth in EDGES {
                let four = [first, second, *third, *fourth];
                count += as_std::<255>(&four) + as_std::<255>(&[&four[..], b"abcd"].concat());
            }
        }
        count
    });
    assert_eq!(count, 2 * 24 * 24 * 24 * (1 + 24));
}

#[test]
fn each_character_is_taken() {
    let count = each_below(0x11, |plane| {
        let mut count = 0;
        for ch in (0..0x1_0000).filter_map(|low| char::from_u32((plane * 0x1_0000 + low) as u32)) {
            let (mut spelled, mut units) = ([0; 4], [0; 2]);
            let spelled = ch.encode_utf8(&mut spelled);
            let string = ArrayString::<4>::from_utf8(spelled.as_bytes()).expect("a character");
            assert_eq!(string.as_bytes(), spelled.as_bytes());
            assert_eq!(ArrayString::<4>::from_utf16(ch.encode_utf16(&mut units)).as_ref(), Ok(&string));
            let mut pushed = ArrayString::<4>::new();
            assert_eq!((pushed.try_push(ch), pushed.as_bytes()), (Ok(()), spelled.as_bytes()));
            assert_eq!((pushed.pop(), pushed.is_empty()), (Some(ch), true));
            let (mut removed, mut kept) = (string, string);
            assert_eq!((removed.remove(0), removed.is_empty()), (Ok(ch), true));
            kept.retain(|asked| asked != ch);
            assert!(kept.is_empty(), "{ch:?}");
            count += 1;
        }
        count
    });
    // All but the surrogates.
    assert_eq!(count, 0x11_0000 - 0x800);
}

#[test]
fn a_smaller_string_takes_the_same() {
    for len in 0..=70 {
        for at in 0..len {
            let mut bytes = ascii(len);
            as_std::<63>(&bytes);
            for fault in [0x80, 0xBF, 0xC0, 0xFF] {
                bytes[at] = fault;
                as_std::<63>(&bytes);
            }
        }
    }
}

/// What comes behind a run: units around each limit, pairs, and lone surrogates.
const BEHIND: [&[u16]; 14] = [
    &[],
    &[0x7F, 0x61],
    &[0x80, 0x61],
    &[0xFF, 0x61],
    &[0x100, 0x61],
    &[0x141, 0x61],
    &[0x7FF, 0x61],
    &[0x800, 0x61],
    &[0xFFFF, 0x61],
    &[0xD83E, 0xDD14, 0x61],
    &[0xD83E],
    &[0xD83E, 0x61],
    &[0xDD14, 0x61],
    &[0xDD14, 0xD83E],
];

/// Asserts that units are read as std reads them, and what is read is cut or refused for its size.
pub fn are_units_read<const N: usize>(units: &[u16]) {
    let capacity = capacity::<N>();
    let items: Vec<Result<char, u16>> =
        char::decode_utf16(units.iter().copied()).map(|item| item.map_err(|lone| lone.unpaired_surrogate())).collect();
    let prefix: String = items.iter().map_while(|item| item.ok()).collect();
    let fits = prefix.len() <= capacity;
    let has_lone = items.iter().any(|item| item.is_err());
    let made = ArrayString::<N>::from_utf16(units);
    // A lone surrogate counts where it comes right after what fits.
    if fits && has_lone {
        assert!(made.is_err(), "{N}: {units:x?}");
    } else {
        assert_eq!(made.expect("no fault before").as_str(), cut(&prefix, capacity), "{N}: {units:x?}");
    }
    match ArrayString::<N>::try_from_utf16(units) {
        Ok(made) => assert!(fits && !has_lone && made.as_str() == prefix, "{N}: {units:x?}"),
        Err(_) => assert!(!fits || has_lone, "{N}: {units:x?}"),
    }
    let lossy = String::from_utf16_lossy(units);
    assert_eq!(ArrayString::<N>::from_utf16_lossy(units).as_str(), cut(&lossy, capacity), "{N}: {units:x?}");
}

fn check_runs<const N: usize>() {
    for length in 0..=N + 2 {
        for first in [0u16, 0x20, 0x7F] {
            for behind in BEHIND {
                let mut units: Vec<u16> = (0..length).map(|at| (first + at as u16) % 0x80).collect();
                units.extend_from_slice(behind);
                are_units_read::<N>(&units);
            }
        }
    }
}

#[test]
fn a_run_of_ascii_in_front_of_units() {
    check_runs::<0>();
    check_runs::<1>();
    check_runs::<2>();
    check_runs::<3>();
    check_runs::<4>();
    check_runs::<8>();
    check_runs::<23>();
    check_runs::<255>();
    check_runs::<300>();
}

#[test]
fn each_unit_behind_a_run() {
    for unit in 0..=0xFFFF {
        are_units_read::<6>(&[0x61, 0x62, unit, 0x63]);
        are_units_read::<3>(&[unit, 0x63]);
    }
}
