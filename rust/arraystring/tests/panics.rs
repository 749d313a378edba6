//! Every call that panics, by the words of its panic and by the line that it names: the index does, as that of `String`, and so does what
//! `arraystring!` is made of. No other call panics, whatever it is given.

use std::cell::RefCell;
use std::fmt::Write;
use std::ops::{Bound, RangeBounds};
use std::panic::{AssertUnwindSafe, catch_unwind, set_hook};
use std::sync::Once;

use arraystring::{ArrayString, MaxString};
use inputs::{CHARS, behind, texts_of};

mod inputs;

/// The file and the line that a panic names.
type MaybeByte = (String, u32);

thread_local! {
    /// The place of the last panic of a thread.
    static PLACE: RefCell<Option<MaybeByte>> = const { RefCell::new(None) };
}

/// The words and the place of the panic of a call.
fn panic_of(call: impl FnOnce()) -> (String, MaybeByte) {
    static HOOK: Once = Once::new();
    HOOK.call_once(|| {
        set_hook(Box::new(|panic| {
            let place = panic.location().map(|place| (place.file().to_string(), place.line()));
            PLACE.with(|last| *last.borrow_mut() = place);
            eprintln!("{panic}");
        }));
    });
    let panicked = catch_unwind(AssertUnwindSafe(call)).expect_err("a panic");
    let place = PLACE.with(RefCell::take).expect("a place");
    match panicked.downcast_ref::<String>() {
        Some(words) => (words.clone(), place),
        None => (panicked.downcast_ref::<&str>().expect("words").to_string(), place),
    }
}

/// The words of the panic of a call, which has to name the line of the call.
macro_rules! words {
    ($call:expr) => {{
        let (words, place) = panic_of(|| _ = $call);
        assert_eq!(place, (file!().to_string(), line!()), "{words}");
        words
    }};
}

/// A string of a text that fits.
fn string<const N: usize>(text: &str) -> ArrayString<N> {
    ArrayString::try_from_str(text).expect("room")
}

/// The comparison of places sees a call that is one line off, so the tests below can fail.
#[test]
fn a_call_on_another_line_is_told() {
    let line = line!() + 1;
    let of_string = || _ = &string::<4>("abc")[2..9];
    assert!(catch_unwind(|| words!(of_string())).is_err());
    assert_eq!(panic_of(of_string).1, (file!().to_string(), line));
    let of_str = || _ = &"abc"[2..9];
    assert!(catch_unwind(|| words!(of_str())).is_err());
    assert_eq!(words!(&string::<4>("abc")[2..9]), panic_of(of_str).0);
}

/// Asserts that a part panics where that of a `String` does, with the same words and at the same place, and is the same one elsewhere.
/// Returns whether it panics.
macro_rules! as_string_does {
    ($string:expr, $range:expr) => {{
        let (mut string, mut text, range) = ($string, $string.to_string(), $range);
        match text.get(range.clone()) {
            Some(part) => {
                assert_eq!((&string[range.clone()], string.get(range.clone())), (part, Some(part)));
                assert_eq!(&mut string[range.clone()], part);
                false
            }
            None => {
                let before = string;
                let wanted = words!(&text[range.clone()]);
                assert_eq!(words!(&mut text[range.clone()]), wanted);
                assert_eq!(words!(&string[range.clone()]), wanted);
                assert_eq!(words!(&mut string[range.clone()]), wanted);
                assert_eq!(words!(string[range.clone()].make_ascii_uppercase()), wanted);
                assert_eq!((string.get(range), string), (None, before));
                true
            }
        }
    }};
}

/// What a text of at most 12 bytes is asked for.
const ENDS: [usize; 21] =
    [0, 1, 2, 3, 4, 5, 6, 7, 8, 9, 10, 11, 12, 13, 127, 254, 255, 256, 257, usize::MAX - 1, usize::MAX];

#[test]
fn each_kind_of_range_panics_as_that_of_a_string() {
    let (mut made, mut panicked) = (0, 0);
    for text in ["", "a", "aé€🤔", "🤔🤔🤔", "abcdefghijkl"] {
        for offset in [0, 12 - text.len()] {
            let string = behind::<12>(offset, text);
            assert_eq!(&string[..], text);
            for end in ENDS {
                let mut panics = vec![
                    as_string_does!(string, end..),
                    as_string_does!(string, ..end),
                    as_string_does!(string, ..=end),
                ];
                panics.extend(ENDS.map(|start| as_string_does!(string, start..end)));
                panics.extend(ENDS.map(|start| as_string_does!(string, start..=end)));
                made += panics.len();
                panicked += panics.iter().filter(|panics| **panics).count();
            }
        }
    }
    assert_eq!(made, 5 * 2 * 21 * (3 + 2 * 21));
    // A text of so many boundaries has a part from each and to each, one to the byte before each but the first, and one between each two,
    // which are given with the end behind the part and, but for the empty one at the front, with the last byte in it.
    let parts = [1, 2, 5, 4, 13].map(|count| 3 * count - 1 + count * (count + 1) - 1);
    assert_eq!(made - panicked, 2 * parts.iter().sum::<usize>());
}

#[test]
fn a_full_text_has_no_end_past_it() {
    let full = string::<255>(&"x".repeat(255));
    for end in 0..=254 {
        assert_eq!((full[..=end].len(), full[end..].len()), (end + 1, 255 - end));
    }
    assert_eq!((full[..].len(), full[255..].len()), (255, 0));
    assert!(as_string_does!(full, ..=255) && as_string_does!(full, 256..) && as_string_does!(full, 0..256));
}

/// An index that is 256 more is no index that is there.
#[test]
fn a_part_of_the_array_that_is_no_text_is_not_lent() {
    for len in 0..8 {
        let mut string = string::<8>("abcdefgh");
        assert!(string.truncate(len).is_ok());
        for end in (len + 1..=9).chain([256, 256 + len]) {
            for start in [0, len, end, 256] {
                assert!(as_string_does!(string, start..end), "{start} {end}");
            }
        }
    }
}

#[test]
fn what_does_not_fit_into_a_constant_names_its_line() {
    let wanted = "the text does not fit into the capacity";
    for len in 0..=520 {
        let text = "m".repeat(len);
        if len > 4 {
            assert_eq!(words!(ArrayString::<4>::of_constant(&text)), wanted);
        }
        if len > 255 {
            assert_eq!(words!(MaxString::of_constant(&text)), wanted);
        } else {
            assert_eq!(MaxString::of_constant(&text).as_str(), text);
        }
    }
}

/// Indices in a text, at its end and behind it, as bytes count and as they don't.
fn indices(len: usize) -> impl Iterator<Item = usize> {
    let few = if len < 20 { 0..len } else { len - 3..len };
    few.chain([len, len + 1, 127, 254, 255, 256, 257, 256 + len, 65_536, usize::MAX - 1, usize::MAX])
}

/// Makes each call on a range, of which none may panic.
fn edits_a_range<const N: usize>(string: ArrayString<N>, range: impl RangeBounds<usize> + Clone, text: &str) {
    let (mut drained, mut replaced) = (string, string);
    let drain = drained.drain(range.clone()).map(|drain| drain.rev().count());
    let replacement = replaced.replace_range(range, text);
    assert!(drain.is_ok() || drained == string, "{string:?}");
    assert!(replacement.is_ok() || replaced == string, "{string:?}");
}

/// Makes each call with an index or a range at some place, and with a text.
fn edits_at<const N: usize>(string: ArrayString<N>, at: usize, text: &str) {
    let calls: [&dyn Fn(&mut ArrayString<N>) -> bool; 6] = [
        &|it| it.try_insert(at, 'é').is_ok(),
        &|it| it.try_insert_str(at, text).is_ok(),
        &|it| it.insert_str_truncate(at, text).is_ok(),
        &|it| it.remove(at).is_ok(),
        &|it| it.truncate(at).is_ok(),
        &|it| it.split_off(at).is_ok(),
    ];
    for call in calls {
        let mut edited = string;
        assert!(call(&mut edited) || edited == string, "{string:?} at {at} with {text:?}");
    }
    edits_a_range(string, at.., text);
    edits_a_range(string, ..at, text);
    edits_a_range(string, ..=at, text);
    for end in [0, 1, string.len(), at, at.saturating_sub(1), at.saturating_add(1), 256, usize::MAX] {
        edits_a_range(string, at..end, text);
        edits_a_range(string, at..=end, text);
        edits_a_range(string, (Bound::Excluded(at), Bound::Excluded(end)), text);
        edits_a_range(string, (Bound::Excluded(at), Bound::Included(end)), text);
        edits_a_range(string, (Bound::Excluded(end), Bound::Unbounded), text);
        let mut walked = at..=end;
        _ = (walked.next(), walked.next_back());
        edits_a_range(string, walked, text);
    }
}

/// Makes each call that adds a text, or makes a string of it.
fn adds<const N: usize>(string: ArrayString<N>, text: &str) {
    let units: Vec<u16> = text.encode_utf16().collect();
    let adding: [&dyn Fn(&mut ArrayString<N>) -> bool; 9] = [
        &|it| it.try_push_str(text).is_ok(),
        &|it| it.push_str_truncate(text).is_empty(),
        &|it| it.try_extend_chars(text.chars()).is_ok(),
        &|it| it.try_extend_strs([text, text]).is_ok(),
        &|it| it.extend_chars_truncate(text.chars()),
        &|it| it.extend_strs_truncate([text, text]),
        &|it| it.try_write(format_args!("{text:>9}")).is_ok(),
        &|it| it.write_truncate(format_args!("{text:>9}")).is_ok(),
        &|it| it.write_str(text).is_ok(),
    ];
    for call in adding {
        let mut edited = string;
        call(&mut edited);
        assert!(edited.starts_with(string.as_str()), "{string:?} with {text:?}");
    }
    let making: [ArrayString<N>; 12] = [
        ArrayString::try_from_str(text).unwrap_or_default(),
        ArrayString::const_try_from_str(text).unwrap_or_default(),
        ArrayString::from_str_truncate(text),
        ArrayString::try_from_utf8(text.as_bytes()).unwrap_or_default(),
        ArrayString::from_utf8_truncate(&text.as_bytes()[text.len() / 2..]).unwrap_or_default(),
        ArrayString::try_from_utf8_lossy(&text.as_bytes()[text.len() / 2..]).unwrap_or_default(),
        ArrayString::from_utf8_lossy_truncate(&text.as_bytes()[text.len() / 2..]),
        ArrayString::try_from_utf16(&units[units.len() / 2..]).unwrap_or_default(),
        ArrayString::from_utf16_truncate(&units[units.len() / 2..]).unwrap_or_default(),
        ArrayString::try_from_utf16_lossy(&units[units.len() / 2..]).unwrap_or_default(),
        ArrayString::from_utf16_lossy_truncate(&units[..units.len().div_ceil(2)]),
        ArrayString::try_from_format(format_args!("{text}")).unwrap_or_default(),
    ];
    assert!(making.iter().all(|made| made.len() <= N), "{text:?}");
}

/// Makes each call that is given no text.
fn walks<const N: usize>(string: ArrayString<N>) {
    let text = string.as_str();
    let (mut trimmed, mut kept, mut cleared, mut popped) = (string, string, string, string);
    trimmed.trim_in_place();
    kept.retain(|ch| ch.is_ascii());
    cleared.clear();
    while popped.pop().is_some() {}
    for ch in CHARS {
        let mut pushed = string;
        assert_eq!(pushed.try_push(ch).is_ok(), pushed != string || ch.len_utf8() + string.len() <= N);
    }
    let ascii: String = text.chars().filter(char::is_ascii).collect();
    assert_eq!((trimmed.as_str(), kept.as_str()), (text.trim(), ascii.as_str()));
    assert!(cleared.is_empty() && popped.is_empty() && string.widen::<255>() == text);
    assert_eq!((string.remaining_capacity(), string.is_full()), (N - text.len(), N == text.len()));
}

#[test]
fn no_other_call_panics() {
    fn at<const N: usize>() {
        let lengths = (0..=N).filter(|len| N < 20 || *len < 2 || *len + 2 >= N);
        for (len, offset) in lengths.flat_map(|len| [(len, 0), (len, N)]) {
            for text in texts_of(len) {
                let string = behind::<N>(offset, &text);
                walks(string);
                for given in [0, 1, 2, (N - len).saturating_sub(1), N - len, N - len + 1, 255, 256, 300, 520] {
                    texts_of(given).iter().for_each(|given| adds(string, given));
                }
                for given in [0, 1, N - len, N - len + 1, 256] {
                    let [_, given, _] = texts_of(given);
                    indices(len).for_each(|index| edits_at(string, index, &given));
                }
            }
        }
    }
    at::<0>();
    at::<1>();
    at::<2>();
    at::<5>();
    at::<8>();
    at::<128>();
    at::<255>();
}
