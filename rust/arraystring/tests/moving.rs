//! Moving to this crate: what MOVING.md writes for the calls of `String`, arrayvec, heapless and arraystring 0.3.0 is run. (What it says of
//! arrayvec itself is run by `rust/moves_from_arrayvec` of the repository.) And what is here of 0.3.0 in other words, and the faults of
//! it in docs/DECISIONS.md.

use std::collections::BTreeMap;
use std::fmt::Write;
use std::ops::Range;
use std::panic::{AssertUnwindSafe, catch_unwind};
use std::path::PathBuf;

use arraystring::{
    ArrayString, CacheString, Drain, Error, MaxString, OutOfBounds, SmallString, Utf8, Utf16, arraystring, try_format,
};
use page::Column;

#[path = "inputs/page.rs"]
mod page;

type Text = ArrayString<23>;
type Made<T, E> = Result<T, E>;
type Chars = std::str::Chars<'static>;

/// The calls of 0.3.0 that have their name here, given what they are given here.
#[test]
fn the_calls_whose_names_stay() {
    let _: fn() -> Text = Text::new;
    let _: fn(&str) -> Made<Text, OutOfBounds> = Text::try_from_str;
    let _: fn(&str) -> Text = Text::from_str_truncate;
    let _: fn(Vec<String>) -> Made<Text, OutOfBounds> = Text::try_from_iterator;
    let _: fn(Chars) -> Made<Text, OutOfBounds> = Text::try_from_chars;
    let _: fn(&[u8]) -> Made<Text, Error> = Text::try_from_utf8;
    let _: fn(&[u16]) -> Made<Text, Error> = Text::try_from_utf16;
    let _: unsafe fn(&str) -> Text = Text::from_str_unchecked;
    let _: unsafe fn(&[u8]) -> Text = Text::from_utf8_unchecked;
    let _: fn(&Text) -> &str = Text::as_str;
    let _: fn(&mut Text) -> &mut str = Text::as_mut_str;
    let _: fn(&Text) -> &[u8] = Text::as_bytes;
    let _: fn(&Text) -> usize = Text::capacity;
    let _: fn(&Text) -> usize = Text::len;
    let _: fn(&Text) -> bool = Text::is_empty;
    let _: fn(&mut Text, &str) -> Made<(), OutOfBounds> = Text::try_push_str;
    let _: fn(&mut Text, char) -> Made<(), OutOfBounds> = Text::try_push;
    let _: unsafe fn(&mut Text, &str) = Text::push_str_unchecked;
    let _: unsafe fn(&mut Text, char) = Text::push_unchecked;
    let _: fn(&mut Text, usize, char) -> Made<(), Error> = Text::try_insert;
    let _: fn(&mut Text, usize, &str) -> Made<(), Error> = Text::try_insert_str;
    let _: unsafe fn(&mut Text, usize, char) = Text::insert_unchecked;
    let _: unsafe fn(&mut Text, usize, &str) = Text::insert_str_unchecked;
    let _: fn(&mut Text, usize) -> Made<(), Utf8> = Text::truncate;
    let _: fn(&mut Text) -> Option<char> = Text::pop;
    let _: fn(&mut Text, usize) -> Made<char, Error> = Text::remove;
    let _: fn(&mut Text, fn(char) -> bool) = Text::retain;
    let _: fn(&mut Text, usize) -> Made<Text, Error> = Text::split_off;
    let _: fn(&mut Text) = Text::clear;
    let _: fn(&mut Text, Range<usize>) -> Made<Drain<23>, Error> = Text::drain;
    let _: fn(&mut Text, Range<usize>, &str) -> Made<(), Error> = Text::replace_range;
    let _: fn(&Drain<23>) -> &str = Drain::as_str;
}

/// Those that cut, whose names say so here.
#[test]
fn the_calls_that_cut() {
    let _: fn(Vec<String>) -> Text = Text::from_iterator_truncate;
    let _: fn(Chars) -> Text = Text::from_chars_truncate;
    let _: fn(&[u8]) -> Made<Text, Utf8> = Text::from_utf8_truncate;
    let _: fn(&[u16]) -> Made<Text, Utf16> = Text::from_utf16_truncate;
    let _: fn(&[u16]) -> Text = Text::from_utf16_lossy_truncate;
    let _: for<'a> fn(&mut Text, &'a str) -> &'a str = Text::push_str_truncate;
    let _: for<'a> fn(&mut Text, usize, &'a str) -> Made<&'a str, Error> = Text::insert_str_truncate;
    let _: fn(&mut Text, Chars) -> bool = Text::extend_chars_truncate;
    let _: fn(&mut Text, Vec<String>) -> bool = Text::extend_strs_truncate;
}

fn is_sent<T: Clone + Send + Sync + Unpin>() {}

fn is_copied<T: Copy>() {}

#[test]
fn all_types_are_sent_and_all_but_a_drain_are_copied() {
    is_sent::<(Text, Drain<23>, Error, OutOfBounds, Utf8, Utf16)>();
    is_copied::<(Text, Error, OutOfBounds, Utf8, Utf16)>();
}

#[test]
fn what_is_other_than_in_the_crate_before() {
    assert_eq!((SmallString::CAPACITY, CacheString::CAPACITY, MaxString::CAPACITY), (23, 63, 255));
    assert_eq!((size_of::<SmallString>(), size_of::<CacheString>(), align_of::<CacheString>()), (25, 65, 1));
    #[repr(align(64))]
    struct Line(ArrayString<62>);
    assert_eq!((align_of::<Line>(), size_of::<Line>(), Line(ArrayString::new()).0.len()), (64, 64, 0));
    let name = ArrayString::<4>::try_from_str("\ta").unwrap();
    let mut trimmed = name;
    trimmed.trim_in_place();
    assert_eq!((trimmed.as_str(), name.trim(), name.as_str()), ("a", "a", "\ta"));
    let mut kept = ArrayString::<4>::try_from_str("abc").unwrap();
    let run = catch_unwind(AssertUnwindSafe(|| kept.retain(|ch| if ch == 'c' { panic!("at c") } else { true })));
    assert!(run.is_err() && kept == "ab");
    assert_eq!(format!("{:?} {kept:?} {kept:_>4} {kept:.1}", Some(kept)), r#"Some("ab") "ab" __ab a"#);
    assert_eq!(format!("{:?}", BTreeMap::from([(kept, [kept])])), r#"{"ab": ["ab"]}"#);
    assert_eq!(format!("{:?}", kept.drain(..0).unwrap()), r#"Drain("")"#);
    let mut items = ['c', 'd', 'e', 'f'].into_iter();
    assert!(kept.extend_chars_truncate(&mut items));
    assert_eq!((kept.as_str(), items.next()), ("abcd", Some('f')));
    let mut copied = kept;
    let mut edits = move || copied.clear();
    edits();
    assert_eq!((copied.as_str(), kept.as_str()), ("abcd", "abcd"));
}

#[test]
fn what_was_a_fault() {
    let one = |text: &str| ArrayString::<1>::try_from_str(text).unwrap();
    assert_eq!((one("a").remove(0), one("").remove(0)), (Ok('a'), Err(Error::OutOfBounds)));
    let mut space = one(" ");
    space.trim_in_place();
    assert_eq!(space, "");
    let mut drained = one("a");
    assert_eq!((drained.drain(..).unwrap().next(), drained.as_str()), (Some('a'), ""));
    let replaced = |text: &str, range: Range<usize>, with: &str| {
        let mut one = one(text);
        one.replace_range(range, with).map(|()| one)
    };
    assert_eq!((replaced("a", 0..1, ""), replaced("a", 0..1, "b")), (Ok(one("")), Ok(one("b"))));
    assert_eq!(replaced("a", 0..0, "b"), Err(Error::OutOfBounds));
    assert_eq!(replaced("", 0..0, &"x".repeat(256)), Err(Error::OutOfBounds));
    let mut two = ArrayString::<2>::try_from_str("a").unwrap();
    assert_eq!((two.replace_range(0..1, ""), two.len()), (Ok(()), 0));
    let mut drain = ArrayString::<2>::try_from_str("a").unwrap().drain(..).unwrap();
    assert_eq!((drain.next(), drain.next_back(), drain.as_str()), (Some('a'), None, ""));
    assert_eq!(one("").split_off(0), Ok(one("")));
}

type Name = ArrayString<8>;

/// Asserts that some codes for a `String` and those for a `Name`, each on a new one of the text `ab`, return and leave what prints the
/// same.
macro_rules! same {
    ($s:ident, $string:ident: $($code:expr),+; $here:ident: $($written:expr),+) => {{
        let mut seen: Vec<(String, String)> = Vec::new();
        $({
            #[allow(unused_mut, reason = "not each code edits the string")]
            let mut $s = String::from("ab");
            let value = format!("{:?}", run!($string, $code));
            seen.push((value, $s.to_string()));
        })+
        $({
            #[allow(unused_mut, reason = "not each code edits the string")]
            let mut $s = Name::try_from_str("ab").unwrap();
            let mut returned = || -> Result<String, Error> { Ok(format!("{:?}", run!($here, $written))) };
            let value = returned()?;
            seen.push((value, $s.to_string()));
        })+
        assert!(seen.windows(2).all(|pair| pair[0] == pair[1]), "{}: {seen:?}", stringify!($($code),+));
    }};
}

#[test]
#[allow(clippy::string_extend_chars, reason = "the code is what one writes for another string")]
fn what_is_written_for_a_string() -> Result<(), Box<dyn std::error::Error>> {
    let [mut of, mut here] = [0, 1].map(|column| Column::below("Moving from `String`", column));
    let (text, at, len) = ("é", 1, 1);
    let (lent, units): (&[u8], Vec<u16>) = (text.as_bytes(), text.encode_utf16().collect());
    same!(s, of: String::from(text), text.to_string(), text.to_owned(); here: Name::try_from_str(text)?);
    let (theirs, ours): (String, Name) = (run!(of, text.into()), run!(here, text.try_into()?));
    assert_eq!(ours, theirs.as_str());
    let (theirs, ours): (String, Name) = (run!(of, format!("{text}-{at}")), run!(here, try_format!("{text}-{at}")?));
    assert_eq!(ours, theirs.as_str());
    same!(s, of: String::with_capacity(len); here: Name::new());
    same!(s, of: s.push('c'); here: s.try_push('c')?);
    same!(s, of: s.push_str(text), s += text; here: s.try_push_str(text)?);
    let s = String::from("ab");
    assert_eq!(run!(of, s + text), "abé");
    same!(s, of: s.insert(at, 'c'); here: s.try_insert(at, 'c')?);
    same!(s, of: s.insert_str(at, text); here: s.try_insert_str(at, text)?);
    same!(s, of: s.extend(text.chars()); here: s.try_extend_chars(text.chars())?);
    same!(s, of: s.extend([text, text]); here: s.try_extend_strs([text, text])?);
    same!(s, of: text.chars().collect::<String>(); here: Name::try_from_chars(text.chars())?);
    same!(s, of: [text, text].concat(); here: Name::try_from_iterator([text, text])?);
    let bytes = lent.to_vec();
    let made = run!(of, String::from_utf8(bytes)?);
    let bytes = lent.to_vec();
    assert_eq!(run!(here, Name::try_from_utf8(&bytes)?), made.as_str());
    same!(s, of: String::from_utf8_lossy(&bytes); here: Name::try_from_utf8_lossy(&bytes)?);
    same!(s, of: String::from_utf16_lossy(&units); here: Name::try_from_utf16_lossy(&units)?);
    assert_eq!(run!(here, Name::try_from_utf16(&units)?), run!(of, String::from_utf16(&units)?).as_str());
    edits_of_a_part(&mut of, &mut here)?;
    same!(s, of: s = s.trim().to_string(); here: s.trim_in_place());
    same!(s, of: s = s.to_ascii_lowercase(); here: s.make_ascii_lowercase());
    same!(s, of: s = s.to_lowercase();
        here: s = Name::try_from_chars(s.chars().flat_map(char::to_lowercase))?, s = Name::try_from_str(&s.to_lowercase())?);
    let mut s = Name::try_from_str("ab")?;
    run!(here, s[..at].make_ascii_uppercase());
    assert_eq!(s, "Ab");
    looks_of_all_of_it(&mut of, &mut here)?;
    // (`from` is what a program writes that rustc refuses: tests/not_compiled.rs)
    of.assert_all_run_but(&["Name::from(text)", "s.reserve(len)", "s.shrink_to_fit()", "std::fs::read(s)"]);
    here.assert_all_run_but(&["Vec::from(s)", "Box::<str>::from(s)", "std::fs::read(s.as_str())"]);
    Ok(())
}

/// The rows whose code is the same but for a `?`, of which the column here says that alone.
fn edits_of_a_part(of: &mut Column, here: &mut Column) -> Result<(), Error> {
    let (text, at, len) = ("é", 1, 1);
    let (mut s, mut name) = (String::from("abcd"), Name::try_from_str("abcd")?);
    assert_eq!((run!(of, s.remove(at)), run!(of, s.split_off(at)).as_str()), ('b', "cd"));
    assert_eq!((name.remove(at)?, name.split_off(at)?.as_str()), ('b', "cd"));
    (s, name) = (String::from("abcd"), Name::try_from_str("abcd")?);
    run!(of, s.replace_range(..at, text));
    name.replace_range(..at, text)?;
    assert_eq!(name, s.as_str());
    let panics = |edit: fn(&mut String)| catch_unwind(|| edit(&mut String::from("é"))).is_err();
    assert!(panics(|s| _ = s.remove(1)) && panics(|s| _ = s.split_off(1)) && panics(|s| s.truncate(1)));
    assert!(panics(|s| s.replace_range(..1, "")));
    (s, name) = (String::from("ab"), Name::try_from_str("ab")?);
    run!(of, s.truncate(len));
    name.truncate(len)?;
    assert_eq!((s.as_str(), name.as_str()), ("a", "a"));
    assert_eq!(run!(of, s.drain(..at)).as_str(), "a");
    let mut s = name;
    assert_eq!(run!(here, s.drain(..at)?).as_str(), "a");
    run!(of, write!(s, "{at}")?);
    assert_eq!(s, "1");
    Ok(())
}

fn looks_of_all_of_it(of: &mut Column, here: &mut Column) -> Result<(), Error> {
    let (text, at) = ("xaby", 1);
    let t = ArrayString::<4>::try_from_str("ab")?;
    let s = Name::try_from_str("ab")?;
    assert_eq!(run!(here, s.as_bytes()), b"ab");
    assert!(run!(here, text.contains(s.as_str())) && run!(here, s.as_str() == t.as_str()));
    assert_eq!(run!(here, std::io::Error::other(s.as_str())).to_string(), "ab");
    let (map, key) = (BTreeMap::from([(s, at)]), String::from("ab"));
    assert_eq!(run!(here, map.get(key.as_str())), Some(&at));
    let (s, t) = (key.clone(), key.clone());
    let map = BTreeMap::from([(s.clone(), at)]);
    assert!(run!(of, text.contains(&s)) && run!(of, s == t));
    assert_eq!(run!(of, map.get(&key)), Some(&at));
    assert_eq!(run!(of, PathBuf::from(s)).to_str(), Some("ab"));
    let s = t.clone();
    assert_eq!(run!(of, std::io::Error::other(s)).to_string(), "ab");
    let s = t.clone();
    assert_eq!(run!(of, s.into_bytes()), b"ab");
    let s = t;
    assert_eq!(&*run!(of, s.into_boxed_str()), "ab");
    Ok(())
}

#[test]
fn what_is_written_for_arrayvec_and_heapless() -> Result<(), Error> {
    let mut here = Column::below("Moving from arrayvec", 1);
    let (text, at, bytes, len) = ("cde", 12, *b"abcd", 3);
    let mut s = run!(here, Name::new());
    run!(here, s.try_push('c')?);
    run!(here, s.try_push_str(text)?);
    assert_eq!((s.as_str(), run!(here, Name::try_from_utf8(b"abcd")?).as_str()), ("ccde", "abcd"));
    let constant: Name = run!(here, arraystring!("abcd"));
    assert_eq!((constant.as_str(), run!(here, Name::const_try_from_str(text)?).as_str()), ("abcd", "cde"));
    assert_eq!(run!(here, Name::try_from_utf8(&bytes[..len])?), "abc");
    let parsed: Name = run!(here, text.parse()?);
    assert_eq!((run!(here, Name::try_from_str(text)?), run!(here, Name::try_from(text)?)), (parsed, parsed));
    assert_eq!((Name::try_from(format_args!("{at}"))?, parsed.as_str()), ("12".parse()?, "cde"));
    assert_eq!(run!(here, s.try_push_str(text).or(Err(text))), Ok(()));
    assert_eq!(run!(here, s.try_push_str(text).or(Err(text))), Err("cde"));
    s.clear();
    run!(here, s.try_push_str(text).map_err(Error::from)?);
    assert_eq!((s.remove(0)?, s.truncate(1)?, s.as_str()), ('c', (), "d"));
    here.assert_all_run_but(&[]);

    let mut here = Column::below("Moving from heapless", 1);
    let t = ArrayString::<4>::try_from_str("7")?;
    let mut s: Name = run!(here, try_format!("{}", 7)?);
    assert!(run!(here, s.as_str() == t.as_str()));
    run!(here, s.try_push('c')?);
    run!(here, s.try_push_str(text)?);
    assert_eq!((s.as_str(), run!(here, s.as_bytes())), ("7ccde", b"7ccde".as_slice()));
    run!(here, s.try_push_str(text).map_err(Error::from)?);
    assert_eq!(run!(here, Name::try_from_chars(text.chars())?).as_str(), text);
    assert_eq!(run!(here, s.as_str()), "7ccdecde");
    here.assert_all_run_but(&["()"]);
    Ok(())
}

#[test]
fn what_is_written_for_the_crate_before() -> Result<(), Error> {
    let mut here = Column::below("Moving from arraystring 0.3.0", 1);
    let (text, string, units) = ("é€🤔", String::from("c"), [0x61, 0xD800]);
    let (at, len, bytes) = (1, 2, text.as_bytes().to_vec());
    assert_eq!(run!(here, Name::from_str_truncate(text)), "é€");
    assert_eq!(run!(here, Name::from_chars_truncate(text.chars())), "é€");
    assert_eq!(run!(here, Name::from_iterator_truncate([text])), "é€");
    assert_eq!(run!(here, Name::from_utf8_truncate(&bytes)?), "é€");
    assert_eq!(run!(here, Name::from_utf16_lossy_truncate(&units)), "a\u{FFFD}");
    let refused = |refused: Result<Name, Error>| assert!(refused.is_err());
    refused((|| Ok(run!(here, Name::try_from_str(text)?)))());
    refused((|| Ok(run!(here, Name::from_utf16_truncate(&units)?)))());
    let mut s = Name::new();
    assert_eq!(
        (run!(here, s.push_str_truncate(text)), run!(here, s.extend_chars_truncate(text.chars()))),
        ("🤔", true)
    );
    assert_eq!((run!(here, s.extend_strs_truncate([text])), s.as_str()), (true, "é€é"));
    s = Name::try_from_str("abcdef")?;
    assert_eq!((run!(here, s.insert_str_truncate(at, text)?), s.as_str()), ("€🤔", "aébcdef"));
    s.clear();
    run!(here, s.try_push_str(string.as_ref())?);
    let text = "ab";
    run!(here, s.try_push_str(text)?);
    run!(here, s.try_insert_str(at, text)?);
    assert_eq!((s.as_str(), run!(here, s.capacity()), Name::CAPACITY), ("cabab", 8, 8));
    run!(here, s.trim_in_place());
    // SAFETY: the bytes are looked at, and stay as they are.
    assert_eq!(unsafe { run!(here, s.as_bytes_mut()) }.len(), run!(here, s.trim()).len());
    assert!(run!(here, s.is_char_boundary(at)) && run!(here, at <= len));
    here.assert_all_run_but(&[
        "fn f<const N: usize>(s: ArrayString<N>)",
        "#[repr(align(64))] struct Line(ArrayString<62>);",
        "#[serde(with = \"arraystring::truncate\")]",
    ]);
    Ok(())
}
