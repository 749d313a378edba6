//! What the tests of this folder go through: texts of each length, and the rule by which one is cut.
#![allow(dead_code, unused_imports, unused_macros)]

/// The lengths of what is given: to more than twice what any string takes.
pub const GIVEN: std::ops::RangeInclusive<usize> = 0..=600;

/// The longest prefix of whole characters that takes at most so many bytes. It goes from character to character; `cut` in
/// `arraystring/tests/inputs` asks std for boundaries.
pub fn cut(text: &str, size: usize) -> &str {
    let end = text.char_indices().map(|(at, ch)| at + ch.len_utf8()).take_while(|end| *end <= size).last();
    &text[..end.unwrap_or(0)]
}

/// Texts of so many bytes: of letters, and of characters of one to four bytes that begin at some place of the list.
pub fn texts_of(len: usize) -> [String; 3] {
    // (among them white space, and the mark that some programs drop in front of a text)
    const CHARS: [char; 9] = ['🤔', 'é', '\0', '€', '\u{FEFF}', '"', '\u{80}', ' ', 'a'];
    let mixed = |first: usize| {
        let mut text = String::new();
        for ch in CHARS.iter().cycle().skip(first) {
            if text.len() + ch.len_utf8() > len {
                break;
            }
            text.push(*ch);
        }
        let rest = len - text.len();
        text + &"m".repeat(rest)
    };
    let texts = [(0..len).map(|at| (b'a' + (at % 26) as u8) as char).collect(), mixed(0), mixed(len % CHARS.len())];
    assert!(texts.iter().all(|text| text.len() == len));
    texts
}

/// Calls a generic test at each capacity.
macro_rules! at_each_capacity {
    ($test:ident($($given:expr),*)) => {
        $crate::inputs::at_each_capacity!($test($($given),*): 0 1 2 3 4 5 6 7 8 9 10 11 12 13 14 15);
    };
    ($test:ident $given:tt: $($tens:literal)*) => {
        $($crate::inputs::at_each_capacity!($test $given: $tens, 0 1 2 3 4 5 6 7 8 9 10 11 12 13 14 15);)*
    };
    ($test:ident $given:tt: $tens:literal, $($ones:literal)*) => {
        $($test::<{ 16 * $tens + $ones }> $given;)*
    };
}
pub(crate) use at_each_capacity;
