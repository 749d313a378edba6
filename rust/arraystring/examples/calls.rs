//! The calls, in a few lines. Each result was worked out by hand.

use std::error::Error as StdError;
use std::fmt::Write;

use arraystring::{ArrayString, Error, OutOfBounds, SmallString, Utf8, Utf16, arraystring};

type Username = ArrayString<20>;

/// A name with a sign before it, which is refused if it does not fit, and a greeting behind it, as far as that fits.
fn greet(name: &str) -> Result<Username, Error> {
    let mut username = Username::try_from_str(name)?;
    username.try_insert_str(0, "@")?;
    username.push_str_truncate(", welcome back");
    Ok(username)
}

/// A text in lines of a few bytes: what one leaves is the beginning of the next.
fn lines(mut rest: &str) -> Vec<ArrayString<6>> {
    let mut lines = Vec::new();
    while !rest.is_empty() {
        let mut line = ArrayString::new();
        rest = line.push_str_truncate(rest);
        lines.push(line);
    }
    lines
}

fn main() -> Result<(), Box<dyn StdError>> {
    // The whole text fits, is cut, or is refused.
    assert_eq!(greet("ann")?, "@ann, welcome back");
    assert_eq!(greet("bartholomew")?, "@bartholomew, welcom");
    assert_eq!(greet("abcdefghijklmnopqrst"), Err(Error::OutOfBounds));

    // A character is kept whole: `é` takes two bytes, so only one of the last two fits.
    assert_eq!(lines("abcééd"), ["abcé", "éd"]);
    let mut line = ArrayString::<6>::from_str_truncate("abcéé");
    assert_eq!((line.as_str(), line.len(), line.capacity()), ("abcé", 5, 6));
    assert_eq!(line.truncate(4), Err(Utf8));
    assert_eq!((line.pop(), line.remove(0)?, line.as_str()), (Some('é'), 'a', "bc"));
    assert_eq!((line.try_push_str("defgh"), line.as_str()), (Err(OutOfBounds), "bc"));

    // It is written to, made of characters, and walked.
    let (mut row, name) = (SmallString::new(), "zoé");
    write!(row, "{name}={}", 7)?;
    assert_eq!((row.as_str(), row.find('=')), ("zoé=7", Some(4)));
    assert_eq!(ArrayString::<4>::from_chars_truncate('0'..='9'), "0123");
    assert_eq!(row.drain(..5)?.rev().collect::<String>(), "=éoz");
    assert_eq!(row, "7");

    // A part by its bytes, in the other case, and in place of another one.
    let mut header: ArrayString<32> = arraystring!("content-length: 12");
    header[..1].make_ascii_uppercase();
    header.replace_range(8..14, "Type")?;
    assert_eq!((header.as_str(), &header[..7]), ("Content-Type: 12", "Content"));

    // What is no text is refused, or is written as U+FFFD.
    assert_eq!(SmallString::try_from_utf8(&[0x61, 0xFF]), Err(Error::Utf8));
    assert_eq!(SmallString::from_utf16_truncate(&[0x61, 0xD800]), Err(Utf16));
    assert_eq!(SmallString::try_from_utf16_lossy(&[0x61, 0xD800])?, "a\u{FFFD}");
    println!("all as it was worked out");
    Ok(())
}
