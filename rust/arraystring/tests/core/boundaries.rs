//! Whether an index is a boundary, beside `str`: each index in and past a string of each size, the greatest of both too; and whether a
//! size is within a limit.

use crate::utils::is_inside_boundary;
use crate::{ArrayString, OutOfBounds, behind, is_char_boundary};

/// A text of so many bytes that ends with as many of a character as fit into it.
fn text_of(ch: char, size: usize) -> String {
    "x".repeat(size % ch.len_utf8()) + &String::from(ch).repeat(size / ch.len_utf8())
}

/// Asserts it of the string of a text, and of one that ends where its array does. Returns how many indices there are.
fn compare<const N: usize>(text: &str) -> usize {
    let string = ArrayString::<N>::try_from_str(text).unwrap();
    let last: ArrayString<N> = behind(255 - text.len(), text);
    assert_eq!((string.as_str(), last.as_str()), (text, text));
    for index in 0..=255 {
        let wanted = text.is_char_boundary(index.into());
        assert_eq!(is_char_boundary(&string, index).is_ok(), wanted, "{index} of {text:?}");
        assert_eq!(is_char_boundary(&last, index).is_ok(), wanted, "{index} of {text:?}, at the end");
    }
    256
}

#[test]
fn each_index_of_each_size() {
    let mut compared = 0;
    for ch in ['a', 'é', '€', '🤔'] {
        for size in 0..=255 {
            let text = text_of(ch, size);
            assert_eq!(text.len(), size);
            compared += compare::<255>(&text) + compare::<256>(&text) + compare::<300>(&text);
        }
    }
    assert_eq!(compared, 4 * 256 * 3 * 256);
    let full = ArrayString::<255>::from(&*text_of('a', 255));
    assert_eq!((full.len(), is_char_boundary(&full, 255), is_char_boundary(&full, 254)), (255, Ok(()), Ok(())));
}

#[test]
fn each_size_beside_each_limit() {
    let numbers = || (0..=600).chain([65_535, 65_536, usize::MAX]);
    for (size, limit) in numbers().flat_map(|size| numbers().map(move |limit| (size, limit))) {
        let wanted = if size <= limit { Ok(()) } else { Err(OutOfBounds) };
        assert_eq!(is_inside_boundary(size, limit), wanted, "{size} and {limit}");
    }
}
