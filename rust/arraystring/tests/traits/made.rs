//! What a string is made of by std's traits: all of a text, or none of it.

use std::fmt::{self, Debug, Display};

use arraystring::{ArrayString, OutOfBounds};

use crate::inputs::{CHARS, at_capacities, edges, texts_of};

/// Asserts that each of some conversions makes a text whole, or refuses it by an error.
fn are_whole<const N: usize, E: Debug + PartialEq>(made: &[Result<ArrayString<N>, E>], text: &str, refusal: E) {
    for made in made {
        match made {
            Ok(string) => assert!(string.as_str() == text && text.len() <= N, "{text:?} at {N}"),
            Err(error) => assert!(*error == refusal && text.len() > N, "{text:?} at {N}"),
        }
    }
}

/// Asserts what each conversion makes of a text.
fn is_made<const N: usize>(text: &str) {
    let made =
        [text.parse(), str::parse(text), ArrayString::try_from(text), text.try_into(), ArrayString::try_from_str(text)];
    are_whole::<N, _>(&made, text, OutOfBounds);
    #[cfg(feature = "alloc")]
    {
        use std::borrow::Cow;
        let (owned, cow) = (text.to_string(), Cow::Owned::<str>(text.to_string()));
        let made = [
            ArrayString::try_from(&owned),
            (&owned).try_into(),
            ArrayString::try_from(owned.clone()),
            owned.into_boxed_str().try_into(),
            Cow::from(text).try_into(),
            cow.try_into(),
        ];
        are_whole::<N, _>(&made, text, OutOfBounds);
    }
    let made = [format_args!("{text}").try_into(), ArrayString::try_from(format_args!("{}{text}", ""))];
    are_whole::<N, _>(&made, text, fmt::Error);
}

#[test]
fn a_text_of_each_length_is_made_whole_or_refused() {
    fn at<const N: usize>() {
        for len in edges(N).into_iter().chain([254, 255, 256, 257, N + 255, N + 256, N + 257, 511, 512, 1000]) {
            texts_of(len).iter().for_each(|text| is_made::<N>(text));
        }
    }
    at_capacities!(at);
}

#[test]
fn a_character_is_made_where_it_fits() {
    fn at<const N: usize>() {
        for ch in CHARS {
            are_whole::<N, _>(&[ArrayString::try_from(ch), ch.try_into()], &ch.to_string(), OutOfBounds);
        }
    }
    at_capacities!(at: 0 1 2 3 4 5 255);
}

#[test]
fn an_empty_string_is_the_default() {
    fn at<const N: usize>() {
        let made = [ArrayString::<N>::default(), ArrayString::new(), Default::default()];
        assert!(made.iter().all(|made| made.is_empty() && made.as_str().is_empty()));
    }
    at_capacities!(at);
}

/// A `Display` that fails is refused, also where what it printed fits.
#[test]
fn a_format_that_fails_makes_no_string() {
    struct Fails;
    impl Display for Fails {
        fn fmt(&self, f: &mut fmt::Formatter<'_>) -> fmt::Result {
            f.write_str("a")?;
            Err(fmt::Error)
        }
    }
    assert_eq!(ArrayString::<8>::try_from(format_args!("{Fails}")), Err(fmt::Error));
}
