//! Strings made from texts, characters and bytes.

use core::char;
use core::fmt;

use crate::leaf::MaybeByte;
use crate::proved::string as core_of;
use crate::{ArrayString, Error, OutOfBounds, Utf8, Utf16};

/// # Strings made, whole or not at all
///
/// Some of these calls make the proved call of the same name, whose contract is in `crates/arraystring_core/src/array_string/construct.rt`
/// or `utf16.rt` of the repository, or for `new` in `../array_string.rt`. The others, `const_try_from_str`, `try_from_iterator`, the two
/// `_lossy` calls and `try_from_format`, have bodies of their own, and no contract. (The `try_from_iterator` in `construct.rt` has one, but
/// it is of another body.)
impl<const N: usize> ArrayString<N> {
    /// An empty string.
    ///
    /// ```
    /// let string = arraystring::ArrayString::<8>::new();
    /// assert_eq!((string.len(), string.as_str()), (0, ""));
    /// ```
    #[must_use]
    #[inline(always)]
    pub const fn new() -> Self {
        let _ = Self::CAPACITY;
        ArrayString(core_of::ArrayString::new())
    }

    /// The string of `text`. `parse` and `try_from` make the same.
    ///
    /// # Errors
    ///
    /// Returns [`OutOfBounds`] if `text` is larger than the capacity.
    ///
    /// # Examples
    ///
    /// ```
    /// use arraystring::{ArrayString, OutOfBounds};
    ///
    /// assert_eq!(ArrayString::<4>::try_from_str("cafe").map(|string| string.len()), Ok(4));
    /// assert_eq!(ArrayString::<4>::try_from_str("café"), Err(OutOfBounds)); // five bytes
    /// ```
    #[doc(alias = "from")]
    #[inline]
    pub fn try_from_str(text: &str) -> Result<Self, OutOfBounds> {
        let _ = Self::CAPACITY;
        core_of::ArrayString::try_from_str(text).map(ArrayString).map_err(OutOfBounds::from_proved_error)
    }

    /// The string of `text`. It can be called in a `const`. In code that is no constant, [`try_from_str`](Self::try_from_str) is faster.
    /// The macro [`arraystring!`](crate::arraystring) does not compile if the text does not fit.
    ///
    /// # Errors
    ///
    /// Returns [`OutOfBounds`] if `text` is larger than the capacity.
    ///
    /// # Examples
    ///
    /// ```
    /// use arraystring::{ArrayString, OutOfBounds};
    ///
    /// const fn name_or(text: &str, other: ArrayString<8>) -> ArrayString<8> {
    ///     match ArrayString::const_try_from_str(text) {
    ///         Ok(name) => name,
    ///         Err(OutOfBounds) => other,
    ///     }
    /// }
    ///
    /// const NAMES: [ArrayString<8>; 2] =
    ///     [name_or("Zoé", ArrayString::new()), name_or("Maximilian", ArrayString::new())];
    /// assert_eq!(NAMES, ["Zoé", ""]);
    /// ```
    #[inline]
    pub const fn const_try_from_str(text: &str) -> Result<Self, OutOfBounds> {
        let _ = Self::CAPACITY;
        if text.len() > N {
            return Err(OutOfBounds);
        }
        let mut made = Self::new();
        let (mut array, mut bytes): (&mut [MaybeByte], _) = (&mut made.0.array, text.as_bytes());
        while let ([place, places @ ..], [byte, others @ ..]) = (array, bytes) {
            *place = MaybeByte::new(*byte);
            // The size counts the bytes that were written, and stays within the capacity by the test above. After the loop all
            // bytes of the text are written, so the string ends with a whole character.
            made.0.size += 1;
            (array, bytes) = (places, others);
        }
        Ok(made)
    }

    /// The string of all pieces that the iterator gives, one behind the other.
    ///
    /// # Errors
    ///
    /// Returns [`OutOfBounds`] at the first piece that does not fit. So the iterator may be endless, unless from some piece on it gives
    /// only empty ones.
    ///
    /// # Examples
    ///
    /// ```
    /// use arraystring::{ArrayString, OutOfBounds};
    ///
    /// let string = ArrayString::<8>::try_from_iterator(["one", " ", "two"]);
    /// assert_eq!(string.unwrap(), "one two");
    /// assert_eq!(ArrayString::<8>::try_from_iterator(["one", " three"]), Err(OutOfBounds));
    /// ```
    #[doc(alias = "collect")]
    #[doc(alias = "from_iter")]
    #[inline]
    pub fn try_from_iterator(pieces: impl IntoIterator<Item = impl AsRef<str>>) -> Result<Self, OutOfBounds> {
        let _ = Self::CAPACITY;
        let mut made = Self::new();
        for piece in pieces {
            made.try_push_str(piece.as_ref())?;
        }
        Ok(made)
    }

    /// The string of all characters that the iterator gives.
    ///
    /// # Errors
    ///
    /// Returns [`OutOfBounds`] at the first character that does not fit. So the iterator may be endless.
    ///
    /// # Examples
    ///
    /// ```
    /// use arraystring::{ArrayString, OutOfBounds};
    ///
    /// assert_eq!(ArrayString::<4>::try_from_chars('a'..='c').unwrap(), "abc");
    /// assert_eq!(ArrayString::<4>::try_from_chars('a'..='e'), Err(OutOfBounds));
    /// ```
    #[doc(alias = "collect")]
    #[doc(alias = "from_iter")]
    #[inline]
    pub fn try_from_chars(characters: impl IntoIterator<Item = char>) -> Result<Self, OutOfBounds> {
        let _ = Self::CAPACITY;
        core_of::ArrayString::try_from_chars(characters).map(ArrayString).map_err(OutOfBounds::from_proved_error)
    }

    /// The string of a text in UTF-8.
    ///
    /// # Errors
    ///
    /// Returns the first of these that holds:
    ///
    /// - [`Error::Utf8`] if `bytes` is not well-formed UTF-8 (the Unicode Standard, section 3.9);
    /// - [`Error::OutOfBounds`] if it is larger than the capacity.
    ///
    /// # Examples
    ///
    /// ```
    /// use arraystring::{ArrayString, Error};
    ///
    /// assert_eq!(ArrayString::<4>::try_from_utf8(&[0xC3, 0xA9]).unwrap(), "é");
    /// assert_eq!(ArrayString::<4>::try_from_utf8(&[0xC3]), Err(Error::Utf8));
    /// assert_eq!(ArrayString::<4>::try_from_utf8(b"abcde"), Err(Error::OutOfBounds));
    /// ```
    #[doc(alias = "from_utf8")]
    #[inline]
    pub fn try_from_utf8(bytes: &[u8]) -> Result<Self, Error> {
        let _ = Self::CAPACITY;
        core_of::ArrayString::try_from_utf8(bytes).map(ArrayString).map_err(Error::from_proved_error)
    }

    /// The string of bytes, in which each malformed sequence becomes one U+FFFD (three bytes), as in `String::from_utf8_lossy`:
    /// `b"\xFF\xFF"` has two such sequences.
    ///
    /// # Errors
    ///
    /// Returns [`OutOfBounds`] if the text is larger than the capacity.
    ///
    /// # Examples
    ///
    /// ```
    /// use arraystring::{ArrayString, OutOfBounds};
    ///
    /// assert_eq!(ArrayString::<8>::try_from_utf8_lossy(b"a\xFFb").unwrap(), "a\u{FFFD}b");
    /// assert_eq!(ArrayString::<4>::try_from_utf8_lossy(b"a\xFFb"), Err(OutOfBounds));
    /// ```
    #[doc(alias = "from_utf8_lossy")]
    #[inline]
    pub fn try_from_utf8_lossy(bytes: &[u8]) -> Result<Self, OutOfBounds> {
        let _ = Self::CAPACITY;
        let mut made = Self::new();
        for chunk in bytes.utf8_chunks() {
            made.try_push_str(chunk.valid())?;
            if !chunk.invalid().is_empty() {
                made.try_push(char::REPLACEMENT_CHARACTER)?;
            }
        }
        Ok(made)
    }

    /// The string of a text in UTF-16.
    ///
    /// # Errors
    ///
    /// The units are read in order, as characters and lone surrogates. The first that can't be added decides:
    ///
    /// - [`Error::Utf16`] if it is a lone surrogate (the Unicode Standard, section 3.9);
    /// - [`Error::OutOfBounds`] if it is a character that does not fit.
    ///
    /// # Examples
    ///
    /// ```
    /// use arraystring::{ArrayString, Error};
    ///
    /// let units = [0x61, 0xD83E, 0xDD14]; // `a`, and the pair of `🤔`
    /// assert_eq!(ArrayString::<8>::try_from_utf16(&units).unwrap(), "a🤔");
    /// assert_eq!(ArrayString::<8>::try_from_utf16(&units[..2]), Err(Error::Utf16)); // half a pair
    /// assert_eq!(ArrayString::<4>::try_from_utf16(&units), Err(Error::OutOfBounds)); // five bytes
    /// ```
    #[doc(alias = "from_utf16")]
    #[inline]
    pub fn try_from_utf16(units: &[u16]) -> Result<Self, Error> {
        let _ = Self::CAPACITY;
        core_of::ArrayString::try_from_utf16(units).map(ArrayString).map_err(Error::from_proved_error)
    }

    /// The string of a text in UTF-16, in which each lone surrogate becomes U+FFFD (three bytes), as in `String::from_utf16_lossy`.
    ///
    /// # Errors
    ///
    /// Returns [`OutOfBounds`] if the text is larger than the capacity.
    ///
    /// # Examples
    ///
    /// ```
    /// use arraystring::{ArrayString, OutOfBounds};
    ///
    /// let units = [0x61, 0xD83E, 0x62]; // half a pair between `a` and `b`
    /// assert_eq!(ArrayString::<8>::try_from_utf16_lossy(&units).unwrap(), "a\u{FFFD}b");
    /// assert_eq!(ArrayString::<4>::try_from_utf16_lossy(&units), Err(OutOfBounds));
    /// ```
    #[doc(alias = "from_utf16_lossy")]
    #[inline]
    pub fn try_from_utf16_lossy(units: &[u16]) -> Result<Self, OutOfBounds> {
        let _ = Self::CAPACITY;
        let read = char::decode_utf16(units.iter().copied());
        Self::try_from_chars(read.map(|unit| unit.unwrap_or(char::REPLACEMENT_CHARACTER)))
    }

    /// The string of what a format prints, whole: [`try_write`](Self::try_write) on an empty string. The macro
    /// [`try_format!`](crate::try_format) makes this call, and writes the `format_args!` for you.
    ///
    /// # Errors
    ///
    /// Returns a [`fmt::Error`] if not all of it fits, or if a `Display` in it fails.
    ///
    /// # Examples
    ///
    /// ```
    /// use arraystring::ArrayString;
    ///
    /// let (name, number) = ("ann", 7);
    /// assert_eq!(ArrayString::<8>::try_from_format(format_args!("{name}-{number}")).unwrap(), "ann-7");
    /// assert!(ArrayString::<4>::try_from_format(format_args!("{name}-{number}")).is_err());
    /// ```
    #[doc(alias = "format")]
    #[inline]
    pub fn try_from_format(arguments: fmt::Arguments<'_>) -> Result<Self, fmt::Error> {
        let _ = Self::CAPACITY;
        let mut made = Self::new();
        made.try_write(arguments)?;
        Ok(made)
    }
}

/// # Strings made of as much as fits
///
/// The contract of `from_str_truncate` is in `crates/arraystring_core/src/array_string/construct.rt` of the repository. Those of the others
/// are there or in `utf16.rt` beside it, under the names without `_truncate`. But `from_iterator_truncate` and `from_utf8_lossy_truncate`
/// have none.
impl<const N: usize> ArrayString<N> {
    /// The longest prefix of whole characters of `text` that fits.
    ///
    /// ```
    /// use arraystring::ArrayString;
    ///
    /// assert_eq!(ArrayString::<4>::from_str_truncate("caf"), "caf");
    /// assert_eq!(ArrayString::<4>::from_str_truncate("café"), "caf"); // not half of `é`
    /// ```
    #[must_use]
    #[inline]
    pub fn from_str_truncate(text: &str) -> Self {
        let _ = Self::CAPACITY;
        ArrayString(core_of::ArrayString::from_str_truncate(text))
    }

    /// All pieces, one behind the other, cut to the longest prefix of whole characters that fits. The iterator may be endless, unless from
    /// some piece on it gives only empty ones.
    ///
    /// ```
    /// use arraystring::ArrayString;
    ///
    /// assert_eq!(ArrayString::<8>::from_iterator_truncate(["one", " ", "two"]), "one two");
    /// assert_eq!(ArrayString::<8>::from_iterator_truncate(["one", " three", "!"]), "one thre");
    /// ```
    #[must_use]
    #[inline]
    pub fn from_iterator_truncate(pieces: impl IntoIterator<Item = impl AsRef<str>>) -> Self {
        let _ = Self::CAPACITY;
        let mut made = Self::new();
        made.extend_strs_truncate(pieces);
        made
    }

    /// The longest prefix of the characters that fits. It ends before the first that does not fit, even if a later one takes fewer bytes.
    /// The iterator may be endless.
    ///
    /// ```
    /// use arraystring::ArrayString;
    ///
    /// assert_eq!(ArrayString::<4>::from_chars_truncate('a'..='c'), "abc");
    /// assert_eq!(ArrayString::<4>::from_chars_truncate("abcéd".chars()), "abc"); // `d` would fit
    /// ```
    #[must_use]
    #[inline]
    pub fn from_chars_truncate(characters: impl IntoIterator<Item = char>) -> Self {
        let _ = Self::CAPACITY;
        ArrayString(core_of::ArrayString::from_chars(characters))
    }

    /// A text in UTF-8, cut to the longest prefix of whole characters that fits.
    ///
    /// # Errors
    ///
    /// Returns [`Utf8`] if `bytes` is not well-formed UTF-8 (the Unicode Standard, section 3.9), even if only
    /// bytes that would be cut off are malformed.
    ///
    /// # Examples
    ///
    /// ```
    /// use arraystring::{ArrayString, Utf8};
    ///
    /// assert_eq!(ArrayString::<4>::from_utf8_truncate(b"abcde").unwrap(), "abcd");
    /// assert_eq!(ArrayString::<4>::from_utf8_truncate(b"abcd\xFF"), Err(Utf8));
    /// ```
    #[inline]
    pub fn from_utf8_truncate(bytes: &[u8]) -> Result<Self, Utf8> {
        let _ = Self::CAPACITY;
        core_of::ArrayString::from_utf8(bytes).map(ArrayString).map_err(Utf8::from_proved_error)
    }

    /// The text of bytes, with one U+FFFD for each malformed sequence, cut to the longest prefix of whole characters that fits.
    ///
    /// ```
    /// use arraystring::ArrayString;
    ///
    /// assert_eq!(ArrayString::<8>::from_utf8_lossy_truncate(b"a\xFFb"), "a\u{FFFD}b");
    /// assert_eq!(ArrayString::<4>::from_utf8_lossy_truncate(b"ab\xFFc"), "ab"); // U+FFFD takes three bytes
    /// ```
    #[must_use]
    #[inline]
    pub fn from_utf8_lossy_truncate(bytes: &[u8]) -> Self {
        let _ = Self::CAPACITY;
        let mut made = Self::new();
        for chunk in bytes.utf8_chunks() {
            if !made.push_str_truncate(chunk.valid()).is_empty()
                || !chunk.invalid().is_empty() && made.try_push(char::REPLACEMENT_CHARACTER).is_err()
            {
                break;
            }
        }
        made
    }

    /// The text of units of UTF-16, which are read in order, as characters and lone surrogates, up to the first that cannot be appended. If
    /// it is a character that does not fit, the text is cut before it, and nothing behind it has an effect.
    ///
    /// # Errors
    ///
    /// Returns [`Utf16`] if the first that cannot be appended is a lone surrogate (the Unicode Standard, section 3.9), even if the string
    /// is full.
    ///
    /// # Examples
    ///
    /// ```
    /// use arraystring::{ArrayString, Utf16};
    ///
    /// let units = [0x61, 0xD83E, 0xDD14]; // `a`, and the pair of `🤔`
    /// assert_eq!(ArrayString::<4>::from_utf16_truncate(&units).unwrap(), "a"); // not `🤔`
    /// assert_eq!(ArrayString::<4>::from_utf16_truncate(&units[..2]), Err(Utf16)); // half a pair
    /// ```
    #[inline]
    pub fn from_utf16_truncate(units: &[u16]) -> Result<Self, Utf16> {
        let _ = Self::CAPACITY;
        core_of::ArrayString::from_utf16(units).map(ArrayString).map_err(Utf16::from_proved_error)
    }

    /// A text in UTF-16, with U+FFFD for each lone surrogate, cut to the longest prefix of whole characters that fits.
    ///
    /// ```
    /// use arraystring::ArrayString;
    ///
    /// let units = [0x61, 0xD83E, 0x62]; // half a pair between `a` and `b`
    /// assert_eq!(ArrayString::<4>::from_utf16_lossy_truncate(&units), "a\u{FFFD}");
    /// ```
    #[must_use]
    #[inline]
    pub fn from_utf16_lossy_truncate(units: &[u16]) -> Self {
        let _ = Self::CAPACITY;
        ArrayString(core_of::ArrayString::from_utf16_lossy(units))
    }
}
