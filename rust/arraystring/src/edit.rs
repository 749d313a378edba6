//! The edits of a string.

use core::ops::{Bound, RangeBounds};

use crate::{ArrayString, Drain, Error, OutOfBounds, Utf8};

/// An index as the core takes it, which is a `u8`. No text has more than 255 bytes, so an index that is no `u8` is past every text.
#[inline(always)]
fn try_core_index(at: usize) -> Result<u8, Error> {
    u8::try_from(at).map_err(|_| Error::OutOfBounds)
}

/// The ends of a range, in a text of `len` bytes.
#[inline(always)]
fn range_ends(range: impl RangeBounds<usize>, len: usize) -> (usize, usize) {
    let start = match range.start_bound() {
        Bound::Included(start) => *start,
        Bound::Excluded(before) => before.saturating_add(1),
        Bound::Unbounded => 0,
    };
    let end = match range.end_bound() {
        Bound::Included(last) => last.saturating_add(1),
        Bound::Excluded(end) => *end,
        Bound::Unbounded => len,
    };
    (start, end)
}

/// The text behind its first `taken` bytes, which are whole characters. (`&text[taken..]` is the same, but would leave a panic in the
/// program, which never happens.)
#[inline(always)]
fn rest_of(text: &str, taken: usize) -> &str {
    text.get(taken..).unwrap_or_default()
}

/// # Adding at the end
///
/// The contracts of these calls are in `crates/arraystring_core/src/array_string/push.rt` of the repository. A name that ends in
/// `_truncate` stands there without this ending, for a call that returns no rest.
impl<const N: usize> ArrayString<N> {
    /// Appends `ch`.
    ///
    /// # Errors
    ///
    /// Returns [`OutOfBounds`] if `ch` does not fit. Nothing has changed then.
    ///
    /// # Examples
    ///
    /// ```
    /// use arraystring::{ArrayString, OutOfBounds};
    ///
    /// let mut string = ArrayString::<4>::try_from_str("ab")?;
    /// assert_eq!(string.try_push('c'), Ok(()));
    /// assert_eq!(string.try_push('é'), Err(OutOfBounds)); // one byte is left, and `é` takes two
    /// assert_eq!(string, "abc");
    /// # Ok::<(), OutOfBounds>(())
    /// ```
    #[doc(alias = "push")]
    #[inline(always)]
    pub fn try_push(&mut self, ch: char) -> Result<(), OutOfBounds> {
        self.0.try_push(ch).map_err(OutOfBounds::from_proved_error)
    }

    /// Appends `text`.
    ///
    /// # Errors
    ///
    /// Returns [`OutOfBounds`] if not all of `text` fits. Nothing has changed then.
    ///
    /// # Examples
    ///
    /// ```
    /// use arraystring::{ArrayString, OutOfBounds};
    ///
    /// let mut string = ArrayString::<4>::try_from_str("ab")?;
    /// assert_eq!(string.try_push_str("c"), Ok(()));
    /// assert_eq!(string.try_push_str("de"), Err(OutOfBounds));
    /// assert_eq!(string, "abc");
    /// # Ok::<(), OutOfBounds>(())
    /// ```
    #[doc(alias = "push_str")]
    #[inline]
    pub fn try_push_str(&mut self, text: &str) -> Result<(), OutOfBounds> {
        self.0.try_push_str(text).map_err(OutOfBounds::from_proved_error)
    }

    /// Appends the longest prefix of whole characters of `text` that fits, and returns the rest.
    ///
    /// ```
    /// use arraystring::{ArrayString, OutOfBounds};
    ///
    /// let mut line = ArrayString::<4>::try_from_str("abc")?;
    /// assert_eq!(line.push_str_truncate("dé"), "é");
    /// assert_eq!(line, "abcd");
    /// # Ok::<(), OutOfBounds>(())
    /// ```
    ///
    /// A text in lines of four bytes:
    ///
    /// ```
    /// use arraystring::ArrayString;
    ///
    /// let (mut lines, mut rest) = (Vec::new(), "a text that is long");
    /// while !rest.is_empty() {
    ///     let mut line = ArrayString::<4>::new();
    ///     rest = line.push_str_truncate(rest);
    ///     lines.push(line);
    /// }
    /// assert_eq!(lines, ["a te", "xt t", "hat ", "is l", "ong"]);
    /// ```
    #[doc(alias = "push_str")]
    #[inline]
    pub fn push_str_truncate<'a>(&mut self, text: &'a str) -> &'a str {
        let before = self.len();
        self.0.push_str(text);
        rest_of(text, self.len() - before)
    }
}

/// # Inserting and replacing
///
/// The contracts of these calls are in `crates/arraystring_core/src/array_string/insert.rt` and `replaced_range.rt` of the repository.
/// `insert_str_truncate` stands there as `insert_str`, which returns no rest.
impl<const N: usize> ArrayString<N> {
    /// Inserts `ch` at the byte index `at`.
    ///
    /// # Errors
    ///
    /// Returns the first of these that holds. Nothing has changed then:
    ///
    /// - [`Error::OutOfBounds`] if `at` is past the text, or if `ch` does not fit;
    /// - [`Error::Utf8`] if `at` is inside a character.
    ///
    /// # Examples
    ///
    /// ```
    /// use arraystring::{ArrayString, Error};
    ///
    /// let mut string = ArrayString::<4>::try_from_str("é")?;
    /// assert_eq!(string.try_insert(2, 'b'), Ok(()));
    /// assert_eq!(string, "éb");
    /// assert_eq!(string.try_insert(9, 'c'), Err(Error::OutOfBounds)); // past the text
    /// assert_eq!(string.try_insert(0, 'é'), Err(Error::OutOfBounds)); // one byte is left
    /// assert_eq!(string.try_insert(1, 'c'), Err(Error::Utf8)); // inside `é`
    /// # Ok::<(), Error>(())
    /// ```
    #[doc(alias = "insert")]
    #[inline]
    pub fn try_insert(&mut self, at: usize, ch: char) -> Result<(), Error> {
        self.0.try_insert(try_core_index(at)?, ch).map_err(Error::from_proved_error)
    }

    /// Inserts `text` at the byte index `at`.
    ///
    /// # Errors
    ///
    /// Returns the first of these that holds. Nothing has changed then:
    ///
    /// - [`Error::OutOfBounds`] if `at` is past the text, or if not all of `text` fits;
    /// - [`Error::Utf8`] if `at` is inside a character.
    ///
    /// # Examples
    ///
    /// ```
    /// use arraystring::{ArrayString, Error};
    ///
    /// let mut string = ArrayString::<8>::try_from_str("é-")?;
    /// assert_eq!(string.try_insert_str(2, "abc"), Ok(()));
    /// assert_eq!(string, "éabc-");
    /// assert_eq!(string.try_insert_str(0, "def"), Err(Error::OutOfBounds)); // two bytes are left
    /// assert_eq!(string.try_insert_str(1, "d"), Err(Error::Utf8)); // inside `é`
    /// # Ok::<(), Error>(())
    /// ```
    #[doc(alias = "insert_str")]
    #[inline]
    pub fn try_insert_str(&mut self, at: usize, text: &str) -> Result<(), Error> {
        self.0.try_insert_str(try_core_index(at)?, text).map_err(Error::from_proved_error)
    }

    /// Inserts at the byte index `at` the longest prefix of whole characters of `text` that fits, and returns the rest.
    ///
    /// # Errors
    ///
    /// Returns the first of these that holds. Nothing has changed then:
    ///
    /// - [`Error::OutOfBounds`] if `at` is past the text;
    /// - [`Error::Utf8`] if `at` is inside a character.
    ///
    /// # Examples
    ///
    /// ```
    /// use arraystring::{ArrayString, Error};
    ///
    /// let mut string = ArrayString::<4>::try_from_str("aé")?;
    /// assert_eq!(string.insert_str_truncate(1, "xyz"), Ok("yz")); // there is room for one byte
    /// assert_eq!(string, "axé");
    /// assert_eq!(string.insert_str_truncate(3, "z"), Err(Error::Utf8)); // inside `é`
    /// # Ok::<(), Error>(())
    /// ```
    #[doc(alias = "insert_str")]
    #[inline]
    pub fn insert_str_truncate<'a>(&mut self, at: usize, text: &'a str) -> Result<&'a str, Error> {
        let before = self.len();
        self.0.insert_str(try_core_index(at)?, text).map_err(Error::from_proved_error)?;
        Ok(rest_of(text, self.len() - before))
    }

    /// Replaces the part in the range by `text`.
    ///
    /// # Errors
    ///
    /// Returns the first of these that holds. Nothing has changed then:
    ///
    /// - [`Error::OutOfBounds`] if the range ends before it starts, or past the text;
    /// - [`Error::OutOfBounds`] if the text with `text` in it does not fit;
    /// - [`Error::Utf8`] if an end of the range is inside a character.
    ///
    /// # Examples
    ///
    /// ```
    /// use arraystring::{ArrayString, Error};
    ///
    /// let mut string = ArrayString::<8>::try_from_str("abcdé")?;
    /// assert_eq!(string.replace_range(1..3, "éx"), Ok(()));
    /// assert_eq!(string, "aéxdé");
    /// assert_eq!(string.replace_range(..1, "abc"), Err(Error::OutOfBounds)); // nine bytes
    /// assert_eq!(string.replace_range(2.., ""), Err(Error::Utf8)); // inside `é`
    /// # Ok::<(), Error>(())
    /// ```
    #[inline(always)]
    pub fn replace_range(&mut self, range: impl RangeBounds<usize>, text: &str) -> Result<(), Error> {
        let (start, end) = range_ends(range, self.len());
        self.0.replace_range(try_core_index(start)?..try_core_index(end)?, text).map_err(Error::from_proved_error)
    }
}

/// # Removing
///
/// The contracts of these calls are in `crates/arraystring_core/src/array_string/remove.rt`, `drained_range.rt`, `retain.rt` and `trim.rt`
/// of the repository. `trim_in_place` stands there as `trim`.
impl<const N: usize> ArrayString<N> {
    /// Removes the last character, and returns it. Returns `None` if the text is empty.
    ///
    /// ```
    /// let mut string = arraystring::ArrayString::<4>::try_from_str("aé").unwrap();
    /// assert_eq!((string.pop(), string.pop(), string.pop()), (Some('é'), Some('a'), None));
    /// ```
    #[inline]
    pub fn pop(&mut self) -> Option<char> {
        self.0.pop()
    }

    /// Removes the character that begins at the byte index `at`, and returns it.
    ///
    /// # Errors
    ///
    /// Returns the first of these that holds. Nothing has changed then:
    ///
    /// - [`Error::OutOfBounds`] if `at` is not below the length;
    /// - [`Error::Utf8`] if `at` is inside a character.
    ///
    /// # Examples
    ///
    /// ```
    /// use arraystring::{ArrayString, Error};
    ///
    /// let mut string = ArrayString::<8>::try_from_str("aéb")?;
    /// assert_eq!(string.remove(0), Ok('a'));
    /// assert_eq!(string.remove(1), Err(Error::Utf8)); // inside `é`
    /// assert_eq!(string.remove(3), Err(Error::OutOfBounds)); // at the end
    /// assert_eq!(string, "éb");
    /// # Ok::<(), Error>(())
    /// ```
    #[inline]
    pub fn remove(&mut self, at: usize) -> Result<char, Error> {
        self.0.remove(try_core_index(at)?).map_err(Error::from_proved_error)
    }

    /// Shortens the text to its first `len` bytes. Nothing changes if the text has at most `len` bytes. Unlike `String::truncate`, it never
    /// panics.
    ///
    /// # Errors
    ///
    /// Returns [`Utf8`] if `len` is inside a character. Nothing has changed then.
    ///
    /// # Examples
    ///
    /// ```
    /// use arraystring::{ArrayString, Utf8};
    ///
    /// let mut string = ArrayString::<4>::try_from_str("aéb").unwrap();
    /// assert_eq!(string.truncate(9), Ok(())); // it has no more
    /// assert_eq!(string.truncate(2), Err(Utf8)); // inside `é`
    /// assert_eq!(string, "aéb");
    /// assert_eq!(string.truncate(1), Ok(()));
    /// assert_eq!(string, "a");
    /// ```
    #[inline]
    pub fn truncate(&mut self, len: usize) -> Result<(), Utf8> {
        match try_core_index(len) {
            Ok(len) => self.0.truncate(len).map_err(Utf8::from_proved_error),
            Err(_) => Ok(()),
        }
    }

    /// Keeps the part before the byte index `at`, which may be the length, and returns the part from it on. Unlike `String::split_off`, it
    /// never panics.
    ///
    /// # Errors
    ///
    /// Returns the first of these that holds. Nothing has changed then:
    ///
    /// - [`Error::OutOfBounds`] if `at` is past the text;
    /// - [`Error::Utf8`] if `at` is inside a character.
    ///
    /// # Examples
    ///
    /// ```
    /// use arraystring::{ArrayString, Error};
    ///
    /// let mut string = ArrayString::<8>::try_from_str("aéb")?;
    /// assert_eq!(string.split_off(2), Err(Error::Utf8)); // inside `é`
    /// assert_eq!(string.split_off(3)?, "b");
    /// assert_eq!(string, "aé");
    /// # Ok::<(), Error>(())
    /// ```
    #[inline]
    pub fn split_off(&mut self, at: usize) -> Result<Self, Error> {
        self.0.split_off(try_core_index(at)?).map(ArrayString).map_err(Error::from_proved_error)
    }

    /// Removes the part in the range, and returns its characters. The part is removed at once, whether or not the [`Drain`] is used.
    ///
    /// # Errors
    ///
    /// Returns the first of these that holds. Nothing has changed then:
    ///
    /// - [`Error::OutOfBounds`] if the range ends before it starts, or past the text;
    /// - [`Error::Utf8`] if an end of the range is inside a character.
    ///
    /// # Examples
    ///
    /// ```
    /// use arraystring::{ArrayString, Error};
    ///
    /// let mut string = ArrayString::<8>::try_from_str("abcdé")?;
    /// assert_eq!(string.drain(1..=2)?.as_str(), "bc");
    /// assert_eq!(string, "adé");
    /// assert_eq!(string.drain(2..9), Err(Error::OutOfBounds)); // past the text
    /// assert_eq!(string.drain(..3), Err(Error::Utf8)); // inside `é`
    /// # Ok::<(), Error>(())
    /// ```
    #[inline(always)]
    pub fn drain(&mut self, range: impl RangeBounds<usize>) -> Result<Drain<N>, Error> {
        let (start, end) = range_ends(range, self.len());
        self.0.drain(try_core_index(start)?..try_core_index(end)?).map(Drain).map_err(Error::from_proved_error)
    }

    /// Keeps the characters for which `keeps` returns true, and removes all others. `keeps` is called once with each character, in order.
    /// If it panics, the text is what was kept until then.
    ///
    /// ```
    /// let mut string = arraystring::ArrayString::<8>::try_from_str("a-b-c").unwrap();
    /// string.retain(|ch| ch != '-');
    /// assert_eq!(string, "abc");
    /// ```
    #[inline]
    pub fn retain(&mut self, keeps: impl FnMut(char) -> bool) {
        self.0.retain(keeps);
    }

    /// Removes all white space at both ends (the property White_Space of the Unicode Standard), and nothing else. (`trim` is a call of
    /// `str`, which leaves the string as it is, and returns a part of its text.)
    ///
    /// ```
    /// let mut string = arraystring::ArrayString::<8>::try_from_str("\t a b\u{3000}").unwrap();
    /// assert_eq!(string.trim(), "a b");
    /// string.trim_in_place();
    /// assert_eq!(string, "a b");
    /// ```
    #[inline]
    pub fn trim_in_place(&mut self) {
        self.0.trim();
    }

    /// Removes all characters.
    #[inline]
    pub fn clear(&mut self) {
        self.0.clear();
    }
}
