//! The calls that append what a format prints, or an iterator gives: whole or not at all, or as much of it as fits.

use core::fmt::{self, Write};
use core::mem;

use crate::{ArrayString, OutOfBounds};

/// # Adding what a format prints, or an iterator gives
///
/// These calls have no contract, because a contract can't say what is left after code of the caller panicked.
impl<const N: usize> ArrayString<N> {
    /// Appends what a format prints, whole or not at all. (A `write!` appends piece by piece, and keeps the pieces before the one that
    /// does not fit.)
    ///
    /// # Errors
    ///
    /// Returns a [`fmt::Error`] if not all of it fits, or if a `Display` in it fails. Nothing has changed then, nor if a `Display` panics.
    ///
    /// # Examples
    ///
    /// ```
    /// use arraystring::ArrayString;
    /// use std::fmt::Write;
    ///
    /// let (from, to) = ("abcd", "efghi");
    /// let mut line = ArrayString::<8>::try_from_str("x").unwrap();
    /// assert!(line.try_write(format_args!("{from}-{to}")).is_err());
    /// assert_eq!(line, "x");
    /// assert!(line.try_write(format_args!("{from}-{}", 7)).is_ok());
    /// assert_eq!(line, "xabcd-7");
    ///
    /// let mut line = ArrayString::<8>::try_from_str("x").unwrap();
    /// assert!(write!(line, "{from}-{to}").is_err());
    /// assert_eq!(line, "xabcd-"); // what came before `efghi` stays
    /// ```
    #[doc(alias = "write_fmt")]
    #[inline]
    pub fn try_write(&mut self, arguments: fmt::Arguments<'_>) -> fmt::Result {
        let mut transaction = AppendTransaction::begin(self);
        transaction.write_fmt(arguments)?;
        if !transaction.is_whole {
            return Err(fmt::Error);
        }
        transaction.commit();
        Ok(())
    }

    /// Appends what a format prints, cut to the longest prefix of whole characters that fits, and returns whether anything was cut off.
    /// From the cut on the format gets an error for each piece, and no piece is added.
    ///
    /// # Errors
    ///
    /// Returns a [`fmt::Error`] if a `Display` in it fails before anything is cut off. Nothing has changed then, nor if a `Display` panics.
    ///
    /// # Examples
    ///
    /// ```
    /// use arraystring::ArrayString;
    ///
    /// let mut line = ArrayString::<8>::try_from_str("x").unwrap();
    /// assert_eq!(line.write_truncate(format_args!("{}-{}", 12, "é")), Ok(false)); // all of it fits
    /// assert_eq!(line, "x12-é");
    /// assert_eq!(line.write_truncate(format_args!("{}{}", "ü€", '.')), Ok(true)); // no `.` behind the cut
    /// assert_eq!(line, "x12-éü");
    /// ```
    #[doc(alias = "write_fmt")]
    #[inline]
    pub fn write_truncate(&mut self, arguments: fmt::Arguments<'_>) -> Result<bool, fmt::Error> {
        let mut prefix = TruncatingTransaction(AppendTransaction::begin(self));
        let written = prefix.write_fmt(arguments);
        let TruncatingTransaction(transaction) = prefix;
        let is_cut = !transaction.is_whole;
        if !is_cut {
            written?;
        }
        transaction.commit();
        Ok(is_cut)
    }

    /// Appends all characters of an iterator, or none.
    ///
    /// # Errors
    ///
    /// Returns [`OutOfBounds`] at the first character that does not fit, so the iterator may be endless. Nothing has changed then, nor if
    /// the iterator panics.
    ///
    /// # Examples
    ///
    /// ```
    /// use arraystring::{ArrayString, OutOfBounds};
    ///
    /// let mut string = ArrayString::<4>::try_from_str("a")?;
    /// assert_eq!(string.try_extend_chars("bcde".chars()), Err(OutOfBounds));
    /// assert_eq!(string, "a");
    /// assert_eq!(string.try_extend_chars("bé".chars()), Ok(()));
    /// assert_eq!(string, "abé");
    /// # Ok::<(), OutOfBounds>(())
    /// ```
    #[doc(alias = "extend")]
    #[inline]
    pub fn try_extend_chars(&mut self, characters: impl IntoIterator<Item = char>) -> Result<(), OutOfBounds> {
        let transaction = AppendTransaction::begin(self);
        characters.into_iter().try_for_each(|ch| transaction.string.try_push(ch))?;
        transaction.commit();
        Ok(())
    }

    /// Appends all texts of an iterator, or none.
    ///
    /// # Errors
    ///
    /// Returns [`OutOfBounds`] at the first piece that does not fit, so the iterator may be endless, unless from some piece on it gives
    /// only empty ones. Nothing has changed then, nor if the iterator panics.
    ///
    /// # Examples
    ///
    /// ```
    /// use arraystring::{ArrayString, OutOfBounds};
    ///
    /// let mut string = ArrayString::<4>::try_from_str("a")?;
    /// assert_eq!(string.try_extend_strs(["bc", "de"]), Err(OutOfBounds));
    /// assert_eq!(string, "a");
    /// assert_eq!(string.try_extend_strs(["b", "é"]), Ok(()));
    /// assert_eq!(string, "abé");
    /// # Ok::<(), OutOfBounds>(())
    /// ```
    #[doc(alias = "extend")]
    #[inline]
    pub fn try_extend_strs(&mut self, pieces: impl IntoIterator<Item = impl AsRef<str>>) -> Result<(), OutOfBounds> {
        let transaction = AppendTransaction::begin(self);
        pieces.into_iter().try_for_each(|piece| transaction.string.try_push_str(piece.as_ref()))?;
        transaction.commit();
        Ok(())
    }

    /// Appends the longest prefix of the characters that fits, and returns whether a character did not fit. That character was taken from
    /// the iterator, and is lost. If the iterator panics, the text has the characters that came before.
    ///
    /// ```
    /// let mut string = arraystring::ArrayString::<4>::try_from_str("a").unwrap();
    /// assert!(string.extend_chars_truncate('b'..='z'));
    /// assert_eq!(string, "abcd");
    /// ```
    #[doc(alias = "extend")]
    #[inline]
    pub fn extend_chars_truncate(&mut self, characters: impl IntoIterator<Item = char>) -> bool {
        for ch in characters {
            if self.try_push(ch).is_err() {
                return true;
            }
        }
        false
    }

    /// Appends the pieces, one behind the other, up to the last whole character that fits, and returns whether something did not fit. The
    /// rest of the piece that did not fit is lost, and no later piece is asked for. If the iterator panics, the text has the pieces that
    /// came before.
    ///
    /// ```
    /// let mut string = arraystring::ArrayString::<8>::try_from_str("one").unwrap();
    /// assert!(string.extend_strs_truncate([" two", " three"]));
    /// assert_eq!(string, "one two ");
    /// ```
    #[doc(alias = "extend")]
    #[inline]
    pub fn extend_strs_truncate(&mut self, pieces: impl IntoIterator<Item = impl AsRef<str>>) -> bool {
        for piece in pieces {
            if !self.push_str_truncate(piece.as_ref()).is_empty() {
                return true;
            }
        }
        false
    }
}

/// A transaction is an addition to a string as long as it may still be taken back. `drop` takes it back, so that nothing of it stays where
/// something is refused, or where a `Display` or an iterator panics. Only `commit` makes it stay.
struct AppendTransaction<'a, const N: usize> {
    string: &'a mut ArrayString<N>,
    /// The length of the text before the transaction.
    len: usize,
    /// Whether no piece was refused or cut so far. It is noted here, because a `Display` may pass over an error, and return `Ok`.
    is_whole: bool,
}

/// A transaction that keeps, of the first piece that is too long, the longest prefix of whole characters that fits. It refuses later
/// pieces.
struct TruncatingTransaction<'a, const N: usize>(AppendTransaction<'a, N>);

impl<'a, const N: usize> AppendTransaction<'a, N> {
    /// Begins a transaction behind the text of a string, where nothing is added yet.
    #[inline]
    fn begin(string: &'a mut ArrayString<N>) -> Self {
        AppendTransaction { len: string.len(), string, is_whole: true }
    }

    /// Makes the addition stay in the string. The transaction is forgotten, so its `drop` does not run.
    #[inline]
    fn commit(self) {
        mem::forget(self);
    }
}

impl<const N: usize> Write for AppendTransaction<'_, N> {
    #[inline]
    fn write_str(&mut self, piece: &str) -> fmt::Result {
        let written = self.string.write_str(piece);
        self.is_whole &= written.is_ok();
        written
    }
}

impl<const N: usize> Write for TruncatingTransaction<'_, N> {
    #[inline]
    fn write_str(&mut self, piece: &str) -> fmt::Result {
        let TruncatingTransaction(transaction) = self;
        if transaction.is_whole {
            transaction.is_whole = transaction.string.push_str_truncate(piece).is_empty();
        }
        if transaction.is_whole { Ok(()) } else { Err(fmt::Error) }
    }
}

impl<const N: usize> Drop for AppendTransaction<'_, N> {
    #[inline]
    fn drop(&mut self) {
        // The text ended at `len` before the transaction, so `len` is a boundary, and `truncate` refuses nothing.
        let _ = self.string.truncate(self.len);
    }
}
