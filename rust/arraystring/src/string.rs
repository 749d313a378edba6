//! The type, and what is read of a string.

use crate::proved::string as core_of;

/// A string of at most `N` bytes of UTF-8, stored inline: `N` is at most 255. Lengths, indices, ranges and capacities are `usize`, and
/// count bytes.
///
/// A text *fits* if the string with it is not larger than the capacity. **No call loses a part of a text, unless its name says so:** a call
/// whose name ends in `_truncate` keeps the longest prefix of whole characters that fits. If it edits a string, it returns the rest of the
/// text, or whether anything was left. Every other call that is given too much refuses it, returns an error, and changes nothing (a
/// `write!` is many calls, one for each piece; only the `arbitrary` of a fuzzer cuts, too).
///
/// A *boundary* is an index at which a character begins or the text ends. An index is *past* the text if it is greater than the length,
/// and *inside* a character if it is less and no boundary.
///
/// An iterator is asked for no item behind the first that does not fit. If code of the caller panics (an iterator, a closure, a `Display`,
/// or a `RangeBounds` that the caller wrote), the text is still made of whole characters. It is what it was before the call, unless the call
/// says otherwise.
///
/// # Examples
///
/// ```
/// use arraystring::{ArrayString, OutOfBounds};
///
/// let mut name = ArrayString::<8>::try_from_str("ann")?;
/// assert_eq!(name.try_push_str(" and bo"), Err(OutOfBounds)); // refused, and nothing changed
/// assert_eq!(name.push_str_truncate(" and bo"), "bo"); // this is left
/// assert_eq!(name, "ann and ");
/// assert_eq!((name.len(), name.find('d'), &name[..3]), (8, Some(6), "ann"));
/// # Ok::<(), OutOfBounds>(())
/// ```
///
/// # Copies
///
/// A string is `Copy`, as an array is. So where rustc would refuse to move a `String`, it copies a string, and an edit of the copy does not
/// change the string that it was copied from: take a `&mut`.
///
/// ```
/// use arraystring::{ArrayString, OutOfBounds, arraystring};
///
/// let mut notes: [Option<ArrayString<8>>; 2] = [Some(arraystring!("ab")), None];
/// for note in notes.iter_mut().flatten() {
///     note.try_push('!')?; // `for mut note in notes` would write to copies
/// }
/// assert_eq!(notes[0].unwrap(), "ab!");
/// # Ok::<(), OutOfBounds>(())
/// ```
///
/// # Size
///
/// A string takes `N + 2` bytes, and is aligned to one.
///
/// ```
/// use arraystring::{ArrayString, SmallString};
///
/// assert_eq!((size_of::<ArrayString<62>>(), size_of::<SmallString>()), (64, 25));
/// ```
///
/// # Capacities above 255
///
/// They do not compile: each call that makes a string is an error of `cargo build`, and so are `len`, `as_str`, `as_bytes` and the calls of
/// `str` that only read. (`cargo check` does not see it.)
///
/// ```compile_fail,E0080
/// let string = arraystring::ArrayString::<256>::new();
/// ```
#[derive(Clone, Copy, PartialEq, Eq, PartialOrd, Ord, Hash)]
pub struct ArrayString<const N: usize>(pub(crate) core_of::ArrayString<N>);

/// Its capacity, and what it holds.
///
/// By `Deref` and `DerefMut` it also has all calls of `str`, such as `find`, `get`, `trim`, `chars`, `split_at` and
/// `make_ascii_uppercase`.
impl<const N: usize> ArrayString<N> {
    /// The capacity in bytes, as a constant.
    ///
    /// ```
    /// use arraystring::ArrayString;
    ///
    /// type Name = ArrayString<8>;
    ///
    /// assert_eq!([0u8; Name::CAPACITY].len(), 8);
    /// ```
    pub const CAPACITY: usize = {
        // Each constructor, `default`, `from_str` and each `try_from` name this constant first, so that the error of rustc shows
        // the line of the caller. `len`, `as_str` and `as_bytes` name it, too. Otherwise a library that only reads strings would
        // compile for a capacity that no string has.
        assert!(
            N <= 255,
            "an `ArrayString` has at most 255 bytes: for more take that of arrayvec, or the `String` of heapless or std"
        );
        N
    };

    /// The capacity in bytes, which is `N`.
    #[must_use]
    #[inline(always)]
    pub const fn capacity(&self) -> usize {
        Self::CAPACITY
    }

    /// The length of the text in bytes.
    #[must_use]
    #[inline(always)]
    pub const fn len(&self) -> usize {
        let _ = Self::CAPACITY;
        self.0.len() as usize
    }

    /// Whether the text has no character.
    #[must_use]
    #[inline(always)]
    pub const fn is_empty(&self) -> bool {
        self.0.is_empty()
    }

    /// How many bytes can still be added: the capacity without the length.
    ///
    /// ```
    /// let string = arraystring::ArrayString::<4>::try_from_str("aé").unwrap();
    /// assert_eq!((string.len(), string.remaining_capacity()), (3, 1));
    /// ```
    #[must_use]
    #[inline(always)]
    pub const fn remaining_capacity(&self) -> usize {
        N - self.len()
    }

    /// Whether the text fills the capacity, so that no character can be added. If it does not, a character of more than one byte may still
    /// not fit.
    #[must_use]
    #[inline(always)]
    pub const fn is_full(&self) -> bool {
        self.len() == N
    }

    /// The text, borrowed without a copy.
    #[must_use]
    #[inline(always)]
    pub const fn as_str(&self) -> &str {
        let _ = Self::CAPACITY;
        self.0.as_str()
    }

    /// The bytes of the text, borrowed without a copy.
    #[must_use]
    #[inline(always)]
    pub const fn as_bytes(&self) -> &[u8] {
        let _ = Self::CAPACITY;
        self.0.as_bytes()
    }

    /// The same text with room for `M` bytes. It can't fail, since it does not compile where `M` is less than `N`.
    ///
    /// ```
    /// use arraystring::{ArrayString, SmallString};
    ///
    /// let name = SmallString::try_from_str("ann").unwrap();
    /// let mut line: ArrayString<64> = name.widen();
    /// assert_eq!(line.try_push_str(" was here, and wrote this on the wall"), Ok(()));
    /// ```
    ///
    /// ```compile_fail,E0080
    /// use arraystring::{ArrayString, SmallString};
    ///
    /// let narrow: ArrayString<8> = SmallString::new().widen();
    /// ```
    #[must_use]
    #[inline]
    pub fn widen<const M: usize>(&self) -> ArrayString<M> {
        let _ = ArrayString::<M>::CAPACITY;
        const { assert!(N <= M, "the capacity that is wanted is smaller: `try_from_str` may refuse the text") };
        ArrayString(core_of::ArrayString::from_str_truncate(self.as_str()))
    }
}
