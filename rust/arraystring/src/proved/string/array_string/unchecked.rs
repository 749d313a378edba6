// Made from crates/arraystring_core/src/array_string/unchecked.rt by rust/generate.py: change that, and run this.
//! The calls that leave a test to the caller, of which most programs need none. They are safe, because each caller
//! proves the precondition. An append tests only whether the text first has to move to the start of its array, and not
//! even that if the text begins there. So the two constructors from an iterator, which append to a new string, test
//! nothing in their loops.

use crate::proved::string::ArrayString;
use crate::proved::base::utils::{encode, write_by_call, write_over};
use core::str;

impl<const N: usize> ArrayString<N> {
    /// Creates a string from `string`.
    ///
    /// # Precondition
    ///
    /// All of `string` must fit.
    #[inline]
    pub fn from_str_unchecked(string: &str) -> Self {
        let mut array = [crate::leaf::NEW_BYTE; N];
        write_by_call(&mut array, 0, string.as_bytes());
        ArrayString {
            array,
            start: 0,
            size: string.len() as u8,
        }
    }

    /// Creates a string from all pieces, joined.
    ///
    /// # Precondition
    ///
    /// All pieces that the iterator returns must fit together. The iterator must end, and until then
    /// the precondition of its `next` must hold.
    #[inline]
    pub fn from_iterator_unchecked<'a, I: IntoIterator<Item = &'a str>>(pieces: I) -> Self {
        let mut made = Self::new();
        for piece in pieces {
            made.push_str_unchecked(piece);
        }
        made
    }

    /// Creates a string from all characters that the iterator returns.
    ///
    /// # Precondition
    ///
    /// The characters that the iterator returns must fit. The iterator must end, and until then the
    /// precondition of its `next` must hold.
    #[inline]
    pub fn from_chars_unchecked<I: IntoIterator<Item = char>>(characters: I) -> Self {
        let mut made = Self::new();
        for ch in characters {
            made.push_unchecked(ch);
        }
        made
    }

    /// Creates a string from the UTF-8 in `given`.
    ///
    /// # Precondition
    ///
    /// `given` must be well-formed UTF-8 (the Unicode Standard, section 3.9), and all of it must
    /// fit.
    #[inline]
    pub fn from_utf8_unchecked(given: &[u8]) -> Self {
        // SAFETY: the caller has to give well-formed UTF-8.
        Self::from_str_unchecked(unsafe { str::from_utf8_unchecked(given) })
    }

    /// Appends `ch`.
    ///
    /// # Precondition
    ///
    /// `ch` must fit.
    #[inline(always)]
    pub fn push_unchecked(&mut self, ch: char) {
        let end = self.end();
        // If the text begins at the start of the array, all room is behind it, and `ch` fits there by the precondition.
        if self.start > 0 && !Self::has_room_for_char(end, ch) {
            let (start, size) = (self.start as usize, self.size as usize);
            let size = Self::compact_and_push_char(&mut self.array, ch, start, size);
            self.start = 0;
            self.size = size as u8;
            return;
        }
        self.size += encode(ch, &mut self.array, end) as u8;
    }

    /// Appends `string`.
    ///
    /// # Precondition
    ///
    /// All of `string` must fit.
    #[inline]
    pub fn push_str_unchecked(&mut self, string: &str) {
        let end = self.end();
        if self.start > 0 && end + string.len() > Self::capacity() as usize {
            return self.compact_and_push_str(string);
        }
        self.size += string.len() as u8;
        write_over(&mut self.array, end, string.as_bytes());
    }

    /// Inserts `ch` at the byte index `index`.
    ///
    /// # Precondition
    ///
    /// The index must be a boundary, and `ch` must fit.
    #[inline]
    pub fn insert_unchecked(&mut self, index: u8, ch: char) {
        self.insert_char_at_boundary(index as usize, ch);
    }

    /// Inserts `string` at the byte index `index`.
    ///
    /// # Precondition
    ///
    /// The index must be a boundary, and all of `string` must fit.
    #[inline]
    pub fn insert_str_unchecked(&mut self, index: u8, string: &str) {
        let start = index as usize;
        self.splice(start, start, string);
    }
}
