// Made from crates/arraystring_core/src/array_string/splice.rt by rust/generate.py: change that, and run this.
//! How the part between two boundaries becomes another text. What follows the part moves. If there is no room behind the
//! text, what precedes the part moves, too, to the start of the array. Appends, and removals at the front and at the end,
//! are in `push`, `append_at_array_end` and `remove`, because they move nothing, or all of the text.

use crate::proved::string::ArrayString;
use crate::leaf::part_of_length;
use crate::proved::base::utils::{encode, shift, write_over};
use core::str;

impl<const N: usize> ArrayString<N> {
    /// Replaces the text between two boundaries by `given`. The new text must fit.
    #[inline(always)]
    pub(super) fn splice(&mut self, start: usize, end: usize, given: &str) {
        let (offset, size) = (self.start as usize, self.size as usize);
        let (len, tail) = (given.len(), size - end);
        // The second test follows from the first, because only a text that grows can end past the capacity. It is for
        // the compiler: where `given` is known to be empty, as in a removal, this branch is then left out.
        if offset + (start + (len + tail)) > Self::capacity() as usize && len > end - start {
            return self.compact_and_splice(start, end, given);
        }
        self.size = (start + (len + tail)) as u8;
        shift(
            &mut self.array,
            offset + end,
            offset + (start + len),
            tail,
        );
        write_over(&mut self.array, offset + start, given.as_bytes());
    }

    /// Replaces as `splice` does, in a text that has to move to the start of the array for it. Each byte moves at
    /// most once.
    #[cold]
    #[inline(never)]
    fn compact_and_splice(&mut self, start: usize, end: usize, given: &str) {
        let (offset, size) = (self.start as usize, self.size as usize);
        let (len, tail) = (given.len(), size - end);
        self.start = 0;
        self.size = (start + (len + tail)) as u8;
        shift(&mut self.array, offset, 0, start);
        shift(&mut self.array, offset + end, start + len, tail);
        write_over(&mut self.array, start, given.as_bytes());
    }

    /// Puts `ch` at a boundary, as `splice` does with a text. The new text must fit. If there is room behind
    /// the text, the UTF-8 of `ch` is written straight into the array. If not, it is first written into an
    /// array of its own, which `compact_and_splice` is given.
    pub(super) fn insert_char_at_boundary(&mut self, at: usize, ch: char) {
        let (offset, size) = (self.start as usize, self.size as usize);
        let (len, tail) = (ch.len_utf8(), size - at);
        if offset + size + len > Self::capacity() as usize {
            let mut utf8 = [crate::leaf::NEW_BYTE; 4];
            encode(ch, &mut utf8, 0);
            // SAFETY: `encode` wrote the `len` bytes of the UTF-8 of `ch` at the start of `utf8`.
            let given = unsafe { str::from_utf8_unchecked(part_of_length(&utf8, 0, len)) };
            return self.compact_and_splice(at, at, given);
        }
        self.size = (at + (len + tail)) as u8;
        shift(
            &mut self.array,
            offset + at,
            offset + (at + len),
            tail,
        );
        encode(ch, &mut self.array, offset + at);
    }
}
