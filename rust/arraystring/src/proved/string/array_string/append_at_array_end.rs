// Made from crates/arraystring_core/src/array_string/append_at_array_end.rt by rust/generate.py: change that, and run this.
//! Appends to a text that may end where its array ends: the test whether there is room, and the calls that first move
//! the text to the start of the array.

use crate::proved::string::ArrayString;
use crate::proved::base::utils::{encode, shift_on_cold_path, truncate_str, write_by_call};

impl<const N: usize> ArrayString<N> {
    /// Whether there is room for `ch` after `len` bytes. ASCII has a test of its own, which the
    /// compiler joins with that of `encode`. If four more bytes fit, the width of any other
    /// character is not tested.
    #[inline(always)]
    pub(super) fn has_room_for_char(len: usize, ch: char) -> bool {
        let capacity = Self::capacity() as usize;
        if ch.is_ascii() {
            return len < capacity;
        }
        len + 4 <= capacity || len + ch.len_utf8() <= capacity
    }

    /// Moves the text, which is the `size` bytes from `start` on, to the start of the array, writes `ch` behind it, and
    /// returns the size of both. It is a function of its own, so that `try_push` is short where it is inlined. It takes the
    /// numbers and not the string, so that a loop of pushes keeps them in registers. They are its last parameters, because
    /// in this order no register has to be moved before the call.
    #[cold]
    #[inline(never)]
    pub(super) fn compact_and_push_char(
        array: &mut [crate::leaf::MaybeByte; N],
        ch: char,
        start: usize,
        size: usize,
    ) -> usize {
        shift_on_cold_path(array, start, 0, size);
        size + encode(ch, array, size)
    }

    /// Moves the text to the start of the array, and appends `string`. It stands apart from `try_push_str`, as
    /// `compact_and_push_char` does from `try_push`.
    #[cold]
    #[inline(never)]
    pub(super) fn compact_and_push_str(&mut self, string: &str) {
        let (from, size) = (self.start as usize, self.size as usize);
        self.start = 0;
        self.size += string.len() as u8;
        shift_on_cold_path(&mut self.array, from, 0, size);
        write_by_call(&mut self.array, size, string.as_bytes());
    }

    /// Appends what fits of `string` to a text that need not begin at the start of the array. It stands apart
    /// from `push_str`, which would be twice as long.
    #[inline(never)]
    pub(super) fn push_str_at_offset(&mut self, string: &str) {
        let room = Self::capacity() - self.len();
        let _ = self.try_push_str(truncate_str(string, room));
    }
}
