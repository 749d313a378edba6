// Made from crates/arraystring_core/src/array_string/retain.rt by rust/generate.py: change that, and run this.
//! The characters of a text that a closure keeps.

use crate::proved::string::ArrayString;
use crate::leaf::{byte, part_of_length};
use crate::proved::base::utils::{first_char_and_width, shift};
use core::str;

impl<const N: usize> ArrayString<N> {
    /// Keeps the characters for which `f` returns true and removes all others. `f` is called once
    /// with each character, in order.
    ///
    /// # Precondition
    ///
    /// `f` must be callable with each character, in each state that its earlier calls leave.
    #[inline]
    pub fn retain<F: FnMut(char) -> bool>(&mut self, f: F) {
        let (offset, size) = (self.start as usize, self.size as usize);
        retain_in_array(&mut self.array, &mut self.size, offset, size, f);
    }
}

/// Calls `f` once with each character of a text, in order, and closes the gaps between those for
/// which it returns true. The text is the `size` bytes of the array from `offset` on, and keeps
/// its offset. Each kept character is moved on its own, and only to the left. At each call of `f`, and at the
/// end, `kept` is the size of what was kept so far, and the `kept` bytes from `offset` on are those of the
/// characters that were kept so far. If `f` panics, the text is those bytes.
#[inline]
fn retain_in_array<const N: usize, F: FnMut(char) -> bool>(
    array: &mut [crate::leaf::MaybeByte; N],
    kept: &mut u8,
    offset: usize,
    size: usize,
    mut f: F,
) {
    *kept = 0;
    let mut read = 0;
    // At the start of each turn no byte from `read` on was written over.
    while read < size {
        // An ASCII byte is a whole character; `first_char_and_width` reads any other.
        let first = byte(array, offset + read);
        if first < 0x80 {
            if f(first as char) {
                let to = offset + *kept as usize;
                shift(array, offset + read, to, 1);
                *kept += 1;
            }
            read += 1;
        } else {
            // SAFETY: the text was UTF-8 at the start. A turn adds no more to `*kept` than to `read`, so all writes
            // ended at `read` or before it, and the bytes from `read` on are unchanged. `read` goes on by whole
            // characters, so a character begins there, whatever the closure answers.
            let text = unsafe {
                str::from_utf8_unchecked(part_of_length(array, offset + read, size - read))
            };
            let (ch, width) = first_char_and_width(text);
            if f(ch) {
                let to = offset + *kept as usize;
                shift(array, offset + read, to, width);
                *kept += width as u8;
            }
            read += width;
        }
    }
}
