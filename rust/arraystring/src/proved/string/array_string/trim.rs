// Made from crates/arraystring_core/src/array_string/trim.rt by rust/generate.py: change that, and run this.
//! Trimming at both ends.

use crate::proved::string::ArrayString;
use crate::proved::base::utils::last_char_with_start;

impl<const N: usize> ArrayString<N> {
    /// Removes all white space at both ends, and nothing else. As in `str::trim`, white space is
    /// what has the property White_Space of the Unicode Standard: the characters for which
    /// `char::is_whitespace` returns true.
    #[inline]
    pub fn trim(&mut self) {
        self.trim_end_matches(is_white_space);
        self.trim_start_matches(is_white_space);
    }

    /// Removes all spaces (U+0020) at both ends, and nothing else.
    #[inline]
    pub fn trim_spaces(&mut self) {
        self.trim_end_matches(equals_space);
        self.trim_start_matches(equals_space);
    }

    /// Drops the characters at the end for which `drops` returns true, back to the last for which
    /// it does not. It moves no byte. It looks at each character that it drops and at the one before
    /// them: at each at least once, and at most four times.
    #[inline]
    fn trim_end_matches<F: Fn(char) -> bool>(&mut self, drops: F) {
        while let Some((start, ch)) = last_char_with_start(self.as_str()) {
            if !drops(ch) {
                break;
            }
            self.set_len(start as u8);
        }
    }

    /// Drops the characters at the start for which `drops` returns true, up to the first for which
    /// it does not.
    #[inline]
    fn trim_start_matches<F: Fn(char) -> bool>(&mut self, drops: F) {
        while let Some(ch) = self.as_str().chars().next() {
            if !drops(ch) {
                break;
            }
            self.drop_front(ch.len_utf8());
        }
    }
}

/// Whether `ch` has the property White_Space.
#[inline]
fn is_white_space(ch: char) -> bool {
    ch.is_whitespace()
}

/// Whether `ch` is the space, U+0020.
#[inline]
fn equals_space(ch: char) -> bool {
    ch == ' '
}
