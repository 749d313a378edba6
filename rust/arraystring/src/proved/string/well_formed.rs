// Made from crates/arraystring_core/src/well_formed.rt by rust/generate.py: change that, and run this.
//! The test of UTF-8.

use crate::proved::base::error::Utf8;
use core::str;

/// Returns the text whose UTF-8 is `given`, or `Err(Utf8)` if `given` is not well-formed.
#[inline]
pub(crate) fn read_utf8(given: &[u8]) -> Result<&str, Utf8> {
    match str::from_utf8(given) {
        Ok(string) => Ok(string),
        Err(_) => Err(Utf8),
    }
}
