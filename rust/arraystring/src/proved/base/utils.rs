// Made from crates/arraystring_base/src/utils.rt by rust/generate.py: change that, and run this.
//! Boundaries, cuts and moves of bytes, under the paths that arraystring 0.3.0 has for them. Sizes and indices count
//! bytes of UTF-8.

use crate::proved::base::error::OutOfBounds;
pub use crate::proved::base::moves::{shift, shift_on_cold_path, write_by_call, write_over};
pub use crate::proved::base::utf8::{
    encode, first_char_and_width, is_boundary, last_char_with_start, look, truncate_str,
};

/// Tests that `size` is at most `limit`. The name is that of 0.3.0, and no boundary of characters is meant.
///
/// # Errors
///
/// Returns `Err(OutOfBounds)` if `size` is greater.
#[inline]
pub fn is_inside_boundary(size: usize, limit: usize) -> Result<(), OutOfBounds> {
    if size > limit {
        return Err(OutOfBounds);
    }
    Ok(())
}
