//! A library for programs of other languages: it has no `std` and no allocator, and what a panic does is its own. Its builds,
//! with debug assertions and without, show that the crate needs none of the three.
#![no_std]

use core::fmt::Write;
use core::panic::PanicInfo;

use arraystring::{ArrayString, CacheString};

#[panic_handler]
fn panic(_: &PanicInfo) -> ! {
    loop {}
}

/// The first byte of the line `level: percent`, or 0 where the level is empty.
///
/// # Safety
///
/// `len` bytes must lie at `level`.
#[unsafe(no_mangle)]
pub unsafe extern "C" fn first_byte(level: *const u8, len: usize, percent: u8) -> u8 {
    // SAFETY: the caller says that the bytes are there.
    let level = unsafe { core::slice::from_raw_parts(level, len) };
    let Ok(name) = ArrayString::<16>::from_utf8_truncate(level) else { return 0 };
    let mut line: CacheString = name.widen();
    if write!(line, ": {percent}").is_err() || name.is_empty() {
        return 0;
    }
    line.as_bytes().first().copied().unwrap_or(0)
}
