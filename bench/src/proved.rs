//! The calls of the proved build, which crates/bench_calls has.

use crate::cases::Case;

#[link(name = "bench_calls", kind = "static")]
unsafe extern "C" {
    /// A slice is a pointer and a length there.
    fn proved_answer(
        capacity: usize,
        call: *const u8,
        call_len: usize,
        held: *const u8,
        held_len: usize,
        offset: usize,
        given: *const u8,
        given_len: usize,
        units: *const u16,
        units_len: usize,
        code: u32,
        start: u8,
        end: u8,
    ) -> u64;
}

/// What the call answers and leaves, or nothing where it has none of this name.
pub fn answer(capacity: usize, call: &str, case: &Case) -> Option<u64> {
    let Case { held, offset, units, given, ch, start, end } = case;
    // SAFETY: each slice is a pointer with its length, and the call reads no more of it.
    let told = unsafe {
        proved_answer(
            capacity,
            call.as_ptr(),
            call.len(),
            held.as_ptr(),
            held.len(),
            *offset,
            given.as_ptr(),
            given.len(),
            units.as_ptr(),
            units.len(),
            u32::from(*ch),
            *start as u8,
            *end as u8,
        )
    };
    (told != 0).then_some(told)
}
