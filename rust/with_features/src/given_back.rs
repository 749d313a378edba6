//! An allocator that looks at what is given back. It is no part of a test, since rustc would see there that it reads what is given back, and
//! would not leave out what is written before.

use std::alloc::{GlobalAlloc, Layout, System};
use std::cell::Cell;

thread_local! {
    /// The address of what is looked at when its memory is given back, and how many of its bytes were no zeroes then.
    pub static GIVEN_BACK: Cell<(usize, Option<usize>)> = const { Cell::new((0, None)) };
}

/// That of the system, which looks at what is given back.
struct Looks;

// SAFETY: it does what that of the system does.
unsafe impl GlobalAlloc for Looks {
    unsafe fn alloc(&self, layout: Layout) -> *mut u8 {
        // SAFETY: as is required here.
        unsafe { System.alloc(layout) }
    }

    unsafe fn dealloc(&self, place: *mut u8, layout: Layout) {
        let _ = GIVEN_BACK.try_with(|watched| {
            if watched.get().0 == place.addr() {
                // SAFETY: each byte of what is looked at was written.
                let is_left = |at: &usize| unsafe { place.add(*at).read_volatile() } != 0;
                watched.set((0, Some((0..layout.size()).filter(is_left).count())));
            }
        });
        // SAFETY: as is required here.
        unsafe { System.dealloc(place, layout) };
    }
}

#[global_allocator]
static LOOKS: Looks = Looks;
