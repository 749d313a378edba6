//! A library of calls whose bytes of code are counted. Settings say over which string it is (`over`: this crate, arrayvec or `String`),
//! which calls it exports (`calls`: three or eight), and at how many capacities (`capacities`: one, three or eight, or none, which is
//! the empty library). `String`, which has no capacity, has each call once.
#![no_std]

use core::panic::PanicInfo;

#[panic_handler]
fn panic(_: &PanicInfo) -> ! {
    loop {}
}

#[cfg(not(over = "String"))]
use strings::ArrayString as Over;

#[cfg(over = "String")]
extern crate alloc;
#[cfg(over = "String")]
type Over<const N: usize> = alloc::string::String;

/// Exports calls at a capacity, each as a function whose name ends in it.
macro_rules! calls {
    ($capacity:literal: $($name:ident($($given:ident: $type:ty),*) -> $answer:ty = $body:expr;)*) => {$(
        #[unsafe(export_name = concat!(stringify!($name), "_", $capacity))]
        pub fn $name($($given: $type),*) -> $answer {
            $body
        }
    )*};
}

/// Exports the calls at each of these capacities. `String` refuses nothing that is pushed. All make a string by `try_from`, which is
/// `try_from_str` in this crate and `from` in arrayvec.
macro_rules! exported {
    ($($capacity:literal)*) => {$(
        const _: () = {
            use core::fmt::Write;

            type Text = Over<$capacity>;

            #[cfg(not(over = "String"))]
            calls! { $capacity:
                try_push_str(text: &mut Text, given: &str) -> bool = text.try_push_str(given).is_ok();
                try_push(text: &mut Text, ch: char) -> bool = text.try_push(ch).is_ok();
            }
            #[cfg(over = "String")]
            calls! { $capacity:
                try_push_str(text: &mut Text, given: &str) -> bool = text.write_str(given).is_ok();
                try_push(text: &mut Text, ch: char) -> bool = text.write_char(ch).is_ok();
            }
            calls! { $capacity:
                remove(text: &mut Text, at: usize) -> impl Sized = text.remove(at);
            }
            #[cfg(calls = "8")]
            calls! { $capacity:
                pop(text: &mut Text) -> Option<char> = text.pop();
                try_from_str(given: &str) -> Option<Text> = Text::try_from(given).ok();
                equal(text: &Text, other: &Text) -> bool = text == other;
                less(text: &Text, other: &Text) -> bool = text < other;
                write(text: &mut Text, given: &str) -> bool = write!(text, "{given}").is_ok();
            }
        };
    )*};
}

#[cfg(capacities = "1")]
exported!(23);
#[cfg(capacities = "3")]
exported!(23 63 255);
#[cfg(capacities = "8")]
exported!(8 15 23 31 47 63 127 255);

/// The memory of C.
#[cfg(over = "String")]
mod memory {
    use core::alloc::{GlobalAlloc, Layout};

    #[link(name = "c")]
    unsafe extern "C" {
        fn malloc(size: usize) -> *mut u8;
        fn realloc(memory: *mut u8, size: usize) -> *mut u8;
        fn free(memory: *mut u8);
    }

    struct Memory;

    // SAFETY: `malloc` and `realloc` align for each type of C, and no text asks for more.
    unsafe impl GlobalAlloc for Memory {
        unsafe fn alloc(&self, layout: Layout) -> *mut u8 {
            unsafe { malloc(layout.size()) }
        }

        unsafe fn realloc(&self, memory: *mut u8, _: Layout, size: usize) -> *mut u8 {
            unsafe { realloc(memory, size) }
        }

        unsafe fn dealloc(&self, memory: *mut u8, _: Layout) {
            unsafe { free(memory) }
        }
    }

    #[global_allocator]
    static MEMORY: Memory = Memory;
}
