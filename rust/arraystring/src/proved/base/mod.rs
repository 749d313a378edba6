// Made from crates/arraystring_base/src/lib.rt by rust/generate.py: change that, and run this.
//! The lowest crate of the bounded string: its errors, the UTF-8 of characters, where a text may be cut,
//! and how UTF-16 is read. It uses `std` alone and allocates nothing. Its tests are in
//! `crates/arraystring_tests`.

pub mod error;
mod moves;
pub mod utf16;
mod utf8;
pub mod utils;
