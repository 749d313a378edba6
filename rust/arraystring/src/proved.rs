//! The core: the proved sources, made into Rust by rust/generate.py. No file below is written by hand, and `rust/check` compares them.
//!
//! Their functions are safe to call where their `# Precondition` holds, which is proved of the calls that they make of one another.
//! So the module is private.
#![allow(dead_code, unused_imports, reason = "the port has calls that the crate does not have")]
#![allow(clippy::must_use_candidate, reason = "what a program calls says it")]
#![allow(clippy::cast_possible_truncation, reason = "of each cast it is proved that the number fits")]

pub mod base;
pub mod string;
