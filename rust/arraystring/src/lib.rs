#![doc = "[MOVING.md]: moving\n"]
#![doc = include_str!("../README.md")]
#![no_std]
#![cfg_attr(docsrs, feature(doc_cfg))]
#![deny(unsafe_op_in_unsafe_fn, missing_docs)]
#![deny(clippy::undocumented_unsafe_blocks, clippy::cast_possible_truncation)]

#[cfg(not(any(target_pointer_width = "32", target_pointer_width = "64")))]
compile_error!("the crate was tried where a `usize` has 32 or 64 bits, and nowhere else");

#[cfg(feature = "alloc")]
extern crate alloc;
#[cfg(feature = "std")]
extern crate std;

#[macro_use]
mod leaf;
#[rustfmt::skip]
mod proved;

// rustdoc lists the calls of a string in the order of these modules: first what most programs need, and last what is unchecked.
mod construct;
mod string;
mod edit;
mod whole;
mod lent;
mod unchecked;

#[cfg(feature = "arbitrary")]
mod arbitrary_trait;
mod comparisons;
mod drain;
mod error;
mod macros;
#[cfg(feature = "alloc")]
mod owned;
#[cfg(feature = "std")]
mod paths;
#[cfg(feature = "serde")]
mod serde_traits;
mod traits;
#[cfg(feature = "serde")]
pub mod truncate;
#[cfg(feature = "zeroize")]
mod zeroize_trait;

pub use drain::Drain;
pub use error::{Error, OutOfBounds, Utf8, Utf16};
pub use string::ArrayString;

#[doc = "[Refusals and cuts]: crate#refusals-and-cuts\n"]
#[doc = include_str!("../MOVING.md")]
pub mod moving {}

/// A string of at most 23 bytes of UTF-8.
pub type SmallString = ArrayString<23>;

/// A string of at most 63 bytes of UTF-8. The name is that of version 0.3.0, where it was aligned to 64 bytes, as
/// a line of a cache is. Here it is not.
pub type CacheString = ArrayString<63>;

/// A string of at most 255 bytes of UTF-8, the greatest capacity that there is.
pub type MaxString = ArrayString<255>;
