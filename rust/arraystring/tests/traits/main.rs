//! The traits of a string and of the errors: what a string lends, how it is compared, what it is made of and made into, and which of
//! that a feature adds. The expected values are those of `str` and `String`.

#[path = "../inputs/mod.rs"]
mod inputs;

mod compared;
mod errors;
mod features;
mod lent;
mod made;
#[cfg(feature = "alloc")]
mod owned;
