//! A string that is cut where it does not fit, as the item of a list: `with = "arraystring::truncate"` is for fields.
//!
//! # A capacity above 255
//!
//! It does not compile where a string is read, whole or cut:
//!
//! ```compile_fail,E0080
//! let read: Result<arraystring::ArrayString<256>, _> = serde_json::from_str("\"ab\"");
//! ```
//!
//! ```compile_fail,E0080
//! let read: Result<with_features::Truncated<256>, _> = serde_json::from_str("\"ab\"");
//! ```
//!
//! The greatest capacity that there is does:
//!
//! ```
//! let read: Result<arraystring::ArrayString<255>, _> = serde_json::from_str("\"ab\"");
//! assert!(read.is_ok_and(|read| read == "ab"));
//! let read: Result<with_features::Truncated<255>, _> = serde_json::from_str("\"ab\"");
//! assert!(read.is_ok_and(|read| read.0 == "ab"));
//! ```

use arraystring::ArrayString;
use serde::{Deserialize, Serialize};

pub mod given_back;

/// A string whose text is cut.
#[derive(Clone, Copy, Debug, Deserialize, PartialEq, Serialize)]
#[serde(transparent)]
pub struct Truncated<const N: usize>(#[serde(with = "arraystring::truncate")] pub ArrayString<N>);
