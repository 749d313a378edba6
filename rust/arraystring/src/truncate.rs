//! For `#[serde(with = "arraystring::truncate")]` on a field: of a text that is too long the longest prefix of whole characters that fits
//! is kept. With the feature `serde`.
//!
//! ```ignore
//! #[derive(Serialize, Deserialize)]
//! struct Guest {
//!     name: ArrayString<20>, // a text of more than 20 bytes is an error
//!     #[serde(with = "arraystring::truncate")]
//!     note: ArrayString<20>, // only the first whole characters that fit are kept
//! }
//! ```

use core::fmt;

use serde::de::{Deserializer, Error, Visitor};
use serde::ser::Serializer;

use crate::ArrayString;
use crate::serde_traits::str_from_bytes;

/// Writes the text.
///
/// # Errors
///
/// Returns the error of the serializer.
pub fn serialize<const N: usize, S: Serializer>(string: &ArrayString<N>, serializer: S) -> Result<S::Ok, S::Error> {
    serializer.serialize_str(string)
}

/// Reads a text, or bytes that are the UTF-8 of a text, and keeps the longest prefix of whole characters that fits.
///
/// # Errors
///
/// Returns the error of the deserializer, or an error if bytes are not UTF-8.
pub fn deserialize<'de, const N: usize, D: Deserializer<'de>>(deserializer: D) -> Result<ArrayString<N>, D::Error> {
    deserializer.deserialize_str(TruncatingVisitor)
}

struct TruncatingVisitor<const N: usize>;

impl<const N: usize> Visitor<'_> for TruncatingVisitor<N> {
    type Value = ArrayString<N>;

    fn expecting(&self, f: &mut fmt::Formatter<'_>) -> fmt::Result {
        f.write_str("a text")
    }

    fn visit_str<E: Error>(self, text: &str) -> Result<ArrayString<N>, E> {
        Ok(ArrayString::from_str_truncate(text))
    }

    fn visit_bytes<E: Error>(self, bytes: &[u8]) -> Result<ArrayString<N>, E> {
        let text = str_from_bytes(bytes, &self)?;
        self.visit_str(text)
    }
}
