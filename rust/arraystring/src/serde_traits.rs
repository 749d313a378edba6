//! How serde reads and writes a string, which is as a text, behind the feature `serde`. A text that is too long is refused.

use core::fmt;
use core::str::from_utf8;

use serde::de::{Deserialize, Deserializer, Error, Unexpected, Visitor};
use serde::ser::{Serialize, Serializer};

use crate::ArrayString;

/// Writes the text.
impl<const N: usize> Serialize for ArrayString<N> {
    fn serialize<S: Serializer>(&self, serializer: S) -> Result<S::Ok, S::Error> {
        serializer.serialize_str(self)
    }
}

/// Reads a text, or bytes that are the UTF-8 of a text. Other bytes are an error. A text that does not fit is an error: `invalid length 7,
/// expected a text of at most 4 bytes`. [`truncate`](mod@crate::truncate) keeps as much of it as fits.
impl<'de, const N: usize> Deserialize<'de> for ArrayString<N> {
    fn deserialize<D: Deserializer<'de>>(deserializer: D) -> Result<Self, D::Error> {
        deserializer.deserialize_str(WholeVisitor)
    }
}

struct WholeVisitor<const N: usize>;

impl<const N: usize> Visitor<'_> for WholeVisitor<N> {
    type Value = ArrayString<N>;

    fn expecting(&self, f: &mut fmt::Formatter<'_>) -> fmt::Result {
        write!(f, "a text of at most {N} bytes")
    }

    fn visit_str<E: Error>(self, text: &str) -> Result<ArrayString<N>, E> {
        ArrayString::try_from_str(text).map_err(|_| E::invalid_length(text.len(), &self))
    }

    fn visit_bytes<E: Error>(self, bytes: &[u8]) -> Result<ArrayString<N>, E> {
        let text = str_from_bytes(bytes, &self)?;
        self.visit_str(text)
    }
}

/// The text whose UTF-8 is given, or an error if the bytes are not UTF-8. A format that has no texts gives bytes in their place.
pub(crate) fn str_from_bytes<'a, 'de, E: Error>(bytes: &'a [u8], visitor: &impl Visitor<'de>) -> Result<&'a str, E> {
    from_utf8(bytes).map_err(|_| E::invalid_value(Unexpected::Bytes(bytes), visitor))
}
