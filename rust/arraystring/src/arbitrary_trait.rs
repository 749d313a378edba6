//! A string made of the data of a fuzzer, behind the feature `arbitrary`.

use arbitrary::{Arbitrary, Result, Unstructured};

use crate::ArrayString;

/// The text that a `&str` would take from the same data, cut to the longest prefix of whole characters that fits.
///
/// ```
/// use arbitrary::{Arbitrary, Unstructured};
/// use arraystring::ArrayString;
///
/// let data = Unstructured::new("né €".as_bytes());
/// assert_eq!(ArrayString::<5>::arbitrary_take_rest(data).unwrap(), "né ");
/// ```
impl<'a, const N: usize> Arbitrary<'a> for ArrayString<N> {
    fn arbitrary(data: &mut Unstructured<'a>) -> Result<Self> {
        <&str>::arbitrary(data).map(Self::from_str_truncate)
    }

    fn arbitrary_take_rest(data: Unstructured<'a>) -> Result<Self> {
        <&str>::arbitrary_take_rest(data).map(Self::from_str_truncate)
    }

    fn size_hint(depth: usize) -> (usize, Option<usize>) {
        <&str>::size_hint(depth)
    }
}
