//! How a string is wiped from its memory, behind the feature `zeroize`.

use zeroize::Zeroize;

use crate::leaf::MaybeByte;
use crate::{ArrayString, Drain};

/// Makes the text empty and each byte of the array zero, also the bytes of characters that were removed before. The compiler does not leave
/// this out where nobody reads the string again. This can't reach other copies, such as the place from which a string was moved. A string
/// is `Copy` and so can't do this when it is dropped: `zeroize::Zeroizing<ArrayString<N>>` does.
///
/// ```
/// use arraystring::ArrayString;
/// use zeroize::Zeroize;
///
/// let mut password = ArrayString::<16>::try_from_str("correct horse").unwrap();
/// password.zeroize();
/// assert_eq!(password, "");
/// ```
impl<const N: usize> Zeroize for ArrayString<N> {
    fn zeroize(&mut self) {
        let bytes: &mut [MaybeByte] = &mut self.0.array;
        bytes.zeroize();
        self.0.start.zeroize();
        self.0.size.zeroize();
    }
}

/// Makes each byte of its array zero, also those of the characters that were returned, and leaves no character. A `Drain` has a copy of the
/// array of the string, so the string has to be made zero as well.
///
/// ```
/// use arraystring::ArrayString;
/// use zeroize::Zeroize;
///
/// let mut password = ArrayString::<16>::try_from_str("correct horse").unwrap();
/// let mut drained = password.drain(..7).unwrap();
/// assert_eq!(drained.next(), Some('c'));
/// drained.zeroize();
/// password.zeroize();
/// assert_eq!((drained.next(), password.as_str()), (None, ""));
/// ```
impl<const N: usize> Zeroize for Drain<N> {
    fn zeroize(&mut self) {
        let bytes: &mut [MaybeByte] = &mut self.0.array;
        bytes.zeroize();
        self.0.front.zeroize();
        self.0.start.zeroize();
        self.0.size.zeroize();
    }
}
