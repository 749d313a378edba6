//! The macros: `arraystring!` makes a string of a constant text, and `try_format!` makes one of what a format prints.

use crate::{ArrayString, OutOfBounds};

/// A string of a text that is known when the program is compiled. The macro may stand in a `const`, a `static` or other code. If the text
/// does not fit, the program does not compile. The type that is wanted decides the capacity.
///
/// ```
/// use arraystring::{ArrayString, CacheString, arraystring};
///
/// const GREETING: ArrayString<8> = arraystring!("hello");
/// static KEY: CacheString = arraystring!(concat!("user:", "42"));
/// assert_eq!((GREETING.as_str(), KEY.as_str()), ("hello", "user:42"));
///
/// let greeting: ArrayString<8> = if GREETING.len() > 4 { arraystring!("hi") } else { GREETING };
/// assert_eq!(greeting, "hi");
/// ```
///
/// `hello` takes five bytes, so neither of these compiles:
///
/// ```compile_fail,E0080
/// use arraystring::{ArrayString, arraystring};
///
/// const GREETING: ArrayString<4> = arraystring!("hello");
/// ```
///
/// ```compile_fail,E0080
/// use arraystring::{ArrayString, arraystring};
///
/// let greeting: ArrayString<4> = arraystring!("hello");
/// ```
#[macro_export]
macro_rules! arraystring {
    ($text:expr $(,)?) => {
        const { $crate::ArrayString::of_constant($text) }
    };
}

/// A string of what a format prints, whole: [`try_from_format`](crate::ArrayString::try_from_format) without `format_args!`. The type that
/// is wanted decides the capacity.
///
/// # Errors
///
/// Returns a [`fmt::Error`](core::fmt::Error) if not all of it fits, or if a `Display` in it fails.
///
/// ```
/// use arraystring::{ArrayString, Error, try_format};
///
/// fn label(name: &str, number: u32) -> Result<ArrayString<8>, Error> {
///     Ok(try_format!("{name}-{number}")?)
/// }
///
/// assert_eq!(label("ann", 7).unwrap(), "ann-7");
/// assert_eq!(label("ann", 12345), Err(Error::OutOfBounds));
/// ```
#[macro_export]
macro_rules! try_format {
    ($($arguments:tt)*) => {
        $crate::ArrayString::try_from_format(::core::format_args!($($arguments)*))
    };
}

impl<const N: usize> ArrayString<N> {
    /// The call that `arraystring!` writes, in a constant. Elsewhere it would panic for a text that does not fit.
    #[doc(hidden)]
    #[must_use]
    #[track_caller]
    pub const fn of_constant(text: &str) -> Self {
        match Self::const_try_from_str(text) {
            Ok(string) => string,
            Err(OutOfBounds) => panic!("the text does not fit into the capacity"),
        }
    }
}
