//! The strings that are compared, under one trait. What a caller inlines of them is always inlined, so that a program is compiled as if it
//! called its string itself.

use std::fmt::{Debug, Display, Write};
use std::hash::Hash;
use std::ops::Deref;

/// What the programs, and some of the calls, ask of a string. Only `String` has to be told how many bytes it may have.
pub trait Text: Clone + Ord + Hash + Debug + Display + Write + Deref<Target = str> {
    /// An empty string, which has room for so many bytes.
    fn with_room(most: usize) -> Self;
    /// A text, if it fits.
    fn try_of(text: &str, most: usize) -> Option<Self>;
    /// Appends a text, and returns whether it fits.
    fn offer_text(&mut self, text: &str, most: usize) -> bool;
    /// Appends a character, and returns whether it fits.
    fn offer_char(&mut self, ch: char, most: usize) -> bool;
    /// Appends the whole characters that fit.
    fn push_what_fits(&mut self, text: &str, most: usize);
    fn remove_first(&mut self) -> Option<char>;
    fn make_empty(&mut self);
}

/// The strings of a side at each capacity.
pub trait Texts {
    type Of<const N: usize>: Text;
}

/// The strings of a side, and how each is a `Text`: its calls, each with the expression that is its body.
macro_rules! texts {
    (
        $side:ident: $name:ty $(, $capacity:ident)?;
        $(fn $call:ident($($given:tt)*) $(-> $answer:ty)? = $body:expr;)*
    ) => {
        pub struct $side;

        impl Texts for $side {
            type Of<const N: usize> = $name;
        }

        impl$(<const $capacity: usize>)? Text for $name {
            $(
                #[inline(always)]
                fn $call($($given)*) $(-> $answer)? {
                    $body
                }
            )*
        }
    };
}

texts! { OfCrate: arraystring::ArrayString<N>, N;
    fn with_room(_: usize) -> Self = Self::new();
    fn try_of(text: &str, _: usize) -> Option<Self> = Self::try_from_str(text).ok();
    fn offer_text(&mut self, text: &str, _: usize) -> bool = self.try_push_str(text).is_ok();
    fn offer_char(&mut self, ch: char, _: usize) -> bool = self.try_push(ch).is_ok();
    fn push_what_fits(&mut self, text: &str, _: usize) = _ = self.push_str_truncate(text);
    fn remove_first(&mut self) -> Option<char> = self.remove(0).ok();
    fn make_empty(&mut self) = self.clear();
}

// (arrayvec has no call that cuts, so the boundary is found first)
texts! { OfArrayvec: arrayvec::ArrayString<N>, N;
    fn with_room(_: usize) -> Self = Self::new();
    fn try_of(text: &str, _: usize) -> Option<Self> = Self::from(text).ok();
    fn offer_text(&mut self, text: &str, _: usize) -> bool = self.try_push_str(text).is_ok();
    fn offer_char(&mut self, ch: char, _: usize) -> bool = self.try_push(ch).is_ok();
    fn push_what_fits(&mut self, text: &str, _: usize) =
        self.push_str(&text[..text.floor_char_boundary(self.remaining_capacity())]);
    fn remove_first(&mut self) -> Option<char> = (!self.is_empty()).then(|| self.remove(0));
    fn make_empty(&mut self) = self.clear();
}

texts! { OfString: String;
    fn with_room(most: usize) -> Self = Self::with_capacity(most);
    fn try_of(text: &str, most: usize) -> Option<Self> = (text.len() <= most).then(|| Self::from(text));
    fn offer_text(&mut self, text: &str, most: usize) -> bool =
        (self.len() + text.len() <= most).then(|| self.push_str(text)).is_some();
    fn offer_char(&mut self, ch: char, most: usize) -> bool =
        (self.len() + ch.len_utf8() <= most).then(|| self.push(ch)).is_some();
    fn push_what_fits(&mut self, text: &str, most: usize) =
        self.push_str(&text[..text.floor_char_boundary(most - self.len())]);
    fn remove_first(&mut self) -> Option<char> = (!self.is_empty()).then(|| self.remove(0));
    fn make_empty(&mut self) = self.clear();
}
