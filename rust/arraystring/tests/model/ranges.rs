//! A range of each kind that std has, as one type, and where it begins and ends by the meaning of its kind.

use std::ops::Bound::{self, Excluded, Included, Unbounded};
use std::ops::{Range, RangeBounds, RangeFrom, RangeFull, RangeInclusive, RangeTo, RangeToInclusive};

#[derive(Clone, Debug)]
pub enum Ends {
    Range(Range<usize>),
    From(RangeFrom<usize>),
    To(RangeTo<usize>),
    Full(RangeFull),
    Inclusive(RangeInclusive<usize>),
    ToInclusive(RangeToInclusive<usize>),
    Pair((Bound<usize>, Bound<usize>)),
}

/// How many ranges there are of two ends.
pub const KINDS: usize = 16;

impl Ends {
    /// The range of some kind that has these ends, as far as the kind has two.
    pub fn of_kind(kind: usize, start: usize, end: usize) -> Ends {
        match kind {
            0 => Ends::Range(start..end),
            1 => Ends::From(start..),
            2 => Ends::To(..end),
            3 => Ends::Full(..),
            4 => Ends::Inclusive(start..=end),
            5 => Ends::Inclusive(exhausted(end)),
            6 => Ends::ToInclusive(..=end),
            _ => Ends::Pair((bound((kind - 7) / 3, start), bound((kind - 7) % 3, end))),
        }
    }

    /// Where it begins and ends in a text of so many bytes, as numbers that have room for the end behind the greatest index.
    pub fn within(&self, len: usize) -> (u128, u128) {
        let (start, end) = match self {
            Ends::Range(range) => (Included(range.start), Excluded(range.end)),
            Ends::From(range) => (Included(range.start), Unbounded),
            Ends::To(range) => (Unbounded, Excluded(range.end)),
            Ends::Full(_) => (Unbounded, Unbounded),
            // (one that gave its last index is empty, and where that index was)
            Ends::Inclusive(range) if range.is_empty() && range.start() == range.end() => {
                (Included(*range.end()), Excluded(*range.end()))
            }
            Ends::Inclusive(range) => (Included(*range.start()), Included(*range.end())),
            Ends::ToInclusive(range) => (Unbounded, Included(range.end)),
            Ends::Pair(bounds) => *bounds,
        };
        let start = match start {
            Included(first) => first as u128,
            Excluded(before) => before as u128 + 1,
            Unbounded => 0,
        };
        let end = match end {
            Included(last) => last as u128 + 1,
            Excluded(end) => end as u128,
            Unbounded => len as u128,
        };
        (start, end)
    }
}

fn bound(kind: usize, at: usize) -> Bound<usize> {
    [Included(at), Excluded(at), Unbounded][kind]
}

/// A range that has given its last index, and holds none any more.
fn exhausted(last: usize) -> RangeInclusive<usize> {
    let mut range = last..=last;
    assert_eq!((range.next(), range.next()), (Some(last), None));
    range
}

/// Calls something with the range of std.
macro_rules! by_std {
    ($ends:expr, $range:ident => $call:expr) => {
        match $ends {
            Ends::Range($range) => $call,
            Ends::From($range) => $call,
            Ends::To($range) => $call,
            Ends::Full($range) => $call,
            Ends::Inclusive($range) => $call,
            Ends::ToInclusive($range) => $call,
            Ends::Pair($range) => $call,
        }
    };
}
pub(crate) use by_std;

/// The bounds are those that std's range says.
impl RangeBounds<usize> for Ends {
    fn start_bound(&self) -> Bound<&usize> {
        by_std!(self, range => RangeBounds::<usize>::start_bound(range))
    }

    fn end_bound(&self) -> Bound<&usize> {
        by_std!(self, range => RangeBounds::<usize>::end_bound(range))
    }
}
