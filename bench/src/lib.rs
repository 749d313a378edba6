//! What calls, whole programs and code cost by the crate, by its proved build, by std's `String` and by arrayvec. docs/speed.md has the
//! tables, and says how they are counted.

pub mod calls;
pub mod cases;
pub mod count;
pub mod programs;
#[cfg(proved)]
mod proved;
pub mod rows;
pub mod sizes;
pub mod tables;
pub mod texts;

use cases::Case;

pub const CAPACITIES: [usize; 3] = [23, 63, 255];

/// Whose string makes a call.
#[derive(Clone, Copy, Debug, PartialEq)]
pub enum Side {
    Crate,
    Proved,
    String,
    Arrayvec,
}

/// The sides, ours first.
pub const SIDES: [Side; 4] = [Side::Crate, Side::Proved, Side::String, Side::Arrayvec];

impl Side {
    pub fn name(self) -> &'static str {
        ["crate", "proved", "String", "arrayvec"][self as usize]
    }

    pub fn is_ours(self) -> bool {
        matches!(self, Side::Crate | Side::Proved)
    }

    /// What the side answers to a call at a capacity and leaves, if it has the call.
    pub fn answer(self, capacity: usize, call: &str, case: &Case) -> Option<u64> {
        match capacity {
            23 => self.answer_at::<23>(call, case),
            63 => self.answer_at::<63>(call, case),
            255 => self.answer_at::<255>(call, case),
            _ => panic!("no call is made at the capacity {capacity}"),
        }
    }

    fn answer_at<const N: usize>(self, call: &str, case: &Case) -> Option<u64> {
        match self {
            Side::Crate => calls::of_crate::answer::<N>(call, case),
            Side::String => calls::of_string::answer::<N>(call, case),
            Side::Arrayvec => calls::of_arrayvec::answer::<N>(call, case),
            #[cfg(proved)]
            Side::Proved => proved::answer(N, call, case),
            #[cfg(not(proved))]
            Side::Proved => None,
        }
    }
}

/// Which sides have a call, all of which have to answer the same.
pub fn sides_of(capacity: usize, call: &str, case: &Case) -> Vec<Side> {
    let answers: Vec<_> = SIDES.iter().filter_map(|side| Some((*side, side.answer(capacity, call, case)?))).collect();
    let is_same = answers.iter().all(|(_, answer)| *answer == answers[0].1);
    assert!(is_same, "{call} at {capacity} of {:?}, {:?}: {answers:?}", case.held, case.given);
    answers.into_iter().map(|(side, _)| side).collect()
}

/// Whether a title contains one of the names, or there are none.
pub fn is_asked(title: &str, names: &[String]) -> bool {
    names.is_empty() || names.iter().any(|name| title.contains(name.as_str()))
}
