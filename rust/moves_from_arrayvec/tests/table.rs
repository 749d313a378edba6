//! What MOVING.md says of arrayvec's `ArrayString`, run over it. What it writes here in its place is run by tests/moving.rs of the crate.

use std::panic::{AssertUnwindSafe, catch_unwind};

use arrayvec::{ArrayString, CapacityError};
use page::Column;

#[path = "../../arraystring/tests/inputs/page.rs"]
mod page;

type Name = ArrayString<4>;

/// An error of one's own.
#[derive(Debug, PartialEq)]
struct Refused;

impl<T> From<CapacityError<T>> for Refused {
    fn from(_: CapacityError<T>) -> Self {
        Refused
    }
}

impl From<std::str::Utf8Error> for Refused {
    fn from(_: std::str::Utf8Error) -> Self {
        Refused
    }
}

fn panics<T>(run: impl FnOnce() -> T) -> bool {
    catch_unwind(AssertUnwindSafe(run)).is_err()
}

fn is_copy<T: Copy>() {}

#[test]
fn what_a_program_writes_for_arrayvec() -> Result<(), Refused> {
    is_copy::<Name>();
    let mut of = Column::below("Moving from arrayvec", 0);
    let (text, at, len) = ("cde", 1, 1);
    let made = run!(of, Name::from(text)?);
    assert_eq!((made.as_str(), run!(of, Name::try_from(format_args!("{at}"))?).as_str()), ("cde", "1"));
    assert_eq!(
        (run!(of, Name::new_const()).as_str(), run!(of, Name::from_byte_string(b"abcd")?).as_str()),
        ("", "abcd")
    );
    let mut s = run!(of, Name::zero_filled());
    // SAFETY: zeros are characters.
    run!(of, unsafe { s.set_len(len) });
    assert_eq!(s.as_str(), "\0");
    s.clear();
    run!(of, s.push('c'));
    run!(of, s.push_str(text));
    assert_eq!(s.as_str(), "ccde");
    assert!(panics(|| s.push('c')) && panics(|| s.push_str(text)));
    assert_eq!(run!(of, s.try_push_str(text).map_err(CapacityError::element)), Err("cde"));
    s.clear();
    run!(of, s.try_push('c')?);
    run!(of, s.try_push_str(text)?);
    assert_eq!(run!(of, s.remove(at)), 'c');
    run!(of, s.truncate(len));
    assert_eq!(s.as_str(), "c");
    assert!(panics(|| s.remove(at)) && panics(|| Name::from("é").map(|mut wide| wide.truncate(at))));
    of.assert_all_run_but(&[]);
    Ok(())
}

#[test]
fn what_arrayvec_has_that_is_not_here() {
    let mut long = ArrayString::<1024>::new();
    while long.try_push('m').is_ok() {}
    assert_eq!((long.len(), long.capacity()), (1024, 1024));
}
