//! A guest list: bookings that are read from lines `name = seats`, tables by name, and rows that are written. All texts lie in
//! the values themselves. Each result was worked out by hand.

use std::collections::{BTreeMap, HashMap};
use std::error::Error as StdError;
use std::fmt;
use std::num::ParseIntError;
use std::str::FromStr;

use arraystring::{ArrayString, Error, OutOfBounds, arraystring, try_format};

/// The name of a guest, of at most 8 bytes.
type Name = ArrayString<8>;

#[derive(Clone, Copy, Debug, PartialEq)]
struct Booking {
    name: Name,
    seats: u32,
}

/// Why a line is no booking.
#[derive(Clone, Copy, Debug, PartialEq)]
enum Refused {
    NoText,
    LongName,
    NoSeats,
}

impl Booking {
    /// A booking from bytes that came from elsewhere.
    fn from_bytes(bytes: &[u8]) -> Result<Self, Refused> {
        let line = ArrayString::<24>::try_from_utf8(bytes).map_err(|refused| match refused {
            Error::OutOfBounds => Refused::LongName,
            Error::Utf8 | Error::Utf16 => Refused::NoText,
        })?;
        line.parse()
    }
}

impl FromStr for Booking {
    type Err = Refused;

    fn from_str(line: &str) -> Result<Self, Refused> {
        let (name, seats) = line.split_once('=').ok_or(Refused::NoSeats)?;
        Ok(Booking { name: name.trim().parse()?, seats: seats.trim().parse()? })
    }
}

/// A name is parsed whole or refused: no call cuts it unless its name says `truncate`.
impl From<OutOfBounds> for Refused {
    fn from(_: OutOfBounds) -> Self {
        Refused::LongName
    }
}

impl From<ParseIntError> for Refused {
    fn from(_: ParseIntError) -> Self {
        Refused::NoSeats
    }
}

impl fmt::Display for Refused {
    fn fmt(&self, f: &mut fmt::Formatter<'_>) -> fmt::Result {
        f.write_str(match self {
            Refused::NoText => "not UTF-8",
            Refused::LongName => "the name is too long",
            Refused::NoSeats => "there is no number of seats",
        })
    }
}

impl StdError for Refused {}

/// Bookings are read from texts and from bytes, and what is no booking is refused with its reason.
fn bookings() -> Result<Vec<Booking>, Refused> {
    assert_eq!("bartholomew=2".parse::<Booking>(), Err(Refused::LongName));
    assert_eq!("ann=many".parse::<Booking>(), Err(Refused::NoSeats));
    assert_eq!(Booking::from_bytes(b"ann\xFF=2"), Err(Refused::NoText));
    Ok(vec!["zoé = 3".parse()?, "ann=2".parse()?, Booking::from_bytes("zoé=1".as_bytes())?, "jörg=4".parse()?])
}

/// A table from name to seats. A key is copied into the map, and is found by a `&str` without making one.
fn count(bookings: &[Booking]) -> HashMap<Name, u32> {
    let mut seats = HashMap::new();
    for booking in bookings {
        *seats.entry(booking.name).or_insert(0) += booking.seats;
    }
    assert_eq!((seats.get("zoé"), seats.get("zoe")), (Some(&4), None));
    assert!(seats.contains_key("jörg"));
    seats
}

/// The same in order. The order is that of the bytes, as it is for `str`: `é` comes behind `z`.
fn in_order(seats: HashMap<Name, u32>) -> BTreeMap<Name, u32> {
    let mut sorted = BTreeMap::from_iter(seats);
    sorted.insert(arraystring!("éva"), 1);
    let names: Vec<&str> = sorted.keys().map(Name::as_str).collect();
    assert_eq!(names.join(" "), "ann jörg zoé éva");

    let j: Name = arraystring!("j");
    let behind_j = sorted.range(j..).map(|(_, seats)| seats).sum::<u32>();
    assert_eq!(behind_j, 4 + 4 + 1);
    assert_eq!(sorted.remove("éva"), Some(1));
    sorted
}

/// A row of a fixed width. It is refused where the seats need more room.
fn row(name: &Name, seats: u32) -> Result<ArrayString<12>, fmt::Error> {
    try_format!("{name:<8}{seats:>2}")
}

fn main() -> Result<(), Box<dyn StdError>> {
    let sorted = in_order(count(&bookings()?));
    let rows = sorted.iter().map(|(name, seats)| row(name, *seats)).collect::<Result<Vec<_>, _>>()?;
    assert_eq!(rows, ["ann      2", "jörg     4", "zoé      4"]);
    assert_eq!(row(&"ann".parse()?, 12_345), Err(fmt::Error));
    assert_eq!(sorted.get("ann"), Some(&2));
    println!("all as it was worked out");
    Ok(())
}
