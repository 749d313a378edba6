//! A guest list in JSON: what is too long is refused or cut, as each field says. Each result was worked out by hand.

use std::collections::BTreeMap;
use std::error::Error;

use arraystring::{ArrayString, CacheString};
use serde::{Deserialize, Serialize};

type Name = ArrayString<8>;

#[derive(Serialize, Deserialize)]
struct Guest {
    /// Refused where it does not fit.
    name: Name,
    /// Cut where it does not fit.
    #[serde(with = "arraystring::truncate")]
    note: CacheString,
    nickname: Option<Name>,
    wishes: Vec<ArrayString<5>>,
}

fn main() -> Result<(), Box<dyn Error>> {
    let given = r#"{"name":"zoé","note":"by the door","nickname":null,"wishes":["vegan","café","tea"]}"#;
    let mut guest: Guest = serde_json::from_str(given)?;
    assert_eq!((guest.name.as_str(), guest.note.as_str(), guest.nickname), ("zoé", "by the door", None));

    assert_eq!(guest.wishes, ["vegan", "café", "tea"]);

    // It is written as a `String` is.
    guest.nickname = Some("zizi".parse()?);
    guest.wishes.truncate(1);
    let written = serde_json::to_string(&guest)?;
    assert_eq!(written, r#"{"name":"zoé","note":"by the door","nickname":"zizi","wishes":["vegan"]}"#);

    // `bartholomew` has 11 bytes, and a name 8.
    let refused = serde_json::from_str::<Guest>(r#"{"name":"bartholomew","note":"","nickname":null,"wishes":[]}"#);
    assert!(
        refused
            .is_err_and(|error| error.to_string().starts_with("invalid length 11, expected a text of at most 8 bytes"))
    );

    // A name is the key of a map, and is found by a `&str`.
    let seats: BTreeMap<Name, u32> = serde_json::from_str(r#"{"zoé":4,"ann":2}"#)?;
    assert_eq!((seats.get("zoé"), seats.get("zoe")), (Some(&4), None));
    assert_eq!(serde_json::to_string(&seats)?, r#"{"ann":2,"zoé":4}"#);
    println!("all as it was worked out");
    Ok(())
}
