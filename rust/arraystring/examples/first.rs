//! The program that README.md begins with. A comment says what a line prints.

use arraystring::{ArrayString, OutOfBounds};

fn main() -> Result<(), OutOfBounds> {
    let mut name = ArrayString::<8>::try_from_str("Zoé")?; // `é` takes two bytes
    println!("{:?}", name.try_push_str(" Amélie")); // prints: Err(OutOfBounds)
    let rest = name.push_str_truncate(" Amélie");
    println!("{name}: {} bytes, {rest} cut off", name.len()); // prints: Zoé Am: 7 bytes, élie cut off
    Ok(())
}
