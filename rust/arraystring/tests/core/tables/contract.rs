//! The table of docs/trust.md below its example of a contract: each call returns and leaves what the page says.

use std::fs;

use super::is_in_the_repository;
use crate::ArrayString;

/// The code with which a cell begins.
fn code(cell: &str) -> &str {
    cell.split('`').nth(1).expect("a cell begins with code")
}

#[test]
fn the_calls_below_a_contract_do_what_the_page_says() {
    if !is_in_the_repository() {
        return;
    }
    let page = fs::read_to_string("../../docs/trust.md").expect("a text");
    let (_, below) = page.split_once("\n|Call|Returns|The text after it|\n|---|---|---|\n").expect("the table");
    let rows: Vec<_> = below.lines().map_while(|line| line.strip_prefix('|')?.strip_suffix('|')).collect();
    assert_eq!(rows.len(), 4);
    for row in rows {
        let [call, returned, left] = row.split('|').map(code).collect::<Vec<_>>()[..] else { panic!("{row}") };
        let given = call.strip_prefix("try_insert_str(").and_then(|rest| rest.strip_suffix("\")"));
        let (index, text) = given.and_then(|given| given.split_once(", \"")).expect("an index and a text");
        let mut string = ArrayString::<4>::from("aé");
        let outcome = format!("{:?}", string.try_insert_str(index.parse().expect("an index"), text));
        assert_eq!((outcome.as_str(), string.as_str()), (returned, left), "{call}");
    }
}
