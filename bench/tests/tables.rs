//! A cell of ours that rises above the page's, or that the page lacks, is seen; and so is a row that only the page has.

use bench::SIDES;
use bench::tables::{Row, Table};

/// A table of one row, in which our sides have some numbers, and the peers have others.
fn table(ours: [f64; 3], peers: [f64; 3]) -> Table {
    let cells = SIDES.map(|side| if side.is_ours() { ours } else { peers }.to_vec());
    Table { title: "Instructions", rows: vec![Row { title: "`pop`".to_string(), cells }] }
}

/// How many faults each of our two sides has beside a page.
fn faults(table: &Table, page: &str) -> usize {
    table.faults(page, false).len() / 2
}

#[test]
fn a_rise_of_more_than_a_tenth_and_three_is_seen_at_each_place() {
    let page = format!("# A page\n\n{}\nMore of it.\n", table([50.0, 20.0, 300.0], [60.0; 3]).text());
    for (ours, expected) in [
        ([50.0, 20.0, 300.0], 0),
        ([58.0, 25.0, 333.0], 0),
        ([58.5, 20.0, 300.0], 1),
        ([50.0, 25.5, 300.0], 1),
        ([50.0, 20.0, 334.0], 1),
    ] {
        assert_eq!(faults(&table(ours, [90.0; 3]), &page), expected, "{ours:?}");
    }
}

#[test]
fn what_the_page_lacks_or_has_alone_is_seen() {
    let here = table([50.0; 3], [60.0; 3]);
    let page = here.text();
    assert_eq!(faults(&here, &page), 0);
    for (old, new) in [("50/50/50", "50/50"), ("`pop`", "`len`"), ("|Instructions|", "|Nanoseconds|")] {
        assert_eq!(faults(&here, &page.replace(old, new)), 1, "{new}");
    }
    let page = page.replace("|`pop`|", "|`len`|2/2/2|2/2/2|2/2/2|2/2/2|\n|`pop`|");
    assert_eq!((here.faults(&page, true).len(), here.faults(&page, false).len()), (1, 0));
}

#[test]
fn what_is_behind_the_best_peer_is_bold_and_counted() {
    let text = table([20.0, 16.0, 99.0], [14.0, 14.0, 90.0]).text();
    assert!(text.contains("|**20**/16/99|14/14/90|14/14/90|\n"), "{text}");
    assert!(text.contains("the side `crate` in 1 of 3."), "{text}");
}
