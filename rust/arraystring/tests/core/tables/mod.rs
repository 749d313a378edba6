//! The tables of the proved crate's tests, read from its files and played on the core: one table tests both builds.
//!
//! A table begins with a line that names its player, as `# player: cuts`. `PLAYERS` has the players. A player that makes strings of
//! a capacity has it behind its name, and a table may say what it shows: `# player: calls 23 | the first character is taken out`.
//! A text may hold several tables. What is no table has no ` | ` in it.

#[rustfmt::skip]
mod call_list;
mod calls;
mod contract;
mod decoding_and_order;
mod made;
mod rows;

use std::collections::BTreeMap;
use std::path::Path;

use self::rows::{Table, of_text, tables};

/// Where the tables are.
const FOLDER: &str = "../../crates/arraystring_tests/src/tests";

/// Whether the repository is around the crate, which has the tables. A package of the crate has the tests, and not what two of them read.
fn is_in_the_repository() -> bool {
    Path::new("../generate.py").exists()
}

/// A player: its name in the tables, how many rows it plays at least, and what plays a table here and returns how many rows it has
/// played.
type Player = (&'static str, usize, fn(&Table) -> usize);

const PLAYERS: &[Player] = &[
    ("calls", 500, calls::calls),
    ("constructors", 20, made::constructors),
    ("cuts", 18, decoding_and_order::cuts),
    ("drain_comparisons", 4, decoding_and_order::drain_comparisons),
    ("drains", 10, decoding_and_order::drains),
    ("extension", 5, made::extension),
    ("last_characters", 8, decoding_and_order::last_characters),
    ("orders", 6, decoding_and_order::orders),
    ("reading", 18, decoding_and_order::reading),
    ("texts_of_units", 20, made::texts_of_units),
    ("trims", 23, decoding_and_order::trims),
    ("units", 9, decoding_and_order::units),
    ("walks", 7, decoding_and_order::walks),
    ("wherever_it_begins", 100, calls::wherever_it_begins),
];

/// The player that a table names, or what to tell whoever wrote the table.
fn player_of(table: &Table) -> Result<&'static Player, String> {
    PLAYERS.iter().find(|(name, ..)| *name == table.player()).ok_or_else(|| {
        let names: Vec<_> = PLAYERS.iter().map(|(name, ..)| *name).collect();
        let (place, heading, names) = (&table.place, &table.heading, names.join(", "));
        let told = format!("{place}: a table begins with `# player: NAME`, not with `{heading}`.");
        format!("{told} The players are {names}. (What is no table has no ` | ` in it.)")
    })
}

/// Calls a function at a capacity that is known when it runs.
macro_rules! at_capacity {
    ($capacity:expr, $function:ident, $argument:expr) => {
        $crate::tables::at_capacity!($capacity, $function, $argument, 0 1 2 3 4 5 6 7 8 9 10 23 32 255 300)
    };
    ($capacity:expr, $function:ident, $argument:expr, $($known:literal)*) => {
        match $capacity {
            $($known => $function::<$known>($argument),)*
            other => panic!("no capacity {other} here: add it to `at_capacity`"),
        }
    };
}
pub(crate) use at_capacity;

#[test]
fn each_table_holds_here_too() {
    if !is_in_the_repository() {
        return;
    }
    let mut played: BTreeMap<&str, usize> = BTreeMap::new();
    for table in tables(Path::new(FOLDER)) {
        let (name, _, play) = player_of(&table).unwrap_or_else(|told| panic!("{told}"));
        *played.entry(name).or_default() += play(&table);
    }
    for (name, least, _) in PLAYERS {
        let count = played.get(name).copied().unwrap_or_default();
        assert!(count >= *least, "{count} rows of {name} were played, where at least {least} are due: {played:?}");
    }
    let missing = calls::not_made();
    assert!(missing.is_empty(), "no row of a table in crates/arraystring_tests/src/tests makes {missing:?}");
}

#[test]
fn a_table_that_names_no_player_is_told() {
    for heading in ["a | pop", "# player: pops", "# plyer: cuts", "# player:cuts", "player: cuts", "# 8 | pops"] {
        let told = player_of(&of_text("remove.rt:6", &format!("\n {heading}\n a | pop"))[0]).expect_err(heading);
        let wanted =
            format!("remove.rt:6: a table begins with `# player: NAME`, not with `{heading}`. The players are calls, ");
        assert!(told.starts_with(&wanted), "{told}");
    }
}
