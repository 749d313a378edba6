//! Prints the tables of docs/speed.md, all or the rows whose titles contain a word that is given, and fails where one of ours is above
//! what the page has. A debug build and one with the feature `checked` count fewer calls, and neither programs nor code.

use std::env;
use std::process::ExitCode;

use bench::count::{self, IS_SHIPPED};
use bench::sizes;
use bench::tables::{PAGE, Table};

fn main() -> ExitCode {
    let words: Vec<String> = env::args().skip(1).collect();
    let names = words.get(1..).unwrap_or_default();
    match words.first().map_or("", String::as_str) {
        // (callgrind runs the program by these)
        count::RUN_CALLS => count::run_calls(names),
        count::RUN_PROGRAMS => count::run_programs(),
        _ => return told(&words),
    }
    ExitCode::SUCCESS
}

/// Prints the tables of this build, each when it is counted, and which cells are above those of the page.
fn told(names: &[String]) -> ExitCode {
    let counts: &[fn(&[String]) -> Table] =
        if IS_SHIPPED { &[count::calls, count::programs, sizes::table] } else { &[count::calls] };
    let (mut faults, mut rows) = (Vec::new(), 0);
    for table in counts.iter().map(|count| count(names)).filter(|table| !table.rows.is_empty()) {
        println!("{}", table.text());
        faults.extend(table.faults(PAGE, names.is_empty()));
        rows += table.rows.len();
    }
    if rows == 0 {
        faults.push(format!("no row has one of the names {names:?}"));
    }
    faults.iter().for_each(|fault| eprintln!("above docs/speed.md: {fault}"));
    ExitCode::from(u8::from(!faults.is_empty()))
}
