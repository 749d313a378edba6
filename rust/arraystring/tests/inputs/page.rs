//! The tables of MOVING.md: what a column writes is what a test runs.
#![allow(dead_code)]

const PAGE: &str = include_str!("../../MOVING.md");

/// The code in a column of a table, and what was run of it.
pub struct Column {
    written: Vec<String>,
    run: Vec<String>,
}

impl Column {
    /// Of the table below this heading. Code is what stands in backticks, and calls, compares or assigns something.
    pub fn below(heading: &str, column: usize) -> Self {
        let (_, below) = PAGE.split_once(&format!("\n## {heading}\n")).expect("a section of this heading");
        let rows = below.lines().skip_while(|line| !line.starts_with('|')).skip(2);
        let rows = rows.map_while(|line| line.strip_prefix("| ")?.strip_suffix(" |"));
        let cells = rows.map(|row| row.split(" | ").nth(column).expect("a row has the column"));
        let is_code =
            |code: &&str| ["(", " = ", " += ", " + ", " == ", " < ", " <= "].iter().any(|it| code.contains(it));
        let written = cells.flat_map(|cell| cell.split('`').skip(1).step_by(2)).filter(is_code).map(packed).collect();
        Column { written, run: Vec::new() }
    }

    /// Notes that some code is run, which the column has.
    pub fn runs(&mut self, code: &str) {
        assert!(self.written.contains(&packed(code)), "no row has {code}");
        self.run.push(packed(code));
    }

    /// Asserts that all of the column was run, but for some code that can't be.
    pub fn assert_all_run_but(self, others: &[&str]) {
        let others: Vec<_> = others.iter().map(|code| packed(code)).collect();
        assert!(others.iter().all(|code| self.written.contains(code)), "one of {others:?} is not in the table");
        let is_left = |code: &&String| !self.run.contains(code) && !others.contains(code);
        let left: Vec<_> = self.written.iter().filter(is_left).collect();
        assert!(left.is_empty(), "nothing runs {left:?}");
    }
}

/// Without the spaces, which `stringify!` sets in another way.
fn packed(code: &str) -> String {
    code.split_whitespace().collect()
}

/// Runs some code of a column, and returns what it returns.
#[macro_export]
macro_rules! run {
    ($column:ident, $code:expr) => {{
        $column.runs(stringify!($code));
        $code
    }};
}
