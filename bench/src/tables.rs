//! Tables in Markdown, and how they are compared with those of docs/speed.md, which are the bounds.

use crate::{SIDES, Side};

/// The page whose tables are the bounds.
pub const PAGE: &str = include_str!("../../docs/speed.md");

/// What a side takes at each capacity or level; nothing, where it lacks the call.
pub type Numbers = Vec<f64>;

/// A title, and the numbers of each of `SIDES`.
pub struct Row {
    pub title: String,
    pub cells: [Numbers; SIDES.len()],
}

pub struct Table {
    pub title: &'static str,
    pub rows: Vec<Row>,
}

/// Whether a number is more than another, a tenth and three.
fn is_more(number: f64, other: f64) -> bool {
    number > other * 1.1 + 3.0
}

impl Row {
    /// Whether each number of a side is behind the best peer.
    fn behind(&self, numbers: &Numbers) -> Vec<bool> {
        let peers = SIDES.iter().zip(&self.cells).filter(|(side, _)| !side.is_ours()).map(|(_, numbers)| numbers);
        let best = |place| peers.clone().filter_map(|numbers| numbers.get(place).copied()).reduce(f64::min);
        numbers.iter().enumerate().map(|(place, one)| best(place).is_some_and(|best| is_more(*one, best))).collect()
    }

    /// Numbers as a cell, bold where ours is behind.
    fn cell(&self, side: Side, numbers: &Numbers) -> String {
        let cell = |(number, is_behind)| match is_behind && side.is_ours() {
            true => format!("**{number:.0}**"),
            false => format!("{number:.0}"),
        };
        let cells: Vec<String> = numbers.iter().zip(self.behind(numbers)).map(cell).collect();
        if cells.is_empty() { "–".to_string() } else { cells.join("/") }
    }
}

impl Table {
    /// The table of what was counted: the title of a row, a side, and its next number.
    pub fn of<'a>(title: &'static str, counted: impl IntoIterator<Item = (&'a str, Side, f64)>) -> Table {
        let mut rows: Vec<Row> = Vec::new();
        for (title, side, number) in counted {
            let at = rows.iter().position(|row| row.title == title).unwrap_or_else(|| {
                rows.push(Row { title: title.to_string(), cells: Default::default() });
                rows.len() - 1
            });
            rows[at].cells[side as usize].push(number);
        }
        Table { title, rows }
    }

    /// The sides that have a number here.
    fn sides(&self) -> impl Iterator<Item = (usize, Side)> {
        let has = |(place, _): &(usize, Side)| self.rows.iter().any(|row| !row.cells[*place].is_empty());
        SIDES.iter().copied().enumerate().filter(has)
    }

    /// The table, and below it at how many places each of our sides is behind.
    pub fn text(&self) -> String {
        let names: Vec<&str> = self.sides().map(|(_, side)| side.name()).collect();
        let mut text = format!("|{}|{}|\n|---|{}\n", self.title, names.join("|"), "---|".repeat(names.len()));
        for row in &self.rows {
            let cells: Vec<String> = self.sides().map(|(place, side)| row.cell(side, &row.cells[place])).collect();
            text += &format!("|{}|{}|\n", row.title, cells.join("|"));
        }
        for (place, side) in self.sides().filter(|(_, side)| side.is_ours()) {
            let all: Vec<bool> = self.rows.iter().flat_map(|row| row.behind(&row.cells[place])).collect();
            let late = all.iter().filter(|is_behind| **is_behind).count();
            text += &format!("\nBehind the best peer: the side `{}` in {late} of {}.\n", side.name(), all.len());
        }
        text
    }

    /// Where ours are above the bounds, which the table of the same title on a page has; and the rows that the page has alone, if these
    /// are all rows of the table.
    pub fn faults(&self, page: &str, is_whole: bool) -> Vec<String> {
        let (columns, bounds) = table_of(page, self.title);
        let mut faults = Vec::new();
        for row in &self.rows {
            let bound = bounds.iter().find(|bound| bound[0] == row.title);
            for (place, side) in self.sides().filter(|(_, side)| side.is_ours()) {
                let column = columns.iter().position(|name| *name == side.name());
                let cell = bound.zip(column).and_then(|(bound, column)| bound.get(column).copied()).unwrap_or("");
                let (numbers, limits) = (&row.cells[place], numbers(cell));
                if numbers.len() != limits.len() || numbers.iter().zip(&limits).any(|(one, most)| is_more(*one, *most))
                {
                    let cell_here = row.cell(side, numbers);
                    faults.push(format!("{}, {}: {cell_here}, and the page has {cell:?}", row.title, side.name()));
                }
            }
        }
        let alone = bounds.iter().filter(|bound| is_whole && !self.rows.iter().any(|row| row.title == bound[0]));
        faults.extend(alone.map(|bound| format!("{}: only the page has it", bound[0])));
        faults
    }
}

fn cells(line: &str) -> Vec<&str> {
    line.trim_matches('|').split('|').collect()
}

/// The names of the columns and the rows of a page's table, without the line below its head.
pub fn table_of<'a>(page: &'a str, title: &str) -> (Vec<&'a str>, Vec<Vec<&'a str>>) {
    let mut lines = page.lines().skip_while(|line| cells(line)[0] != title).take_while(|line| line.starts_with('|'));
    let columns = lines.next().map(cells).unwrap_or_default();
    (columns, lines.skip(1).map(cells).collect())
}

/// The numbers of a cell, in which some are bold.
fn numbers(cell: &str) -> Numbers {
    cell.split('/').filter_map(|it| it.trim_matches('*').parse().ok()).collect()
}
