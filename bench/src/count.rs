//! Counts instructions: the program runs itself under callgrind, which counts what the functions named `measured` take and all that they
//! call, and begins a new part at each call of `next_part`.

use std::env;
use std::fs;
use std::hint::black_box;
use std::process::{Command, Stdio};

use crate::calls::CURVES;
use crate::cases::{Case, Curve};
use crate::programs::{Runner, run_all};
use crate::rows::ROWS;
use crate::tables::{PAGE, Table, table_of};
use crate::{CAPACITIES, SIDES, Side, is_asked, sides_of};

/// The words by which the program runs itself.
pub const RUN_CALLS: &str = "run-calls";
pub const RUN_PROGRAMS: &str = "run-programs";
/// How often each call is made. The count is the mean.
const TIMES: usize = 5;

/// Whether the strings are built as a program ships them, and not so that each access is tested.
pub const IS_SHIPPED: bool = !cfg!(debug_assertions) && !cfg!(feature = "checked");

const TITLE_OF_CALLS: &str = if IS_SHIPPED {
    "Instructions of a call, at 23/63/255"
} else if cfg!(debug_assertions) {
    "Instructions in a debug build, at 23/63/255"
} else {
    "Instructions with `checked`, at 23/63/255"
};

/// What is counted begins anew.
#[inline(never)]
pub fn next_part() {
    black_box(());
}

/// A call on the strings of a side, whose instructions are one part.
struct Part {
    curve: &'static Curve,
    capacity: usize,
    case: Case,
    side: Side,
}

/// The curves whose titles contain one of the names. Where each access is tested, the page says which calls are counted.
fn asked(names: &[String]) -> impl Iterator<Item = &'static Curve> {
    let (_, rows) = table_of(PAGE, TITLE_OF_CALLS);
    let is_counted = move |it: &&Curve| IS_SHIPPED || rows.iter().any(|row| row[0] == it.title);
    CURVES.iter().filter(is_counted).filter(move |it| is_asked(it.title, names))
}

/// The parts of the curves that are asked for, in order: at 255 of each third length. All sides answer the same.
fn parts(names: &[String]) -> Vec<Part> {
    let mut parts = Vec::new();
    for curve in asked(names) {
        for capacity in CAPACITIES {
            for case in curve.cases(capacity, capacity.div_ceil(100)) {
                let sides = sides_of(capacity, curve.call, &case).into_iter();
                parts.extend(sides.map(|side| Part { curve, capacity, case: case.clone(), side }));
            }
        }
    }
    parts
}

/// Runs the calls of each part, for callgrind, which counts them.
pub fn run_calls(names: &[String]) {
    for Part { curve, capacity, case, side } in &parts(names) {
        next_part();
        for _ in 0..TIMES {
            black_box(side.answer(black_box(*capacity), curve.call, black_box(case)));
        }
    }
}

/// What each call takes, in the mean of all lengths.
pub fn calls(names: &[String]) -> Table {
    let parts = parts(names);
    let totals = if parts.is_empty() { Vec::new() } else { totals(RUN_CALLS, names) };
    assert_eq!(parts.len(), totals.len(), "callgrind counts each part");
    let mut counted = Vec::new();
    for (curve, capacity) in asked(names).flat_map(|curve| CAPACITIES.map(|capacity| (curve, capacity))) {
        for side in SIDES {
            let is_of = |it: &Part| (it.curve.title, it.side, it.capacity) == (curve.title, side, capacity);
            let counts = parts.iter().zip(&totals).filter(|(part, _)| is_of(part));
            let counts: Vec<f64> = counts.map(|(_, total)| (total / TIMES as f64).round()).collect();
            let mean = counts.iter().sum::<f64>() / counts.len() as f64;
            counted.extend((!counts.is_empty()).then_some((curve.title, side, mean)));
        }
    }
    Table::of(TITLE_OF_CALLS, counted)
}

/// The titles of the programs that were run, each a part.
struct Parts(Vec<&'static str>);

impl Runner for Parts {
    fn begin(&mut self, title: &'static str) {
        next_part();
        self.0.push(title);
    }

    #[inline(always)]
    fn see(&mut self, text: &str) {
        black_box(text);
    }
}

/// Runs each program over each string, for callgrind, which counts them.
pub fn run_programs() {
    SIDES.iter().for_each(|side| run_all(*side, &mut Parts(Vec::new())));
}

/// What each program takes for a row, a word or a character. All are run if one is asked for.
pub fn programs(names: &[String]) -> Table {
    let mut parts = Parts(Vec::new());
    run_all(Side::Crate, &mut parts);
    let is_any_asked = parts.0.iter().any(|title| is_asked(title, names));
    let totals = if is_any_asked { totals(RUN_PROGRAMS, &[]) } else { Vec::new() };
    let sides = SIDES.into_iter().filter(|side| *side != Side::Proved);
    let of_sides = sides.flat_map(|side| parts.0.iter().map(move |title| (*title, side)));
    let counted = of_sides.zip(totals).map(|((title, side), total)| (title, side, total / ROWS as f64));
    let asked = counted.filter(|(title, ..)| is_asked(title, names));
    Table::of("Instructions of a program, for each of 4,000", asked)
}

/// The instructions of each part of what this program runs by these words.
fn totals(what: &str, names: &[String]) -> Vec<f64> {
    let out = env::temp_dir().join(format!("bench-callgrind-{}", std::process::id()));
    let status = Command::new("valgrind")
        .args(["--tool=callgrind", "--combine-dumps=yes", "--dump-before=*next_part"])
        // (the second is how callgrind names a function of the proved build)
        .args(["--toggle-collect=*measured", "--toggle-collect=*_measured::<*>"])
        .arg(format!("--callgrind-out-file={}", out.display()))
        .arg(env::current_exe().expect("a program has a path"))
        .arg(what)
        .args(names)
        .env("LD_BIND_NOW", "1")
        .stderr(Stdio::null())
        .status();
    assert!(status.is_ok_and(|status| status.success()), "valgrind did not run: see docs/speed.md");
    let told = fs::read_to_string(&out).expect("callgrind writes what it counted");
    fs::remove_file(out).expect("it is there");
    // (what comes before the first part is none)
    told.lines().filter_map(|line| line.strip_prefix("totals: ")?.parse().ok()).skip(1).collect()
}
