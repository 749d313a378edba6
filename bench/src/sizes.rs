//! Bytes of code that calls bring: those of a shared library with them (library_of_calls.rs), minus those of the same library without
//! a call. It runs rustc and size.

use std::env;
use std::fs;
use std::path::Path;
use std::process::Command;

use crate::tables::Table;
use crate::{SIDES, Side, is_asked};

const HERE: &str = env!("CARGO_MANIFEST_DIR");
const LEVELS: [&str; 3] = ["3", "s", "z"];
/// How many calls a library exports, and at how many capacities.
const LIBRARIES: [(usize, usize); 6] = [(3, 1), (3, 3), (3, 8), (8, 1), (8, 3), (8, 8)];

/// What a command prints, which has to succeed.
fn output_of(command: &mut Command) -> String {
    let output = command.output().unwrap_or_else(|error| panic!("{command:?}: {error}"));
    assert!(output.status.success(), "{command:?}: {}", String::from_utf8_lossy(&output.stderr));
    String::from_utf8(output.stdout).expect("it prints text")
}

/// The command that compiles a file of an edition at a level of optimisation.
fn rustc(level: &str, edition: &str, file: &Path) -> Command {
    let mut command = Command::new(env::var("RUSTC").unwrap_or("rustc".to_string()));
    command.arg(format!("-Copt-level={level}")).args(["-Ccodegen-units=1", "-Cpanic=abort", "--cap-lints=allow"]);
    command.args(["-Ctarget-cpu=x86-64-v2", "--edition", edition]).arg(file);
    command
}

/// Compiles the crate that a library of calls of a side is over.
fn compile(folder: &Path, level: &str, side: Side) {
    let (edition, source) = match side {
        Side::Crate => ("2024", Path::new(HERE).join("../rust/arraystring/src/lib.rs")),
        Side::Arrayvec => {
            let found = fs::read_dir("/usr/share/cargo/registry").expect("Debian has arrayvec").flatten();
            let arrayvec = found.map(|it| it.path()).find(|it| it.display().to_string().contains("/arrayvec-0.7"));
            ("2018", arrayvec.expect("librust-arrayvec-dev is there").join("src/lib.rs"))
        }
        Side::String | Side::Proved => return,
    };
    let mut command = rustc(level, edition, &source);
    output_of(command.args(["--crate-type=rlib", "--crate-name=strings", "--out-dir"]).arg(folder));
}

/// The bytes of the code of a library.
fn text_bytes(folder: &Path, level: &str, side: Side, calls: usize, capacities: usize) -> f64 {
    let library = folder.join("calls.so");
    let mut command = rustc(level, "2024", &Path::new(HERE).join("library_of_calls.rs"));
    command.args(["-Clto", "--crate-type=cdylib", "--extern=strings", "-L"]).arg(folder).arg("-o").arg(&library);
    command.arg(format!("--cfg=over=\"{}\"", side.name())).arg(format!("--cfg=calls=\"{calls}\""));
    output_of(command.arg(format!("--cfg=capacities=\"{capacities}\"")));
    let sections = output_of(Command::new("size").arg("-A").arg(&library));
    let text = sections.lines().find_map(|line| line.strip_prefix(".text ")).expect("it has code");
    text.split_whitespace().next().and_then(|it| it.parse().ok()).expect("a section has a size")
}

/// The bytes of code of each library that is asked for. `String` is one type at all capacities.
pub fn table(names: &[String]) -> Table {
    let titled = |(calls, capacities)| (format!("calls: {calls}, capacities: {capacities}"), calls, capacities);
    let asked: Vec<_> = LIBRARIES.into_iter().map(titled).filter(|(title, ..)| is_asked(title, names)).collect();
    let folder = env::temp_dir().join(format!("bench-sizes-{}", std::process::id()));
    fs::create_dir_all(&folder).expect("there is room for it");
    let mut counted = Vec::new();
    for level in LEVELS {
        for side in SIDES.into_iter().filter(|side| *side != Side::Proved && !asked.is_empty()) {
            compile(&folder, level, side);
            let empty = text_bytes(&folder, level, side, 3, 0);
            for (title, calls, capacities) in &asked {
                let capacities = if side == Side::String { 1 } else { *capacities };
                counted.push((title.as_str(), side, text_bytes(&folder, level, side, *calls, capacities) - empty));
            }
        }
    }
    fs::remove_dir_all(folder).expect("it is there");
    Table::of("Bytes of code, at the levels 3/s/z", counted)
}
