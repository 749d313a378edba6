//! What the reference and the pages have to show, read off the sources of the face: `cargo test` runs each example, and rustc asks for a
//! line of documentation, but nothing there tells that an example or a section is missing, or that a name is gone.

use std::collections::{BTreeMap, BTreeSet};
use std::fs;
use std::path::Path;

/// The sources by hand of what a program can name, in the order in which the reference shows them.
fn face() -> Vec<(String, String)> {
    let root = fs::read_to_string("src/lib.rs").expect("a text");
    let modules =
        root.lines().filter_map(|line| line.trim_start_matches("pub ").strip_prefix("mod ")?.strip_suffix(';'));
    let modules: Vec<_> = modules.filter(|module| !["leaf", "proved"].contains(module)).collect();
    assert!(modules.len() > 10, "{modules:?}");
    modules
        .iter()
        .map(|module| (module.to_string(), fs::read_to_string(format!("src/{module}.rs")).expect("a text")))
        .collect()
}

/// A public function, with its documentation and with that of the block in which it stands.
struct Call {
    name: String,
    module: String,
    head: String,
    docs: Vec<String>,
    of_block: String,
}

impl Call {
    /// Whether an example of it asserts.
    fn asserts(&self) -> bool {
        let mut is_inside = false;
        self.docs.iter().any(|line| {
            is_inside ^= line.starts_with("```");
            is_inside && line.contains("assert")
        })
    }

    /// Whether it has a section.
    fn has(&self, title: &str) -> bool {
        self.docs.iter().any(|line| line.strip_prefix("# ") == Some(title))
    }
}

/// The public functions of the face, but those that the reference does not show.
fn calls() -> Vec<Call> {
    let (mut calls, mut docs, mut of_block, mut is_hidden) = (Vec::new(), Vec::new(), String::new(), false);
    for (module, text) in face() {
        for line in text.lines() {
            let bare = line.trim_start();
            if let Some(words) = bare.strip_prefix("///") {
                docs.push(words.trim_start().to_string());
            } else if bare.starts_with("#[") {
                is_hidden |= bare == "#[doc(hidden)]";
            } else {
                let (docs, is_hidden) = (std::mem::take(&mut docs), std::mem::take(&mut is_hidden));
                let name = line
                    .split_once("fn ")
                    .filter(|_| bare.starts_with("pub ") && !bare.starts_with("pub("))
                    .map(|(_, it)| it);
                if line.starts_with("impl") {
                    of_block = docs.join(" ");
                } else if let Some(name) = name.filter(|_| !is_hidden) {
                    let name = name.split(['(', '<']).next().expect("a name").to_string();
                    let (module, head, of_block) = (module.clone(), bare.to_string(), of_block.clone());
                    calls.push(Call { name, module, head, docs, of_block });
                }
            }
        }
    }
    assert!(calls.len() > 50, "{} calls", calls.len());
    calls
}

/// Calls that say all in a line, so that an example would only repeat it.
const WITHOUT_EXAMPLE: &[&str] = &[
    "as_bytes",
    "as_str",
    "as_str",
    "capacity",
    "clear",
    "deserialize",
    "from_str_unchecked",
    "from_utf8_unchecked",
    "insert_str_unchecked",
    "insert_unchecked",
    "is_empty",
    "is_full",
    "len",
    "push_str_unchecked",
    "serialize",
];

#[test]
fn each_call_has_an_example_that_asserts() {
    let mut without: Vec<_> = calls().into_iter().filter(|call| !call.asserts()).map(|call| call.name).collect();
    without.sort_unstable();
    assert_eq!(without, WITHOUT_EXAMPLE);
}

/// What a call refuses stands under `Errors`, and what it requires under `Safety`. No call but the index panics.
#[test]
fn each_refusal_has_its_section() {
    for call in calls() {
        let is_refusing = ["-> Result<", "-> fmt::Result"].iter().any(|it| call.head.contains(it));
        assert_eq!(call.has("Errors"), is_refusing, "{}", call.name);
        assert_eq!(call.has("Safety"), call.head.contains("unsafe fn "), "{}", call.name);
        assert!(!call.has("Panics"), "{}", call.name);
        assert_eq!(call.name.ends_with("_unchecked"), call.head.contains("unsafe fn "), "{}", call.name);
    }
    let panicking: Vec<_> = face().into_iter().filter(|(_, text)| text.contains("/// # Panics")).collect();
    assert_eq!(panicking.iter().map(|(module, _)| module.as_str()).collect::<Vec<_>>(), ["lent"]);
}

/// The constructors come first, and what most programs do without comes last.
#[test]
fn the_reference_begins_with_what_most_programs_need() {
    let calls: Vec<_> = calls().into_iter().filter(|call| !["drain", "truncate"].contains(&&*call.module)).collect();
    assert_eq!(calls[..2].iter().map(|call| call.name.as_str()).collect::<Vec<_>>(), ["new", "try_from_str"]);
    assert!(calls.is_sorted_by_key(|call| call.name.ends_with("_unchecked")));
    let last = calls.iter().filter(|call| call.of_block.starts_with("# Unchecked"));
    assert!(last.map(|call| call.name.ends_with("_unchecked")).eq([true; 6]));
}

/// The calls whose block names sources, and which have no contract there, as the block says.
const WITHOUT_CONTRACT: &[&str] = &[
    "const_try_from_str",
    "from_utf8_lossy_truncate",
    "try_from_format",
    "try_from_utf16_lossy",
    "try_from_utf8_lossy",
];

/// The names that a call may have in the proved sources.
fn proved_names(call: &str) -> [&str; 3] {
    [call, call.strip_suffix("_truncate").unwrap_or(call), call.strip_suffix("_in_place").unwrap_or(call)]
}

/// The names of the public functions of a source.
fn public_names(source: &str) -> impl Iterator<Item = &str> {
    let heads = source
        .lines()
        .filter_map(|line| line.trim_start().strip_prefix("pub ")?.trim_start_matches("const ").strip_prefix("fn "));
    heads.map(|head| head.split(['(', '<']).next().unwrap_or(head))
}

/// Whether a source has a public function of one of some names.
fn has_call(source: &str, names: &[&str]) -> bool {
    public_names(source).any(|name| names.contains(&name))
}

/// The calls of the core that a program does without here: `str` has them, or the same of it, or their text comes of an iterator unchecked.
const OF_THE_CORE_ALONE: [&str; 10] = [
    "from_chars_unchecked",
    "from_iterator_unchecked",
    "get",
    "is_char_boundary",
    "make_ascii_lowercase",
    "make_ascii_lowercase_in",
    "make_ascii_uppercase",
    "make_ascii_uppercase_in",
    "slice",
    "trim_spaces",
];

/// A call that was added to the sources, and that the face lacks, would be missed by nobody else.
#[test]
fn each_call_of_the_core_is_one_of_the_face() {
    let names: BTreeSet<_> = calls().into_iter().map(|call| call.name).collect();
    let has = |name: &str| ["", "_truncate", "_in_place"].iter().any(|end| names.contains(&format!("{name}{end}")));
    let mut lacking = BTreeSet::new();
    for entry in fs::read_dir("src/proved/string/array_string").expect("a folder") {
        let source = fs::read_to_string(entry.expect("an entry").path()).expect("a text");
        lacking.extend(public_names(&source).filter(|name| !has(name)).map(str::to_string));
    }
    assert_eq!(lacking, OF_THE_CORE_ALONE.map(str::to_string).into());
}

/// The documentation of a block names the sources of its calls, where their contracts are. They are there, and have these calls.
#[test]
fn the_sources_that_a_block_names_have_its_calls() {
    let folder = Path::new("../../crates/arraystring_core/src/array_string");
    if !folder.exists() {
        return;
    }
    let (mut without, mut found, mut named) = (Vec::new(), 0, Vec::new());
    for call in calls() {
        if !call.of_block.starts_with("# ") || call.of_block.contains("have no contract") {
            continue;
        }
        let files: Vec<_> = call.of_block.split('`').filter(|code| code.ends_with(".rt")).collect();
        named = if call.of_block.contains("in the same files") {
            named
        } else {
            files.iter().map(|it| it.to_string()).collect()
        };
        assert!(!named.is_empty(), "no source of {} is named", call.name);
        let sources = named.iter().map(|file| {
            let file = file.strip_prefix("crates/arraystring_core/src/array_string/").unwrap_or(file);
            fs::read_to_string(folder.join(file)).unwrap_or_else(|_| panic!("{file} is named and not there"))
        });
        match sources.filter(|source| has_call(source, &proved_names(&call.name))).count() {
            0 => without.push(call.name),
            _ => found += 1,
        }
    }
    without.sort_unstable();
    assert_eq!(without, WITHOUT_CONTRACT);
    assert!(found > 30, "{found}");
}

/// The fences of the blocks of a page that begin one.
fn fences(page: &str) -> impl Iterator<Item = &str> {
    page.lines().filter(|line| line.starts_with("```")).step_by(2)
}

/// The root has both pages as documentation, so that each block of theirs is run, but those that are no Rust.
#[test]
fn the_blocks_of_the_pages_are_run() {
    let root = fs::read_to_string("src/lib.rs").expect("a text");
    for page in ["README.md", "MOVING.md"] {
        assert!(root.contains(&format!("doc = include_str!(\"../{page}\")")), "{page} is no documentation");
        let text = fs::read_to_string(page).expect("a text");
        for fence in fences(&text) {
            let is_other = ["toml", "text", "sh", "console"].contains(&&fence[3..]);
            let is_run = fence == "```" || fence == "```rust" || fence.starts_with("```compile_fail");
            assert!(is_run || is_other, "{page}: `{fence}` is not run");
        }
    }
    assert!(
        fences(&fs::read_to_string("README.md").expect("a text")).any(|fence| fence == "```" || fence == "```rust")
    );
}

/// Each call that refuses or cuts what it is given is named by the page, which has a table of these and one of their errors.
#[test]
fn the_page_names_each_call_that_refuses_or_cuts() {
    let page = fs::read_to_string("README.md").expect("a text");
    let is_meant = |call: &Call| call.head.contains("-> Result<") || call.name.ends_with("_truncate");
    let calls = calls().into_iter().filter(|call| !["drain", "truncate"].contains(&&*call.module) && is_meant(call));
    let unnamed: Vec<_> = calls.map(|call| call.name).filter(|name| !page.contains(&format!("`{name}`"))).collect();
    assert!(unnamed.is_empty(), "no table names {unnamed:?}");
}

/// The page names the oldest Rust of the manifest.
#[test]
fn the_page_names_the_oldest_rust() {
    let page = fs::read_to_string("README.md").expect("a text");
    let oldest = concat!("The crate needs Rust ", env!("CARGO_PKG_RUST_VERSION"), " or later");
    assert!(page.contains(oldest), "{oldest}");
}

/// Names with a `_` in them, as most calls have, that the page says and that are none of this crate's.
const OF_OTHERS: &[&str] = &[
    "from_utf16",
    "from_utf16_lossy",
    "from_utf8",
    "from_utf8_lossy",
    "insert_str",
    "make_ascii_uppercase",
    "next_back",
    "push_str",
    "split_at",
    "split_once",
    "to_lowercase",
    "try_from",
    "with_capacity",
];

#[test]
fn the_page_names_no_call_that_is_gone() {
    let page = fs::read_to_string("README.md").expect("a text");
    let is_letter = |ch: char| ch == '_' || ch.is_ascii_lowercase() || ch.is_ascii_digit();
    let named: BTreeSet<_> = page.split('`').filter(|code| code.contains('_') && code.chars().all(is_letter)).collect();
    let calls = calls();
    let known: BTreeSet<_> = calls.iter().map(|call| call.name.as_str()).chain(OF_OTHERS.iter().copied()).collect();
    let gone: Vec<_> = named.difference(&known).collect();
    assert!(gone.is_empty(), "no call of the crate, and none of the names of others that a test lists: {gone:?}");
}

/// The lines of documentation of the face, and of the pages.
fn documentation() -> Vec<(String, String)> {
    let pages = ["README.md", "MOVING.md"].map(|page| (page.to_string(), fs::read_to_string(page).expect("a text")));
    let mut lines = Vec::new();
    for (file, text) in face().into_iter().chain(pages) {
        let is_shown = |line: &&str| {
            file.ends_with(".md") || ["///", "//!"].iter().any(|sign| line.trim_start().starts_with(sign))
        };
        lines.extend(text.lines().filter(is_shown).map(|line| (file.clone(), line.to_string())));
    }
    lines
}

#[test]
fn no_link_leaves_the_crate() {
    for (file, line) in documentation() {
        assert!(!line.contains("](../") && !line.contains("](docs/"), "{file}: {line}");
    }
}

/// The parts of a page that stand for themselves: paragraphs, items of a list and rows of a table, without blocks of code.
fn parts(page: &str) -> Vec<String> {
    let text: String = page.split("\n```").step_by(2).collect();
    let text = text.replace("\n- ", "\n\n- ").replace("\n| ", "\n\n| ");
    text.split("\n\n").map(str::to_string).collect()
}

/// Whether some code is a path.
fn is_path(code: &str) -> bool {
    let ends = [".md", ".rs", ".rt", ".txt", ".toml"];
    code.starts_with(|ch: char| ch == '.' || ch.is_ascii_alphabetic())
        && code.chars().all(|ch| ch.is_ascii_alphanumeric() || "/._-".contains(ch))
        && (code.contains('/') || ends.iter().any(|end| code.ends_with(end)))
}

/// This runs in the package, too, which lacks more.
#[test]
fn a_page_says_of_a_file_that_the_package_lacks_where_it_is() {
    for page in ["README.md", "MOVING.md"] {
        let text = fs::read_to_string(page).expect("a text");
        let mut told = BTreeSet::new();
        for part in parts(&text) {
            for path in part.split('`').skip(1).step_by(2).filter(|code| is_path(code)) {
                let is_there = [path.to_string(), format!("src/{path}")].iter().any(|path| Path::new(path).exists());
                if part.contains("repository") {
                    told.insert(path.to_string());
                }
                assert!(is_there || told.contains(path), "{page}: {path} in {part}");
            }
        }
    }
}

/// Nothing else tells that one of these is gone.
#[test]
fn the_root_denies_what_no_test_sees() {
    let root = fs::read_to_string("src/lib.rs").expect("a text");
    let denied = root.lines().filter_map(|line| line.strip_prefix("#![deny(")?.strip_suffix(")]"));
    let denied: Vec<_> = denied.flat_map(|lints| lints.split(", ")).collect();
    for lint in [
        "missing_docs",
        "unsafe_op_in_unsafe_fn",
        "clippy::undocumented_unsafe_blocks",
        "clippy::cast_possible_truncation",
    ] {
        assert!(denied.contains(&lint), "{lint} is none of {denied:?}");
    }
}

/// How often a source has `unsafe`, as a block or before a `fn`.
fn unsafe_code(text: &str) -> usize {
    let lines = text.lines().filter(|line| !line.trim_start().starts_with("//"));
    lines.map(|line| line.matches("unsafe {").count() + line.matches("unsafe fn ").count()).sum()
}

/// The face has the text that is lent to be written, and the calls that leave a test to their caller.
#[test]
fn the_face_is_unsafe_in_two_places() {
    let counts: BTreeMap<_, _> = face().into_iter().map(|(module, text)| (module, unsafe_code(&text))).collect();
    let found: Vec<_> =
        counts.iter().filter(|(_, count)| **count > 0).map(|(module, count)| (module.as_str(), *count)).collect();
    assert_eq!(found, [("lent", 1), ("unchecked", 6)]);
    assert_eq!(unsafe_code("unsafe fn f() {\n    // unsafe {\n    unsafe { g() }\n}"), 2);
}
