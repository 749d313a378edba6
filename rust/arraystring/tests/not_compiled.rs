//! What must not compile. Each row is a program of one line that rustc refuses, for the reason that the row names, and beside it the line
//! with the call to write instead, which rustc takes. So a row can't fail for another reason, such as a name that is misspelt.
//!
//! A capacity above 255 is an error of what `cargo build` does and `cargo check` leaves out. So each program has a `main`, and rustc makes
//! machine code of it.

use std::fs;
use std::io::Write;
use std::path::{Path, PathBuf};
use std::process::{Command, Stdio, id};
use std::sync::atomic::{AtomicUsize, Ordering};
use std::sync::{Arc, Mutex, PoisonError, Weak};
use std::thread;

/// Two lines of a program, of which rustc takes the second alone, and what it says of the first.
struct Row {
    /// What the error begins with.
    error: &'static str,
    /// What rustc says of it somewhere.
    cause: String,
    wrong: String,
    right: String,
}

fn row(error: &'static str, cause: &str, wrong: &str, right: &str) -> Row {
    Row { error, cause: cause.to_string(), wrong: wrong.to_string(), right: right.to_string() }
}

/// The crate with the features `alloc` and `std`, made by rustc from its sources. Its folder goes with it.
struct Library {
    folder: PathBuf,
}

/// rustc, by an edition: that of the crate, or the newest one for a program, which is what `cargo init` takes.
fn rustc(edition: &str) -> Command {
    let mut rustc = Command::new(std::env::var_os("RUSTC").unwrap_or_else(|| "rustc".into()));
    rustc.args(["--edition", edition, "--color", "never"]);
    rustc
}

impl Library {
    /// The library of the tests that run now.
    fn shared() -> Arc<Library> {
        static SHARED: Mutex<Weak<Library>> = Mutex::new(Weak::new());
        let mut shared = SHARED.lock().unwrap_or_else(PoisonError::into_inner);
        let library = shared.upgrade().unwrap_or_else(|| Arc::new(Library::made()));
        *shared = Arc::downgrade(&library);
        library
    }

    fn made() -> Library {
        static COUNT: AtomicUsize = AtomicUsize::new(0);
        let name = format!("not_compiled-{}-{}", id(), COUNT.fetch_add(1, Ordering::Relaxed));
        let folder = Path::new(env!("CARGO_TARGET_TMPDIR")).join(name);
        fs::create_dir_all(&folder).expect("a folder");
        let source = Path::new(env!("CARGO_MANIFEST_DIR")).join("src/lib.rs");
        let mut command = rustc("2021");
        command.args(["--crate-type", "rlib", "--crate-name", "arraystring", "--cap-lints", "allow"]);
        command.args(["--cfg", "feature=\"alloc\"", "--cfg", "feature=\"std\"", "--out-dir"]).arg(&folder).arg(source);
        assert!(command.status().expect("rustc").success());
        Library { folder }
    }

    /// What rustc says of a program whose `main` has a line: nothing, if it takes it.
    fn said_of(&self, head: &str, line: &str, options: &[&str]) -> String {
        static COUNT: AtomicUsize = AtomicUsize::new(0);
        let object = self.folder.join(format!("{}.o", COUNT.fetch_add(1, Ordering::Relaxed)));
        let mut command = rustc("2024");
        command.args(["--crate-type", "bin", "--crate-name", "program", "--emit", "obj", "-A", "unused"]).args(options);
        command.arg("--extern").arg(format!("arraystring={}", self.folder.join("libarraystring.rlib").display()));
        command.arg("-o").arg(&object).arg("-").stdin(Stdio::piped()).stderr(Stdio::piped());
        let mut running = command.spawn().expect("rustc");
        let program = format!("{head}\nfn main() {{\n    {line}\n}}\n");
        running.stdin.take().expect("an input").write_all(program.as_bytes()).expect("a program is read");
        let output = running.wait_with_output().expect("an end");
        let said = String::from_utf8(output.stderr).expect("a text");
        assert_eq!(output.status.success(), said.is_empty(), "{program}{said}");
        said
    }

    /// Asserts that of each row the first line is refused for its reason, and that the second is taken. The programs begin with a head.
    fn refuses(&self, head: &str, rows: &[Row], options: &[&str]) {
        // One program has all that is taken, since rustc takes it only if it takes each line.
        let right: String = rows.iter().map(|row| format!("{{ {} }}\n    ", row.right)).collect();
        assert_eq!(self.said_of(head, &right, options), "");
        let next = AtomicUsize::new(0);
        let work = || {
            while let Some(row) = rows.get(next.fetch_add(1, Ordering::Relaxed)) {
                is_the_reason(row, &self.said_of(head, &format!("{{ {} }}", row.wrong), options));
            }
        };
        thread::scope(|scope| (0..4).map(|_| scope.spawn(work)).for_each(drop));
    }
}

impl Drop for Library {
    fn drop(&mut self) {
        // A folder that stays is in nobody's way.
        let _ = fs::remove_dir_all(&self.folder);
    }
}

/// Asserts that there is an error of a row, and no other one.
fn is_the_reason(row: &Row, said: &str) {
    let errors: Vec<_> = said.lines().filter(|line| line.starts_with("error")).collect();
    let others = errors.iter().filter(|line| !line.starts_with(row.error) && !line.contains("aborting due to"));
    assert!(!errors.is_empty(), "it compiles: {}", row.wrong);
    assert_eq!(others.count(), 0, "{}:\n{said}", row.wrong);
    assert!(said.contains(&row.cause), "{}: `{}` is not said:\n{said}", row.wrong, row.cause);
}

/// A text and what is made of it, and a string to be edited.
const HEAD: &str = "#![allow(unused)]
    use arraystring::{ArrayString, arraystring, try_format};
    use std::borrow::Cow;
    type Name = ArrayString<8>;
    fn name() -> Name { Name::new() }
    fn takes(name: impl Into<Name>) {}
    fn tries(name: impl TryInto<Name>) {}";

/// What std's names would have to cut is not there: each conversion that can't fail.
#[test]
fn no_conversion_cuts() {
    let mut rows = Vec::new();
    // MOVING.md quotes this, for who comes from a string that has such a `from`.
    let said = "expected `ArrayString<8>`, found `&str`";
    assert_eq!(include_str!("../MOVING.md").matches(said).count(), 2);
    let wrong = "let text = \"ab\"; Name::from(text);";
    rows.push(row("error[E0308]", said, wrong, "let text = \"ab\"; Name::try_from_str(text).unwrap();"));
    for (given, of) in [
        ("\"ab\"", "From<&str>"),
        ("'a'", "From<char>"),
        ("String::from(\"ab\")", "From<String>"),
        ("(&String::from(\"ab\"))", "From<&String>"),
        ("Box::<str>::from(\"ab\")", "From<Box<str>>"),
        ("Cow::Borrowed(\"ab\")", "From<Cow<"),
        ("format_args!(\"ab\")", "From<Arguments<"),
    ] {
        // (There is one `From`, that of a string of itself, so rustc takes it that this is meant.)
        let (wrong, right) = (format!("Name::from({given});"), format!("Name::try_from({given}).unwrap();"));
        rows.push(row("error[E0308]: mismatched types", "expected `ArrayString<8>`, found", &wrong, &right));
        let (wrong, right) =
            (format!("let _: Name = {given}.into();"), format!("let _: Name = {given}.try_into().unwrap();"));
        rows.push(row("error[E0277]", of, &wrong, &right));
        let (wrong, right) = (format!("takes({given});"), format!("tries({given});"));
        rows.push(row("error[E0277]", of, &wrong, &right));
    }
    Library::shared().refuses(HEAD, &rows, &[]);
}

#[test]
fn nothing_is_collected_or_added_by_a_name_that_cuts() {
    let built = "cannot be built from an iterator over elements of type";
    let extended = "Extend<";
    let rows = [
        row(
            "error[E0277]",
            built,
            "\"ab\".chars().collect::<Name>();",
            "Name::try_from_chars(\"ab\".chars()).unwrap();",
        ),
        row(
            "error[E0277]",
            built,
            "['a'].iter().collect::<Name>();",
            "Name::try_from_chars(['a'].iter().copied()).unwrap();",
        ),
        row(
            "error[E0277]",
            built,
            "[\"ab\"].into_iter().collect::<Name>();",
            "Name::try_from_iterator([\"ab\"]).unwrap();",
        ),
        row(
            "error[E0277]",
            built,
            "[String::new()].into_iter().collect::<Name>();",
            "Name::try_from_iterator([String::new()]).unwrap();",
        ),
        row(
            "error[E0277]",
            built,
            "[name()].into_iter().collect::<Name>();",
            "[name()].into_iter().collect::<String>();",
        ),
        row("error[E0599]", "`from_iter`", "Name::from_iter([\"ab\"]);", "Name::try_from_iterator([\"ab\"]).unwrap();"),
        row(
            "error[E0277]",
            "FromIterator<",
            "<Name as FromIterator<char>>::from_iter(['a']);",
            "<String as FromIterator<char>>::from_iter(['a']);",
        ),
        row("error[E0599]", "`extend`", "name().extend(['a']);", "name().try_extend_chars(['a']).unwrap();"),
        row("error[E0599]", "`extend`", "name().extend([\"ab\"]);", "name().try_extend_strs([\"ab\"]).unwrap();"),
        row(
            "error[E0277]",
            extended,
            "Extend::extend(&mut name(), ['a']);",
            "Extend::extend(&mut String::new(), ['a']);",
        ),
        row(
            "error[E0277]",
            extended,
            "Extend::extend(&mut name(), [\"a\"]);",
            "Extend::extend(&mut String::new(), [\"a\"]);",
        ),
        row("error[E0369]", "cannot add `&str` to", "name() + \"ab\";", "name().try_push_str(\"ab\").unwrap();"),
        row(
            "error[E0369]",
            "cannot add `ArrayString<8>` to",
            "name() + name();",
            "name().try_push_str(&name()).unwrap();",
        ),
        row(
            "error[E0368]",
            "binary assignment operation `+=` cannot be applied to type",
            "let mut name = name(); name += \"ab\";",
            "let mut name = name(); name.try_push_str(\"ab\").unwrap();",
        ),
    ];
    Library::shared().refuses(HEAD, &rows, &[]);
}

#[test]
fn no_call_has_the_name_of_one_of_std_that_would_cut() {
    let rows = [
        ("name().push('a')", "name().try_push('a')"),
        ("name().push_str(\"ab\")", "name().try_push_str(\"ab\")"),
        ("name().insert(0, 'a')", "name().try_insert(0, 'a')"),
        ("name().insert_str(0, \"ab\")", "name().try_insert_str(0, \"ab\")"),
        ("Name::from_chars(['a'])", "Name::try_from_chars(['a'])"),
        ("Name::from_iterator([\"ab\"])", "Name::try_from_iterator([\"ab\"])"),
        ("Name::from_utf8(b\"ab\")", "Name::try_from_utf8(b\"ab\")"),
        ("Name::from_utf8_lossy(b\"ab\")", "Name::try_from_utf8_lossy(b\"ab\")"),
        ("Name::from_utf16(&[0x61])", "Name::try_from_utf16(&[0x61])"),
        ("Name::from_utf16_lossy(&[0x61])", "Name::try_from_utf16_lossy(&[0x61])"),
        ("name().extend_chars(['a'])", "name().try_extend_chars(['a'])"),
        ("name().extend_strs([\"ab\"])", "name().try_extend_strs([\"ab\"])"),
        ("name().write_truncated(format_args!(\"ab\"))", "name().write_truncate(format_args!(\"ab\"))"),
    ];
    let rows = rows.map(|(wrong, right)| {
        let name =
            wrong.strip_prefix("name().").or(wrong.strip_prefix("Name::")).and_then(|call| call.split('(').next());
        let cause = format!("`{}` found for", name.expect("a call")).leak();
        row("error[E0599]", cause, &format!("{wrong};"), &format!("{right}.unwrap();"))
    });
    Library::shared().refuses(HEAD, &rows, &[]);
}

/// What is said of a capacity above 255.
const TOO_LARGE: &str =
    "an `ArrayString` has at most 255 bytes: for more take that of arrayvec, or the `String` of heapless or std";

/// A line with a capacity in place of `LARGE`, which is too large in one and not in the other.
fn wide(line: &str) -> Row {
    let with = |capacity: &str| line.replace("LARGE", capacity);
    row("error[E0080]", TOO_LARGE, &with("256"), &with("255"))
}

/// Each call that makes a string.
const MAKES: &[&str] = &[
    "Wide::new()",
    "Wide::default()",
    "Wide::const_try_from_str(\"\")",
    "Wide::try_from_str(\"\")",
    "Wide::try_from_iterator([\"\"])",
    "Wide::try_from_chars([])",
    "Wide::try_from_utf8(b\"\")",
    "Wide::try_from_utf8_lossy(b\"\")",
    "Wide::try_from_utf16(&[])",
    "Wide::try_from_utf16_lossy(&[])",
    "Wide::try_from_format(format_args!(\"\"))",
    "Wide::from_str_truncate(\"\")",
    "Wide::from_iterator_truncate([\"\"])",
    "Wide::from_chars_truncate([])",
    "Wide::from_utf8_truncate(b\"\")",
    "Wide::from_utf8_lossy_truncate(b\"\")",
    "Wide::from_utf16_truncate(&[])",
    "Wide::from_utf16_lossy_truncate(&[])",
    "unsafe { Wide::from_str_unchecked(\"\") }",
    "unsafe { Wide::from_utf8_unchecked(b\"\") }",
    "\"\".parse::<Wide>()",
    "Wide::try_from(\"\")",
    "Wide::try_from('a')",
    "Wide::try_from(String::new())",
    "Wide::try_from(&String::new())",
    "Wide::try_from(Box::<str>::from(\"\"))",
    "Wide::try_from(Cow::from(\"\"))",
    "Wide::try_from(format_args!(\"\"))",
];

#[test]
fn a_capacity_above_255_is_an_error_of_each_call_that_makes_a_string() {
    let mut rows: Vec<_> = MAKES.iter().map(|call| wide(&format!("type Wide = ArrayString<LARGE>; {call};"))).collect();
    rows.extend([
        wide("const MADE: ArrayString<LARGE> = arraystring!(\"\"); MADE;"),
        wide("static MADE: ArrayString<LARGE> = ArrayString::new(); MADE.len();"),
        wide("let made: ArrayString<LARGE> = arraystring!(\"\");"),
        wide("let made: Result<ArrayString<LARGE>, _> = try_format!(\"\");"),
        wide("let made: ArrayString<LARGE> = name().widen();"),
        wide("let made: Result<ArrayString<LARGE>, _> = \"\".try_into();"),
        wide("#[derive(Default)] struct Row { name: ArrayString<LARGE> } Row::default();"),
        wide("let made = [const { ArrayString::<LARGE>::new() }; 2];"),
        wide("ArrayString::<LARGE>::CAPACITY;"),
        wide("if std::env::args().count() > 1000 { ArrayString::<LARGE>::new(); }"),
    ]);
    let library = Library::shared();
    library.refuses(HEAD, &rows, &[]);
    // What is optimised is no less refused.
    library.refuses(HEAD, &rows[..3], &["-C", "opt-level=3"]);
    library.refuses(HEAD, &rows[rows.len() - 3..], &["-C", "opt-level=3"]);
    let capacities = ["257", "300", "511", "512", "1000", "65536", "65791"];
    let new = |capacity: &str| format!("ArrayString::<{capacity}>::new();");
    let rows = capacities.map(|capacity| row("error[E0080]", TOO_LARGE, &new(capacity), &new("255")));
    library.refuses(HEAD, &rows, &[]);
}

/// A function that rustc makes machine code of, though nobody calls it, as of one that a library exports.
#[test]
fn a_capacity_above_255_is_an_error_of_what_only_reads_a_string() {
    let reads = ["name.len()", "name.as_str().len()", "name.as_bytes().len()", "name.find('a').unwrap_or(0)"];
    let rows: Vec<_> = (reads.iter().enumerate())
        .map(|(number, read)| {
            wide(&format!(
                "#[unsafe(no_mangle)] pub fn reads_{number}(name: &ArrayString<LARGE>) -> usize {{ {read} }}"
            ))
        })
        .collect();
    Library::shared().refuses(HEAD, &rows, &[]);
}

/// What says that a capacity is too large names the line of the program.
#[test]
fn a_capacity_above_255_is_an_error_at_the_line_of_the_caller() {
    let makes = ["new()", "default()", "try_from_str(\"\")", "try_from_chars([])", "from_str_truncate(\"\")"];
    let rows = makes.map(|make| {
        let line = |capacity: usize| format!("let made = ArrayString::<{capacity}>::{make};");
        row("error[E0080]", &format!("ArrayString::<256>::{make}"), &line(256), &line(255))
    });
    Library::shared().refuses(HEAD, &rows, &[]);
}

#[test]
fn a_string_does_not_go_into_a_smaller_capacity() {
    let narrow = |from: usize, to: usize| {
        let line = |to: usize| format!("let made: ArrayString<{to}> = ArrayString::<{from}>::new().widen();");
        row("error[E0080]", "the capacity that is wanted is smaller", &line(to), &line(from))
    };
    let rows = [narrow(8, 7), narrow(8, 0), narrow(1, 0), narrow(255, 254), narrow(64, 8)];
    Library::shared().refuses(HEAD, &rows, &[]);
}

/// Each call that returns a `Result`.
const REFUSES: &[&str] = &[
    "Name::try_from_str(\"\")",
    "Name::const_try_from_str(\"\")",
    "Name::try_from_iterator([\"\"])",
    "Name::try_from_chars([])",
    "Name::try_from_utf8(b\"\")",
    "Name::try_from_utf8_lossy(b\"\")",
    "Name::try_from_utf16(&[])",
    "Name::try_from_utf16_lossy(&[])",
    "Name::try_from_format(format_args!(\"\"))",
    "Name::from_utf8_truncate(b\"\")",
    "Name::from_utf16_truncate(&[])",
    "Name::try_from(\"\")",
    "Name::try_from('a')",
    "\"\".parse::<Name>()",
    "name.try_push('a')",
    "name.try_push_str(\"\")",
    "name.try_extend_chars([])",
    "name.try_extend_strs([\"\"])",
    "name.try_write(format_args!(\"\"))",
    "name.write_truncate(format_args!(\"\"))",
    "name.try_insert(0, 'a')",
    "name.try_insert_str(0, \"\")",
    "name.insert_str_truncate(0, \"\")",
    "name.replace_range(.., \"\")",
    "name.remove(0)",
    "name.truncate(0)",
    "name.split_off(0)",
    "name.drain(..)",
    "std::fmt::Write::write_str(&mut name, \"\")",
];

#[test]
fn a_result_that_nobody_uses_is_an_error_where_it_is_denied() {
    let head =
        HEAD.replace("#![allow(unused)]", "#![deny(unused_must_use)] #![allow(unused_variables, unused_imports)]");
    let unused = |call: &str, what| {
        row(
            what,
            "that must be used",
            &format!("let mut name = name(); {call};"),
            &format!("let mut name = name(); _ = {call};"),
        )
    };
    let mut rows: Vec<_> = REFUSES.iter().map(|call| unused(call, "error: unused `Result`")).collect();
    rows.push(row(
        "error: unused `Result`",
        "that must be used",
        "fn f() -> Result<Name, std::fmt::Error> { try_format!(\"\") } f();",
        "fn f() -> Result<Name, std::fmt::Error> { try_format!(\"\") } _ = f();",
    ));
    for call in ["Name::from_str_truncate(\"\")", "Name::from_chars_truncate([])", "name.widen::<9>()", "name.len()"] {
        rows.push(unused(call, "error: unused return value of"));
    }
    Library::shared().refuses(&head, &rows, &["-D", "unused-must-use"]);
}
