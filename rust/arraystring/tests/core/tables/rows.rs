//! The tables in the files of the tests. The first line of a table names its player. Each line below is a row, and `|` is
//! between its columns.

use std::fmt::Debug;
use std::fs;
use std::path::Path;

/// The rows of a table.
pub fn rows(table: &str) -> impl Iterator<Item = &str> {
    table.trim().lines()
}

/// A column of a row, without the spaces round it and without the quotes in which a text may be. `255 x` is so many letters.
pub fn column(row: &str, at: usize) -> &str {
    static LETTERS: &[u8; 256] = &[b'x'; 256];
    let column = row.split('|').nth(at).unwrap_or("no column").trim_matches(' ');
    if let Some(rest) = column.strip_prefix('\'') {
        return rest.strip_suffix('\'').unwrap_or(column);
    }
    match column.strip_suffix(" x").and_then(|count| count.parse::<usize>().ok()) {
        Some(count) => std::str::from_utf8(&LETTERS[..count]).expect("letters"),
        None => column,
    }
}

/// What is written in a column.
pub fn parsed<T: std::str::FromStr<Err: Debug>>(row: &str, at: usize) -> T {
    column(row, at).parse().unwrap_or_else(|error| panic!("column {at} of {row}: {error:?}"))
}

/// Asserts that a call returned what the row says: a text or a character itself, `ok` for nothing, a refusal by its name, and
/// all else as `{:?}` writes it.
pub fn returned<T: Debug>(row: &str, answer: T) {
    let written = format!("{answer:?}");
    let name = written.trim_end_matches(')').rsplit('(').next().unwrap_or_default();
    let name = name.trim_start_matches("Error::").trim_matches('\'');
    let told = if name.is_empty() { "ok" } else { written.split('"').nth(1).unwrap_or(name) };
    assert_eq!(told, column(row, 4), "{row}");
}

/// A table, as a text of a test has it.
pub struct Table {
    /// The file and the line where the text begins.
    pub place: String,
    /// The line that names the player, as in `# player: calls 23 | what it shows`, where 23 is the capacity.
    pub heading: String,
    /// The rows.
    pub text: String,
}

impl Table {
    /// The name of the player. It is empty if the heading names none.
    pub fn player(&self) -> &str {
        self.named(0)
    }

    /// The capacity of the strings.
    pub fn capacity(&self) -> usize {
        let capacity = self.named(1).parse();
        capacity.unwrap_or_else(|_| panic!("{}: `{}` lacks the capacity behind the player", self.place, self.heading))
    }

    /// A word of those that the heading has behind `player:`.
    fn named(&self, at: usize) -> &str {
        let words = column(&self.heading, 0).strip_prefix("# player: ").unwrap_or_default();
        words.split(' ').nth(at).unwrap_or_default()
    }
}

/// All tables of a folder, by file.
pub fn tables(folder: &Path) -> Vec<Table> {
    let mut files = Vec::new();
    let mut waiting = vec![folder.to_path_buf()];
    while let Some(path) = waiting.pop() {
        for entry in fs::read_dir(&path).expect("a folder") {
            let path = entry.expect("an entry").path();
            if path.is_dir() {
                waiting.push(path);
            } else if path.extension().is_some_and(|end| end == "rt") {
                files.push(path);
            }
        }
    }
    files.sort();
    files
        .iter()
        .flat_map(|path| of_file(&path.display().to_string(), &fs::read_to_string(path).expect("a text")))
        .collect()
}

/// The tables of a file. Each text with ` | ` in it holds some.
fn of_file(file: &str, source: &str) -> Vec<Table> {
    let mut found = Vec::new();
    let mut at = 0;
    while let Some(start) = next_quote(source, at) {
        let end = start + 1 + length(&source[start + 1..]);
        at = end + 1;
        let text = unescaped(&source[start + 1..end]);
        if text.contains(" | ") {
            let line = 1 + source[..start].matches('\n').count();
            found.extend(of_text(&format!("{file}:{line}"), &text));
        }
    }
    found
}

/// The tables of a text. Its first line begins a table, and so does each line that begins with `#`.
pub fn of_text(place: &str, text: &str) -> Vec<Table> {
    let mut found: Vec<Table> = Vec::new();
    for line in text.trim().lines().map(|line| line.trim_start_matches(' ')) {
        match found.last_mut() {
            Some(table) if !line.starts_with('#') => table.text += &format!("{line}\n"),
            _ => found.push(Table { place: place.to_string(), heading: line.to_string(), text: String::new() }),
        }
    }
    found
}

/// Where the next text begins: comments and characters are passed over.
fn next_quote(source: &str, from: usize) -> Option<usize> {
    let mut at = from;
    loop {
        let rest = &source[at..];
        let found = rest.find(['"', '/', '\''])?;
        at += found;
        let rest = &source[at..];
        at += match rest.as_bytes() {
            [b'"', ..] => return Some(at),
            [b'/', b'/', ..] => rest.find('\n')?,
            [b'\'', b'\\', ..] => 2 + rest[2..].find('\'').filter(|end| *end > 0).unwrap_or(1) + 1,
            [b'\'', ..] => rest.char_indices().nth(2).filter(|(_, ch)| *ch == '\'').map_or(1, |(end, _)| end + 1),
            _ => 1,
        };
    }
}

/// How many bytes a text has before the quote that ends it.
fn length(rest: &str) -> usize {
    let mut is_escaped = false;
    let end = rest.find(|ch| {
        let is_end = ch == '"' && !is_escaped;
        is_escaped = ch == '\\' && !is_escaped;
        is_end
    });
    end.expect("the end of a text")
}

/// The text as the language reads it.
fn unescaped(written: &str) -> String {
    let mut text = String::new();
    let mut rest = written.chars();
    while let Some(ch) = rest.next() {
        if ch != '\\' {
            text.push(ch);
            continue;
        }
        match rest.next().expect("what is escaped") {
            'n' => text.push('\n'),
            't' => text.push('\t'),
            'r' => text.push('\r'),
            '0' => text.push('\0'),
            'u' => {
                let digits: String = rest.by_ref().skip(1).take_while(|ch| *ch != '}').collect();
                let code = u32::from_str_radix(&digits, 16).expect("a number");
                text.push(char::from_u32(code).expect("a character"));
            }
            'x' => {
                let digits: String = rest.by_ref().take(2).collect();
                text.push(u8::from_str_radix(&digits, 16).expect("a number") as char);
            }
            '\n' => rest = rest.as_str().trim_start().chars(),
            same => text.push(same),
        }
    }
    text
}

#[test]
fn tables_are_found_with_their_players() {
    let source = "// \"no | text\"\nf(\n    \"\n    # player: hold 23 | bytes\n    a | \\\"b\\u{e9}\n    # player: cut\n    c | d\n    \");\nf('x', \"e|f\"); ('\\'', '\"');\nf(\"g | h\");";
    let found = of_file("a.rt", source);
    let found: Vec<_> =
        found.iter().map(|table| (&*table.place, table.player(), table.named(1), &*table.text)).collect();
    let wanted = [("a.rt:3", "hold", "23", "a | \"bé\n"), ("a.rt:3", "cut", "", "c | d\n"), ("a.rt:10", "", "", "")];
    assert_eq!(found, wanted);
}
