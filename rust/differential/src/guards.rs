//! The must-fail edits, and the lines of docs/PROVED.md that name them as guards of its clauses.
//!
//! An edit names the clauses that it guards in the second line of its file, as
//! `# Clauses: 3.2, 10.3 (at one set)`: what stands in parentheses behind a clause is shown with
//! the edit in that clause's entry.
use std::fs;
use std::iter;
use std::path::{Path, PathBuf};

/// How long a line of a document is at most, in characters.
pub const WIDTH: usize = 120;

const INDENT: &str = "  ";
const GUARDS: &str = "*Guards:*";

pub fn root() -> PathBuf {
    Path::new(env!("CARGO_MANIFEST_DIR")).join("../..")
}

pub struct Edit {
    /// Its crate, a slash and its own name.
    pub name: String,
    /// The clauses that it guards, each with the words behind it, which may be none.
    pub clauses: Vec<(String, String)>,
}

/// The crates in the order of crates.txt.
pub fn crates() -> Vec<String> {
    let list = fs::read_to_string(root().join("crates.txt")).expect("crates.txt");
    let lines = list.lines().filter(|line| !line.starts_with('#'));
    let heads = lines.filter_map(|line| line.split_once(':').map(|(head, _)| head));
    // Behind the name may stand what is made of the crate.
    let names = heads.filter_map(|head| head.split_whitespace().next());
    names.map(String::from).collect()
}

/// The edits of all crates, in the order of crates.txt and then of their names.
pub fn edits() -> Vec<Edit> {
    crates().iter().flat_map(|krate| edits_of(krate)).collect()
}

fn edits_of(krate: &str) -> Vec<Edit> {
    let folder = root().join("crates").join(krate).join("must-fail");
    let entries = fs::read_dir(folder).into_iter().flatten();
    let mut files: Vec<_> = entries.map(|entry| entry.expect("entry").path()).collect();
    files.retain(|file| file.extension().is_some_and(|end| end == "edit"));
    files.sort();
    files.iter().map(|file| edit(krate, file)).collect()
}

fn edit(krate: &str, file: &Path) -> Edit {
    let text = fs::read_to_string(file).expect("an edit");
    let stem = file.file_stem().and_then(|stem| stem.to_str());
    let line = text.lines().nth(1).unwrap_or_default();
    let list = line.strip_prefix("# Clauses: ").unwrap_or_default();
    Edit {
        name: format!("{krate}/{}", stem.expect("a name")),
        clauses: list.split(", ").filter_map(clause).collect(),
    }
}

/// A clause's number and the words behind it.
fn clause(entry: &str) -> Option<(String, String)> {
    let (number, words) = entry.split_once(' ').unwrap_or((entry, ""));
    (!number.is_empty()).then(|| (number.into(), words.into()))
}

/// Whether this is a clause: a number, a point and a number.
pub fn is_clause(word: &str) -> bool {
    let number = |part: &str| !part.is_empty() && part.bytes().all(|byte| byte.is_ascii_digit());
    word.split_once('.')
        .is_some_and(|(section, clause)| number(section) && number(clause))
}

/// The clause whose entry begins with this line.
pub fn clause_of(line: &str) -> Option<&str> {
    let (word, _) = line.strip_prefix("- **")?.split_once("**")?;
    is_clause(word).then_some(word)
}

/// The text of docs/PROVED.md with the guards of each clause as the edits name them, and all else
/// as it is.
pub fn with_guards(proved: &str, edits: &[Edit]) -> String {
    let mut written = Vec::new();
    let mut lines = proved.lines().peekable();
    while let Some(line) = lines.next() {
        written.push(line.to_string());
        if let Some(clause) = clause_of(line) {
            let entry: Vec<_> =
                iter::from_fn(|| lines.next_if(|line| line.starts_with(INDENT))).collect();
            let kept = entry
                .iter()
                .take_while(|line| !line.trim_start().starts_with(GUARDS));
            written.extend(kept.map(|line| line.to_string()));
            written.extend(guards(clause, edits));
        }
    }
    written.join("\n") + "\n"
}

/// The lines that name a clause's guards, if it has any.
fn guards(clause: &str, edits: &[Edit]) -> Vec<String> {
    let mut names = Vec::new();
    for edit in edits {
        let here = edit.clauses.iter().filter(|(number, _)| number == clause);
        names
            .extend(here.map(|(_, words)| format!("{} {words}", edit.name).trim_end().to_string()));
    }
    if names.is_empty() {
        return Vec::new();
    }
    wrapped(&format!("{GUARDS} {}.", names.join(", ")))
}

/// The text in indented lines of at most `WIDTH` characters.
fn wrapped(text: &str) -> Vec<String> {
    let mut lines: Vec<String> = Vec::new();
    for word in text.split(' ') {
        let length = word.chars().count();
        match lines.last_mut() {
            Some(line) if line.chars().count() + 1 + length <= WIDTH => {
                line.push(' ');
                line.push_str(word);
            }
            _ => lines.push(format!("{INDENT}{word}")),
        }
    }
    lines
}
