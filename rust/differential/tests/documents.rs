//! What the documents say of each other, of the crates and of the cases.
use differential::drives::read;
use differential::guards::{clause_of, crates, edits, is_clause, root, with_guards, WIDTH};
use differential::printed::wanted;
use std::collections::{BTreeMap, BTreeSet};
use std::fs;
use std::path::{Path, PathBuf};
use std::process::Command;

fn text(path: &str) -> String {
    fs::read_to_string(root().join(path)).expect(path)
}

/// The paths of a folder's entries, sorted.
fn entries(folder: &Path) -> Vec<PathBuf> {
    let entries = fs::read_dir(folder).into_iter().flatten();
    let mut paths: Vec<_> = entries.map(|entry| entry.expect("entry").path()).collect();
    paths.sort();
    paths
}

fn clauses() -> Vec<String> {
    let specification = text("docs/SPECIFICATION.md");
    let clauses = specification.lines().filter_map(clause_of);
    clauses.map(String::from).collect()
}

#[test]
fn each_clause_has_its_entry_in_proved() {
    let proved = text("docs/PROVED.md");
    let entries: Vec<_> = proved.lines().filter_map(clause_of).collect();
    assert_eq!(clauses(), entries);
    assert!(entries.len() > 80);
}

#[test]
fn clauses_that_specifications_name_are_there() {
    let clauses: BTreeSet<_> = clauses().into_iter().collect();
    let mut named = BTreeSet::new();
    for krate in entries(&root().join("crates")) {
        for file in entries(&krate.join("specs")) {
            let specs = fs::read_to_string(&file).unwrap_or_default();
            let comments = specs.lines().filter(|line| line.contains("--"));
            for line in comments.filter(|line| line.contains("clause") || line.contains("SPECIFI"))
            {
                let words = line.split(|c: char| !c.is_ascii_digit() && c != '.');
                let words = words.map(|word| word.trim_matches('.'));
                named.extend(words.filter(|word| is_clause(word)).map(String::from));
            }
        }
    }
    assert_eq!(named.difference(&clauses).collect::<Vec<_>>(), [""; 0]);
    assert!(named.len() > 60);
}

#[test]
fn guards_in_proved_are_those_of_the_edits() {
    let proved = text("docs/PROVED.md");
    let clauses: BTreeSet<_> = clauses().into_iter().collect();
    let edits = edits();
    for edit in &edits {
        assert!(!edit.clauses.is_empty(), "no clauses: {}", edit.name);
        for (clause, _) in &edit.clauses {
            assert!(clauses.contains(clause), "{}: {clause}", edit.name);
        }
    }
    let written = with_guards(&proved, &edits);
    for (line, wanted) in proved.lines().zip(written.lines()) {
        assert_eq!(line, wanted, "call the example write_guards");
    }
    assert_eq!(proved, written);
}

/// A clause has guards, or its entry says why there is none.
#[test]
fn clauses_without_guard_say_why() {
    let proved = text("docs/PROVED.md");
    let edits = edits();
    let guarded: BTreeSet<_> = edits.iter().flat_map(|edit| &edit.clauses).collect();
    let guarded: BTreeSet<_> = guarded.iter().map(|(clause, _)| clause.as_str()).collect();
    for entry in proved.split("\n- **").skip(1) {
        let (clause, entry) = entry.split_once("**").expect("a clause");
        let entry = entry.split("\n\n").next().unwrap_or_default();
        assert_ne!(
            guarded.contains(clause),
            entry.contains("*No guard"),
            "{clause}"
        );
    }
}

/// What looks like the name of an edit is one.
#[test]
fn edits_that_proved_names_are_there() {
    let proved = text("docs/PROVED.md");
    let crates = crates();
    let edits: BTreeSet<_> = edits().into_iter().map(|edit| edit.name).collect();
    let words = proved.split(|c: char| !c.is_ascii_alphanumeric() && c != '_' && c != '/');
    let mut named = 0;
    for word in words {
        if let Some((krate, _)) = word.split_once('/') {
            if crates.iter().any(|name| name == krate) {
                assert!(edits.contains(word), "{word}");
                named += 1;
            }
        }
    }
    assert!(named > 100);
}

/// What each edit takes out stands in its file once, as the pairs before leave it: else it would try
/// nothing, or something else.
#[test]
fn each_edit_applies() {
    let mut edits = 0;
    for krate in entries(&root().join("crates")) {
        for path in entries(&krate.join("must-fail")) {
            let edit = fs::read_to_string(&path).expect("an edit");
            let mut texts = BTreeMap::new();
            let (mut file, mut old) = (None, None);
            let mut pairs = 0;
            for line in edit.lines() {
                if let Some(name) = line.strip_prefix("file: ") {
                    file = Some(krate.join(name.trim()));
                } else if let Some(text) = line.strip_prefix("old: ") {
                    assert_eq!(old.replace(text), None, "{path:?}");
                } else if let Some(new) = line.strip_prefix("new:") {
                    let new = new.strip_prefix(' ').unwrap_or(new);
                    let old = old.take().expect("an old text");
                    let file = file.clone().expect("a file");
                    let text = texts
                        .entry(file)
                        .or_insert_with_key(|file| fs::read_to_string(file).expect("its file"));
                    assert_eq!(text.matches(old).count(), 1, "{old}: {path:?}");
                    *text = text.replace(old, new);
                    pairs += 1;
                }
            }
            assert!(old.is_none() && pairs > 0, "{path:?}");
            edits += 1;
        }
    }
    assert!(edits > 100);
}

/// All pages: README, docs with the changes, and that of the cases.
fn pages() -> Vec<PathBuf> {
    let mut pages = vec![root().join("README.md"), root().join("cases/README.md")];
    for folder in ["docs", "docs/changes"] {
        let files = entries(&root().join(folder)).into_iter();
        pages.extend(files.filter(|file| file.extension().is_some_and(|end| end == "md")));
    }
    pages
}

/// No line outside tables and fences is too long.
#[test]
fn prose_is_wrapped() {
    for page in pages() {
        let text = fs::read_to_string(&page).expect("a page");
        let mut fenced = false;
        for (line, number) in text.lines().zip(1..) {
            let start = line.trim_start();
            fenced ^= start.starts_with("```");
            let prose = !fenced && !start.starts_with('|');
            assert!(
                !prose || line.chars().count() <= WIDTH,
                "{}: line {number}",
                page.display()
            );
        }
    }
}

#[test]
fn readme_is_short() {
    assert!(text("README.md").lines().count() <= 200);
}

/// What stands between two fences of this kind, each without its line ends and without what the
/// list indents it by.
fn blocks(markdown: &str, fence: &str) -> Vec<String> {
    let open = format!("```{fence}\n");
    let parts = markdown.split(open.as_str()).skip(1);
    let blocks = parts.filter_map(|part| part.split_once("```").map(|(block, _)| block));
    blocks
        .map(|block| {
            let lines: Vec<_> = block
                .trim_end()
                .lines()
                .map(|line| line.strip_prefix("  ").unwrap_or(line))
                .collect();
            lines.join("\n")
        })
        .collect()
}

/// Whether the document shows the print of a file, as the plain checker has it.
fn shows_print(document: &str, file: &[u8]) -> bool {
    let print = wanted(file);
    blocks(document, "text")
        .iter()
        .any(|text| text == print.trim_end())
}

#[test]
fn prints_of_readme() {
    let readme = text("README.md");
    assert!(readme.contains("\n./judge cases/feed_and_back.case\n"));
    assert!(shows_print(&readme, &read("feed_and_back.case")));
}

/// README's case of one's own, written by its own command.
#[test]
fn a_case_written_by_hand() {
    let readme = text("README.md");
    let commands = blocks(&readme, "sh");
    let command = commands.iter().find(|block| block.contains("> my.case"));
    let (command, judging) = command.expect("a command").split_once("\n./judge").unwrap();
    assert_eq!(judging, " my.case");
    let folder = Path::new(env!("CARGO_TARGET_TMPDIR"));
    let status = Command::new("sh")
        .args(["-c", command])
        .current_dir(folder)
        .status()
        .expect("sh");
    assert!(status.success());
    let file = fs::read(folder.join("my.case")).expect("my.case");
    assert!(shows_print(&readme, &file));
}

/// The bytes of the tables that say what bytes stand for.
fn shown(document: &str) -> Vec<Vec<u8>> {
    let tables = document.split("| Bytes | Stand for |\n").skip(1);
    tables
        .map(|table| {
            let rows = table
                .lines()
                .map(str::trim)
                .take_while(|line| line.starts_with('|'));
            let cells = rows.skip(1).filter_map(|row| row.split('|').nth(1));
            let bytes =
                cells.flat_map(|cell| cell.split([' ', ',', '`']).filter(|word| !word.is_empty()));
            bytes.map(|byte| byte.parse().expect("a byte")).collect()
        })
        .collect()
}

#[test]
fn case_f_in_the_specification() {
    let specification = text("docs/SPECIFICATION.md");
    let file = read("f.case");
    assert_eq!(shown(&specification), [file.as_slice()]);
    assert!(shows_print(&specification, &file));
}

/// README's list of refusals has the binding's words.
#[test]
fn words_of_refusals() {
    let readme = text("README.md");
    let readme: Vec<_> = readme.split_whitespace().collect();
    let readme = readme.join(" ");
    for reason in hoidrul::Reason::ALL {
        let entry = format!(" - **{}** {reason}. ", reason.number());
        assert!(readme.contains(&entry), "{entry}");
    }
}
