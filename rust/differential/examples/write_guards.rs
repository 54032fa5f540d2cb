//! Writes the guards of each clause into docs/PROVED.md, from the files of the must-fail edits.
use differential::guards::{edits, root, with_guards};
use std::fs;

fn main() -> std::io::Result<()> {
    let path = root().join("docs/PROVED.md");
    let proved = fs::read_to_string(&path)?;
    fs::write(path, with_guards(&proved, &edits()))
}
