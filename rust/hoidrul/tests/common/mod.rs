//! What the tests share.
#![allow(dead_code)] // No test needs all of it.
pub mod c;

use std::ffi::OsStr;
use std::path::{Path, PathBuf};
use std::process::{Command, Output};

/// The repository.
pub fn root() -> PathBuf {
    Path::new(env!("CARGO_MANIFEST_DIR")).join("../..")
}

/// A file of the folder `cases`.
pub fn case(name: &str) -> PathBuf {
    root().join("cases").join(name)
}

/// A file to be written.
pub fn scratch(name: impl AsRef<OsStr>) -> PathBuf {
    Path::new(env!("CARGO_TARGET_TMPDIR")).join(name.as_ref())
}

/// A file that is no case: this package's manifest.
pub fn no_case() -> PathBuf {
    Path::new(env!("CARGO_MANIFEST_DIR")).join("Cargo.toml")
}

/// A command of cargo on this package, in a target folder of its own, so that it neither waits for
/// the cargo that runs the tests nor depends on what that one has built.
pub fn cargo(command: &[&str], target: &str) -> Command {
    let mut cargo = Command::new(env!("CARGO"));
    cargo.args(command).args(["--offline", "--locked"]);
    cargo.arg("--manifest-path").arg(no_case());
    cargo.arg("--target-dir").arg(scratch(target));
    cargo
}

/// A command that builds an example and becomes it.
pub fn example(name: &str, paths: &[&Path]) -> Command {
    let mut cargo = cargo(&["run", "--quiet", "--example", name], "examples");
    cargo.arg("--").args(paths);
    cargo
}

pub fn run(command: &mut Command) -> Output {
    let output = command.output();
    output.unwrap_or_else(|error| panic!("{command:?}: {error}"))
}

/// What a program printed that succeeded.
pub fn printed(output: Output) -> String {
    assert!(output.status.success(), "{}", text(output.stderr));
    text(output.stdout)
}

/// What a program told that ended with this status and printed nothing.
pub fn told(output: Output, status: i32) -> String {
    let said = text(output.stderr);
    let ended = (output.status.code(), text(output.stdout));
    assert_eq!(ended, (Some(status), "".into()), "{said}");
    said
}

pub fn text(bytes: Vec<u8>) -> String {
    String::from_utf8(bytes).expect("text")
}

pub type Triple = [u8; 3];

/// The file of a case whose root is its last node, with so many bytes of padding between sections.
pub fn file(
    labels: &[u8],
    steps: &[Triple],
    nodes: &[Triple],
    starts: &[u8],
    gap: usize,
) -> Vec<u8> {
    let (steps, mut rule) = (steps.concat(), nodes.concat());
    rule.push(nodes.len().saturating_sub(1) as u8);
    let sections = [labels, &steps, &rule, starts];
    let mut file = vec![];
    let mut offset = 16;
    for section in sections {
        for number in [offset, section.len()] {
            file.extend((number as u16).to_le_bytes());
        }
        offset += section.len() + gap;
    }
    file.extend(sections.join(&vec![0; gap][..]));
    file
}
