//! How the build finds the archive: the environment variable HOIDRUL_LIB_DIR; and what it needs.
mod common;

use common::{cargo, printed, run, scratch};
use std::path::Path;
use std::process::Command;
use std::{env, fs};

/// All that the archive may need from outside, in C.
const OUTSIDE: &str = "#include <stddef.h>
void *memcpy(void *to, const void *from, size_t size);
void *memset(void *to, int value, size_t size);
void *memcpy(void *to, const void *from, size_t size) { return size ? to : (void *)from; }
void *memset(void *to, int value, size_t size) { return value + size ? to : NULL; }
";

/// What cargo told, having failed or not, with the archive looked for in a folder.
fn told(cargo: &mut Command, folder: &Path, success: bool) -> String {
    let output = run(cargo.env("HOIDRUL_LIB_DIR", folder));
    let text = String::from_utf8_lossy(&output.stderr).into_owned();
    assert_eq!(output.status.success(), success, "{text}");
    text
}

#[test]
fn linked_from_any_folder() {
    let folder = scratch("elsewhere");
    fs::create_dir_all(&folder).unwrap();
    let archive = Path::new(env!("HOIDRUL_ARCHIVE_DIR")).join("libhoidrul.a");
    fs::copy(archive, folder.join("libhoidrul.a")).unwrap();
    told(
        &mut cargo(&["build", "--example", "holds"], "built"),
        &folder,
        true,
    );
}

#[test]
fn a_missing_archive_stops_the_build() {
    let folder = scratch("nowhere");
    let archive = folder.join("libhoidrul.a");
    let line = format!(
        "there is no {}: run rt lib in crates/hoidrul",
        archive.display()
    );
    for command in ["build", "check"] {
        let text = told(&mut cargo(&[command], "stopped"), &folder, false);
        assert!(text.contains(&line), "{text}");
    }
}

#[test]
fn checked_without_an_archive() {
    told(&mut cargo(&["check"], "checked"), Path::new(""), true);
}

/// By the processor, the system and the width of pointers. Without an archive the target is not
/// looked at; whether Rust's library is there for it is another question.
#[test]
fn other_targets() {
    for target in [
        "aarch64-unknown-linux-gnu",
        "x86_64-apple-darwin",
        "x86_64-unknown-linux-gnux32",
    ] {
        let line = format!("libhoidrul.a is for x86-64 Linux and not for {target}");
        let check = || cargo(&["check", "--target", target], "targets");
        let text = told(&mut check(), Path::new(env!("HOIDRUL_ARCHIVE_DIR")), false);
        assert!(text.contains(&line), "{text}");
        let without = run(check().env("HOIDRUL_LIB_DIR", ""));
        let text = common::text(without.stderr);
        assert!(!text.contains("libhoidrul.a"), "{text}");
    }
}

/// Linked whole beside two functions alone, without a C library, it leaves nothing open. The
/// program is not run.
#[test]
fn needs_memcpy_and_memset_alone() {
    let source = scratch("outside").with_extension("c");
    fs::write(&source, OUTSIDE).unwrap();
    let mut cc = Command::new(env::var_os("CC").unwrap_or("cc".into()));
    cc.args([
        "-ffreestanding",
        "-fno-builtin",
        "-nostdlib",
        "-shared",
        "-fPIC",
    ]);
    cc.arg(&source)
        .args(["-Wl,--no-undefined", "-Wl,--whole-archive"]);
    cc.arg(Path::new(env!("HOIDRUL_ARCHIVE_DIR")).join("libhoidrul.a"));
    cc.arg("-Wl,--no-whole-archive")
        .arg("-o")
        .arg(scratch("outside"));
    printed(run(&mut cc));
}
