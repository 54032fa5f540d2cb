//! The example `holds`. That it prints what the judging program prints is tested with the plain
//! checker, in rust/differential.
mod common;

use common::{case, example, no_case, printed, run, scratch, text, told};
use hoidrul::Reason;
use std::ffi::OsStr;
use std::fs::{self, File};
use std::io;
use std::os::unix::ffi::OsStrExt;
use std::path::Path;
use std::process::{Output, Stdio};

fn holds(paths: &[&Path]) -> Output {
    run(&mut example("holds", paths))
}

/// The print of two wheels.
fn wheels() -> String {
    let others = (1..8).map(|state| format!("{state} no\n"));
    let others: String = others.collect();
    format!("states 8\nrounds 12\n0 yes\n{others}starts yes\n")
}

#[test]
fn a_line_for_each_state() {
    assert_eq!(printed(holds(&[&case("two_wheels.case")])), wheels());
}

/// The third roller's mark, 5, is a start state and does not hold.
#[test]
fn a_start_state_that_does_not_hold() {
    let print = printed(holds(&[&case("feed_and_back.case")]));
    assert!(print.contains("\n5 no\n"), "{print}");
    assert!(print.ends_with("\nstarts no\n"), "{print}");
}

/// From 128 on, with a worn roller, only 192 to 207 hold; start state 128 does not. No rounds are told.
#[test]
fn a_regular_rule_on_256_states() {
    let print = printed(holds(&[&case("duplex_printer.large")]));
    let word = |state| match state {
        0..128 | 192..208 => "yes",
        _ => "no",
    };
    let lines: String = (0..256).map(|s| format!("{s} {}\n", word(s))).collect();
    assert_eq!(print, format!("states 256\n{lines}starts no\n"));
}

#[test]
fn from_standard_input() {
    let file = File::open(case("two_wheels.case")).unwrap();
    assert_eq!(printed(run(example("holds", &[]).stdin(file))), wheels());
}

/// Any name will do, also one that is no text.
#[test]
fn strange_paths() {
    for name in [&b"-"[..], b"--help", b"a\nb", b"\xff\xfe.case"] {
        let path = scratch(OsStr::from_bytes(name));
        fs::copy(case("two_wheels.case"), &path).unwrap();
        assert_eq!(printed(holds(&[&path])), wheels());
        let here = Path::new(OsStr::from_bytes(name));
        let output = run(example("holds", &[here]).current_dir(scratch("")));
        assert_eq!(printed(output), wheels());
    }
}

/// The line is the program's, and the words go to standard error.
#[test]
fn refusals() {
    // An endless file ends at the byte after the longest case.
    let zeros = Path::new("/dev/zero");
    let node = scratch("self_naming.case");
    let mut file = fs::read(case("f.case")).unwrap();
    file[24 + 2 * 3 + 2] = 2;
    fs::write(&node, file).unwrap();
    // 17 states, and the rule τ.
    let large = scratch("not_regular.large");
    fs::write(&large, common::file(&[0; 17], &[], &[[5, 0, 0]], &[], 0)).unwrap();
    for (path, line, reason) in [
        (zeros, "refused 1 0\n", Reason::Pairs),
        (&no_case(), "refused 1 0\n", Reason::Pairs),
        (&node, "refused 5 2\n", Reason::Node),
        (&large, "refused 14 0\n", Reason::Form),
    ] {
        let output = holds(&[path]);
        assert_eq!(text(output.stdout), line);
        assert_eq!(text(output.stderr), format!("holds: {reason}\n"));
        assert_eq!(output.status.code(), Some(1));
    }
}

/// Nothing is printed, and a line tells why.
#[test]
fn troubles() {
    let wheels = case("two_wheels.case");
    let missing = scratch(OsStr::from_bytes(b"mis\nsing \xff"));
    for (paths, word) in [
        (&[&*wheels, &wheels][..], "more than one argument"),
        (&[&scratch("")], "cannot read"),
        (&[&missing], "mis\\nsing \\xFF"),
        (&[Path::new("")], "cannot read \"\""),
    ] {
        let line = told(holds(paths), 2);
        assert!(line.starts_with("holds: ") && line.contains(word), "{line}");
        assert_eq!(line.lines().count(), 1, "{line}");
    }
    let folder = File::open(scratch("")).unwrap();
    let line = told(run(example("holds", &[]).stdin(folder)), 2);
    assert!(
        line.starts_with("holds: cannot read standard input: "),
        "{line}"
    );
}

/// A full device and a pipe that nobody reads, for a verdict and for a refusal.
#[test]
fn no_output() {
    for path in [case("two_wheels.case"), no_case()] {
        let (_, pipe) = io::pipe().unwrap();
        for out in [full(), pipe.into()] {
            let line = told(run(example("holds", &[&path]).stdout(out)), 2);
            let start = "holds: the answer could not be written: ";
            assert!(line.starts_with(start), "{line}");
            assert_eq!(line.lines().count(), 1, "{line}");
        }
    }
}

/// Where the line cannot be written either, the status is left.
#[test]
fn no_error_output() {
    let path = case("two_wheels.case");
    let status = |paths: &[&Path], out| {
        let mut call = example("holds", paths);
        run(call.stdout(out).stderr(full())).status.code()
    };
    assert_eq!(status(&[&path], full()), Some(2));
    assert_eq!(status(&[&no_case()], Stdio::null()), Some(1));
    assert_eq!(status(&[&path], Stdio::null()), Some(0));
}

fn full() -> Stdio {
    let full = File::options().write(true).open("/dev/full");
    full.unwrap().into()
}
