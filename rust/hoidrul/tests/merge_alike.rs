//! The example `merge_alike`.
mod common;

use common::{case, example, no_case, printed, run, scratch, told};
use std::fs::{self, File};
use std::io;
use std::path::Path;
use std::process::{Output, Stdio};

fn merge_alike(paths: &[&Path]) -> Output {
    run(&mut example("merge_alike", paths))
}

/// All states of both rings are alike, for each has one step, of action 0, to another of them.
/// Two states are left: 0 with its two arms, and one ring of one state.
#[test]
fn two_wheels() {
    let smaller = scratch("merged_wheels.case");
    let merge = |path: &Path| printed(merge_alike(&[path, &smaller]));
    let mut print = String::from("states 8, merged 2\nrounds 12, merged 1\n0 yes, as 0 yes\n");
    print.extend((1..8).map(|state| format!("{state} no, as 1 no\n")));
    print += "starts yes, merged yes\n";
    assert_eq!(merge(&case("two_wheels.case")), print);

    let file = fs::read(&smaller).unwrap();
    let steps = hoidrul::open(&file, hoidrul::STEPS).unwrap();
    assert_eq!(steps, [0, 1, 1, 0, 2, 1, 1, 0, 1]);
    // Nothing is left to merge.
    assert!(merge(&smaller).starts_with("states 2, merged 2\n"));
    assert_eq!(fs::read(&smaller).unwrap(), file);
}

/// Start states 0 and 5 of the ribbon's drive hold. States 0 and 1 are alike, so 5 becomes 4.
#[test]
fn start_states_are_carried() {
    let smaller = scratch("merged_ribbon.case");
    let path = case("tight_at_any_current.case");
    let print = printed(merge_alike(&[&path, &smaller]));
    assert!(print.starts_with("states 6, merged 5\n"), "{print}");
    assert!(print.ends_with("\nstarts yes, merged yes\n"), "{print}");
    let file = fs::read(&smaller).unwrap();
    assert_eq!(hoidrul::open(&file, hoidrul::STARTS), Ok(&[0, 4][..]));
}

/// The rule does not mention the lamp, the only difference of 0 and 1 and of 2 and 3.
#[test]
fn a_lamp() {
    let smaller = scratch("merged_lamp.case");
    let path = case("lamp_not_mentioned.case");
    let print = printed(merge_alike(&[&path, &smaller]));
    let lines = [
        "states 6, merged 4",
        "rounds 0, merged 0",
        "0 yes, as 0 yes",
        "1 yes, as 0 yes",
        "2 no, as 1 no",
        "3 no, as 1 no",
        "4 no, as 2 no",
        "5 no, as 3 no",
        "starts yes, merged yes\n",
    ];
    assert_eq!(print, lines.join("\n"));
    let file = fs::read(&smaller).unwrap();
    assert_eq!(
        hoidrul::open(&file, hoidrul::LABELS),
        Ok(&[129, 128, 1, 0][..])
    );
}

#[test]
fn errors_name_their_file() {
    let usage = told(merge_alike(&[]), 2);
    assert_eq!(usage, "usage: merge_alike CASE [SMALLER]\n");
    let folder = scratch("");
    let line = told(merge_alike(&[&folder]), 2);
    assert!(line.starts_with(&format!("{}: ", folder.display())));
    let refusal = hoidrul::vet(&fs::read(no_case()).unwrap(), 0).unwrap_err();
    let line = format!("{}: {refusal}\n", no_case().display());
    assert_eq!(told(merge_alike(&[&no_case()]), 1), line);
    assert!(told(merge_alike(&[Path::new("/dev/zero")]), 1).contains("refused 1 0"));
}

/// The smaller case is written last, so the verdicts are out by then.
#[test]
fn a_folder_cannot_be_written() {
    let output = merge_alike(&[&case("f.case"), &scratch("")]);
    assert_eq!(output.status.code(), Some(2));
    let name = format!("{}: ", scratch("").display());
    assert!(output.stderr.starts_with(name.as_bytes()));
}

/// A full device and a pipe that nobody reads.
#[test]
fn no_output() {
    let full = File::options().write(true).open("/dev/full").unwrap();
    let (_, pipe) = io::pipe().unwrap();
    for out in [Stdio::from(full), pipe.into()] {
        let path = case("two_wheels.case");
        let output = run(example("merge_alike", &[&path]).stdout(out));
        let line = told(output, 2);
        assert!(line.starts_with("standard output: "), "{line}");
        assert_eq!(line.lines().count(), 1, "{line}");
    }
}
