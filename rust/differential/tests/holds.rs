//! The binding's example `holds` prints what the judging program prints, of cases that are too large
//! for the program what it would print with area enough, and of those that are too large for judging
//! the states that hold by their regular rule.
use differential::damage::expect_refusals;
use differential::drives::{case, folder, longest, starting_in};
use differential::padding::{write_padded, WIDEST};
use differential::printed::{wanted, wanted_of_any};
use hoidrul::Reason;
use plain::{vet, write, Limits, Triple};
use std::fs;
use std::path::Path;
use std::process::Command;

/// Output, words and status of the example on a file.
fn holds(file: &Path) -> (String, String, Option<i32>) {
    let manifest = Path::new(env!("CARGO_MANIFEST_DIR")).join("../hoidrul/Cargo.toml");
    let target = Path::new(env!("CARGO_TARGET_TMPDIR")).join("examples");
    let output = Command::new(env!("CARGO"))
        .args(["run", "--quiet", "--offline", "--locked"])
        .args(["--example", "holds", "--manifest-path"])
        .arg(manifest)
        .arg("--target-dir")
        .arg(target)
        .arg("--")
        .arg(file)
        .output()
        .expect("cargo");
    let text = |bytes| String::from_utf8(bytes).expect("text");
    (
        text(output.stdout),
        text(output.stderr),
        output.status.code(),
    )
}

/// Compares the example's print, words and status with this print.
fn check(file: &Path, print: &str) {
    let (printed, said, status) = holds(file);
    assert_eq!(printed, print, "{file:?}");
    let number = print.strip_prefix("refused ");
    assert_eq!(status, Some(number.is_some().into()), "{file:?}");
    let words = number.map_or("".into(), |number| format!("holds: {}\n", reason(number)));
    assert_eq!(said, words, "{file:?}");
}

/// The reason whose number a text begins with.
fn reason(text: &str) -> Reason {
    let number = text.split(' ').next().and_then(|word| word.parse().ok());
    let number: u32 = number.expect("a number");
    number.try_into().expect("a reason")
}

/// Writes the bytes to a file of this name and compares with what the plain checker says.
fn check_bytes(name: &str, file: &[u8]) -> String {
    let path = Path::new(env!("CARGO_TARGET_TMPDIR")).join(name);
    fs::write(&path, file).expect("a file written");
    let print = wanted_of_any(file);
    check(&path, &print);
    print
}

#[test]
fn files_of_the_folder() {
    let mut count = 0;
    for entry in fs::read_dir(folder()).expect("the folder cases") {
        let path = entry.expect("an entry").path();
        let file = fs::read(&path).expect("a file");
        check(&path, &wanted_of_any(&file));
        count += usize::from(vet(&file, 0).is_ok());
    }
    assert!(count > 20);
}

/// The rule p0 or ⟨0⟩;p0 on states of which 0, 3, 6 and so on have p0, each with a step to the next.
#[test]
fn too_large_for_the_program() {
    for (states, starts, last) in [(15, [2, 12], "starts yes\n"), (16, [0, 13], "starts no\n")] {
        let labels: Vec<u8> = (0..states).map(|state| u8::from(state % 3 == 0)).collect();
        let steps: Vec<Triple> = (1..states).map(|state| (state - 1, 0, state)).collect();
        let nodes = [(2, 0, 0), (6, 0, 0), (10, 1, 0), (8, 0, 2)];
        let file = write(&starting_in(&starts, case(&labels, &steps, &nodes)));
        assert_eq!(wanted(&file), "refused 9 0\n");
        let print = check_bytes(&format!("{states}_states.case"), &file);
        let start = format!("states {states}\nrounds 0\n0 yes\n1 no\n2 yes\n");
        assert!(print.starts_with(&start), "{print}");
        assert!(print.ends_with(last), "{print}");
    }
}

/// 17 states, and the longest file of a regular rule, both with the rule tt; then τ, which is not regular.
#[test]
fn too_large_for_judging() {
    let small = starting_in(&[0, 16], case(&[1; 17], &[], &[(0, 0, 0)]));
    for mut case in [small, longest(Limits::WIDEST)] {
        let print = check_bytes("regular.large", &write(&case));
        let start = format!("states {}\n0 yes\n", case.labels.len());
        assert!(print.starts_with(&start), "{print}");
        case.nodes[usize::from(case.root)] = (5, 0, 0);
        let print = check_bytes("not_regular.large", &write(&case));
        assert_eq!(print, "refused 14 0\n");
    }
}

/// The longest file, one byte more, and damaged files.
#[test]
fn refusals() {
    let mut file = write_padded(&longest(Limits::CASE), WIDEST);
    assert_eq!(file.len(), hoidrul::LONGEST);
    file.push(0);
    assert_eq!(check_bytes("one_byte_more.case", &file), "refused 1 0\n");
    expect_refusals(550, 2, Limits::CASE, |_, file| {
        check_bytes("damaged.case", file);
        vet(file, 0)
    });
}
