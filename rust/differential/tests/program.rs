//! The judging program on standard input, its exact print against what the plain checker says.
use differential::damage::expect_refusals;
use differential::drives::{case, drives, longest, read, starting_in, wheels};
use differential::formulas::{self, Bounds};
use differential::generate;
use differential::padding::{self, padded, WIDEST};
use differential::printed::{wanted, WORDS};
use differential::rng::Rng;
use plain::{vet, write, Case, Limits, Triple};
use std::io::{ErrorKind, Write};
use std::path::Path;
use std::process::{Command, Stdio};
use std::thread::sleep;
use std::time::Duration;

/// What the program prints when these pieces come in on standard input, one after the other.
fn printed(pieces: &[&[u8]]) -> String {
    let folder = Path::new(env!("CARGO_MANIFEST_DIR")).join("../../crates/judge_case");
    let program = folder.join("out/judge_case");
    assert!(
        program.exists(),
        "crates/judge_case/out/judge_case is missing: run rt run </dev/null in crates/judge_case"
    );
    let mut child = Command::new(program)
        .stdin(Stdio::piped())
        .stdout(Stdio::piped())
        .spawn()
        .expect("crates/judge_case/out/judge_case starts");
    let mut stdin = child.stdin.take().expect("a pipe");
    for (i, piece) in pieces.iter().enumerate() {
        if i > 0 {
            // Time for the program to read what is there.
            sleep(Duration::from_millis(20));
        }
        // The program may end before it has read an input that is too long.
        let sent = stdin.write_all(piece);
        assert!(sent.is_ok() || sent.is_err_and(|error| error.kind() == ErrorKind::BrokenPipe));
    }
    drop(stdin);
    let output = child.wait_with_output().expect("the program's output");
    assert!(output.status.code().is_some(), "ended by a signal");
    String::from_utf8(output.stdout).expect("text")
}

fn check(file: &[u8]) -> String {
    let wanted = wanted(file);
    assert_eq!(printed(&[file]), wanted, "{file:?}");
    wanted
}

fn check_case(case: &Case) -> String {
    check(&write(case))
}

/// So many states without steps, and so many nodes τ.
fn tau(states: usize, nodes: usize) -> Case {
    const TAU: Triple = (5, 0, 0);
    Case {
        labels: vec![0; states],
        steps: vec![],
        nodes: vec![TAU; nodes],
        root: nodes as u8 - 1,
        starts: vec![],
    }
}

#[test]
fn files_of_the_folder() {
    for (name, _) in drives() {
        let print = check(&read(name));
        if name == "f.case" {
            assert_eq!(print, "states 2\nrounds 2\n0 yes\n1 yes\nstarts yes\n");
        }
    }
}

#[test]
fn input_in_pieces() {
    let file = read("f.case");
    for cut in [1, 16, 54] {
        let (first, second) = file.split_at(cut);
        assert_eq!(printed(&[first, second]), wanted(&file));
    }
}

#[test]
fn no_input() {
    assert_eq!(check(&[]), "refused 1 0\n");
}

/// The longest case, packed and padded, and input that is longer.
#[test]
fn long_input() {
    let packed = write(&longest(Limits::CASE));
    let file = padded(&packed, WIDEST);
    assert_eq!((packed.len(), file.len()), (6_385, 6_394));
    assert_eq!(check(&packed), "refused 9 0\n");
    assert_eq!(check(&file), "refused 9 0\n");
    for length in [6_395, 6_396, 8_192, 65_536, 200_000] {
        let mut longer = file.clone();
        longer.resize(length, 0);
        assert_eq!(check(&longer), "refused 1 0\n", "{length} bytes");
    }
}

#[test]
fn the_work_area() {
    assert!(check_case(&tau(14, 1)).starts_with("states 14\nrounds 0\n0 yes\n"));
    assert!(check_case(&tau(8, 64)).starts_with("states 8\n"));
    for (states, nodes) in [(14, 2), (15, 1), (16, 1), (9, 64), (9, 33)] {
        assert_eq!(check_case(&tau(states, nodes)), "refused 9 0\n");
    }
}

/// The program reads how many states there are before it knows that there are not too many.
#[test]
fn too_many_states() {
    for states in [17, 64, 6_000] {
        assert_eq!(check_case(&tau(states, 1)), "refused 2 0\n");
    }
    let mut file = write(&tau(1, 1));
    file[2..4].fill(255);
    assert_eq!(check(&file), "refused 1 0\n");
}

#[test]
fn two_digits() {
    let print = check_case(&wheels(3, 7));
    assert!(print.starts_with("states 11\nrounds 21\n0 yes\n1 no\n"));
    assert!(print.ends_with("\n9 no\n10 no\nstarts yes\n"));
}

/// The rule p0 on so many states of which 0, 2, 4 and so on have it, with a list of start states.
fn last_line(states: usize, starts: &[u8]) -> String {
    let labels: Vec<u8> = (0..states).map(|state| u8::from(state % 2 == 0)).collect();
    let case = starting_in(starts, case(&labels, &[], &[(2, 0, 0)]));
    let print = check_case(&case);
    assert_eq!(print.lines().count(), 2 + states + 1);
    print.lines().last().expect("a line").to_string()
}

#[test]
fn start_states() {
    for starts in [&[][..], &[0], &[2], &[0, 2]] {
        assert_eq!(last_line(3, starts), "starts yes", "{starts:?}");
        assert_eq!(last_line(14, starts), "starts yes", "{starts:?}");
    }
    for starts in [&[1][..], &[0, 1], &[1, 2], &[0, 1, 2]] {
        assert_eq!(last_line(3, starts), "starts no", "{starts:?}");
        assert_eq!(last_line(14, starts), "starts no", "{starts:?}");
    }
    assert_eq!(last_line(14, &[0, 8, 10, 12]), "starts yes");
    assert_eq!(last_line(14, &[0, 8, 10, 13]), "starts no");
    assert_eq!(last_line(14, &[13]), "starts no");
}

/// No state of a drive holds, and there is none to start in.
#[test]
fn no_start_state() {
    let print = check(&read("mu.case"));
    assert_eq!(print, "states 1\nrounds 0\n0 no\nstarts yes\n");
}

#[test]
fn damaged_inputs() {
    expect_refusals(500, 5, Limits::CASE, |_, file| {
        check(file);
        vet(file, 0)
    });
}

#[test]
fn random_cases() {
    let mut rng = Rng::new(530);
    let (mut no, mut yes) = (0, 0);
    for i in 0..100 {
        let bounds = Bounds {
            states: 1 + i % 5,
            nesting: 3,
            depth: 4,
        };
        let case = formulas::case(&mut rng, Limits::CASE, bounds);
        let print = check(&padding::file(&mut rng, &case));
        no += usize::from(print.ends_with("\nstarts no\n"));
        yes += usize::from(print.ends_with("\nstarts yes\n"));
    }
    assert!(no >= 20 && yes >= 20 && no + yes == 100, "{no} {yes}");
}

/// Too large for the work area.
#[test]
fn random_cases_refused() {
    let mut rng = Rng::new(540);
    let large = |case: &Case| 2 * case.nodes.len() * (1 << case.labels.len()) > WORDS;
    for _ in 0..30 {
        let case = generate::case_where(&mut rng, Limits::CASE, large);
        let file = padding::file(&mut rng, &case);
        assert_eq!(check(&file), "refused 9 0\n");
    }
}
