//! The files of the folder `cases`, judged by both checkers.
use differential::drives::{drives, read};
use differential::judging::{
    all_states, compare, compare_sets, compare_starts, compare_with_all_functions, needed, set_of,
};
use differential::printed::word;
use differential::printer;

/// Judges the file on the set: the answer's states, and rounds.
fn judged(name: &str, on: u16) -> (Vec<usize>, u64) {
    let file = read(name);
    let verdict = compare(&file, on, needed(&file)).unwrap();
    let all = 0..verdict.states.len();
    (all.filter(|&s| verdict.states[s]).collect(), verdict.rounds)
}

/// The numbers of a cell, or none.
fn numbers(cell: &str) -> Vec<usize> {
    if cell == "none" {
        return vec![];
    }
    let number = |text: &str| text.parse().expect("a number");
    cell.split(", ").map(number).collect()
}

/// The tables of cases/README.md say of each file how many states and nodes it has, which of its
/// states hold, what its start states are and whether all of these hold.
#[test]
fn every_file_on_all_states() {
    let tables = String::from_utf8(read("README.md")).unwrap();
    let mut names = vec![];
    for line in tables.lines().filter(|line| line.starts_with("| `")) {
        let cells: Vec<&str> = line.split('|').map(str::trim).collect();
        let name = cells[1].trim_matches('`');
        let file = read(name);
        let case = plain::parse(&file).unwrap();
        let (states, nodes) = (case.labels.len(), case.nodes.len());
        assert_eq!(numbers(cells[2]), [states, nodes], "{name}");
        let (holding, _) = judged(name, all_states(states));
        assert_eq!(holding, numbers(cells[3]), "{name}");
        let (starts, last) = cells[4].split_once(": ").expect("a list and a word");
        let listed: Vec<usize> = case.starts.iter().map(|&s| s.into()).collect();
        assert_eq!(listed, numbers(starts), "{name}");
        let hold = compare_starts(&file, needed(&file)).unwrap();
        assert_eq!(word(hold), last, "{name}");
        names.push(name);
    }
    assert!(names.iter().eq(drives().iter().map(|(name, _)| name)));
}

#[test]
fn f() {
    assert_eq!(judged("f.case", set_of(&[0, 1])), (vec![0, 1], 2));
    assert_eq!(judged("f.case", 0), (vec![0], 2));
}

#[test]
fn two_wheels() {
    for on in [&[3, 7], &[3, 6]] {
        assert_eq!(judged("two_wheels.case", set_of(on)), (vec![0], 12));
    }
    assert_eq!(judged("two_wheels.case", 0), (vec![], 12));
}

#[test]
fn no_binder() {
    assert_eq!(judged("box.case", 0), (vec![0], 0));
    assert_eq!(judged("diamond.case", 0), (vec![], 0));
    assert_eq!(judged("tau.case", 0), (vec![], 0));
}

#[test]
fn binders_that_stand_still() {
    for on in [0, 1] {
        assert_eq!(judged("mu.case", on), (vec![], 0));
        assert_eq!(judged("nu.case", on), (vec![0], 0));
    }
}

#[test]
fn chop_does_not_distribute_on_the_right() {
    for on in [0b000, 0b010, 0b111] {
        assert_eq!(judged("chop_and.case", on), (vec![], 0));
        assert_eq!(judged("and_chops.case", on), (vec![0], 0));
    }
}

/// Each file with what it yields of the sets {}, {0}, {1} and {0, 1}.
#[test]
fn groups() {
    let (none, zero, one, both) = (vec![], vec![0], vec![1], vec![0, 1]);
    for (name, values) in [
        ("empty_group_some.case", [&none, &none, &none, &none]),
        ("empty_group_all.case", [&both, &both, &both, &both]),
        ("two_actions_some.case", [&none, &zero, &zero, &zero]),
        ("two_actions_all.case", [&one, &one, &one, &both]),
        ("one_action_as_group.case", [&none, &none, &zero, &zero]),
        ("one_action.case", [&none, &none, &zero, &zero]),
    ] {
        for (set, value) in (0..).zip(values) {
            assert_eq!(judged(name, set), (value.clone(), 0), "{name}, {set}");
        }
    }
}

/// A group of all currents says what a box for each of them says, at every set. Approximant 1 is
/// without state 3, where the ribbon is slack, and approximant 2 without state 2 as well.
#[test]
fn any_current_is_each_current() {
    let (group, copies) = (
        printer::tight_at_any_current(),
        printer::tight_at_each_current(),
    );
    assert_eq!((group.nodes.len(), copies.nodes.len()), (6, 27));
    let sets: Vec<u16> = (0..=all_states(6)).collect();
    assert_eq!(compare_sets(&group, &sets), 2);
    assert_eq!(compare_sets(&copies, &sets), 2);
    for &set in &sets {
        let found = judged("tight_at_any_current.case", set);
        assert_eq!(found, (vec![0, 1, 4, 5], 2), "set {set}");
    }
    let functions = [group, copies].map(|case| plain::meaning(&case).function);
    assert_eq!(functions[0], functions[1]);
}

#[test]
fn small_drives_by_all_monotone_functions() {
    for name in [
        "f.case",
        "example_4.case",
        "box.case",
        "mu.case",
        "nu.case",
        "empty_group_some.case",
        "empty_group_all.case",
        "two_actions_some.case",
        "two_actions_all.case",
    ] {
        compare_with_all_functions(&plain::parse(&read(name)).unwrap());
    }
}
