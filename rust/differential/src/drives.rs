//! The cases of the folder `cases`, as data: the drives of docs/SPECIFICATION.md, 10.1, and a label
//! printer's.
use crate::generate::{all_steps, most_steps, step};
use crate::{padding, printer};
use plain::{write, Case, Limits, Triple, MOST_NODES};
use std::fs;
use std::path::{Path, PathBuf};

pub fn folder() -> PathBuf {
    Path::new(env!("CARGO_MANIFEST_DIR")).join("../../cases")
}

/// The bytes of a file of the folder.
pub fn read(name: &str) -> Vec<u8> {
    fs::read(folder().join(name)).expect("a file of the folder cases")
}

/// The file whose sections begin at multiples of four.
pub const ALIGNED: &str = "aligned_sections.case";

/// What stands in the file of this name: the case's packed file, but for one.
pub fn file(name: &str, case: &Case) -> Vec<u8> {
    if name == ALIGNED {
        padding::aligned(case)
    } else {
        write(case)
    }
}

/// Each case with the name of its file.
pub fn drives() -> Vec<(&'static str, Case)> {
    [of_the_specification(), of_the_printer()].concat()
}

fn of_the_specification() -> Vec<(&'static str, Case)> {
    vec![
        ("f.case", f()),
        ("two_wheels.case", wheels(3, 4)),
        ("example_4.case", example_4()),
        ("box.case", one_state(&[(7, 0, 0)])),
        ("diamond.case", one_state(&[(6, 0, 0)])),
        ("tau.case", one_state(&[(5, 0, 0)])),
        ("mu.case", one_state(&[(4, 0, 0), (11, 0, 0)])),
        ("nu.case", one_state(&[(4, 0, 0), (12, 0, 0)])),
        ("chop_and.case", chop_and()),
        ("and_chops.case", and_chops()),
        ("empty_group_some.case", leaf_on_two_states((13, 0, 0))),
        ("empty_group_all.case", leaf_on_two_states((14, 0, 0))),
        (
            "two_actions_some.case",
            leaf_on_two_states((13, 0b1000_0001, 0)),
        ),
        (
            "two_actions_all.case",
            leaf_on_two_states((14, 0b1000_0001, 0)),
        ),
        (
            "one_action_as_group.case",
            leaf_on_two_states((13, 0b1000_0000, 0)),
        ),
        ("one_action.case", leaf_on_two_states((6, 7, 0))),
    ]
}

fn of_the_printer() -> Vec<(&'static str, Case)> {
    vec![
        ("feed_and_back.case", printer::feed_and_back()),
        (
            "no_more_back_than_fed.case",
            printer::no_more_back_than_fed(),
        ),
        ("exactly_as_many_back.case", printer::exactly_as_many_back()),
        ("at_rest_after_any.case", printer::at_rest_after_any()),
        (
            "pulled_back_fed_again.case",
            printer::pulled_back_fed_again(),
        ),
        (ALIGNED, printer::pulled_back_fed_again()),
        ("lamp_not_mentioned.case", printer::lamp_not_mentioned()),
        ("tight_at_any_current.case", printer::tight_at_any_current()),
    ]
}

/// Case F: μY.⟨1⟩ or ⟨0⟩;νZ.Y;Z;Y, where Y is variable 0 and Z is variable 1.
pub fn f() -> Case {
    let nodes = [
        (4, 0, 0),
        (4, 1, 0),
        (10, 0, 1),
        (10, 2, 0),
        (12, 1, 3),
        (6, 0, 0),
        (10, 5, 4),
        (6, 1, 0),
        (8, 7, 6),
        (11, 0, 8),
    ];
    case(&[0, 0], &[(0, 0, 1), (1, 1, 1)], &nodes)
}

/// μZ.(⟨1⟩ and ⟨2⟩) or Z;⟨0⟩ over two rings of action 0. State 0 steps to the first state of each.
pub fn wheels(first: usize, second: usize) -> Case {
    let nodes = [
        (6, 1, 0),
        (6, 2, 0),
        (9, 0, 1),
        (4, 0, 0),
        (6, 0, 0),
        (10, 3, 4),
        (8, 2, 5),
        (11, 0, 6),
    ];
    let mut steps = vec![(0, 1, 1), (0, 2, 1 + first as u8)];
    steps.extend(ring(1, first));
    steps.extend(ring(1 + first, second));
    case(&vec![0; 1 + first + second], &steps, &nodes)
}

/// Steps of action 0 round so many states, from this one on.
fn ring(start: usize, size: usize) -> impl Iterator<Item = Triple> {
    (0..size).map(move |i| ((start + i) as u8, 0, (start + (i + 1) % size) as u8))
}

/// νZ.μY.(⟨a⟩;Z) and ([b];(Y or τ);⟨b⟩) with a = 0, b = 1, Z = 0, Y = 1.
fn example_4() -> Case {
    let nodes = [
        (6, 0, 0),
        (4, 0, 0),
        (10, 0, 1),
        (7, 1, 0),
        (4, 1, 0),
        (5, 0, 0),
        (8, 4, 5),
        (10, 3, 6),
        (6, 1, 0),
        (10, 7, 8),
        (9, 2, 9),
        (11, 1, 10),
        (12, 0, 11),
    ];
    case(&[0, 0], &[(0, 0, 0), (0, 1, 1), (1, 1, 0)], &nodes)
}

/// ⟨0⟩;(p0 and p1)
fn chop_and() -> Case {
    let nodes = [(6, 0, 0), (2, 0, 0), (2, 1, 0), (9, 1, 2), (10, 0, 3)];
    fork(&nodes)
}

/// (⟨0⟩;p0) and (⟨0⟩;p1)
fn and_chops() -> Case {
    let nodes = [
        (6, 0, 0),
        (2, 0, 0),
        (2, 1, 0),
        (10, 0, 1),
        (10, 0, 2),
        (9, 3, 4),
    ];
    fork(&nodes)
}

/// State 0 steps to 1, which has proposition 0, and to 2, which has proposition 1.
fn fork(nodes: &[Triple]) -> Case {
    case(&[0, 1, 2], &[(0, 0, 1), (0, 0, 2)], nodes)
}

/// State 0 steps to itself by action 0 and to 1 by action 7, and 1 steps to 0 by action 3.
fn leaf_on_two_states(node: Triple) -> Case {
    case(&[0, 0], &[(0, 0, 0), (0, 7, 1), (1, 3, 0)], &[node])
}

fn one_state(nodes: &[Triple]) -> Case {
    case(&[0], &[], nodes)
}

/// The bytes of the longest packed file of a case: the pairs, the labels, the steps, the rule, the start states.
pub const LONGEST_PACKED: usize = 16 + 16 + 3 * 2048 + (3 * 64 + 1) + 16;

/// The longest case: as many states as there may be, every step that there can be, or as many as have
/// room, 64 nodes, every state a start state.
pub fn longest(limits: Limits) -> Case {
    let states = limits.most_states;
    let all = all_steps(states);
    let count = all.min(most_steps(limits, states));
    let steps: Vec<Triple> = (0..count).map(|i| step(i * all / count, states)).collect();
    let case = case(&vec![255; states], &steps, &[(0, 0, 0); MOST_NODES]);
    let starts: Vec<u8> = (0..states).map(|state| state as u8).collect();
    starting_in(&starts, case)
}

/// The case with these start states.
pub fn starting_in(starts: &[u8], case: Case) -> Case {
    Case {
        starts: starts.to_vec(),
        ..case
    }
}

/// A case whose root is its last node, without start states.
pub fn case(labels: &[u8], steps: &[Triple], nodes: &[Triple]) -> Case {
    Case {
        labels: labels.to_vec(),
        steps: steps.to_vec(),
        nodes: nodes.to_vec(),
        root: nodes.len() as u8 - 1,
        starts: vec![],
    }
}
