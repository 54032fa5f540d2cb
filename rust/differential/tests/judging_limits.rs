//! Judging: the last value that passes and the first that does not, by both checkers.
use differential::drives::{self, wheels};
use differential::f_changed::{f_with, refused_files};
use differential::judging::{all_states, compare, compare_sets, needed, proved, set_of, Judged};
use differential::replies::refused;
use plain::{write, Case, Limits, Triple, Verdict};

fn verdict(states: Vec<bool>, rounds: u64) -> Judged {
    Ok(Verdict { states, rounds })
}

/// A case without labels.
fn case(states: usize, steps: &[Triple], nodes: &[Triple]) -> Case {
    drives::case(&vec![0; states], steps, nodes)
}

const TAU: Triple = (5, 0, 0);

#[test]
fn states() {
    let file = write(&case(16, &[], &[TAU]));
    assert_eq!(needed(&file), 131_072);
    assert_eq!(compare(&file, 65_535, 131_072), verdict(vec![true; 16], 0));
    assert_eq!(compare(&file, 0, 131_072), verdict(vec![false; 16], 0));
    assert_eq!(compare(&file, 65_535, 131_071), refused(9, 0));
    let file = write(&case(17, &[], &[TAU]));
    assert_eq!(compare(&file, 65_535, 131_072), refused(2, 0));
}

#[test]
fn actions() {
    let judged = |action, modality| {
        let case = case(1, &[(0, action, 0)], &[(6, modality, 0)]);
        compare(&write(&case), 1, 4)
    };
    assert_eq!(judged(7, 7), verdict(vec![true], 0));
    assert_eq!(judged(8, 7), refused(3, 0));
    assert_eq!(judged(7, 8), refused(5, 0));
}

#[test]
fn words() {
    let file = f_with(|_| ());
    assert_eq!(compare(&file, 3, 80), verdict(vec![true, true], 2));
    assert_eq!(compare(&file, 3, 79), refused(9, 0));
}

/// μZ.((τ or Z) or (Z;tt or ff)) with one state: n × 2^n rounds, as many as there can be.
#[test]
fn most_rounds() {
    let (variable, top, bottom) = ((4, 0, 0), (0, 0, 0), (1, 0, 0));
    let either = [(8, 4, 0), (8, 3, 2), (8, 5, 6)];
    let nodes = [
        &[variable, top, bottom, (10, 0, 1), TAU],
        &either[..],
        &[(11, 0, 7)],
    ]
    .concat();
    let file = write(&case(1, &[], &nodes));
    for set in 0..2 {
        assert_eq!(compare(&file, set, 36), verdict(vec![true], 2));
    }
}

/// Unreached nodes count too.
#[test]
fn words_for_every_node() {
    let file = f_with(|f| (f.nodes, f.root) = (vec![TAU; 64], 0));
    assert_eq!(compare(&file, 1, 512), verdict(vec![true, false], 0));
    assert_eq!(compare(&file, 1, 511), refused(9, 0));
}

#[test]
fn sets() {
    let file = f_with(|_| ());
    for set in 0..4 {
        assert!(compare(&file, set, 80).is_ok());
    }
    for set in [4, 5, 7, 8, 256, 32_768, 65_535] {
        assert_eq!(compare(&file, set, 80), refused(8, 0), "set {set}");
    }
}

/// A call with the faults of several rows gets the lowest of them.
#[test]
fn rows_are_tested_in_rising_number() {
    let file = f_with(|_| ());
    assert_eq!(compare(&file, 4, 79), refused(8, 0));
    assert_eq!(compare(&file, 4, 0), refused(8, 0));
    assert_eq!(compare(&file, 3, 0), refused(9, 0));
    for (file, refusal) in refused_files(Limits::CASE) {
        for (set, words) in [(3, 80), (4, 80), (3, 79), (4, 79), (65_535, 0)] {
            assert_eq!(compare(&file, set, words), Err(refusal));
        }
    }
}

/// Each node names the one below twice: 2^63 paths, but 64 nodes.
#[test]
fn shared_nodes_are_judged_once() {
    for (states, kind) in [(1, 8), (1, 9), (1, 10), (2, 8), (2, 9), (2, 10)] {
        let mut nodes = vec![(6, 0, 0)];
        nodes.extend((0..63).map(|below| (kind, below, below)));
        // A ring, so that 2^63 steps of it are none.
        let steps: Vec<Triple> = (0..states).map(|s| (s, 0, (s + 1) % states)).collect();
        let case = case(states.into(), &steps, &nodes);
        compare_sets(&case, &[0, 1, all_states(states.into())]);
        // The same below binders, with their variable at the bottom.
        let mut nodes = vec![(4, 0, 0)];
        nodes.extend((0..60).map(|below| (kind, below, below)));
        nodes.extend([(12, 0, 60), (4, 1, 0), (11, 1, 61)]);
        let case = self::case(states.into(), &steps, &nodes);
        compare_sets(&case, &[0, 1, all_states(states.into())]);
    }
}

/// The wheels on the last state of each: as many rounds as their sizes' least common multiple.
#[test]
fn wheels_of_all_sizes() {
    for (first, second, rounds) in [
        (1, 1, 1),
        (1, 2, 2),
        (2, 3, 6),
        (3, 3, 3),
        (3, 4, 12),
        (2, 5, 10),
        (5, 6, 30),
    ] {
        let ends = set_of(&[first, first + second]);
        let sets = [0, ends, ends - 1, all_states(1 + first + second)];
        assert_eq!(compare_sets(&wheels(first, second), &sets), rounds);
    }
}

/// Too large for the plain checker; the answers are those of the smaller wheels.
#[test]
fn wheels_of_sixteen_states() {
    let file = write(&wheels(7, 8));
    let only_0: Vec<bool> = (0..16).map(|s| s == 0).collect();
    let words = needed(&file);
    assert_eq!(proved(&file, set_of(&[7, 15]), words), verdict(only_0, 56));
    assert_eq!(proved(&file, 0, words), verdict(vec![false; 16], 56));
    assert_eq!(proved(&file, 0, words - 1), refused(9, 0));
}
