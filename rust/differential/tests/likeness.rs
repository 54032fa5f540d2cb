//! States are alike as far as the rule looks (docs/SPECIFICATION.md, 4.1, 4.2 and 4.9), by both
//! checkers: cases by hand.
use differential::drives::{case, read, starting_in};
use differential::edits::{classes, merge, rewrite, turn, LONGEST};
use differential::judging::{needed, proved_starts, verdict};
use differential::replies::refused;
use plain::{alike_in_full, members, parse, write, Book, Case, Edit, Triple};

fn classes_of(case: &Case) -> Vec<u8> {
    classes(&write(case), 16).expect("a case and room")
}

/// Each node that looks at actions, with these as a group.
fn modalities() -> Vec<(Triple, u8)> {
    let one = |kind| (0..8).map(move |action| ((kind, action, 0), 1 << action));
    let group = |kind| (0..=255).map(move |group| ((kind, group, 0), group));
    let ones = one(6).chain(one(7));
    ones.chain(group(13)).chain(group(14)).collect()
}

/// Two states with every difference of labels, under every rule of a single proposition or its
/// complement.
#[test]
fn a_proposition_counts_where_it_is_mentioned() {
    for (kind, i) in [2, 3]
        .into_iter()
        .flat_map(|kind| (0..8).map(move |i| (kind, i)))
    {
        for label in 0..=255 {
            let case = case(&[0, label], &[], &[(kind, i, 0)]);
            assert_eq!(classes_of(&case), [0, label >> i & 1], "{case:?}");
        }
    }
}

/// State 0 steps to 2 by one action and state 1 by another. Each action of a group counts, and by
/// itself: a step by one member is not met by a step of another.
#[test]
fn an_action_counts_where_it_is_mentioned() {
    for (node, group) in modalities() {
        for (first, second) in (0..64).map(|i| (i / 8, i % 8)) {
            let counts = |action| members(group).any(|member| member == action);
            let expected = match (counts(first), counts(second)) {
                (true, true) if first == second => [0, 0, 2],
                (true, true) => [0, 1, 2],
                (true, false) => [0, 1, 1],
                (false, true) => [0, 1, 0],
                (false, false) => [0, 0, 0],
            };
            let case = case(&[0; 3], &[(0, first, 2), (1, second, 2)], &[node]);
            assert_eq!(classes_of(&case), expected, "{case:?}");
        }
    }
}

/// One state with proposition 0 and a step of action 0 and one with neither.
fn lone_step(nodes: &[Triple]) -> Case {
    case(&[1, 0], &[(0, 0, 0)], nodes)
}

const LOOKING: [Triple; 6] = [
    (2, 0, 0),
    (3, 0, 0),
    (6, 0, 0),
    (7, 0, 0),
    (13, 0b1000_0001, 0),
    (14, 0b1000_0001, 0),
];

/// On either side of each operation, and below a binder.
#[test]
fn a_node_counts_where_the_root_reaches_it() {
    const TAU: Triple = (5, 0, 0);
    for node in LOOKING {
        for top in [8, 9, 10] {
            for (left, right) in [(0, 1), (1, 0), (0, 0)] {
                let case = lone_step(&[node, TAU, (top, left, right)]);
                assert_eq!(classes_of(&case), [0, 1], "{case:?}");
            }
            let case = lone_step(&[node, TAU, (top, 1, 1)]);
            assert_eq!(classes_of(&case), [0, 0], "{case:?}");
        }
        for binder in [11, 12] {
            let case = lone_step(&[node, (binder, 3, 0), (10, 1, 1)]);
            assert_eq!(classes_of(&case), [0, 1], "{case:?}");
        }
        // Above the root, and below it beside what it reaches.
        let mut case = lone_step(&[node, TAU, node, (8, 0, 2)]);
        case.root = 1;
        assert_eq!(classes_of(&case), [0, 0], "{case:?}");
    }
}

/// An operand A that is a proposition, a variable, an action or a group is no node.
#[test]
fn operands_that_name_no_node() {
    for nodes in [
        &[(2, 0, 0), (6, 0, 0), (2, 1, 0)][..],
        &[(2, 0, 0), (6, 0, 0), (6, 1, 0)],
        &[(2, 0, 0), (6, 0, 0), (13, 2, 0)],
        &[(5, 0, 0), (6, 0, 0), (11, 1, 0)],
        &[(2, 0, 0), (6, 0, 0), (4, 1, 0), (12, 1, 2)],
    ] {
        assert_eq!(classes_of(&lone_step(nodes)), [0, 0], "{nodes:?}");
    }
}

/// Each node names the one below twice: 2^63 paths, but 64 nodes.
#[test]
fn shared_nodes_are_looked_at_once() {
    for (node, other) in [((7, 0, 0), 1), ((7, 1, 0), 0)] {
        let mut nodes = vec![node];
        nodes.extend((0..63).map(|below| (8 + below % 3, below, below)));
        assert_eq!(classes_of(&lone_step(&nodes)), [0, other]);
    }
}

/// The rule ⟨0⟩;p0 looks at action 0 and proposition 0. The lower state keeps its label and its steps
/// as they are, also where the rule does not look, and steps into the higher one lead to it, whatever
/// their action.
#[test]
fn what_a_merge_writes() {
    let steps = [
        (0, 0, 2),
        (0, 3, 1),
        (0, 4, 2),
        (1, 0, 2),
        (1, 4, 0),
        (1, 6, 1),
        (2, 5, 1),
        (2, 7, 0),
        (2, 7, 1),
    ];
    let before = case(
        &[0x81, 0x03, 0x40],
        &steps,
        &[(6, 0, 0), (2, 0, 0), (10, 0, 1)],
    );
    let before = starting_in(&[1, 2], before);
    let after = Case {
        labels: vec![0x81, 0x40],
        steps: vec![(0, 0, 1), (0, 3, 0), (0, 4, 1), (1, 5, 0), (1, 7, 0)],
        starts: vec![0, 1],
        ..before.clone()
    };
    assert!(!alike_in_full(&before).contains(&(0, 1)));
    for (s, t) in [(0, 1), (1, 0)] {
        assert_eq!(merge(&write(&before), s, t, LONGEST), Ok(write(&after)));
    }
    for (s, t) in [(0, 2), (1, 2)] {
        assert_eq!(merge(&write(&before), s, t, LONGEST), refused(10, 0));
    }
}

/// Where all labels and steps counted, no two states of this drive were alike. The lit state is the
/// lower one and keeps the lamp's bit, and the lamp's steps become loops.
#[test]
fn a_lamp_that_the_rule_does_not_mention() {
    let file = read("lamp_not_mentioned.case");
    let lamp = parse(&file).unwrap();
    assert!(alike_in_full(&lamp).into_iter().all(|(s, t)| s == t));
    assert_eq!(classes(&file, 6), Ok(vec![0, 0, 2, 2, 4, 5]));
    assert_eq!(merge(&file, 0, 4, LONGEST), refused(10, 0));
    assert_eq!(verdict(&file), [true, true, false, false, false, false]);

    let at_the_cutter = merge(&file, 0, 1, LONGEST).unwrap();
    let both = merge(&at_the_cutter, 2, 1, LONGEST).unwrap();
    let expected = Case {
        labels: vec![129, 128, 1, 0],
        steps: vec![
            (0, 1, 1),
            (0, 7, 0),
            (1, 0, 0),
            (1, 7, 1),
            (2, 1, 3),
            (3, 0, 2),
            (3, 0, 3),
        ],
        starts: vec![0],
        ..lamp
    };
    assert_eq!(both, write(&expected));
    assert_eq!(verdict(&both), [true, false, false, false]);
    for file in [file, both] {
        assert_eq!(proved_starts(&file, needed(&file)), Ok(true));
    }
}

/// The rule (tt;⟨0⟩) and (p0 or p0). States 0 and 1 differ in a step, 2 and 3 in proposition 1, and
/// 0 and 1 have proposition 0.
fn before_law_3(starts: &[u8]) -> Case {
    let nodes = [
        (0, 0, 0),
        (6, 0, 0),
        (10, 0, 1),
        (2, 0, 0),
        (8, 3, 3),
        (9, 2, 4),
    ];
    starting_in(starts, case(&[1, 1, 0, 2], &[(0, 0, 2)], &nodes))
}

/// Law 3 makes tt of tt;⟨0⟩, and no action counts any more. Law 8 leaves a node unreached that
/// looks at nothing. Each merge is judged by the file that it gets.
#[test]
fn a_rewrite_that_widens_likeness() {
    for (starts, word) in [(&[0, 1][..], true), (&[1, 2], false), (&[], true)] {
        let first = write(&before_law_3(starts));
        let mut book = Book::new(&first).unwrap();
        let mut file = first.clone();
        for (edit, accepted) in [
            (Edit::Merge { s: 0, t: 1 }, false),
            (Edit::Rewrite { law: 8, node: 4 }, true),
            (Edit::Merge { s: 0, t: 1 }, false),
            (Edit::Merge { s: 3, t: 2 }, true),
            (Edit::Rewrite { law: 3, node: 2 }, true),
            (Edit::Merge { s: 0, t: 2 }, false),
            (Edit::Merge { s: 0, t: 1 }, true),
        ] {
            let reply = turn(&mut book, &file, edit, LONGEST);
            assert_eq!(reply.is_ok(), accepted, "{edit:?}");
            file = reply.unwrap_or(file);
        }
        assert_eq!(book.standing(), [0, 0, 1, 1]);
        assert_eq!(verdict(&first), [true, true, false, false]);
        assert_eq!(verdict(&file), [true, false]);
        for file in [&first, &file] {
            assert_eq!(proved_starts(file, needed(file)), Ok(word), "{starts:?}");
        }
    }
}

/// A node that law 3 drops in one place still counts if the root reaches it in another.
#[test]
fn a_rewrite_that_leaves_the_node_reached() {
    let nodes = [
        (1, 0, 0),
        (14, 3, 0),
        (10, 0, 1), // ff;[0, 1]
        (3, 5, 0),
        (10, 3, 1), // not p5;[0, 1]
        (8, 2, 4),
    ];
    let first = write(&lone_step(&nodes));
    let once = rewrite(&first, 3, 2, LONGEST).unwrap();
    let twice = rewrite(&once, 3, 4, LONGEST).unwrap();
    for (file, higher) in [(&first, 1), (&once, 1), (&twice, 0)] {
        assert_eq!(classes(file, 2), Ok(vec![0, higher]));
        assert_eq!(verdict(file), [true, true]);
    }
}
