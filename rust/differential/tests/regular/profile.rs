//! Which rules are judged: each clause of the profile, from either side.
use differential::drives;
use differential::formulas::Bounds;
use differential::profile::{has_room, Change, INSIDE, OUTSIDE};
use differential::regular::{case, compare, needed, SET_BYTES};
use differential::replies::refused;
use differential::rng::Rng;
use differential::{generate, padding};
use plain::{write, Case, Limits, Triple};

/// A regular case in which there is room for a change.
fn regular(rng: &mut Rng) -> Case {
    loop {
        let bounds = Bounds {
            states: rng.within(1..=40),
            nesting: 2,
            depth: rng.within(1..=4),
        };
        let case = case(rng, Limits::WIDEST, bounds);
        if has_room(&case) {
            return case;
        }
    }
}

/// Files with each change, of which one in four is of a rule with a single node.
fn changed(seed: u64, changes: &[(&str, Change)], mut see: impl FnMut(&str, &[u8])) {
    for (seed, (name, change)) in (seed..).zip(changes) {
        let mut rng = Rng::new(seed);
        for i in 0..150 {
            let mut case = regular(&mut rng);
            if i % 4 == 0 {
                (case.nodes, case.root) = (vec![(rng.byte_below(4), 0, 0)], 0);
            }
            change(&mut rng, &mut case);
            see(name, &padding::file(&mut rng, &case));
        }
    }
}

#[test]
fn rules_just_outside() {
    changed(1_000, &OUTSIDE, |name, file| {
        let (bytes, room) = (64 * 64, SET_BYTES);
        assert_eq!(compare(file, bytes, room), refused(14, 0), "{name}");
        assert_eq!(compare(file, 0, 0), refused(14, 0), "{name}");
    });
}

#[test]
fn rules_just_inside() {
    changed(1_100, &INSIDE, |name, file| {
        let reply = compare(file, needed(file), SET_BYTES);
        assert!(reply.is_ok(), "{name}: {reply:?}");
    });
}

/// On two states, with the rule whose root is the last node.
fn is_judged(nodes: &[Triple]) -> bool {
    let file = write(&drives::case(&[0, 1], &[(0, 0, 1)], nodes));
    let reply = compare(&file, 64 * nodes.len(), SET_BYTES);
    assert!(reply.is_ok() || reply == refused(14, 0));
    reply.is_ok()
}

/// Every kind as the root and at each place of a small rule, with every kind that names two or one.
#[test]
fn each_kind_at_each_place() {
    let leaves: [Triple; 10] = [
        (0, 0, 0),
        (1, 0, 0),
        (2, 0, 0),
        (3, 0, 0),
        (4, 0, 0),
        (5, 0, 0),
        (6, 0, 0),
        (7, 0, 0),
        (13, 1, 0),
        (14, 0, 0),
    ];
    for (kind, leaf) in leaves.iter().map(|leaf| (leaf.0, *leaf)) {
        let plain = kind <= 4;
        let modality = matches!(kind, 6 | 7 | 13 | 14);
        if kind != 4 {
            assert_eq!(is_judged(&[leaf]), plain, "{kind}");
        }
        let bound = |nodes: &[Triple]| {
            let body = nodes.len() as u8 - 1;
            is_judged(&[nodes, &[(11, 0, body)]].concat())
        };
        assert_eq!(bound(&[leaf]), plain, "{kind}");
        for two in [8, 9] {
            assert_eq!(bound(&[(2, 0, 0), leaf, (two, 0, 1)]), plain, "{kind}");
            assert_eq!(bound(&[(2, 0, 0), leaf, (two, 1, 0)]), plain, "{kind}");
        }
        assert_eq!(bound(&[(2, 0, 0), leaf, (10, 1, 0)]), modality, "{kind}");
        assert_eq!(bound(&[(6, 0, 0), leaf, (10, 0, 1)]), plain, "{kind}");
        assert!(!bound(&[leaf, (10, 0, 0)]), "{kind}");
        // Node 1 is the left of two chops, or the left of one and the right of the other.
        let two = |last| bound(&[(2, 0, 0), leaf, (10, 1, 0), last, (9, 2, 3)]);
        assert_eq!(two((10, 1, 2)), modality, "{kind}");
        assert!(!two((10, 1, 1)) && !two((10, 0, 1)), "{kind}");
    }
}

/// A chop, an or and a binder on the left, as kinds that are no leaves.
#[test]
fn other_lefts() {
    let chop = [(6, 0, 0), (2, 0, 0), (10, 0, 1)];
    for left in [(10, 0, 1), (8, 1, 1), (9, 1, 1), (11, 0, 1), (12, 0, 1)] {
        assert!(!is_judged(&[&chop[..], &[left, (10, 3, 2)]].concat()));
        assert!(is_judged(&[&chop[..], &[left, (8, 3, 2)]].concat()));
    }
}

/// Rules grown from the leaves up are mostly outside, and those of up to three nodes often inside.
#[test]
fn any_rules() {
    let mut rng = Rng::new(1_200);
    let mut judged = [0; 2];
    for i in 0..1_500 {
        let small = |case: &Case| i % 2 == 0 || case.nodes.len() <= 6;
        let drawn = generate::case_where(&mut rng, Limits::WIDEST, small);
        let file = padding::file(&mut rng, &drawn);
        let soon = differential::measure::nesting(&drawn) <= 2;
        let bytes = if soon { 64 * 64 } else { 0 };
        let reply = compare(&file, bytes, SET_BYTES);
        judged[usize::from(reply.is_ok())] += 1;
    }
    assert!(judged[0] >= 500 && judged[1] >= 100, "{judged:?}");
}
