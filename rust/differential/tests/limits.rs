//! The last value that passes and the first that does not, by both checkers.
use differential::drives::{longest, starting_in};
use differential::padding::{write_padded, PACKED, WIDEST};
use differential::replies::refused;
use differential::tally::{compare, Reply};
use plain::{pack, write, Case, Limits, Triple};

fn vetted(states: usize, steps: &[Triple], nodes: &[Triple]) -> Reply {
    let case = Case {
        labels: vec![255; states],
        steps: steps.to_vec(),
        nodes: nodes.to_vec(),
        root: 0,
        starts: vec![],
    };
    compare(&write(&case), 0)
}

const TT: Triple = (0, 0, 0);

#[test]
fn states() {
    assert_eq!(vetted(0, &[], &[TT]), refused(2, 0));
    assert_eq!(vetted(1, &[], &[TT]), Ok((1, 1)));
    assert_eq!(vetted(16, &[(15, 0, 15)], &[TT]), Ok((16, 1)));
    assert_eq!(vetted(16, &[(15, 0, 16)], &[TT]), refused(3, 0));
    assert_eq!(vetted(16, &[(16, 0, 15)], &[TT]), refused(3, 0));
    assert_eq!(vetted(17, &[], &[TT]), refused(2, 0));
}

#[test]
fn actions() {
    assert_eq!(vetted(1, &[(0, 7, 0)], &[TT]), Ok((1, 1)));
    assert_eq!(vetted(1, &[(0, 8, 0)], &[TT]), refused(3, 0));
}

#[test]
fn node_counts() {
    assert_eq!(vetted(1, &[], &[]), refused(4, 0));
    assert_eq!(vetted(1, &[], &[TT; 64]), Ok((1, 64)));
    assert_eq!(vetted(1, &[], &[TT; 65]), refused(4, 0));
}

/// For each kind but 13 and 14 the highest A and B of node 1, and those just above.
#[test]
fn node_bytes() {
    let highest = [
        (0, 0, 0),
        (1, 0, 0),
        (2, 7, 0),
        (3, 7, 0),
        (4, 15, 0),
        (5, 0, 0),
        (6, 7, 0),
        (7, 7, 0),
        (8, 0, 0),
        (9, 0, 0),
        (10, 0, 0),
        (11, 15, 0),
        (12, 15, 0),
    ];
    for (kind, a, b) in highest {
        assert_eq!(vetted(1, &[], &[TT, (kind, a, b)]), Ok((1, 2)));
        assert_eq!(vetted(1, &[], &[TT, (kind, a + 1, b)]), refused(5, 1));
        assert_eq!(vetted(1, &[], &[TT, (kind, a, b + 1)]), refused(5, 1));
        assert_eq!(vetted(1, &[], &[TT, (kind, 255, b)]), refused(5, 1));
        assert_eq!(vetted(1, &[], &[TT, (kind, a, 255)]), refused(5, 1));
    }
    for kind in [15, 16, 255] {
        assert_eq!(vetted(1, &[], &[TT, (kind, 0, 0)]), refused(5, 1));
    }
}

/// A group can be any byte, and B is 0. It is no variable, which would be free in the root.
#[test]
fn groups() {
    for kind in [13, 14] {
        for group in 0..=255 {
            assert_eq!(vetted(1, &[], &[(kind, group, 0)]), Ok((1, 1)));
            for b in [1, 2, 128, 255] {
                assert_eq!(vetted(1, &[], &[(kind, group, b)]), refused(5, 0));
                assert_eq!(vetted(1, &[], &[TT, (kind, group, b)]), refused(5, 1));
            }
        }
    }
    for group in 0..=255 {
        assert_eq!(vetted(1, &[], &[(15, group, 0)]), refused(5, 0));
    }
}

/// Every variable has a binder and is bound.
#[test]
fn variables() {
    let mut nodes: Vec<Triple> = (0..16).map(|variable| (4, variable, 0)).collect();
    nodes.extend((0..15).map(|i| (8, if i == 0 { 0 } else { 15 + i }, i + 1)));
    nodes.extend((0..16).map(|i| (11 + i % 2, i, 30 + i)));
    let mut case = Case {
        labels: vec![0],
        steps: vec![],
        nodes,
        root: 46,
        starts: vec![],
    };
    assert_eq!(compare(&write(&case), 2), Ok((1, 47)));
    for root in 0..46 {
        case.root = root;
        assert_eq!(compare(&write(&case), 2), refused(7, 0));
    }
}

#[test]
fn file_lengths() {
    let mut case = longest(Limits::CASE);
    for (gaps, length) in [(PACKED, 6385), (WIDEST, 6394)] {
        let file = write_padded(&case, gaps);
        assert_eq!(file.len(), length);
        for section in 0..4 {
            assert_eq!(compare(&file, section), Ok((16, 64)));
        }
        assert_eq!(compare(&file[..length - 1], 0), refused(1, 0));
        let longer = [&file[..], &[0]].concat();
        assert_eq!(compare(&longer, 0), refused(1, 0));
    }

    // Right pairs: row 1 refuses only the file that is too long, row 2 the others.
    case.labels.push(0);
    for (gaps, length, row) in [(PACKED, 6386, 2), ([3, 3, 2], 6394, 2), (WIDEST, 6395, 1)] {
        let file = write_padded(&case, gaps);
        assert_eq!(file.len(), length);
        assert_eq!(compare(&file, 0), refused(row, 0), "{length}");
    }
}

/// A start state more is one that the table does not have: it gets row 4, and row 1 in a file that
/// it makes too long.
#[test]
fn start_states() {
    let longest = longest(Limits::CASE);
    let mut short = longest.clone();
    short.steps.clear();
    for count in 0..=17 {
        let starts = Vec::from_iter(0..count);
        let reply = if count < 17 {
            Ok((16, 64))
        } else {
            refused(4, 0)
        };
        let file = write(&starting_in(&starts, short.clone()));
        assert_eq!(compare(&file, 3), reply, "{count} start states");
    }
    let case = starting_in(&Vec::from_iter(0..17), longest);
    for (gaps, length, row) in [([3, 3, 2], 6394, 4), (WIDEST, 6395, 1)] {
        let file = write_padded(&case, gaps);
        assert_eq!(file.len(), length);
        assert_eq!(compare(&file, 3), refused(row, 0), "{length}");
    }
}

/// A state of the table, and those beyond it, as the only start state and as the last.
#[test]
fn highest_start_state() {
    for states in 1..=16 {
        let with = |starts: &[u8]| {
            let case = Case {
                labels: vec![0; states.into()],
                steps: vec![],
                nodes: vec![TT],
                root: 0,
                starts: starts.to_vec(),
            };
            compare(&write(&case), 3)
        };
        assert_eq!(with(&[states - 1]), Ok((states.into(), 1)));
        for beyond in [states, states + 1, 16, 128, 255] {
            assert_eq!(with(&[beyond]), refused(4, 0), "{beyond} of {states}");
            assert_eq!(with(&[0, beyond]), refused(4, 0), "{beyond} of {states}");
        }
    }
}

/// Zeros, and right pairs over nothing but labels, of every length near a border.
#[test]
fn lengths_near_the_borders() {
    let near = || (16..=40).chain(6370..=6400).chain(65_520..=65_535);
    for length in (0..16).chain(near()) {
        assert_eq!(compare(&vec![0; length], 0), refused(1, 0), "{length}");
    }
    for length in near() {
        let row = match length {
            17..=32 => 4,
            16..=6394 => 2,
            _ => 1,
        };
        let file = pack(&[&vec![0; length - 16], &[], &[], &[]]);
        assert_eq!(compare(&file, 0), refused(row, 0), "{length}");
    }
}

#[test]
fn the_last_triple_is_looked_at() {
    let mut case = longest(Limits::CASE);
    case.steps[2047].1 = 8;
    assert_eq!(compare(&write(&case), 0), refused(3, 2047));
}

/// Each node names the one below twice: 2^63 paths, but 64 nodes.
#[test]
fn shared_nodes_are_looked_at_once() {
    for (bottom, reply) in [(TT, Ok((1, 64))), ((4, 9, 0), refused(7, 0))] {
        let mut nodes = vec![bottom];
        nodes.extend((0..63).map(|below| (8 + below % 3, below, below)));
        let case = Case {
            labels: vec![0],
            steps: vec![],
            nodes,
            root: 63,
            starts: vec![],
        };
        assert_eq!(compare(&write(&case), 2), reply);
    }
}
