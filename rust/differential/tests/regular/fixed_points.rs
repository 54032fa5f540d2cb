//! Fixed points whose sets are known beforehand: many rounds, and binders within binders.
use differential::drives;
use differential::padding::write_padded;
use differential::regular::{compare, expect, needed, SET_BYTES};
use differential::rng::Rng;
use plain::{Case, Triple};

/// The bytes of the set of these states.
fn bytes(states: impl IntoIterator<Item = usize>) -> Vec<u8> {
    let mut bytes = vec![0; SET_BYTES];
    for state in states {
        bytes[state / 8] |= 1 << (state % 8);
    }
    bytes
}

/// Both checkers answer with these states.
fn expect_states(case: &Case, states: impl IntoIterator<Item = usize>) {
    let file = write_padded(case, [case.nodes.len() % 4, 0, 3]);
    let set = compare(&file, needed(&file), SET_BYTES);
    assert_eq!(set, Ok(bytes(states)), "{case:?}");
}

/// The steps by action 0 of a table in which each state has one, or none at its end.
fn steps(next: &[Option<usize>]) -> Vec<Triple> {
    let step = |(from, to): (usize, &Option<usize>)| to.map(|to| (from as u8, 0, to as u8));
    next.iter().enumerate().filter_map(step).collect()
}

/// A row of so many states; from the last a step leads to `back`.
fn row(states: usize, back: Option<usize>) -> Vec<Triple> {
    let mut next = Vec::from_iter((1..states).map(Some));
    next.push(back);
    steps(&next)
}

/// Proposition 0 of one state.
fn labels(states: usize, labelled: usize) -> Vec<u8> {
    (0..states)
        .map(|state| u8::from(state == labelled))
        .collect()
}

const SIZES: [usize; 5] = [2, 17, 100, 255, 256];

/// The four forms of the modality for a state with one step, by action 0, or for one without.
const SOME: [Triple; 2] = [(6, 0, 0), (13, 0b101, 0)];
const ALL: [Triple; 2] = [(7, 0, 0), (14, 0b101, 0)];

/// μZ.p0 or ⟨0⟩;Z: the states before the one with p0, a round for each. With [0] the last state, which
/// has no step, is one more to begin with.
#[test]
fn steps_that_lead_there() {
    for states in SIZES {
        for labelled in [0, states / 2, states - 1] {
            let with = |modality| {
                let body = [(2, 0, 0), (4, 0, 0), modality, (10, 2, 1), (8, 0, 3)];
                let nodes = [&body[..], &[(11, 0, 4)]].concat();
                drives::case(&labels(states, labelled), &row(states, None), &nodes)
            };
            for modality in SOME {
                expect_states(&with(modality), 0..=labelled);
            }
            for modality in ALL {
                expect_states(&with(modality), 0..states);
            }
        }
    }
}

/// νZ.not p0 and [0];Z: the states behind the one with p0. With ⟨0⟩ there has to be a way without end.
#[test]
fn steps_that_never_lead_there() {
    for states in SIZES {
        for labelled in [0, states / 2, states - 1] {
            let with = |modality, back| {
                let body = [(3, 0, 0), (4, 0, 0), modality, (10, 2, 1), (9, 0, 3)];
                let nodes = [&body[..], &[(12, 0, 4)]].concat();
                drives::case(&labels(states, labelled), &row(states, back), &nodes)
            };
            for (some, all) in SOME.into_iter().zip(ALL) {
                expect_states(&with(all, None), labelled + 1..states);
                expect_states(&with(some, None), []);
                let turns = labelled + 1 < states;
                for modality in [some, all] {
                    let back = with(modality, Some(states - 1));
                    expect_states(&back, if turns { labelled + 1..states } else { 0..0 });
                    expect_states(&with(modality, Some(0)), []);
                }
            }
        }
    }
}

/// Binders of one kind within each other: μX.μY.p0 or ⟨0⟩;X or ⟨1⟩;Y on a row whose actions take turns
/// after so many steps.
#[test]
fn two_of_one_kind() {
    for (states, turn) in [(17, 1), (64, 3), (256, 16), (256, 1)] {
        let mut steps = row(states, None);
        for (at, step) in steps.iter_mut().enumerate() {
            step.1 = (at / turn % 2) as u8;
        }
        for (outer, inner) in [(0, 1), (1, 0)] {
            let mut nodes = vec![
                (2, 0, 0),
                (4, 0, 0),
                (4, 1, 0),
                (6, outer, 0),
                (6, inner, 0),
            ];
            nodes.extend([(10, 3, 1), (10, 4, 2), (8, 0, 5), (8, 7, 6)]);
            nodes.extend([(11, 1, 8), (11, 0, 9)]);
            let least = drives::case(&labels(states, states - 2), &steps, &nodes);
            expect_states(&least, 0..states - 1);
            // The other way round: what holds of the row is not p0 for ever, whatever the action.
            for node in &mut nodes {
                node.0 = match node.0 {
                    2 => 3,
                    6 => 7,
                    8 => 9,
                    11 => 12,
                    kind => kind,
                };
            }
            let greatest = drives::case(&labels(states, states - 2), &steps, &nodes);
            expect_states(&greatest, [states - 1]);
        }
    }
}

/// Binders of X0, X1 and so on, X0's the innermost, whose kinds take turns, over (p0 and M;X0) or
/// (p1 and M;X1) or .., each M a modality. The innermost is a μ if `innermost` is 0.
fn parity(rng: &mut Rng, innermost: u8, levels: u8) -> Vec<Triple> {
    let mut nodes: Vec<Triple> = vec![(1, 0, 0)];
    for i in 0..levels {
        let below = nodes.len() as u8 - 1;
        let first = below + 1;
        let modality = rng.pick(&[SOME, ALL].concat());
        nodes.extend([(2, i, 0), (4, i, 0), modality, (10, first + 2, first + 1)]);
        nodes.extend([(9, first, first + 3), (8, below, first + 4)]);
    }
    for i in 0..levels {
        let body = nodes.len() as u8 - 1;
        nodes.push((11 + (innermost + i) % 2, i, body));
    }
    nodes
}

/// Where that rule holds if each state has one step and one number, its proposition: the greatest
/// number that comes up without end is that of a ν.
fn holding(next: &[usize], numbers: &[u8], innermost: u8) -> Vec<usize> {
    let after = |state, steps| (0..steps).fold(state, |state, _| next[state]);
    let holds = |&state: &usize| {
        let turning = after(state, next.len());
        let turn = (0..next.len()).map(|steps| numbers[after(turning, steps)]);
        turn.max().is_some_and(|most| (innermost + most) % 2 == 1)
    };
    (0..next.len()).filter(holds).collect()
}

/// Random tables of one step a state, with a number for each.
fn parities(seed: u64, states: usize, levels: u8, count: usize) {
    let mut rng = Rng::new(seed);
    let mut proper = 0;
    for i in 0..count {
        let innermost = (i % 2) as u8;
        // Mostly to a state nearby, so that there are several turns and long ways.
        let reach = rng.pick(&[2, 8, states]);
        let next = Vec::from_iter((0..states).map(|s| (s + rng.below(reach)) % states));
        let numbers = Vec::from_iter((0..states).map(|_| rng.byte_below(levels.into())));
        let labels = Vec::from_iter(numbers.iter().map(|number| 1 << number));
        let nodes = parity(&mut rng, innermost, levels);
        let case = drives::case(
            &labels,
            &steps(&Vec::from_iter(next.iter().map(|&s| Some(s)))),
            &nodes,
        );
        let holding = holding(&next, &numbers, innermost);
        proper += usize::from((1..states).contains(&holding.len()));
        let file = write_padded(&case, [0; 3]);
        let expected = Ok(bytes(holding));
        let _ = expect(&file, needed(&file), SET_BYTES, expected.clone());
        if levels <= 2 || states <= 20 {
            assert_eq!(plain::regular(&file, needed(&file), SET_BYTES), expected);
        }
    }
    assert!(4 * proper >= count, "{proper} of {count}");
}

/// Kinds take turns, so that inner binders have to begin anew.
#[test]
fn taking_turns() {
    for (states, levels, count) in [
        (5, 3, 100),
        (10, 4, 50),
        (20, 3, 50),
        (64, 3, 20),
        (100, 2, 50),
        (256, 2, 50),
        (256, 3, 10),
    ] {
        parities(3_000 + states as u64, states, levels, count);
    }
}

/// Each node names the one below twice: some 2^60 paths, but 64 nodes. The set is that of one.
#[test]
fn shared_nodes() {
    for kind in [8, 9] {
        let mut nodes = vec![(6, 0, 0), (4, 0, 0), (2, 0, 0), (10, 0, 1), (8, 2, 3)];
        nodes.extend((4..62).map(|below| (kind, below, below)));
        nodes.push((11, 0, 62));
        let case = drives::case(&labels(256, 255), &row(256, None), &nodes);
        expect_states(&case, 0..256);
        let case = drives::case(&labels(256, 100), &row(256, None), &nodes);
        expect_states(&case, 0..=100);
    }
}

/// 60 chops within each other, once and under a binder: as many steps forth, and any multiple of it.
#[test]
fn chops_within_chops() {
    let mut nodes = vec![(6, 0, 0), (2, 0, 0), (10, 0, 1)];
    nodes.extend((2..61).map(|below| (10, 0, below)));
    let case = |nodes: &[Triple]| drives::case(&labels(256, 250), &row(256, None), nodes);
    expect_states(&case(&nodes), [250 - 60]);
    nodes[1] = (4, 0, 0);
    nodes[61] = (2, 0, 0);
    nodes.extend([(8, 60, 61), (11, 0, 62)]);
    expect_states(&case(&nodes), (0..=250).filter(|s| (250 - s) % 59 == 0));
}
