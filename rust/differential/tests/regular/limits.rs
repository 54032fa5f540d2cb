//! The last value that passes and the first that does not; which refusal comes first.
use differential::drives::{self, longest, starting_in};
use differential::f_changed::refused_files;
use differential::generate::step;
use differential::padding::{write_padded, PACKED, WIDEST};
use differential::regular::{compare, needed, Written, SET_BYTES};
use differential::replies::refused;
use differential::tally;
use plain::{write, Case, Limits, Triple, MOST_NODES};

const TT: Triple = (0, 0, 0);
const TAU: Triple = (5, 0, 0);

/// A case without labels.
fn case(states: usize, steps: &[Triple], nodes: &[Triple]) -> Case {
    drives::case(&vec![0; states], steps, nodes)
}

/// With areas that are just large enough.
fn judged(case: &Case) -> Written {
    compare(&write(case), 64 * case.nodes.len(), SET_BYTES)
}

/// The bytes of the set of these states.
fn set_of(states: impl IntoIterator<Item = usize>) -> Written {
    let mut bytes = vec![0; SET_BYTES];
    for state in states {
        bytes[state / 8] += 1 << (state % 8);
    }
    Ok(bytes)
}

/// All states, and none past them.
#[test]
fn states() {
    assert_eq!(judged(&case(0, &[], &[TT])), refused(2, 0));
    for states in 1..=256 {
        let tt = case(states, &[], &[TT]);
        assert_eq!(judged(&tt), set_of(0..states), "{states}");
        let of = |nodes: &[Triple]| judged(&case(states, &[], nodes));
        assert_eq!(of(&[(3, 7, 0)]), set_of(0..states), "{states}");
        let no_step = [(14, 255, 0), (1, 0, 0), (10, 0, 1)];
        assert_eq!(of(&no_step), set_of(0..states), "{states}");
        assert_eq!(of(&[(1, 0, 0)]), set_of([]), "{states}");
        let by_the_others = tally::compare(&write(&tt), 0);
        assert_eq!(by_the_others.is_ok(), states <= 16);
    }
    for states in [257, 258, 272, 512] {
        assert_eq!(judged(&case(states, &[], &[TT])), refused(2, 0));
    }
}

/// Of each state by itself: its label, a step that leads to it and the one that it has.
#[test]
fn each_state() {
    for states in [17, 255, 256] {
        for state in 0..states {
            let mut labels = vec![0b1111_1110; states];
            labels[state] = 1;
            let other = (state + 100) % states;
            let to = [(state as u8, 3, other as u8)];
            let label = drives::case(&labels, &to, &[(2, 0, 0)]);
            assert_eq!(judged(&label), set_of([state]));
            let has_step = [(6, 3, 0), TT, (10, 0, 1)];
            assert_eq!(judged(&case(states, &to, &has_step)), set_of([state]));
            let leads_there = [(13, 0b1000, 0), (2, 0, 0), (10, 0, 1)];
            let back = [(other as u8, 3, state as u8)];
            let there = drives::case(&labels, &back, &leads_there);
            assert_eq!(judged(&there), set_of([other]));
        }
    }
}

#[test]
fn steps_and_start_states() {
    let with = |states: usize, step, start| {
        let case = starting_in(&[start], case(states, &[step], &[TT]));
        judged(&case).map(|_| ())
    };
    for states in [17, 255] {
        let next = states as u8;
        assert_eq!(with(states, (next - 1, 7, next - 1), next - 1), Ok(()));
        assert_eq!(with(states, (next, 0, 0), 0), refused(3, 0));
        assert_eq!(with(states, (0, 0, next), 0), refused(3, 0));
        assert_eq!(with(states, (0, 8, 0), 0), refused(3, 0));
        assert_eq!(with(states, (0, 0, 0), next), refused(4, 0));
    }
    assert_eq!(with(256, (255, 7, 255), 255), Ok(()));
    assert_eq!(with(256, (255, 8, 255), 255), refused(3, 0));
    let all = Vec::from_iter(0..=255);
    let start = |starts: &[u8]| judged(&starting_in(starts, case(256, &[], &[TT])));
    assert_eq!(start(&all), set_of(0..256));
    assert_eq!(start(&[&all[..], &[255]].concat()), refused(4, 0));
    assert_eq!(start(&[255, 0]), refused(4, 0));
}

/// 65,535 bytes: 16 of pairs, 256 labels, 21,606 steps, 64 nodes and the root, 252 start states.
fn of_65_535_bytes() -> Case {
    let steps = Vec::from_iter((0..21_606).map(|i| step(i, 256)));
    let starts = Vec::from_iter(0..252);
    starting_in(&starts, case(256, &steps, &[TT; MOST_NODES]))
}

#[test]
fn file_lengths() {
    let mut case = of_65_535_bytes();
    assert_eq!(write(&case).len(), 65_535);
    assert_eq!(judged(&case), set_of(0..256));
    let refused_by = |file: &[u8], row| assert_eq!(compare(file, 4096, SET_BYTES), refused(row, 0));
    refused_by(&write(&case)[..65_534], 1);
    refused_by(&[&write(&case)[..], &[0]].concat(), 1);
    case.starts.push(252);
    assert_eq!(write(&case).len(), 65_536);
    refused_by(&write(&case), 1);
    // As long with nine bytes of padding in place of start states.
    case.starts.truncate(243);
    let padded = write_padded(&case, WIDEST);
    assert_eq!(padded.len(), 65_535);
    assert_eq!(compare(&padded, 4096, SET_BYTES), set_of(0..256));
    case.starts.push(243);
    refused_by(&write_padded(&case, WIDEST), 1);
    for gaps in [PACKED, WIDEST] {
        let file = write_padded(&longest(Limits::WIDEST), gaps);
        assert_eq!(compare(&file, 4096, SET_BYTES), set_of(0..256));
    }
}

/// Each wrong step of a long table is found at its place, the lowest of several.
#[test]
fn places_of_steps() {
    let steps = Vec::from_iter((0..21_700).map(|i| step(i, 255)));
    let right = case(255, &steps, &[TT]);
    assert_eq!(judged(&right), set_of(0..255));
    for place in [1, 2047, 2048, 2049, 4096, 16_383, 20_000, 21_698, 21_699] {
        let changes: [fn(&mut [Triple], usize); 6] = [
            |steps, place| steps[place].0 = 255,
            |steps, place| steps[place].1 = 8,
            |steps, place| steps[place].2 = 255,
            |steps, place| steps.swap(place - 1, place),
            |steps, place| steps[place] = steps[place - 1],
            |steps, place| steps[place..].fill((0, 9, 0)),
        ];
        for change in changes {
            let mut wrong = right.clone();
            change(&mut wrong.steps, place);
            assert_eq!(judged(&wrong), refused(3, place));
        }
    }
}

/// 64 bytes for each node, reached or not.
#[test]
fn work_areas() {
    for nodes in [1, 2, 3, 10, 63, 64] {
        for root in [0, nodes as u8 - 1] {
            let mut case = case(20, &[], &vec![TT; nodes]);
            case.root = root;
            let file = write(&case);
            assert_eq!(needed(&file), 64 * nodes);
            for bytes in [0, 1, 63, 64 * nodes - 64, 64 * nodes - 1] {
                assert_eq!(compare(&file, bytes, SET_BYTES), refused(9, 0), "{bytes}");
            }
            for bytes in [64 * nodes, 64 * nodes + 1, 64 * nodes + 63, 10_000] {
                assert_eq!(compare(&file, bytes, SET_BYTES), set_of(0..20), "{bytes}");
            }
        }
    }
}

#[test]
fn output_areas() {
    for states in [1, 17, 256] {
        let file = write(&case(states, &[], &[TT]));
        for room in [0, 1, 16, 30, 31] {
            assert_eq!(compare(&file, 64, room), refused(13, 0), "{room}");
        }
        for room in [32, 33, 40, 64, 1000] {
            assert_eq!(compare(&file, 64, room), set_of(0..states), "{room}");
        }
    }
}

/// A call with the faults of several rows gets 1 to 7 first, then 14, then 9, then 13.
#[test]
fn order_of_refusals() {
    let areas = [(64, 32), (63, 32), (0, 32), (64, 31), (63, 31), (0, 0)];
    for (bytes, room) in areas {
        let regular = write(&case(17, &[], &[TT]));
        let reply = compare(&regular, bytes, room);
        let expected = match (bytes, room) {
            (64, 32) => set_of(0..17),
            (64, _) => refused(13, 0),
            _ => refused(9, 0),
        };
        assert_eq!(reply, expected, "{bytes}, {room}");
        for node in [TAU, (6, 0, 0), (7, 7, 0), (13, 0, 0), (14, 255, 0)] {
            let outside = write(&case(17, &[], &[node]));
            assert_eq!(compare(&outside, bytes, room), refused(14, 0));
        }
        // Case F, which has these faults, is not regular either.
        for (file, refusal) in refused_files(Limits::WIDEST) {
            assert_eq!(compare(&file, bytes, room), Err(refusal));
        }
        let too_many = write(&case(257, &[], &[TAU]));
        assert_eq!(compare(&too_many, bytes, room), refused(2, 0));
    }
}
