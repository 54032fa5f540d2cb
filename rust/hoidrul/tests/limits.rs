//! The limits that the constants tell, by the replies at each and beyond it.
mod common;

use common::{file, Triple};
use hoidrul::{
    KindTable, Reason, Refusal, KINDS, LABELS, LONGEST, MOST_ACTIONS, MOST_LAWS, MOST_NODES,
    MOST_PADDING, MOST_PROPOSITIONS, MOST_STATES, MOST_VARIABLES, REGULAR_LONGEST,
    REGULAR_MOST_STATES, REGULAR_NODE_BYTES, REGULAR_SET_BYTES,
};

const TAU: Triple = [5, 0, 0];
const TT: Triple = [0, 0, 0];

/// The file of so much is a case, and with one more it is refused for this reason.
fn ends_at(most: usize, reason: Reason, file: impl Fn(u8) -> Vec<u8>) {
    let vet = |size: usize| hoidrul::vet(&file(size as u8), LABELS);
    assert!(vet(most).is_ok());
    assert_eq!(vet(most + 1).map_err(|refusal| refusal.reason), Err(reason));
}

/// One state with these steps and nodes.
fn one(steps: &[Triple], nodes: &[Triple]) -> Vec<u8> {
    file(&[0], steps, nodes, &[], 0)
}

#[test]
fn of_a_case() {
    ends_at(MOST_STATES, Reason::Labels, |n| {
        file(&vec![0; n.into()], &[], &[TAU], &[], 0)
    });
    ends_at(MOST_NODES, Reason::Rule, |m| one(&[], &vec![TAU; m.into()]));
    ends_at(MOST_ACTIONS, Reason::Steps, |count| {
        one(&[[0, count - 1, 0]], &[TAU])
    });
    ends_at(MOST_ACTIONS, Reason::Node, |count| {
        one(&[], &[[6, count - 1, 0]])
    });
    ends_at(MOST_PROPOSITIONS, Reason::Node, |count| {
        one(&[], &[[2, count - 1, 0]])
    });
    ends_at(MOST_VARIABLES, Reason::Node, |count| {
        one(&[], &[TAU, [11, count - 1, 0]])
    });
    ends_at(KINDS, Reason::Node, |count| {
        one(&[], &[TAU, [count - 1, 0, 0]])
    });
    ends_at(MOST_PADDING, Reason::Pairs, |gap| {
        file(&[0], &[], &[TAU], &[0], gap.into())
    });
}

/// A table of so many bytes, and one of one more or less; its file has kinds below that number only.
#[test]
fn of_tables_of_kinds() {
    let bytes: Vec<u8> = (0..=KINDS as u8).collect();
    assert_eq!(KindTable::new(&bytes[..KINDS]), Ok(KindTable::IDENTITY));
    for length in [0, KINDS - 1, KINDS + 1] {
        let refusal = KindTable::new(&bytes[..length]).unwrap_err();
        assert_eq!((refusal.reason, refusal.place), (Reason::Table, 0));
    }
    let turned: Vec<u8> = (0..KINDS as u8).rev().collect();
    let vet = |byte| hoidrul::vet_kinds(&turned, &one(&[], &[[9, 0, 0], [byte, 0, 0]]));
    let counts = vet(KINDS as u8 - 1).unwrap();
    assert_eq!((counts.states, counts.nodes, counts.words()), (1, 2, 8));
    let refusal = vet(KINDS as u8).unwrap_err();
    assert_eq!((refusal.reason, refusal.place), (Reason::Node, 1));
}

/// A head of 16 bytes, all labels, all steps, all nodes and the root, all start states, three gaps.
#[test]
fn of_a_file() {
    let steps = 3 * MOST_STATES * MOST_ACTIONS * MOST_STATES;
    let sections = MOST_STATES + steps + 3 * MOST_NODES + 1 + MOST_STATES;
    assert_eq!(LONGEST, 16 + sections + 3 * MOST_PADDING);
}

/// Of the rule tt, as its count of states.
fn regular(labels: usize, steps: &[Triple], starts: &[u8]) -> Result<usize, Reason> {
    let file = file(&vec![0; labels], steps, &[TT], starts, 0);
    let reply = hoidrul::regular(&file, &mut [0; REGULAR_NODE_BYTES]);
    reply
        .map(|verdict| verdict.count)
        .map_err(|refusal| refusal.reason)
}

#[test]
fn of_regular_rules() {
    const MOST: usize = REGULAR_MOST_STATES;
    assert_eq!(regular(MOST, &[[255, 7, 255]], &[255]), Ok(MOST));
    assert_eq!(regular(MOST + 1, &[], &[]), Err(Reason::Labels));
    let room = REGULAR_LONGEST - 16 - MOST - 4;
    assert!(room.is_multiple_of(3));
    let step = |i: usize| [(i / 2048) as u8, (i / 256 % 8) as u8, (i % 256) as u8];
    let steps = Vec::from_iter((0..room / 3).map(step));
    assert_eq!(regular(MOST, &steps, &[]), Ok(MOST));
    assert_eq!(regular(MOST, &steps, &[0]), Err(Reason::Pairs));
}

#[test]
fn of_areas_for_regular_rules() {
    for nodes in [1, 2, MOST_NODES] {
        let file = one(&[], &vec![TT; nodes]);
        let needed = REGULAR_NODE_BYTES * nodes;
        assert_eq!(hoidrul::regular_work_area(&file), Ok(needed));
        let reply = |bytes, room| {
            let (work, out) = (&mut vec![0; bytes][..], &mut vec![0; room][..]);
            hoidrul::regular_into(&file, work, out).map_err(|refusal| refusal.reason)
        };
        assert_eq!(reply(needed, REGULAR_SET_BYTES), Ok(REGULAR_SET_BYTES));
        assert_eq!(reply(needed, REGULAR_SET_BYTES - 1), Err(Reason::Room));
        assert_eq!(reply(needed - 1, REGULAR_SET_BYTES), Err(Reason::Work));
    }
}

/// Each law fits some node of this rule, and no law of another number does.
#[test]
fn of_laws() {
    let nodes = [
        TAU,
        TT,
        [10, 0, 1], // law 1
        [10, 1, 0], // laws 2 and 3
        [10, 2, 1], // law 4
        [10, 1, 2], // law 5
        [8, 0, 1],
        [10, 6, 1], // law 6
        [9, 0, 1],
        [10, 8, 1], // law 7
        [8, 1, 1],  // laws 8 and 9
    ];
    let file = one(&[], &nodes);
    let mut out = [0; LONGEST];
    let mut fits = |law| {
        (0..nodes.len()).any(|node| {
            let reply = hoidrul::rewrite(&file, law, node, &mut out);
            assert!(reply.is_ok() || reply.map_err(Refusal::number) == Err(11));
            reply.is_ok()
        })
    };
    for law in 0..=MOST_LAWS + 3 {
        assert_eq!(fits(law), (1..=MOST_LAWS).contains(&law), "{law}");
    }
    assert!(!fits(usize::MAX));
}
