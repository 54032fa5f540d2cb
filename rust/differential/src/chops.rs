//! Rules in which the laws find much to rewrite: nested chops, unions and intersections.
use crate::groups;
use crate::rng::Rng;
use plain::kinds::{AND, CHOP, MU, NU, OR};
use plain::{Case, Triple};

/// The leaves: node 4 is the variable that the root binds.
const LEAVES: [Triple; 8] = [
    (5, 0, 0),
    (2, 0, 0),
    (3, 1, 0),
    (0, 0, 0),
    (4, 0, 0),
    (6, 0, 0),
    (7, 1, 0),
    (6, 1, 0),
];

/// The case with a rule of so many nodes at most: a binder over nodes that name two each, and
/// nodes with groups between them.
pub fn put_into(rng: &mut Rng, case: Case, most: usize) -> Case {
    let mut nodes = LEAVES.to_vec();
    let count = rng.within(LEAVES.len() + 1..=most - 1);
    while nodes.len() < count {
        // Leaves among the others, so that a law puts nodes in before and behind them.
        if nodes.len() + 1 < count && rng.one_in(4) {
            nodes.push(groups::node(rng));
        }
        let kind = rng.pick(&[OR, AND, CHOP, CHOP]);
        let (left, right) = (named(rng, nodes.len()), named(rng, nodes.len()));
        nodes.push((kind, left, right));
    }
    nodes.push((rng.pick(&[MU, NU]), 0, nodes.len() as u8 - 1));
    Case {
        root: nodes.len() as u8 - 1,
        nodes,
        ..case
    }
}

/// One of the latest, so that shapes nest, or a leaf.
fn named(rng: &mut Rng, count: usize) -> u8 {
    if rng.one_in(2) {
        return rng.byte_below(LEAVES.len());
    }
    rng.within(count - 3..=count - 1) as u8
}
