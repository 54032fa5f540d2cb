//! Regular rules changed at one place, so that they are no longer regular, or still are.
use crate::generate::leaf;
use crate::groups;
use crate::rng::Rng;
use plain::kinds::{AND, BOX, CHOP, DIAMOND, MU, NU, OR, TAU, VARIABLE};
use plain::{reached, Case, Shape, Triple, MOST_NODES};

/// A change of a case with a regular rule and room for some nodes more.
pub type Change = fn(&mut Rng, &mut Case);

/// So many nodes a change puts in at most.
const ROOM: usize = 8;

/// What makes a rule no longer regular: each clause of the profile, at each sort of place.
pub const OUTSIDE: [(&str, Change); 9] = [
    ("τ", tau),
    ("a chop with another left node", other_left),
    ("a variable on the left", variable_left),
    ("a modality as the root", |rng, case| {
        alone(rng, case, Place::Root)
    }),
    ("as an operand", |rng, case| {
        alone(rng, case, Place::Operand)
    }),
    ("as a body", |rng, case| alone(rng, case, Place::Body)),
    ("on the right", |rng, case| alone(rng, case, Place::Right)),
    ("on both sides of a chop", both_sides),
    ("on the left, and elsewhere too", also_elsewhere),
];

/// What a rule stays regular by.
pub const INSIDE: [(&str, Change); 3] = [
    ("two chops share a modality", shared),
    ("nodes that nothing names", unnamed),
    ("unreached nodes name reached ones", unreached),
];

/// Where a node can be named.
#[derive(Clone, Copy, PartialEq, Eq)]
enum Place {
    Root,
    Operand,
    Body,
    Left,
    Right,
}

const ELSEWHERE: [Place; 4] = [Place::Root, Place::Operand, Place::Body, Place::Right];

fn tau(rng: &mut Rng, case: &mut Case) {
    let place = rng.pick(&ELSEWHERE);
    put(rng, case, &[(TAU, 0, 0)], place);
}

/// A closed rule of any shape but a modality.
fn other_left(rng: &mut Rng, case: &mut Case) {
    let constant = (rng.byte_below(4), 0, 0);
    let modality = modality(rng);
    let variable = free_variable(case);
    let rules: [&[Triple]; 5] = [
        &[constant],
        &[(TAU, 0, 0)],
        &[modality, constant, (CHOP, 0, 1)],
        &[constant, (OR, 0, 0)],
        &[(VARIABLE, variable, 0), (NU, variable, 0)],
    ];
    let rule = rng.pick(&rules);
    put(rng, case, rule, Place::Left);
}

/// The binder's own variable on the left: μZ.R or Z;R, R being the rule.
fn variable_left(_: &mut Rng, case: &mut Case) {
    let variable = free_variable(case);
    let root = case.root;
    let name = push(case, (VARIABLE, variable, 0));
    let chop = push(case, (CHOP, name, root));
    let body = push(case, (OR, root, chop));
    case.root = push(case, (MU, variable, body));
}

fn alone(rng: &mut Rng, case: &mut Case, place: Place) {
    let modality = modality(rng);
    put(rng, case, &[modality], place);
}

fn both_sides(rng: &mut Rng, case: &mut Case) {
    let chop = namer(rng, case, Place::Left);
    case.nodes[chop].2 = case.nodes[chop].1;
}

fn also_elsewhere(rng: &mut Rng, case: &mut Case) {
    let modality = modality(rng);
    put(rng, case, &[modality], Place::Left);
    let place = rng.pick(&[Place::Operand, Place::Body, Place::Right]);
    name(rng, case, 0, place);
}

fn shared(rng: &mut Rng, case: &mut Case) {
    let modality = modality(rng);
    put(rng, case, &[modality], Place::Left);
    case.root = push(case, (CHOP, 0, case.root));
}

/// Below all others and above them.
fn unnamed(rng: &mut Rng, case: &mut Case) {
    let leaves = [(TAU, 0, 0), modality(rng), leaf(rng)];
    in_front(case, &leaves);
    case.nodes.extend(leaves);
}

/// A modality that is reached on the left only, though other nodes have it elsewhere.
fn unreached(rng: &mut Rng, case: &mut Case) {
    let chop = namer(rng, case, Place::Left);
    let (_, left, _) = case.nodes[chop];
    let variable = free_variable(case);
    for node in [
        (rng.pick(&[OR, AND]), left, case.root),
        (rng.pick(&[MU, NU]), variable, left),
        (CHOP, left, left),
        (CHOP, case.root, left),
    ] {
        push(case, node);
    }
}

/// Puts a closed rule below all nodes and lets one place name it.
fn put(rng: &mut Rng, case: &mut Case, rule: &[Triple], place: Place) {
    in_front(case, rule);
    name(rng, case, rule.len() as u8 - 1, place);
}

/// Lets some place of this sort that the root reaches name the node, which is below all that can.
fn name(rng: &mut Rng, case: &mut Case, node: u8, place: Place) {
    if place == Place::Root {
        case.root = node;
        return;
    }
    let namer = namer(rng, case, place);
    let is_first = place == Place::Left || place == Place::Operand && rng.one_in(2);
    let (_, a, b) = &mut case.nodes[namer];
    *if is_first { a } else { b } = node;
}

/// A reached node that names another at such a place. Where there is none, one is put over the root.
fn namer(rng: &mut Rng, case: &mut Case, place: Place) -> usize {
    let has_place = |&j: &usize| match Shape::of(case.nodes[j]) {
        Shape::Leaf => false,
        Shape::Binder(..) => place == Place::Body,
        Shape::Two(..) if case.nodes[j].0 == CHOP => {
            matches!(place, Place::Left | Place::Right)
        }
        Shape::Two(..) => place == Place::Operand,
    };
    let there = Vec::from_iter(reached(case).into_iter().filter(has_place));
    if !there.is_empty() {
        return rng.pick(&there);
    }
    let root = case.root;
    let over = match place {
        Place::Body => (rng.pick(&[MU, NU]), free_variable(case), root),
        Place::Left | Place::Right => (CHOP, push(case, modality(rng)), root),
        _ => (rng.pick(&[OR, AND]), root, root),
    };
    case.root = push(case, over);
    case.root.into()
}

/// A variable that no node binds.
fn free_variable(case: &Case) -> u8 {
    let bound = |v: &u8| {
        case.nodes
            .iter()
            .any(|&node| Shape::of(node).bound() == Some(*v))
    };
    let free = (0..16).find(|v| !bound(v));
    free.expect("a rule that leaves a variable")
}

fn modality(rng: &mut Rng) -> Triple {
    if rng.one_in(2) {
        groups::node(rng)
    } else {
        (rng.pick(&[DIAMOND, BOX]), rng.byte_below(8), 0)
    }
}

fn push(case: &mut Case, node: Triple) -> u8 {
    case.nodes.push(node);
    case.nodes.len() as u8 - 1
}

/// Puts nodes before all others.
fn in_front(case: &mut Case, nodes: &[Triple]) {
    let by = nodes.len() as u8;
    let later = |&(kind, a, b): &Triple| match Shape::of((kind, a, b)) {
        Shape::Leaf => (kind, a, b),
        Shape::Two(..) => (kind, a + by, b + by),
        Shape::Binder(..) => (kind, a, b + by),
    };
    let later = case.nodes.iter().map(later);
    case.nodes = nodes.iter().copied().chain(later).collect();
    case.root += by;
}

/// Whether a change finds room in the case: for its nodes, and for a variable of its own.
pub fn has_room(case: &Case) -> bool {
    let bound = case
        .nodes
        .iter()
        .filter_map(|&node| Shape::of(node).bound());
    case.nodes.len() + ROOM <= MOST_NODES && bound.count() < 15
}
