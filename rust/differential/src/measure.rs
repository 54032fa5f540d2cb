//! How large a rule is to the plain checker's meanings, and what is in it.
use crate::groups::has_group;
use plain::kinds::{BOX, COMPLEMENT, DIAMOND, GROUP_BOX, GROUP_DIAMOND, PROPOSITION};
use plain::{Case, Shape, Triple};

/// The binders on one path down from the root, at most.
pub fn nesting(case: &Case) -> usize {
    fold(case, |_| 0, usize::max, |body| 1 + body)
}

/// The nodes of the rule's tree, a binder's body counted `turns` times.
pub fn tree_size(case: &Case, turns: usize) -> usize {
    let two = |left: usize, right| left.saturating_add(right).saturating_add(1);
    let binder = |body: usize| body.saturating_add(1).saturating_mul(turns);
    fold(case, |_| 1, two, binder)
}

/// Whether the root reaches a node with a group.
pub fn reaches_group(case: &Case) -> bool {
    fold(case, |leaf| has_group(leaf).into(), usize::max, |body| body) > 0
}

/// The propositions and the actions that the rule looks at: bit i for number i. From the leaves up, where
/// the plain checker walks down from the root, so that tests do not rest on that walk alone.
pub fn looked_at(case: &Case) -> (u8, u8) {
    let leaf = |(kind, a, _)| match kind {
        PROPOSITION | COMPLEMENT => 1_usize << a,
        DIAMOND | BOX => 256_usize << a,
        GROUP_DIAMOND | GROUP_BOX => usize::from(a) << 8,
        _ => 0,
    };
    let both = fold(case, leaf, |left, right| left | right, |body| body);
    (both as u8, (both >> 8) as u8)
}

/// The root's measure: a leaf's is given, any other node's made from those of the nodes it names.
fn fold(
    case: &Case,
    leaf: impl Fn(Triple) -> usize,
    two: impl Fn(usize, usize) -> usize,
    binder: impl Fn(usize) -> usize,
) -> usize {
    let mut measures: Vec<usize> = vec![];
    for &node in &case.nodes {
        let measure = match Shape::of(node) {
            Shape::Leaf => leaf(node),
            Shape::Two(left, right) => two(measures[left], measures[right]),
            Shape::Binder(_, body) => binder(measures[body]),
        };
        measures.push(measure);
    }
    measures[usize::from(case.root)]
}
