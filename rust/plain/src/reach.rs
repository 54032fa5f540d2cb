//! Which nodes the root reaches (docs/SPECIFICATION.md, 1.11).
use crate::case::Case;
use crate::node::Shape;
use std::collections::BTreeSet;

/// The root, what it names, what that names and so on: each node is walked once, however often it is
/// named.
pub fn reached(case: &Case) -> BTreeSet<usize> {
    let mut seen = BTreeSet::new();
    let mut waiting = vec![usize::from(case.root)];
    while let Some(number) = waiting.pop() {
        if seen.insert(number) {
            waiting.extend(Shape::of(case.nodes[number]).named());
        }
    }
    seen
}
