//! Which rules are regular (request 2026-06), by the kinds of the nodes that the root reaches.
use crate::case::{Case, Triple};
use crate::node::kinds::{BOX, CHOP, DIAMOND, GROUP_BOX, GROUP_DIAMOND, TAU};
use crate::node::Shape;
use crate::reach::reached;

/// Is no τ reached, has every reached chop a modality on its left, and is a modality reached only there?
pub fn is_regular(case: &Case) -> bool {
    let reached = Vec::from_iter(reached(case).into_iter().map(|number| case.nodes[number]));
    let is_modality = |number: usize| {
        matches!(
            case.nodes[number].0,
            DIAMOND | BOX | GROUP_DIAMOND | GROUP_BOX
        )
    };
    let no_tau = reached.iter().all(|&(kind, ..)| kind != TAU);
    let mut lefts = reached.iter().copied().filter_map(left);
    let mut elsewhere = vec![usize::from(case.root)];
    elsewhere.extend(reached.iter().copied().flat_map(others));
    no_tau && lefts.all(is_modality) && !elsewhere.into_iter().any(is_modality)
}

/// The left node of a chop.
fn left((kind, a, _): Triple) -> Option<usize> {
    (kind == CHOP).then(|| a.into())
}

/// What a node names otherwise.
fn others(node: Triple) -> Vec<usize> {
    let mut named = Shape::of(node).named();
    if left(node).is_some() {
        named.remove(0);
    }
    named
}

#[cfg(test)]
mod tests {
    use super::*;

    /// Of the rule whose root is its last node.
    fn regular(nodes: &[Triple]) -> bool {
        is_regular(&Case {
            labels: vec![0],
            steps: vec![],
            nodes: nodes.to_vec(),
            root: nodes.len() as u8 - 1,
            starts: vec![],
        })
    }

    /// Nodes 0 to 6, for others to name: p0, Z, the four modalities, τ.
    const LEAVES: [Triple; 7] = [
        (2, 0, 0),
        (4, 0, 0),
        (6, 0, 0),
        (7, 7, 0),
        (13, 0, 0),
        (14, 255, 0),
        (5, 0, 0),
    ];

    fn with(nodes: &[Triple]) -> bool {
        regular(&[&LEAVES[..], nodes].concat())
    }

    #[test]
    fn rules_within() {
        for kind in 0..=3 {
            assert!(regular(&[(kind, 0, 0)]));
        }
        for modality in 2..=5 {
            assert!(with(&[(10, modality, 0)]));
            assert!(with(&[(10, modality, 1), (8, 0, 7), (12, 0, 8)]));
            // Two chops that share it, one within the other.
            assert!(with(&[(10, modality, 0), (10, modality, 7), (9, 7, 8)]));
        }
        assert!(with(&[(11, 0, 1)]));
    }

    #[test]
    fn rules_outside() {
        assert!(!with(&[(8, 0, 6)]) && !with(&[(10, 2, 6)]) && !with(&[(11, 0, 6)]));
        assert!(!regular(&[(5, 0, 0)]));
        for left in [0, 1, 6] {
            assert!(!with(&[(10, left, 0), (11, 0, 7)]), "left node {left}");
        }
        assert!(!with(&[(10, 2, 0), (10, 7, 0)]), "a chop on the left");
        for modality in 2..=5 {
            assert!(!regular(&[LEAVES[usize::from(modality)]]), "the root");
            for kind in [8, 9] {
                assert!(!with(&[(kind, modality, 0)]) && !with(&[(kind, 0, modality)]));
            }
            assert!(!with(&[(11, 0, modality)]) && !with(&[(12, 0, modality)]));
            assert!(!with(&[(10, 2, modality)]), "right, perhaps of itself");
            let also_left = [(10, modality, 0), (8, 7, modality)];
            assert!(!with(&also_left));
        }
    }

    /// Nodes that the root does not reach may be anything, and may name what it reaches.
    #[test]
    fn unreached_nodes() {
        assert!(with(&[(10, 6, 2), (8, 3, 4), (9, 2, 2), (10, 2, 0)]));
    }

    /// Each node names the one below twice: 2^62 paths, but 64 nodes.
    #[test]
    fn shared_nodes() {
        let mut nodes = vec![(0, 0, 0), (6, 0, 0), (10, 1, 0)];
        nodes.extend((2..63).map(|below| (8 + below % 2, below, below)));
        assert!(regular(&nodes));
        nodes[0] = (5, 0, 0);
        assert!(!regular(&nodes));
    }
}
