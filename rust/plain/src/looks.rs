//! What a rule looks at (docs/SPECIFICATION.md, 4.9).
use crate::case::{Case, Triple};
use crate::node::kinds::{BOX, COMPLEMENT, DIAMOND, GROUP_BOX, GROUP_DIAMOND, PROPOSITION};
use crate::node::members;
use crate::reach::reached;
use std::collections::BTreeSet;

/// The propositions and the actions that likeness compares.
#[derive(Default)]
pub struct Looks {
    pub propositions: BTreeSet<u8>,
    pub actions: BTreeSet<u8>,
}

impl Looks {
    /// Those in the nodes that the root reaches.
    pub fn of(case: &Case) -> Looks {
        let mut looks = Looks::default();
        for number in reached(case) {
            looks.extend(case.nodes[number]);
        }
        looks
    }

    /// All that there are.
    pub fn everywhere() -> Looks {
        Looks {
            propositions: (0..8).collect(),
            actions: (0..8).collect(),
        }
    }

    /// With what this node looks at.
    fn extend(&mut self, (kind, a, _): Triple) {
        match kind {
            PROPOSITION | COMPLEMENT => self.propositions.extend([a]),
            DIAMOND | BOX => self.actions.extend([a]),
            GROUP_DIAMOND | GROUP_BOX => self.actions.extend(members(a)),
            _ => {}
        }
    }
}

#[cfg(test)]
mod tests {
    use super::*;

    fn looks(nodes: &[Triple], root: u8) -> (Vec<u8>, Vec<u8>) {
        let looks = Looks::of(&Case {
            labels: vec![0],
            steps: vec![],
            nodes: nodes.to_vec(),
            root,
            starts: vec![],
        });
        (
            looks.propositions.into_iter().collect(),
            looks.actions.into_iter().collect(),
        )
    }

    /// Node 6 reaches nodes 0, 2 and 4, and node 8 all but 7.
    #[test]
    fn only_reached_nodes_count() {
        let nodes = [
            (2, 7, 0),
            (3, 1, 0),
            (13, 0b1010_0000, 0),
            (7, 2, 0),
            (8, 0, 2),
            (10, 1, 3),
            (11, 4, 4),
            (14, 255, 0),
            (9, 5, 6),
        ];
        assert_eq!(looks(&nodes, 6), (vec![7], vec![5, 7]));
        assert_eq!(looks(&nodes, 8), (vec![1, 7], vec![2, 5, 7]));
        assert_eq!(looks(&nodes, 5), (vec![1], vec![2]));
    }

    /// The operands of these are no propositions and no actions; nor has the empty group any.
    #[test]
    fn kinds_that_look_at_nothing() {
        for node in [(0, 0, 0), (1, 0, 0), (5, 0, 0), (13, 0, 0), (14, 0, 0)] {
            assert_eq!(looks(&[node], 0), (vec![], vec![]));
        }
        assert_eq!(looks(&[(4, 5, 0), (12, 5, 0)], 1), (vec![], vec![]));
    }

    /// Each node names the one below twice: 2^63 paths, but 64 nodes.
    #[test]
    fn shared_nodes_are_walked_once() {
        let mut nodes = vec![(6, 3, 0)];
        nodes.extend((0..63).map(|below| (8 + below % 3, below, below)));
        assert_eq!(looks(&nodes, 63), (vec![], vec![3]));
    }
}
