//! Free variables, by searching paths.
use crate::case::Triple;
use crate::node::kinds::VARIABLE;
use crate::node::Shape;
use std::collections::BTreeSet;

/// The variables that are free in the node `root`.
///
/// A variable is free if a path from `root` to a node of that variable meets no binder of it.
pub fn free_variables(nodes: &[Triple], root: usize) -> BTreeSet<u8> {
    (0..=15)
        .filter(|&variable| reached_unbound(nodes, root, variable))
        .collect()
}

/// Is `variable` reached from `root` past no binder of it? Looks at each node at most once,
/// however often it is named.
fn reached_unbound(nodes: &[Triple], root: usize, variable: u8) -> bool {
    let mut seen = BTreeSet::new();
    let mut waiting = vec![root];
    while let Some(number) = waiting.pop() {
        let (kind, a, _) = nodes[number];
        if (kind, a) == (VARIABLE, variable) {
            return true;
        }
        let shape = Shape::of(nodes[number]);
        if shape.bound() != Some(variable) && seen.insert(number) {
            waiting.extend(shape.named());
        }
    }
    false
}

#[cfg(test)]
mod tests {
    use super::*;
    use crate::node::kinds::{CHOP, MU, NU, OR};

    fn free(nodes: &[Triple], root: usize) -> Vec<u8> {
        free_variables(nodes, root).into_iter().collect()
    }

    #[test]
    fn a_binder_binds_below_itself_only() {
        let nodes = [(VARIABLE, 3, 0), (MU, 3, 0), (OR, 0, 1), (OR, 1, 1)];
        assert_eq!(free(&nodes, 0), [3]);
        assert_eq!(free(&nodes, 1), []);
        assert_eq!(free(&nodes, 2), [3], "free on the path that skips node 1");
        assert_eq!(free(&nodes, 3), []);
    }

    #[test]
    fn nested_binders_bind_their_own_variables() {
        let nodes = [
            (VARIABLE, 0, 0),
            (VARIABLE, 15, 0),
            (CHOP, 0, 1),
            (NU, 15, 2),
            (MU, 0, 3),
        ];
        assert_eq!(free(&nodes, 2), [0, 15]);
        assert_eq!(free(&nodes, 3), [0]);
        assert_eq!(free(&nodes, 4), []);
    }
}
