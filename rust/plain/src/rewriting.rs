//! Rewriting by the nine laws (docs/SPECIFICATION.md, section 5).
use crate::case::write;
use crate::keyed::{before, key, Key, Keyed, Rule};
use crate::node::kinds::{AND, CHOP, CONSTANT, OR, TAU};
use crate::output::in_room;
use crate::refusal::Refusal;
use crate::vetting::{parse, MOST_NODES};

/// Rows 1 to 7 and 11 to 13, then the file of the rewritten case.
pub fn rewrite(file: &[u8], law: usize, node: usize, room: usize) -> Result<Vec<u8>, Refusal> {
    let case = parse(file)?;
    Refusal::unless(node < case.nodes.len(), 11, 0)?;
    let mut rule = Rule::of(&case);
    apply(&mut rule, law, key(node)).ok_or(Refusal::new(11, 0))?;
    Refusal::unless(rule.nodes.len() <= MOST_NODES, 12, 0)?;
    in_room(write(&rule.put_into(&case)), room)
}

/// The law at node j; `None` where there is no such law or its left shape isn't there.
fn apply(rule: &mut Rule, law: usize, j: Key) -> Option<()> {
    use Keyed::{Leaf, Two};
    let Two(kind, left, right) = rule.nodes[&j] else {
        return None;
    };
    let (first, second) = before(j);
    match (law, kind, rule.nodes[&left], rule.nodes[&right]) {
        (1, CHOP, Leaf((TAU, ..)), _) => rule.redirect(j, right),
        (2, CHOP, _, Leaf((TAU, ..))) => rule.redirect(j, left),
        (3, CHOP, Leaf((q, ..)), _) if CONSTANT.contains(&q) => rule.redirect(j, left),
        (4, CHOP, Two(CHOP, a, b), _) => {
            put(rule, first, (CHOP, b, right));
            put(rule, j, (CHOP, a, first));
        }
        (5, CHOP, _, Two(CHOP, b, c)) => {
            put(rule, first, (CHOP, left, b));
            put(rule, j, (CHOP, first, c));
        }
        (6, CHOP, Two(inner @ OR, a, b), _) | (7, CHOP, Two(inner @ AND, a, b), _) => {
            put(rule, first, (CHOP, a, right));
            put(rule, second, (CHOP, b, right));
            put(rule, j, (inner, first, second));
        }
        (8, OR | AND, ..) if left == right => rule.redirect(j, left),
        (9, OR | AND, ..) => put(rule, j, (kind, right, left)),
        _ => return None,
    }
    Some(())
}

fn put(rule: &mut Rule, at: Key, (kind, left, right): (u8, Key, Key)) {
    rule.nodes.insert(at, Keyed::Two(kind, left, right));
}

#[cfg(test)]
mod tests {
    use super::*;
    use crate::case::{Case, Triple};

    /// The nodes and the root after the law at node 4 of six, of which the last is the root and
    /// names node 4 twice. The start states stay.
    fn at_4(law: usize, nodes: [Triple; 5]) -> Result<(Vec<Triple>, u8), u32> {
        let case = Case {
            labels: vec![0],
            steps: vec![],
            nodes: [&nodes[..], &[(9, 4, 4)]].concat(),
            root: 5,
            starts: vec![0],
        };
        let rewritten = rewrite(&write(&case), law, 4, 100);
        let case = parse(&rewritten.map_err(|refusal| refusal.number)?).unwrap();
        assert_eq!(case.starts, [0]);
        Ok((case.nodes, case.root))
    }

    // Operands that would be numbers of nodes, the rewritten one among them, if leaves named any.
    const A: Triple = (6, 1, 0);
    const B: Triple = (13, 4, 0);
    const C: Triple = (14, 5, 0);

    #[test]
    fn laws_that_drop_a_node() {
        let top = |nodes: [Triple; 5], named| Ok(([&nodes[..], &[(9, named, named)]].concat(), 5));
        let nodes = [A, (5, 0, 0), B, C, (10, 1, 3)];
        assert_eq!(at_4(1, nodes), top(nodes, 3));
        assert_eq!(at_4(2, nodes), Err(11));
        let nodes = [A, (5, 0, 0), B, C, (10, 3, 1)];
        assert_eq!(at_4(2, nodes), top(nodes, 3));
        let nodes = [A, (3, 7, 0), B, C, (10, 1, 3)];
        assert_eq!(at_4(3, nodes), top(nodes, 1));
        for other in [A, B, C, (13, 0, 0), (14, 0, 0)] {
            assert_eq!(at_4(3, [A, other, B, C, (10, 1, 3)]), Err(11));
        }
        let nodes = [A, B, C, C, (8, 3, 3)];
        assert_eq!(at_4(8, nodes), top(nodes, 3));
        assert_eq!(at_4(8, [A, B, C, C, (8, 2, 3)]), Err(11));
        assert_eq!(at_4(9, [A, B, C, C, (8, 2, 3)]).unwrap().0[4], (8, 3, 2));
    }

    #[test]
    fn laws_that_put_nodes_in() {
        let given = [A, B, C, (10, 0, 1), (10, 3, 2)];
        let nodes = vec![A, B, C, (10, 0, 1), (10, 1, 2), (10, 0, 4), (9, 5, 5)];
        assert_eq!(at_4(4, given), Ok((nodes, 6)));
        let given = [A, B, C, (10, 1, 2), (10, 0, 3)];
        let nodes = vec![A, B, C, (10, 1, 2), (10, 0, 1), (10, 4, 2), (9, 5, 5)];
        assert_eq!(at_4(5, given), Ok((nodes, 6)));
        for (law, kind) in [(6, 8), (7, 9)] {
            let given = [A, B, C, (kind, 0, 1), (10, 3, 2)];
            let mut nodes = given[..4].to_vec();
            nodes.extend([(10, 0, 2), (10, 1, 2), (kind, 4, 5), (9, 6, 6)]);
            assert_eq!(at_4(law, given), Ok((nodes, 7)));
            assert_eq!(at_4(13 - law, given), Err(11));
        }
    }
}
