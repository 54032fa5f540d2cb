//! The other cases that are timed.
use differential::drives::wheels;
use plain::{Case, Triple};

/// Two wheels with a rule of 64 nodes that are one operation over and over: what one table costs.
pub fn repeated(first: usize, second: usize, kind: u8) -> Case {
    with_rule(wheels(first, second), chain((5, 0, 0), kind, 64))
}

/// The same with a modality at every other node, joined by unions.
pub fn modal(first: usize, second: usize, modality: Triple) -> Case {
    let nodes = joined(|i| if i == 0 { (5, 0, 0) } else { modality });
    with_rule(wheels(first, second), nodes)
}

/// n states with a step of every action from each, and a rule of 64 nodes: as many modalities as
/// can all be reached, 32, under unions. Modality i is what `modality` says.
pub fn modalities(states: usize, modality: impl Fn(u8) -> Triple) -> Case {
    let step = |i: usize| (i / 8, i % 8, (i / 8 + i % 8 + 1) % states);
    let steps = (0..8 * states).map(step);
    let steps = steps.map(|(from, action, to)| (from as u8, action as u8, to as u8));
    let mut nodes = joined(modality);
    nodes.push((8, 62, 62));
    let case = Case {
        labels: vec![0; states],
        steps: steps.collect(),
        nodes: vec![],
        root: 0,
        starts: vec![],
    };
    with_rule(case, nodes)
}

/// 63 nodes: the leaves 0 to 31, joined by unions.
fn joined(leaf: impl Fn(u8) -> Triple) -> Vec<Triple> {
    let node = |j: u8| match j {
        0 => leaf(0),
        _ if j % 2 == 1 => leaf(j / 2 + 1),
        _ => (8, j - 2, j - 1),
    };
    (0..63).map(node).collect()
}

/// μZ.((⟨1⟩ and ⟨2⟩) or Z;⟨0⟩) or νY.(τ or Z) and ⟨0⟩;Y over the wheels: the inner binder begins
/// anew in each round of the outer one.
pub fn nested(first: usize, second: usize) -> Case {
    let mut case = wheels(first, second);
    case.nodes.pop();
    case.nodes.extend([
        (5, 0, 0),
        (8, 7, 3),
        (4, 1, 0),
        (10, 4, 9),
        (9, 8, 10),
        (12, 1, 11),
        (8, 6, 12),
        (11, 0, 13),
    ]);
    case.root = 14;
    case
}

/// A ring of n states with a rule of m chops, each of the node below with itself.
pub fn chops(states: usize, nodes: usize) -> Case {
    with_rule(ring(states), chain((6, 0, 0), 10, nodes))
}

/// A ring of n states with μZ.τ or Z;⟨0⟩, and below it as many unions of Z;⟨0⟩ with itself as make
/// m nodes: all but two are computed in each round. At least 6 nodes.
pub fn one_binder(states: usize, nodes: usize) -> Case {
    let mut rule = vec![(5, 0, 0), (6, 0, 0), (4, 0, 0), (10, 2, 1)];
    rule.extend((3..nodes as u8 - 3).map(|below| (8, below, below)));
    rule.extend([(8, 0, nodes as u8 - 3), (11, 0, nodes as u8 - 2)]);
    with_rule(ring(states), rule)
}

/// Two wheels of 7 and 8 states whose rule has 64 nodes, 59 of them computed in each of 56 rounds.
pub fn full_wheels() -> Case {
    let mut case = wheels(7, 8);
    case.nodes.truncate(6);
    case.nodes.extend((5..61).map(|below| (8, below, below)));
    case.nodes.extend([(8, 2, 61), (11, 0, 62)]);
    case.root = 63;
    case
}

/// The longest case: every step that there can be, 16 alike states, all of them start states, 64
/// nodes. Its file is timed without padding, as it was before there was any, so that times compare.
pub fn longest() -> Case {
    let steps = (0..2048).map(|i| ((i / 128) as u8, (i / 16 % 8) as u8, (i % 16) as u8));
    let mut nodes = chain((6, 0, 0), 10, 63);
    nodes.push((8, 61, 62));
    let case = Case {
        labels: vec![255; 16],
        steps: steps.collect(),
        nodes: vec![],
        root: 0,
        starts: (0..16).collect(),
    };
    with_rule(case, nodes)
}

/// The longest case with a rule that looks at every action, so that likeness compares all its steps.
pub fn all_compared() -> Case {
    let mut case = longest();
    case.nodes[0] = (13, 255, 0);
    case
}

/// The same without the steps that go back: each state differs from the next only in how far steps
/// lead, which classes find state by state.
pub fn stairs() -> Case {
    let mut case = all_compared();
    case.steps.retain(|&(from, _, to)| to == from + 1);
    case
}

/// So many nodes, each of this kind and naming the one below twice.
fn chain(leaf: Triple, kind: u8, nodes: usize) -> Vec<Triple> {
    let above = (0..nodes as u8 - 1).map(|below| (kind, below, below));
    [leaf].into_iter().chain(above).collect()
}

/// Steps of action 0 round all states.
fn ring(states: usize) -> Case {
    let next = |state: usize| ((state + 1) % states) as u8;
    Case {
        labels: vec![0; states],
        steps: (0..states).map(|s| (s as u8, 0, next(s))).collect(),
        nodes: vec![],
        root: 0,
        starts: vec![],
    }
}

fn with_rule(case: Case, nodes: Vec<Triple>) -> Case {
    Case {
        root: nodes.len() as u8 - 1,
        nodes,
        ..case
    }
}

#[cfg(test)]
mod tests {
    use super::*;
    use differential::drives::LONGEST_PACKED;

    #[test]
    fn sizes() {
        let sizes = |case: &Case| {
            let file = plain::write(case);
            (file.len(), plain::vet(&file, 0))
        };
        assert_eq!(sizes(&longest()), (LONGEST_PACKED, Ok((16, 64))));
        assert_eq!(sizes(&full_wheels()).1, Ok((16, 64)));
        assert_eq!(sizes(&modalities(16, |i| (6, i % 8, 0))).1, Ok((16, 64)));
        assert_eq!(sizes(&chops(12, 6)).1, Ok((12, 6)));
        assert_eq!(sizes(&one_binder(1, 6)).1, Ok((1, 6)));
        assert_eq!(sizes(&one_binder(16, 64)).1, Ok((16, 64)));
    }
}
