//! Faults of rows 5 to 7.
use super::{beyond, damaged_case, Damaged};
use crate::generate::{case, case_where, drawn_where};
use crate::rng::Rng;
use plain::kinds::{self, values_of_a};
use plain::{Case, Limits, Shape, Triple};

/// The numbers of the nodes that are wanted.
fn nodes_where(case: &Case, wanted: impl Fn(Triple) -> bool) -> Vec<usize> {
    let all = 0..case.nodes.len();
    all.filter(|&j| wanted(case.nodes[j])).collect()
}

/// A case and the number of one of its nodes that are wanted.
fn with_node(rng: &mut Rng, limits: Limits, wanted: fn(Triple) -> bool) -> (Case, usize) {
    let case = case_where(rng, limits, |case| !nodes_where(case, wanted).is_empty());
    let node = rng.pick(&nodes_where(&case, wanted));
    (case, node)
}

pub fn kind(rng: &mut Rng, limits: Limits) -> Damaged {
    let mut case = case(rng, limits);
    let place = rng.below(case.nodes.len());
    case.nodes[place].0 = beyond(rng, kinds::COUNT);
    damaged_case(rng, &case, 5, place)
}

pub fn unused_byte(rng: &mut Rng, limits: Limits) -> Damaged {
    let (mut case, place) = with_node(rng, limits, |node| Shape::of(node) == Shape::Leaf);
    let node = &mut case.nodes[place];
    let is_a = values_of_a(node.0) == Some(1) && rng.one_in(2);
    let unused = if is_a { &mut node.1 } else { &mut node.2 };
    *unused = beyond(rng, 1);
    damaged_case(rng, &case, 5, place)
}

/// A proposition, variable or action beyond the last one. No group is: it can be any byte.
pub fn range(rng: &mut Rng, limits: Limits) -> Damaged {
    let (mut case, place) = with_node(rng, limits, |node| {
        matches!(values_of_a(node.0), Some(2..=255))
    });
    let node = &mut case.nodes[place];
    let values = values_of_a(node.0).expect("A is no node");
    node.1 = beyond(rng, values);
    damaged_case(rng, &case, 5, place)
}

/// A node that names itself or a higher one.
pub fn named(rng: &mut Rng, limits: Limits) -> Damaged {
    let (mut case, place) = with_node(rng, limits, |node| Shape::of(node) != Shape::Leaf);
    let node = &mut case.nodes[place];
    let left = matches!(Shape::of(*node), Shape::Two(..)) && rng.one_in(2);
    let named = if left { &mut node.1 } else { &mut node.2 };
    *named = beyond(rng, place);
    damaged_case(rng, &case, 5, place)
}

/// Of the binders that get the first one's variable, the lowest is the place.
pub fn second_binder(rng: &mut Rng, limits: Limits) -> Damaged {
    let binders = |case: &Case| nodes_where(case, |node| Shape::of(node).bound().is_some());
    let mut case = case_where(rng, limits, |case| binders(case).len() > 1);
    let binders = binders(&case);
    let first = rng.below(binders.len() - 1);
    let second = rng.within(first + 1..=binders.len() - 1);
    let variable = case.nodes[binders[first]].1;
    case.nodes[binders[second]].1 = variable;
    for &later in &binders[second + 1..] {
        if rng.one_in(4) {
            case.nodes[later].1 = variable;
        }
    }
    damaged_case(rng, &case, 6, binders[second])
}

pub fn free_variable(rng: &mut Rng, limits: Limits) -> Damaged {
    let mut drawn = drawn_where(rng, limits, |drawn| {
        drawn.free.iter().any(|&free| free != 0)
    });
    let all = 0..drawn.free.len();
    let open: Vec<usize> = all.filter(|&j| drawn.free[j] != 0).collect();
    drawn.case.root = rng.pick(&open) as u8;
    damaged_case(rng, &drawn.case, 7, 0)
}

#[cfg(test)]
mod tests {
    use super::super::Damage;
    use super::*;
    use crate::groups::has_group;
    use crate::padding::sections;

    /// The nodes at the places of so many faults.
    fn faults(damage: Damage, count: usize) -> Vec<Triple> {
        let mut rng = Rng::new(1);
        let fault = |_| {
            let Damaged { file, refusal } = damage(&mut rng, Limits::CASE);
            let rule = sections(&file)[2].start;
            let node = &file[rule + 3 * refusal.place..];
            (node[0], node[1], node[2])
        };
        (0..count).map(fault).collect()
    }

    #[test]
    fn the_first_byte_that_is_no_kind() {
        let next = kinds::COUNT as u8;
        assert_eq!(next, 15);
        let faults = faults(kind, 200);
        assert!(faults.iter().all(|node| node.0 >= next));
        assert!(faults.iter().filter(|node| node.0 == next).count() >= 50);
    }

    /// B is wrong, and A is right whatever it is.
    #[test]
    fn the_unused_byte_of_a_group() {
        let faults = faults(unused_byte, 500);
        let groups = || faults.iter().filter(|&&node| has_group(node));
        assert!(groups().all(|node| node.2 > 0));
        assert!(groups().count() >= 50);
    }
}
