//! Alike states: the largest bisimulation, as far as the rule looks, and classes.
use crate::case::Case;
use crate::looks::Looks;
use crate::model::Model;
use crate::output::in_room;
use crate::refusal::Refusal;
use crate::vetting::parse;
use std::collections::BTreeSet;

/// Pairs of related states.
pub type Relation = BTreeSet<(usize, usize)>;

/// Refusals 1 to 7 and 13, then a byte for each state: the lowest that is alike to it.
pub fn classes(file: &[u8], room: usize) -> Result<Vec<u8>, Refusal> {
    let case = parse(file)?;
    in_room(lowest(&alike(&case), case.labels.len()), room)
}

/// For each state the lowest that the relation pairs with it.
pub fn lowest(relation: &Relation, states: usize) -> Vec<u8> {
    let related = |s: usize| (0..states).find(|&t| relation.contains(&(s, t)));
    (0..states)
        .map(|s| related(s).expect("a state is alike to itself") as u8)
        .collect()
}

/// The alike states: the largest bisimulation.
///
/// # Panics
/// If rows 1 to 7 meet the case.
pub fn alike(case: &Case) -> Relation {
    largest_bisimulation(case, &Looks::of(case))
}

/// The states that are alike whatever the rule: each proposition and each action is compared, as it
/// was before request 2026-05.
///
/// # Panics
/// If rows 1 to 7 meet the case.
pub fn alike_in_full(case: &Case) -> Relation {
    largest_bisimulation(case, &Looks::everywhere())
}

/// From all pairs, deletes those whose labels differ where it is looked, then those with a step that
/// is not met, until none is left. No bisimulation loses a pair in this.
fn largest_bisimulation(case: &Case, looks: &Looks) -> Relation {
    let model = Model::new(case);
    let mut relation: Relation = (0..model.states)
        .flat_map(|s| (0..model.states).map(move |t| (s, t)))
        .collect();
    relation.retain(|&(s, t)| {
        let mut propositions = looks.propositions.iter();
        propositions.all(|&i| model.has(s, i) == model.has(t, i))
    });
    loop {
        let before = relation.clone();
        relation.retain(|&pair| steps_are_met(&model, looks, &before, pair));
        if relation == before {
            return relation;
        }
    }
}

/// Does each step of either state, of an action that is looked at, meet one of the other, same action,
/// into a related state?
fn steps_are_met(
    model: &Model,
    looks: &Looks,
    relation: &Relation,
    (s, t): (usize, usize),
) -> bool {
    looks.actions.iter().all(|&action| {
        let (of_s, of_t) = (model.successors(s, action), model.successors(t, action));
        let related = |x: &usize, y: &usize| relation.contains(&(*x, *y));
        of_s.iter().all(|x| of_t.iter().any(|y| related(x, y)))
            && of_t.iter().all(|y| of_s.iter().any(|x| related(x, y)))
    })
}
