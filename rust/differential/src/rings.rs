//! The steps of cases for judging.
use crate::rng::Rng;
use plain::Triple;
use std::collections::BTreeSet;

/// Few actions, so that steps and modalities meet.
pub const ACTIONS: usize = 3;

/// Rings make for many rounds; else each step is drawn on its own. There are so many at most.
pub fn steps(rng: &mut Rng, states: usize, most: usize) -> Vec<Triple> {
    let rings = rng.one_in(2);
    let least = 1 + ACTIONS * states * states / most;
    let one_in = rng.within(least..=states + 1);
    let mut steps = vec![];
    for from in 0..states {
        for action in 0..ACTIONS {
            let ring = rings && action == 0;
            let next = next_in_ring(from, states);
            let mut is_step = |to| if ring { to == next } else { rng.one_in(one_in) };
            let targets = (0..states).filter(|&to| is_step(to));
            steps.extend(targets.map(|to| (from as u8, action as u8, to as u8)));
        }
    }
    steps.truncate(most);
    steps
}

/// One way through all states, in any order, by the actions; mostly back to its first state or one
/// further on; and steps aside from a few.
pub fn long_way(rng: &mut Rng, states: usize) -> Vec<Triple> {
    let mut way: Vec<usize> = (0..states).collect();
    for last in (1..states).rev() {
        way.swap(last, rng.within(0..=last));
    }
    let actions = rng.within(1..=ACTIONS);
    let mut steps: BTreeSet<Triple> = BTreeSet::new();
    for (at, &from) in way.iter().enumerate() {
        let next = way.get(at + 1).copied();
        let to = next.or_else(|| (!rng.one_in(4)).then(|| way[rng.below(states)]));
        let action = rng.byte_below(actions);
        steps.extend(to.map(|to| (from as u8, action, to as u8)));
    }
    for _ in 0..rng.below(8) {
        let (from, to) = (rng.byte_below(states), rng.byte_below(states));
        steps.insert((from, rng.byte_below(ACTIONS), to));
    }
    steps.into_iter().collect()
}

/// Rings of four states, the last of what is left.
fn next_in_ring(state: usize, states: usize) -> usize {
    if state % 4 == 3 || state + 1 == states {
        state / 4 * 4
    } else {
        state + 1
    }
}
