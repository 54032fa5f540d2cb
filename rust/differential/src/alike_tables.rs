//! Tables with many alike states, and with states that are nearly so, as far as a rule looks.
use crate::chops;
use crate::formulas::{self, Bounds};
use crate::generate::most_steps;
use crate::measure::looked_at;
use crate::rng::Rng;
use plain::{members, Case, Limits, Triple};
use std::collections::BTreeSet;

type Steps = BTreeSet<Triple>;
type Table = (Vec<u8>, Steps);

/// The actions of steps that copies share.
const ACTIONS: usize = 3;

/// A case of so many states, whose file is within the limits, whatever its padding.
pub fn case(rng: &mut Rng, limits: Limits, states: usize) -> Case {
    let case = with_small_rule(rng, limits, states);
    with_table(rng, limits, case)
}

/// The same with a rule of so many nodes at most in which the laws find much to rewrite.
pub fn with_chops(rng: &mut Rng, limits: Limits, states: usize, most: usize) -> Case {
    let case = with_small_rule(rng, limits, states);
    let case = chops::put_into(rng, case, most);
    with_table(rng, limits, case)
}

fn with_small_rule(rng: &mut Rng, limits: Limits, states: usize) -> Case {
    let bounds = Bounds {
        states,
        nesting: 1,
        depth: 3,
    };
    formulas::case(rng, limits, bounds)
}

/// The case with another table of as many states. One in three is nearly what it was drawn to be.
fn with_table(rng: &mut Rng, limits: Limits, case: Case) -> Case {
    let states = case.labels.len();
    let mut table = match rng.below(4) {
        0 => mirrored_ring(rng, states),
        1 => chains(rng, states),
        // Room is left for a step that disturbs, and for those that are not seen.
        _ => copies(rng, states, most_steps(limits, states) - 1 - 2 * states),
    };
    if rng.one_in(3) {
        disturb(rng, &mut table);
    }
    let looks = looked_at(&case);
    let mut table = renamed(rng, &table, looks);
    add_unseen(rng, &mut table, looks);
    let (labels, steps) = table;
    Case {
        labels,
        steps: steps.into_iter().collect(),
        ..case
    }
}

/// The table with other propositions and actions for its lowest ones: where the rule looks, so that
/// they count, or any.
fn renamed(rng: &mut Rng, (labels, steps): &Table, (propositions, actions): (u8, u8)) -> Table {
    let mut order = |first: u8| {
        let mut numbers: Vec<usize> = (0..8).collect();
        shuffle(rng, &mut numbers);
        if !rng.one_in(4) {
            numbers.sort_by_key(|&number| first >> number & 1 == 0);
        }
        numbers
    };
    let (propositions, actions) = (order(propositions), order(actions));
    let bit = |label: u8, i: usize| (label >> i & 1) << propositions[i];
    let label = |&label: &u8| (0..8).fold(0, |other, i| other | bit(label, i));
    let step = |&(from, action, to): &Triple| (from, actions[usize::from(action)] as u8, to);
    (
        labels.iter().map(label).collect(),
        steps.iter().map(step).collect(),
    )
}

/// Often puts in what the rule does not look at: bits of labels, steps.
fn add_unseen(rng: &mut Rng, (labels, steps): &mut Table, (propositions, actions): (u8, u8)) {
    let states = labels.len();
    if rng.one_in(2) {
        for label in labels {
            *label ^= rng.byte() & !propositions;
        }
    }
    let unseen: Vec<u8> = members(!actions).collect();
    if !unseen.is_empty() && rng.one_in(2) {
        for _ in 0..rng.within(1..=2 * states) {
            let (from, to) = (rng.byte_below(states), rng.byte_below(states));
            steps.insert((from, rng.pick(&unseen), to));
        }
    }
}

/// Each state copies one of a few originals. Where an original steps to another, each copy of it
/// steps to one or more copies of that other. There are so many steps at most.
fn copies(rng: &mut Rng, states: usize, most: usize) -> Table {
    let originals = rng.within(1..=states.min(5).min(most / (ACTIONS * states)));
    let most_targets = most / (ACTIONS * states * originals);
    let mut original: Vec<usize> = (0..originals).collect();
    original.resize_with(states, || rng.below(originals));
    shuffle(rng, &mut original);
    // One or two labels, so that steps must tell states apart too.
    let label: Vec<u8> = (0..originals).map(|_| rng.byte_below(2)).collect();
    let labels = original.iter().map(|&of| label[of]).collect();
    let mut steps = Steps::new();
    for (from, to) in pairs(originals) {
        for action in 0..ACTIONS {
            if rng.one_in(3) {
                let step = (from, action as u8, to);
                copy_steps(rng, &mut steps, &original, step, most_targets);
            }
        }
    }
    (labels, steps)
}

fn copy_steps(
    rng: &mut Rng,
    steps: &mut Steps,
    original: &[usize],
    (from, action, to): (usize, u8, usize),
    most_targets: usize,
) {
    let of = |wanted| (0..original.len()).filter(move |&state| original[state] == wanted);
    let targets: Vec<usize> = of(to).collect();
    for copy in of(from) {
        for _ in 0..rng.within(1..=targets.len().min(most_targets)) {
            steps.insert((copy as u8, action, rng.pick(&targets) as u8));
        }
    }
}

/// A ring both ways whose labels read the same in either direction from state 0.
fn mirrored_ring(rng: &mut Rng, states: usize) -> Table {
    let mut labels: Vec<u8> = (0..states).map(|_| rng.byte_below(2)).collect();
    let mut steps = Steps::new();
    for state in 0..states {
        let next = (state + 1) % states;
        labels[state] = labels[(states - state) % states];
        steps.insert((state as u8, 0, next as u8));
        steps.insert((next as u8, 0, state as u8));
    }
    (labels, steps)
}

/// Two chains side by side, mostly of one length: what tells them apart is at their ends.
fn chains(rng: &mut Rng, states: usize) -> Table {
    let last = if rng.one_in(3) {
        states
    } else {
        states / 2 * 2
    };
    let steps = (2..last).map(|to| (to as u8 - 2, 0, to as u8));
    (vec![rng.byte(); states], steps.collect())
}

/// Puts a step in or takes it out, or changes one label.
fn disturb(rng: &mut Rng, (labels, steps): &mut Table) {
    let states = labels.len();
    if rng.one_in(3) {
        labels[rng.below(states)] ^= 1 << rng.below(2);
        return;
    }
    let state = |rng: &mut Rng| rng.byte_below(states);
    let step = (state(rng), rng.byte_below(4), state(rng));
    if !steps.remove(&step) {
        steps.insert(step);
    }
}

fn pairs(count: usize) -> impl Iterator<Item = (usize, usize)> {
    (0..count * count).map(move |i| (i / count, i % count))
}

fn shuffle(rng: &mut Rng, items: &mut [usize]) {
    for i in (1..items.len()).rev() {
        items.swap(i, rng.below(i + 1));
    }
}
