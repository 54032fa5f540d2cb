//! The unchecked judge against the proved one and against the plain checker, and what is timed.
use super::cases::{nest, no_binder, one_binder, two_alternating, two_of_one_kind, STATES, STEPS};
use super::task::{Answer, Task};
use crate::nesting::Binders::{Alternating, OneKind};
use crate::nesting::DEEPEST;
use differential::duplex;
use differential::rings::{steps, ACTIONS};
use differential::rng::Rng;
use plain::kinds::*;
use plain::{Case, Limits, Triple};

/// The set, state by state, by both judges.
fn judged(case: &Case) -> Vec<bool> {
    let task = Task::new("", case);
    let mut work = task.work_area();
    let set: Answer = task.proved(&mut work);
    assert_eq!(set, task.unchecked(&mut work), "{case:?}");
    assert!(work.iter().all(|&byte| byte == 0));
    let states = 0..task.states;
    states.map(|s| set[s / 8] >> (s % 8) & 1 == 1).collect()
}

/// Draws a regular formula with the variables in scope, and returns its node.
fn formula(rng: &mut Rng, nodes: &mut Vec<Triple>, scope: &mut Vec<u8>, depth: usize) -> u8 {
    let mut inner = |nodes: &mut Vec<Triple>, rng: &mut Rng| formula(rng, nodes, scope, depth - 1);
    let node = match rng.below(8) {
        _ if depth == 0 => match (rng.below(3), scope.is_empty()) {
            (0, _) => (rng.pick(&[TRUE, FALSE]), 0, 0),
            (1, _) | (_, true) => (rng.pick(&[PROPOSITION, COMPLEMENT]), rng.byte_below(8), 0),
            _ => (VARIABLE, rng.pick(scope), 0),
        },
        0..=1 => (rng.pick(&[OR, AND]), inner(nodes, rng), inner(nodes, rng)),
        2..=4 => {
            let right = inner(nodes, rng);
            nodes.push(match rng.pick(&[DIAMOND, BOX, GROUP_DIAMOND, GROUP_BOX]) {
                kind @ (DIAMOND | BOX) => (kind, rng.byte_below(ACTIONS), 0),
                kind => (kind, rng.byte(), 0),
            });
            (CHOP, nodes.len() as u8 - 1, right)
        }
        _ => {
            // As many as there are binders already, finished or not: none of them binds it.
            let finished = nodes.iter().filter(|node| matches!(node.0, MU | NU));
            let variable = finished.count() + scope.len();
            scope.push(variable as u8);
            let body = formula(rng, nodes, scope, depth - 1);
            scope.pop();
            (rng.pick(&[MU, NU]), variable as u8, body)
        }
    };
    nodes.push(node);
    nodes.len() as u8 - 1
}

fn drawn(rng: &mut Rng, states: usize) -> Case {
    let mut nodes = vec![];
    while !(1..=64).contains(&nodes.len()) {
        nodes.clear();
        formula(rng, &mut nodes, &mut vec![], 4);
    }
    Case {
        labels: rng.bytes(states),
        steps: steps(rng, states, STEPS),
        root: nodes.len() as u8 - 1,
        nodes,
        starts: vec![],
    }
}

#[test]
fn answers_are_the_plain_checkers() {
    let mut rng = Rng::new(2_000);
    for i in 0..500 {
        let states = if i < 250 {
            1 + i % 4
        } else {
            rng.within(1..=STATES)
        };
        let case = drawn(&mut rng, states);
        assert_eq!(judged(&case), plain::regular_states(&case), "{case:?}");
    }
}

#[test]
fn the_duplex_printer_holds_as_its_reason_says() {
    let holds = judged(&duplex::printer());
    assert!(duplex::State::all().map(|state| state.holds()).eq(holds));
}

/// As many steps as have room, and all within the limits.
#[test]
fn sizes() {
    let file = plain::write(&no_binder(STATES, STEPS));
    assert!(file.len() <= Limits::WIDEST.longest_file);
    assert!(file.len() + 3 > Limits::WIDEST.longest_file);
    for steps in [STATES - 1, STEPS] {
        for case in [one_binder, two_of_one_kind, two_alternating, no_binder] {
            let case = case(STATES, steps);
            assert_eq!(case.steps.len(), steps);
            let file = plain::write(&case);
            assert_eq!(plain::parse_within(&file, Limits::WIDEST), Ok(case));
        }
    }
}

/// A nest holds where its level's binder is μ.
#[test]
fn nests() {
    for levels in 1..=DEEPEST {
        assert_eq!(judged(&nest(4, levels, OneKind)), vec![true; 4 * levels]);
    }
    for levels in 1..=4 {
        let states = 0..4 * levels;
        let holds = judged(&nest(4, levels, Alternating));
        assert!(states.map(|state| state / 4 % 2 == 0).eq(holds));
    }
}
