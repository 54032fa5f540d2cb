//! Tables and regular rules that are timed.
use crate::nesting::Binders;
use plain::kinds::{AND, BOX, CHOP, DIAMOND, GROUP_DIAMOND, MU, NU, OR, PROPOSITION, VARIABLE};
use plain::{Case, Limits, Triple, MOST_NODES, PAIRS_LENGTH};

/// The most states of a table.
pub const STATES: usize = Limits::WIDEST.most_states;

/// As many steps as have room beside 256 states and 64 nodes.
pub const STEPS: usize =
    (Limits::WIDEST.longest_file - PAIRS_LENGTH - STATES - (3 * MOST_NODES + 1)) / 3;

/// Groups of actions: all, the two halves, and those that lead to the next state.
const ALL: u8 = 0b1111_1111;
const LOWER: u8 = 0b0000_1111;
const UPPER: u8 = 0b1111_0000;
const NEXT: u8 = 0b1000_0001;

const X: Triple = (VARIABLE, 0, 0);
const Y: Triple = (VARIABLE, 1, 0);
const GOAL: Triple = (PROPOSITION, 0, 0);

/// A step from each state to the next, by action 0 or 7 in turns. The sixteenth part of the states,
/// the highest, are the goal. All others have as many steps more as are left, by actions 1 to 6 to
/// the lowest states, which a search for the goal looks at in vain in nearly every round.
fn table(states: usize, steps: usize) -> Case {
    let goal = states - (states / 16).max(1);
    let more = steps - (states - 1);
    let mut all = vec![];
    for state in 0..states - 1 {
        all.push((state as u8, [0, 7][state % 2], state as u8 + 1));
    }
    for state in 0..goal {
        let count = more / goal + usize::from(state < more % goal);
        all.extend((0..count).map(|i| (state as u8, (1 + i % 6) as u8, (i / 6) as u8)));
    }
    all.sort_unstable();
    Case {
        labels: (0..states).map(|state| u8::from(state >= goal)).collect(),
        steps: all,
        nodes: vec![],
        root: 0,
        starts: vec![],
    }
}

fn with_rule(case: Case, nodes: &[Triple]) -> Case {
    Case {
        root: nodes.len() as u8 - 1,
        nodes: nodes.to_vec(),
        ..case
    }
}

/// `μX.goal or ⟨all⟩;X`: about as many rounds as there are states.
pub fn one_binder(states: usize, steps: usize) -> Case {
    let nodes = [
        X,
        GOAL,
        (GROUP_DIAMOND, ALL, 0),
        (CHOP, 2, 0),
        (OR, 1, 3),
        (MU, 0, 4),
    ];
    with_rule(table(states, steps), &nodes)
}

/// `μX.μY.(goal or ⟨0 to 3⟩;X) or ⟨4 to 7⟩;Y`: the outer binder takes a step of the way to the goal,
/// the inner one the next.
pub fn two_of_one_kind(states: usize, steps: usize) -> Case {
    let nodes = [
        X,
        Y,
        GOAL,
        (GROUP_DIAMOND, LOWER, 0),
        (GROUP_DIAMOND, UPPER, 0),
        (CHOP, 3, 0),
        (CHOP, 4, 1),
        (OR, 2, 5),
        (OR, 7, 6),
        (MU, 1, 8),
        (MU, 0, 9),
    ];
    with_rule(table(states, steps), &nodes)
}

/// `νX.μY.(goal and ⟨next⟩;X) or ⟨all⟩;Y`: each round of the outer binder takes one state of the goal
/// away, and the inner one goes the whole way again.
pub fn two_alternating(states: usize, steps: usize) -> Case {
    let nodes = [
        X,
        Y,
        GOAL,
        (GROUP_DIAMOND, NEXT, 0),
        (GROUP_DIAMOND, ALL, 0),
        (CHOP, 3, 0),
        (CHOP, 4, 1),
        (AND, 2, 5),
        (OR, 7, 6),
        (MU, 1, 8),
        (NU, 0, 9),
    ];
    with_rule(table(states, steps), &nodes)
}

/// `goal or ⟨all⟩;(goal or ⟨all⟩;(..))`: 64 nodes, 31 of them such chops.
pub fn no_binder(states: usize, steps: usize) -> Case {
    let mut nodes = vec![GOAL, (GROUP_DIAMOND, ALL, 0)];
    let mut last = 0;
    while nodes.len() < MOST_NODES {
        let next = nodes.len() as u8;
        nodes.extend([(CHOP, 1, last), (OR, 0, next)]);
        last = next + 1;
    }
    with_rule(table(states, steps), &nodes)
}

/// Nested binders with as many rounds on every level: level i decides the states of its own, which
/// have proposition i and a step by action 0 from each to the next. It takes part in the body, a
/// union, with `pi and [0];Xi`, or for ν with `pi and ⟨0⟩;Xi`, which begin with the last state of its
/// own and go on by one a round.
pub fn nest(rounds: usize, levels: usize, binders: Binders) -> Case {
    let mut nodes = vec![(BOX, 0, 0), (DIAMOND, 0, 0)];
    for level in 0..levels as u8 {
        let next = nodes.len() as u8;
        let modality = u8::from(binders.kind(level.into()) == NU);
        nodes.extend([
            (VARIABLE, level, 0),
            (CHOP, modality, next),
            (PROPOSITION, level, 0),
            (AND, next + 2, next + 1),
        ]);
        if level > 0 {
            nodes.push((OR, next - 1, next + 3));
        }
    }
    for level in (0..levels).rev() {
        nodes.push((binders.kind(level), level as u8, nodes.len() as u8 - 1));
    }
    let states = 0..rounds * levels;
    let steps = states.clone().filter(|state| state % rounds + 1 < rounds);
    let case = Case {
        labels: states.map(|state| 1 << (state / rounds)).collect(),
        steps: steps
            .map(|state| (state as u8, 0, state as u8 + 1))
            .collect(),
        nodes: vec![],
        root: 0,
        starts: vec![],
    };
    with_rule(case, &nodes)
}
