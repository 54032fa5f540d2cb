//! Valid cases: shared nodes, nested binders, unreached nodes with free variables or that would look
//! at more than the rule does.
use crate::groups::group;
use crate::padding::WIDEST;
use crate::rng::Rng;
use crate::starts::starts;
use plain::kinds::{
    values_of_a, AND, BOX, CHOP, COMPLEMENT, DIAMOND, FALSE, GROUP_BOX, GROUP_DIAMOND, MU, NU, OR,
    PROPOSITION, TAU, TRUE, VARIABLE,
};
use plain::{Case, Limits, Shape, Triple, MOST_NODES, PAIRS_LENGTH};

/// A valid case and, for each node, its free variables: bit v for variable v.
pub struct Drawn {
    pub case: Case,
    pub free: Vec<u16>,
}

/// A case whose file is within the limits, whatever its padding.
pub fn case(rng: &mut Rng, limits: Limits) -> Case {
    drawn(rng, limits).case
}

/// A case that `wanted` holds of.
pub fn case_where(rng: &mut Rng, limits: Limits, wanted: impl Fn(&Case) -> bool) -> Case {
    drawn_where(rng, limits, |drawn| wanted(&drawn.case)).case
}

pub fn drawn_where(rng: &mut Rng, limits: Limits, wanted: impl Fn(&Drawn) -> bool) -> Drawn {
    loop {
        let drawn = drawn(rng, limits);
        if wanted(&drawn) {
            return drawn;
        }
    }
}

fn drawn(rng: &mut Rng, limits: Limits) -> Drawn {
    let states = rng.within(1..=limits.most_states);
    let labels = rng.bytes(states);
    let steps = steps(rng, limits, states);
    let (rule, root) = closed_rule(rng);
    let case = Case {
        labels,
        steps,
        nodes: rule.nodes,
        root,
        starts: starts(rng, states),
    };
    Drawn {
        case,
        free: rule.free,
    }
}

/// How many steps have room in a file, whatever else is in it and however it is padded.
pub fn most_steps(limits: Limits, states: usize) -> usize {
    let rule = 3 * MOST_NODES + 1;
    let padding: usize = WIDEST.iter().sum();
    (limits.longest_file - PAIRS_LENGTH - 2 * states - rule - padding) / 3
}

/// How many steps there can be between so many states.
pub fn all_steps(states: usize) -> usize {
    states * 8 * states
}

/// Of all steps that there can be, in order, the one with this number.
pub fn step(number: usize, states: usize) -> Triple {
    let (from, action) = (number / states / 8, number / states % 8);
    (from as u8, action as u8, (number % states) as u8)
}

/// Transitions in order, from none to all that there can be, or that have room.
pub fn steps(rng: &mut Rng, limits: Limits, states: usize) -> Vec<Triple> {
    let (all, most) = (all_steps(states), most_steps(limits, states));
    let one_in = match rng.below(8) {
        0 => return vec![],
        1 => 1,
        2 => 2,
        _ => 1 + all / rng.within(1..=24),
    };
    let one_in = one_in.max(all.div_ceil(most));
    // From one to the next that is taken, so that the time is that of those taken.
    let mut steps = vec![];
    let mut number = rng.below(one_in);
    while number < all && steps.len() < most {
        steps.push(step(number, states));
        number += rng.within(1..=2 * one_in - 1);
    }
    steps
}

/// A rule and a root without free variables; drawn again while every node has some.
fn closed_rule(rng: &mut Rng) -> (Rule, u8) {
    loop {
        let rule = Rule::draw(rng);
        let mut closed: Vec<usize> = (0..rule.nodes.len()).collect();
        closed.retain(|&j| rule.free[j] == 0);
        let deepest = closed.iter().copied().max_by_key(|&j| rule.depth[j]);
        if let Some(deepest) = deepest {
            let any = rng.pick(&closed);
            let root = if rng.one_in(4) { any } else { deepest };
            return (rule, root as u8);
        }
    }
}

/// A rule as it grows.
#[derive(Default)]
struct Rule {
    nodes: Vec<Triple>,
    free: Vec<u16>,
    /// For each node the length of the longest path down from it.
    depth: Vec<usize>,
    /// Variables that have their binder: bit v for variable v.
    bound: u16,
}

impl Rule {
    fn draw(rng: &mut Rng) -> Rule {
        let mut rule = Rule::default();
        for _ in 0..rng.within(1..=MOST_NODES) {
            let node = rule.node(rng);
            rule.push(node);
        }
        if rng.one_in(2) {
            rule.close_last(rng);
        }
        rule
    }

    fn push(&mut self, node: Triple) {
        let (kind, a, _) = node;
        let depth = |named: usize| 1 + self.depth[named];
        let (free, depth) = match Shape::of(node) {
            Shape::Leaf if kind == VARIABLE => (1 << a, 0),
            Shape::Leaf => (0, 0),
            Shape::Two(left, right) => (
                self.free[left] | self.free[right],
                depth(left).max(depth(right)),
            ),
            Shape::Binder(variable, body) => {
                self.bound |= 1 << variable;
                (self.free[body] & !(1 << variable), depth(body))
            }
        };
        self.nodes.push(node);
        self.free.push(free);
        self.depth.push(depth);
    }

    fn node(&self, rng: &mut Rng) -> Triple {
        match rng.below(10) {
            0..=1 => leaf(rng),
            2..=3 => (VARIABLE, self.variable(rng), 0),
            _ if self.nodes.is_empty() => leaf(rng),
            4..=7 => {
                let kind = rng.pick(&[OR, AND, CHOP]);
                (kind, self.named(rng), self.named(rng))
            }
            _ => {
                let body = self.named(rng);
                self.binder(rng, body)
            }
        }
    }

    /// Mostly a node whose free variables can still be bound; one of the latest, so that rules
    /// grow deep, or any, so that they share.
    fn named(&self, rng: &mut Rng) -> u8 {
        let mut nodes: Vec<usize> = (0..self.nodes.len()).collect();
        if !rng.one_in(32) {
            nodes.retain(|&j| self.free[j] & self.bound == 0);
        }
        let Some(last) = nodes.len().checked_sub(1) else {
            return 0;
        };
        let back = if rng.one_in(2) { last.min(2) } else { last };
        nodes[last - rng.within(0..=back)] as u8
    }

    /// Mostly a variable that can still be bound.
    fn variable(&self, rng: &mut Rng) -> u8 {
        let unbound = ones(!self.bound);
        if unbound.is_empty() || rng.one_in(8) {
            return rng.byte_below(16);
        }
        rng.pick(&unbound[..unbound.len().min(3)])
    }

    /// Binds what is free in the body where it can; a leaf where every variable has its binder.
    fn binder(&self, rng: &mut Rng, body: u8) -> Triple {
        let unbound = !self.bound;
        let wanted = ones(self.free[usize::from(body)] & unbound);
        let possible = if wanted.is_empty() {
            ones(unbound)
        } else {
            wanted
        };
        if possible.is_empty() {
            return leaf(rng);
        }
        (rng.pick(&[MU, NU]), rng.pick(&possible), body)
    }

    /// Nests binders over the last node until it has no free variable, if they find room.
    fn close_last(&mut self, rng: &mut Rng) {
        while self.nodes.len() < MOST_NODES {
            let last = self.nodes.len() - 1;
            if self.free[last] & !self.bound == 0 {
                return;
            }
            let node = self.binder(rng, last as u8);
            self.push(node);
        }
    }
}

/// A node that names no other and is no variable.
pub fn leaf(rng: &mut Rng) -> Triple {
    const KINDS: [u8; 9] = [
        TRUE,
        FALSE,
        PROPOSITION,
        COMPLEMENT,
        TAU,
        DIAMOND,
        BOX,
        GROUP_DIAMOND,
        GROUP_BOX,
    ];
    let kind = rng.pick(&KINDS);
    match values_of_a(kind) {
        Some(256) => (kind, group(rng), 0),
        Some(values @ 2..) => (kind, rng.byte_below(values), 0),
        _ => (kind, 0, 0),
    }
}

fn ones(mask: u16) -> Vec<u8> {
    (0..16).filter(|&bit| mask >> bit & 1 == 1).collect()
}
