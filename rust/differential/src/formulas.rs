//! Cases for judging: rules drawn from the root down, so that binders bind what their bodies use.
//! Nodes are shared, and some that the root does not reach stand between the others.
mod rule;

pub use rule::Form;

use crate::rings::{steps, ACTIONS};
use crate::rng::Rng;
use crate::starts::starts;
use crate::{generate, groups};
use plain::kinds::{
    AND, BOX, CHOP, COMPLEMENT, DIAMOND, FALSE, MU, NU, OR, PROPOSITION, TAU, TRUE, VARIABLE,
};
use plain::{Case, Limits, Triple};
use rule::{is_modality, Rule, ENOUGH};

/// How large a case may get.
#[derive(Clone, Copy)]
pub struct Bounds {
    pub states: usize,
    /// Binders on one path down from the root: the plain checker's time grows exponentially in it.
    pub nesting: usize,
    /// The longest path down from the root, binders not counted.
    pub depth: usize,
}

impl Bounds {
    fn deeper(self) -> Bounds {
        Bounds {
            depth: self.depth.saturating_sub(1),
            ..self
        }
    }

    fn below_binder(self) -> Bounds {
        Bounds {
            nesting: self.nesting - 1,
            ..self
        }
    }
}

/// A case within the bounds, whose file is within the limits, whatever its padding.
pub fn case(rng: &mut Rng, limits: Limits, bounds: Bounds) -> Case {
    let (nodes, root) = rule(rng, Form::Any, bounds);
    Case {
        labels: rng.bytes(bounds.states),
        steps: steps(
            rng,
            bounds.states,
            generate::most_steps(limits, bounds.states),
        ),
        nodes,
        root,
        starts: starts(rng, bounds.states),
    }
}

/// The nodes of a rule of this form, within the bounds, and its root.
pub fn rule(rng: &mut Rng, form: Form, bounds: Bounds) -> (Vec<Triple>, u8) {
    let mut rule = Rule::new(rng, form);
    let root = rule.root(rng, bounds);
    if rng.one_in(2) {
        rule.unreached(rng);
    }
    (rule.nodes, root)
}

impl Rule {
    /// Mostly a binder.
    fn root(&mut self, rng: &mut Rng, bounds: Bounds) -> u8 {
        match (rng.below(8), bounds.nesting) {
            (0, _) | (_, 0) => self.formula(rng, bounds),
            (1..=3, 2..) => self.alternation(rng, bounds),
            _ => self.binder(rng, bounds),
        }
    }

    fn formula(&mut self, rng: &mut Rng, bounds: Bounds) -> u8 {
        if self.nodes.len() >= ENOUGH || bounds.depth == 0 {
            return self.leaf(rng);
        }
        let deeper = bounds.deeper();
        match rng.below(8) {
            0 => self.shared(rng, bounds),
            1 => self.leaf(rng),
            2..=3 if bounds.nesting > 0 => self.binder(rng, deeper),
            drawn => {
                let kind = [OR, AND, CHOP][drawn % 3];
                let left = match (kind, self.form) {
                    (CHOP, Form::Regular) => self.modality(rng),
                    _ => self.formula(rng, deeper),
                };
                let right = self.formula(rng, deeper);
                self.push(rng, (kind, left, right))
            }
        }
    }

    fn binder(&mut self, rng: &mut Rng, bounds: Bounds) -> u8 {
        let inner = bounds.below_binder();
        let kind = rng.pick(&[MU, NU]);
        self.bind(rng, kind, |rule, rng| {
            if rng.one_in(4) || inner.depth == 0 {
                rule.formula(rng, inner)
            } else {
                rule.turning_body(rng, inner, kind)
            }
        })
    }

    /// Binders of both kinds, one within the other: μY.A or D;νZ.(B or Y) and C;Z and the like.
    fn alternation(&mut self, rng: &mut Rng, bounds: Bounds) -> u8 {
        let inner = bounds.below_binder().below_binder().deeper();
        let kind = rng.pick(&[MU, NU]);
        let other = other(kind);
        self.bind(rng, kind, |rule, rng| {
            let start = rule.formula(rng, inner);
            let fixed = rule.bind(rng, other, |rule, rng| rule.turning_body(rng, inner, other));
            let modality = rule.modality(rng);
            let turn = rule.push(rng, (CHOP, modality, fixed));
            rule.push(rng, (operation(kind), start, turn))
        })
    }

    /// A binder of a new variable over the body that is drawn with it in scope.
    fn bind(
        &mut self,
        rng: &mut Rng,
        kind: u8,
        body: impl FnOnce(&mut Rule, &mut Rng) -> u8,
    ) -> u8 {
        let Some(variable) = self.unused.pop() else {
            return self.leaf(rng);
        };
        self.scope.push(variable);
        let body = body(self, rng);
        self.scope.pop();
        self.push(rng, (kind, variable, body))
    }

    /// A body that changes the approximants for a while: μZ.A or B;Z, νZ.A and Z;B and the like.
    fn turning_body(&mut self, rng: &mut Rng, bounds: Bounds, kind: u8) -> u8 {
        let variable = *self.scope.last().expect("the binder's variable");
        let start = self.start(rng, bounds.deeper(), kind);
        let name = self.push(rng, (VARIABLE, variable, 0));
        let regular = self.form == Form::Regular;
        let other = if regular || rng.one_in(2) {
            self.modality(rng)
        } else {
            self.formula(rng, bounds.deeper())
        };
        let (left, right) = match self.form {
            Form::Any => rng.pick(&[(name, other), (other, name)]),
            Form::Regular => (other, name),
        };
        let turn = self.push(rng, (CHOP, left, right));
        self.push(rng, (operation(kind), start, turn))
    }

    /// What the approximants begin with. With the variable of a binder above in it they have to
    /// begin anew whenever that one's approximant changes.
    fn start(&mut self, rng: &mut Rng, bounds: Bounds, kind: u8) -> u8 {
        let start = self.formula(rng, bounds);
        let outer = &self.scope[..self.scope.len() - 1];
        if outer.is_empty() || rng.one_in(4) {
            return start;
        }
        let node = (VARIABLE, rng.pick(outer), 0);
        let outer = self.push(rng, node);
        let opposite = operation(other(kind));
        let kind = match self.form {
            Form::Any => rng.pick(&[opposite, opposite, CHOP]),
            Form::Regular => opposite,
        };
        self.push(rng, (kind, start, outer))
    }

    /// Every other one with a group. In a regular rule two chops may share one, and nothing else may.
    fn modality(&mut self, rng: &mut Rng) -> u8 {
        if self.form == Form::Regular && rng.one_in(4) {
            let there = self.nodes.iter().rposition(|&node| is_modality(node));
            if let Some(modality) = there {
                return modality as u8;
            }
        }
        let node = if rng.one_in(2) {
            groups::node(rng)
        } else {
            (rng.pick(&[DIAMOND, BOX]), rng.byte_below(ACTIONS), 0)
        };
        self.push(rng, node)
    }

    /// A node that is there already, if one fits.
    fn shared(&mut self, rng: &mut Rng, bounds: Bounds) -> u8 {
        let fitting = self.fitting(bounds.nesting);
        if fitting.is_empty() {
            return self.leaf(rng);
        }
        rng.pick(&fitting) as u8
    }

    /// A variable every other time, where one is in scope.
    fn leaf(&mut self, rng: &mut Rng) -> u8 {
        let variable = !self.scope.is_empty() && rng.one_in(2);
        let node = match (rng.below(12), self.form) {
            _ if variable => (VARIABLE, rng.pick(&self.scope), 0),
            (0, _) => (rng.pick(&[TRUE, FALSE]), 0, 0),
            (1..=2, _) | (_, Form::Regular) => {
                (rng.pick(&[PROPOSITION, COMPLEMENT]), rng.byte_below(8), 0)
            }
            (3..=5, _) => (TAU, 0, 0),
            _ => return self.modality(rng),
        };
        self.push(rng, node)
    }
}

/// The other binder's kind.
fn other(kind: u8) -> u8 {
    match kind {
        MU => NU,
        _ => MU,
    }
}

/// The operation with which a binder of this kind gathers: or for μ, and for ν.
fn operation(kind: u8) -> u8 {
    match kind {
        MU => OR,
        _ => AND,
    }
}
