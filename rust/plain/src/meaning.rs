//! The meaning of a rule, by recursion over its tree with approximants from scratch.
use crate::case::Case;
use crate::model::Model;
use crate::node::Node;
use crate::sets::{at, tabulate, Function, Set};
use crate::vetting::Limits;
use std::collections::BTreeMap;

/// What the root means.
pub struct Meaning {
    pub function: Function,
    /// The least k whose approximant equals the next one; 0 where the root is no binder.
    pub rounds: u64,
}

/// The root's function at every set, and its rounds.
///
/// # Panics
/// If rows 1 to 7 meet the case, as they do where it has more than 16 states.
pub fn meaning(case: &Case) -> Meaning {
    assert!(
        case.labels.len() <= Limits::CASE.most_states,
        "too many sets"
    );
    let model = Model::new(case);
    let mut closed = Scope::new(&model, BTreeMap::new());
    let (function, rounds) = match model.nodes[model.root] {
        Node::Mu(variable, body) => closed.approximate(false, variable, body),
        Node::Nu(variable, body) => closed.approximate(true, variable, body),
        _ => (closed.function(model.root), 0),
    };
    Meaning { function, rounds }
}

/// Functions for the variables, and those of the nodes under them.
struct Scope<'a> {
    model: &'a Model,
    variables: BTreeMap<u8, Function>,
    /// What has been worked out already. 64 nodes can have 2^63 paths, so each is done once; the
    /// variables never change, so what is here stays right.
    known: BTreeMap<usize, Function>,
}

impl<'a> Scope<'a> {
    fn new(model: &'a Model, variables: BTreeMap<u8, Function>) -> Self {
        let known = BTreeMap::new();
        Scope {
            model,
            variables,
            known,
        }
    }

    fn function(&mut self, node: usize) -> Function {
        if let Some(known) = self.known.get(&node) {
            return known.clone();
        }
        let function = self.work_out(self.model.nodes[node]);
        self.known.insert(node, function.clone());
        function
    }

    /// What each kind means (docs/SPECIFICATION.md, section 2).
    fn work_out(&mut self, node: Node) -> Function {
        let model = self.model;
        match node {
            Node::True => self.each(|_, _| true),
            Node::False => self.each(|_, _| false),
            Node::Proposition(p) => self.each(|_, s| model.has(s, p)),
            Node::Complement(p) => self.each(|_, s| !model.has(s, p)),
            Node::Variable(variable) => self.variables[&variable].clone(),
            Node::Tau => self.each(|x, s| x[s]),
            Node::Diamond(group) => self.each(|x, s| model.successors_by(s, group).any(|t| x[t])),
            Node::Box(group) => self.each(|x, s| model.successors_by(s, group).all(|t| x[t])),
            Node::Or(left, right) => self.join(left, right, |l, r| l || r),
            Node::And(left, right) => self.join(left, right, |l, r| l && r),
            Node::Chop(left, right) => {
                let (left, right) = (self.function(left), self.function(right));
                tabulate(model.states, |x| at(&left, at(&right, x)).clone())
            }
            Node::Mu(variable, body) => self.approximate(false, variable, body).0,
            Node::Nu(variable, body) => self.approximate(true, variable, body).0,
        }
    }

    /// The function that takes X to the states s for which `holds(X, s)`.
    fn each(&self, holds: impl Fn(&Set, usize) -> bool) -> Function {
        let model = self.model;
        tabulate(model.states, |x| model.states_where(|s| holds(x, s)))
    }

    /// State by state at each set.
    fn join(&mut self, left: usize, right: usize, both: fn(bool, bool) -> bool) -> Function {
        let model = self.model;
        let (left, right) = (self.function(left), self.function(right));
        tabulate(model.states, |x| {
            let (left, right) = (at(&left, x), at(&right, x));
            model.states_where(|s| both(left[s], right[s]))
        })
    }

    /// The first approximant that equals the next one at every set, and its number. Approximant 0
    /// has every state everywhere or none, as `start` says.
    fn approximate(&self, start: bool, variable: u8, body: usize) -> (Function, u64) {
        let mut approximant = self.each(|_, _| start);
        let mut rounds = 0;
        loop {
            let mut variables = self.variables.clone();
            variables.insert(variable, approximant.clone());
            let next = Scope::new(self.model, variables).function(body);
            if next == approximant {
                return (approximant, rounds);
            }
            approximant = next;
            rounds += 1;
        }
    }
}
