//! A rule as it grows, lowest node first.
use crate::generate;
use crate::rng::Rng;
use plain::kinds::{AND, BOX, CHOP, DIAMOND, GROUP_BOX, GROUP_DIAMOND, MU, NU, OR, TAU, VARIABLE};
use plain::{Shape, Triple};

/// Which rules are drawn.
#[derive(Clone, Copy, PartialEq, Eq)]
pub enum Form {
    Any,
    Regular,
}

/// With so many nodes a rule is only brought to its end, for which 64 leave room.
pub const ENOUGH: usize = 40;

pub struct Rule {
    pub form: Form,
    pub nodes: Vec<Triple>,
    /// For each node its free variables: bit v for variable v.
    free: Vec<u16>,
    /// For each node the binders on one path down from it.
    nesting: Vec<usize>,
    /// For each node whether it can stand in a regular rule, other than on the left of a chop.
    regular: Vec<bool>,
    /// Variables without a binder so far.
    pub unused: Vec<u8>,
    /// The variables that binders above what is being drawn bind.
    pub scope: Vec<u8>,
}

impl Rule {
    pub fn new(rng: &mut Rng, form: Form) -> Rule {
        Rule {
            form,
            nodes: vec![],
            free: vec![],
            nesting: vec![],
            regular: vec![],
            unused: shuffled(rng),
            scope: vec![],
        }
    }

    /// The nodes that are there already and can be named here, with so many binders below each other.
    pub fn fitting(&self, nesting: usize) -> Vec<usize> {
        let scope = self.scope.iter().fold(0, |mask, &v| mask | 1 << v);
        let fits = |&j: &usize| {
            let form = self.form == Form::Any || self.regular[j];
            form && self.free[j] & !scope == 0 && self.nesting[j] <= nesting
        };
        (0..self.nodes.len()).filter(fits).collect()
    }

    /// Adds the node, now and then after one that nothing names yet.
    pub fn push(&mut self, rng: &mut Rng, node: Triple) -> u8 {
        if self.nodes.len() < ENOUGH && rng.one_in(8) {
            self.unreached(rng);
        }
        self.add(node)
    }

    /// A node with free variables, bound elsewhere or nowhere; or a binder over any node; or a leaf,
    /// which may look where the rule does not.
    pub fn unreached(&mut self, rng: &mut Rng) {
        let variable = self.add((VARIABLE, rng.byte_below(16), 0));
        let below = rng.byte_below(self.nodes.len());
        match (rng.below(4), self.unused.len()) {
            (0, 4..) => {
                let bound = self.unused.pop().expect("four at least");
                self.add((rng.pick(&[MU, NU]), bound, below));
            }
            (1, _) => {
                self.add((rng.pick(&[OR, AND, CHOP]), variable, below));
            }
            (2, _) => {
                self.add(generate::leaf(rng));
            }
            _ => {}
        }
    }

    fn add(&mut self, node: Triple) -> u8 {
        let (kind, a, _) = node;
        let (free, nesting) = match Shape::of(node) {
            Shape::Leaf if kind == VARIABLE => (1 << a, 0),
            Shape::Leaf => (0, 0),
            Shape::Two(left, right) => (
                self.free[left] | self.free[right],
                self.nesting[left].max(self.nesting[right]),
            ),
            Shape::Binder(v, body) => (self.free[body] & !(1 << v), 1 + self.nesting[body]),
        };
        self.regular.push(self.is_regular(node));
        self.nodes.push(node);
        self.free.push(free);
        self.nesting.push(nesting);
        self.nodes.len() as u8 - 1
    }

    fn is_regular(&self, node: Triple) -> bool {
        match Shape::of(node) {
            Shape::Leaf => node.0 != TAU && !is_modality(node),
            Shape::Two(left, right) if node.0 == CHOP => {
                is_modality(self.nodes[left]) && self.regular[right]
            }
            named => named.named().into_iter().all(|j| self.regular[j]),
        }
    }
}

/// Whether the node may stand on the left of a chop in a regular rule, and only there.
pub fn is_modality((kind, ..): Triple) -> bool {
    matches!(kind, DIAMOND | BOX | GROUP_DIAMOND | GROUP_BOX)
}

fn shuffled(rng: &mut Rng) -> Vec<u8> {
    let mut variables: Vec<u8> = (0..16).collect();
    for last in (1..16).rev() {
        variables.swap(last, rng.within(0..=last));
    }
    variables
}
