//! What a judgement works out once from the rule, as the proved judges do.
use plain::kinds::VARIABLE;
use plain::{Shape, Triple};

pub struct Rule<'a> {
    /// Three bytes a node.
    pub nodes: &'a [u8],
    pub root: usize,
    /// For each node its free variables as a mask, and beyond them bits that are always and never
    /// active: the first in every node, the second in those that the root does not reach.
    pub scopes: [u32; 64],
    /// For each variable its binder.
    pub homes: [usize; 16],
}

/// Active from the start.
pub const ALWAYS: u32 = 1 << 16;
/// Never active.
const NEVER: u32 = 1 << 17;

impl<'a> Rule<'a> {
    /// The rule of a section that vetting accepts.
    pub fn new(section: &'a [u8]) -> Self {
        let (&root, nodes) = section.split_last().expect("a root");
        let mut rule = Rule {
            nodes,
            root: root.into(),
            scopes: [NEVER; 64],
            homes: [0; 16],
        };
        let free = rule.read_nodes();
        rule.reach();
        for (scope, free) in rule.scopes.iter_mut().zip(free) {
            *scope |= free;
        }
        rule
    }

    pub fn count(&self) -> usize {
        self.nodes.len() / 3
    }

    /// Kind, A and B of node j.
    pub fn node(&self, j: usize) -> Triple {
        let node = &self.nodes[3 * j..3 * j + 3];
        (node[0], node[1], node[2])
    }

    /// The binders, and the free variables of each node.
    fn read_nodes(&mut self) -> [u32; 64] {
        let mut free = [0_u32; 64];
        for j in 0..self.count() {
            let (kind, a, _) = self.node(j);
            free[j] = match Shape::of(self.node(j)) {
                Shape::Leaf if kind == VARIABLE => 1 << a,
                Shape::Leaf => 0,
                Shape::Two(left, right) => free[left] | free[right],
                Shape::Binder(variable, body) => {
                    self.homes[usize::from(variable)] = j;
                    free[body] & !(1 << variable)
                }
            };
        }
        free
    }

    /// The nodes that the root reaches.
    fn reach(&mut self) {
        self.scopes[self.root] = ALWAYS;
        for j in (0..=self.root).rev() {
            if self.scopes[j] == ALWAYS {
                match Shape::of(self.node(j)) {
                    Shape::Leaf => {}
                    Shape::Two(left, right) => {
                        self.scopes[left] = ALWAYS;
                        self.scopes[right] = ALWAYS;
                    }
                    Shape::Binder(_, body) => self.scopes[body] = ALWAYS,
                }
            }
        }
    }
}
