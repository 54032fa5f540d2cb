//! A rule whose nodes have keys that stay when others are put in between.
use crate::case::{Case, Triple};
use crate::node::Shape;
use std::collections::BTreeMap;

/// The number of a node that was there, and a rank: nodes put in before it have lower ones.
pub type Key = (usize, usize);

const WAS_THERE: usize = 2;

/// A node with the nodes that it mentions.
#[derive(Clone, Copy)]
pub enum Keyed {
    /// Names no node.
    Leaf(Triple),
    /// The kind of a node that names two, and those.
    Two(u8, Key, Key),
    /// A binder's kind, variable and body.
    Binder(u8, u8, Key),
}

pub struct Rule {
    pub nodes: BTreeMap<Key, Keyed>,
    root: Key,
}

/// The key of a node of the case.
pub fn key(number: usize) -> Key {
    (number, WAS_THERE)
}

/// The keys of two nodes put in directly before this one.
pub fn before(node: Key) -> (Key, Key) {
    ((node.0, 0), (node.0, 1))
}

impl Rule {
    pub fn of(case: &Case) -> Rule {
        let read = |&node: &Triple| match Shape::of(node) {
            Shape::Leaf => Keyed::Leaf(node),
            Shape::Two(left, right) => Keyed::Two(node.0, key(left), key(right)),
            Shape::Binder(variable, body) => Keyed::Binder(node.0, variable, key(body)),
        };
        let nodes = case.nodes.iter().map(read).enumerate();
        Rule {
            nodes: nodes.map(|(number, node)| (key(number), node)).collect(),
            root: key(case.root.into()),
        }
    }

    /// Makes every mention of `old`, by a node or as the root, one of `new`.
    pub fn redirect(&mut self, old: Key, new: Key) {
        let change = |name: Key| if name == old { new } else { name };
        for node in self.nodes.values_mut() {
            *node = match *node {
                Keyed::Leaf(leaf) => Keyed::Leaf(leaf),
                Keyed::Two(kind, left, right) => Keyed::Two(kind, change(left), change(right)),
                Keyed::Binder(kind, variable, body) => Keyed::Binder(kind, variable, change(body)),
            };
        }
        self.root = change(self.root);
    }

    /// The case with this rule: a node's number is its place in the order of the keys.
    pub fn put_into(&self, case: &Case) -> Case {
        let number = |name: Key| self.nodes.keys().position(|&key| key == name).unwrap() as u8;
        let write = |node: &Keyed| match *node {
            Keyed::Leaf(leaf) => leaf,
            Keyed::Two(kind, left, right) => (kind, number(left), number(right)),
            Keyed::Binder(kind, variable, body) => (kind, variable, number(body)),
        };
        Case {
            nodes: self.nodes.values().map(write).collect(),
            root: number(self.root),
            ..case.clone()
        }
    }
}
