//! The nodes of a rule: the table of kinds (docs/SPECIFICATION.md, 1.7).
use crate::case::Triple;
use kinds::*;

/// The kinds by name. Elsewhere their numbers stand in the bytes of cases only.
pub mod kinds {
    pub const TRUE: u8 = 0;
    pub const FALSE: u8 = 1;
    pub const PROPOSITION: u8 = 2;
    pub const COMPLEMENT: u8 = 3;
    pub const VARIABLE: u8 = 4;
    pub const TAU: u8 = 5;
    pub const DIAMOND: u8 = 6;
    pub const BOX: u8 = 7;
    pub const OR: u8 = 8;
    pub const AND: u8 = 9;
    pub const CHOP: u8 = 10;
    pub const MU: u8 = 11;
    pub const NU: u8 = 12;
    pub const GROUP_DIAMOND: u8 = 13;
    pub const GROUP_BOX: u8 = 14;

    /// How many there are: the bytes below this one are kinds.
    pub const COUNT: usize = 15;

    /// The kinds of q in law 3: they yield the same whatever set is given. So do kinds 13 and 14
    /// with the empty group, but the law goes by the kind and leaves them out.
    pub const CONSTANT: [u8; 4] = [TRUE, FALSE, PROPOSITION, COMPLEMENT];

    /// How many values A can have, 1 where it is unused; `None` where it is a node, or for no kind.
    pub fn values_of_a(kind: u8) -> Option<usize> {
        match kind {
            TRUE | FALSE | TAU => Some(1),
            PROPOSITION | COMPLEMENT | DIAMOND | BOX => Some(8),
            VARIABLE | MU | NU => Some(16),
            GROUP_DIAMOND | GROUP_BOX => Some(256),
            _ => None,
        }
    }
}

/// What a node names: the one classification of kinds.
#[derive(Clone, Copy, Debug, PartialEq, Eq)]
pub enum Shape {
    /// No node.
    Leaf,
    /// Two nodes.
    Two(usize, usize),
    /// The variable that it binds, and its body.
    Binder(u8, usize),
}

impl Shape {
    /// The shape of any bytes. What is no kind names no node.
    #[inline]
    pub fn of((kind, a, b): Triple) -> Shape {
        match kind {
            OR | AND | CHOP => Shape::Two(a.into(), b.into()),
            MU | NU => Shape::Binder(a, b.into()),
            _ => Shape::Leaf,
        }
    }

    pub fn named(self) -> Vec<usize> {
        match self {
            Shape::Leaf => vec![],
            Shape::Two(left, right) => vec![left, right],
            Shape::Binder(_, body) => vec![body],
        }
    }

    pub fn bound(self) -> Option<u8> {
        match self {
            Shape::Binder(variable, _) => Some(variable),
            _ => None,
        }
    }
}

/// The actions of a group: bit i is action i.
pub fn members(group: u8) -> impl Iterator<Item = u8> {
    (0..8).filter(move |action| group >> action & 1 == 1)
}

/// One node. Named nodes are node numbers.
#[derive(Clone, Copy, Debug, PartialEq, Eq)]
pub enum Node {
    True,
    False,
    Proposition(u8),
    Complement(u8),
    Variable(u8),
    Tau,
    /// Some step whose action is in the group leads into the set: bit i of the group is action i.
    Diamond(u8),
    /// All such steps do.
    Box(u8),
    Or(usize, usize),
    And(usize, usize),
    Chop(usize, usize),
    Mu(u8, usize),
    Nu(u8, usize),
}

impl Node {
    /// The node of these bytes; `None` where its kind, a range, an unused byte or a named node
    /// is wrong. `number` is the node's own number, which the nodes it names must be below.
    pub fn read(triple: Triple, number: usize) -> Option<Node> {
        let (kind, a, b) = triple;
        let shape = Shape::of(triple);
        let a_fits = values_of_a(kind).is_none_or(|values| usize::from(a) < values);
        let b_fits = b == 0 || shape != Shape::Leaf;
        let names_lower = shape.named().iter().all(|&named| named < number);
        if !(a_fits && b_fits && names_lower) {
            return None;
        }
        let node = match (kind, shape) {
            (TRUE, _) => Node::True,
            (FALSE, _) => Node::False,
            (PROPOSITION, _) => Node::Proposition(a),
            (COMPLEMENT, _) => Node::Complement(a),
            (VARIABLE, _) => Node::Variable(a),
            (TAU, _) => Node::Tau,
            // One action is a group of its own.
            (DIAMOND, _) => Node::Diamond(1 << a),
            (BOX, _) => Node::Box(1 << a),
            (GROUP_DIAMOND, _) => Node::Diamond(a),
            (GROUP_BOX, _) => Node::Box(a),
            (OR, Shape::Two(left, right)) => Node::Or(left, right),
            (AND, Shape::Two(left, right)) => Node::And(left, right),
            (CHOP, Shape::Two(left, right)) => Node::Chop(left, right),
            (MU, Shape::Binder(variable, body)) => Node::Mu(variable, body),
            (NU, Shape::Binder(variable, body)) => Node::Nu(variable, body),
            _ => return None,
        };
        Some(node)
    }
}

#[cfg(test)]
mod tests {
    use super::*;

    /// Of all bytes those whose node with A and B 0 is wanted.
    fn kinds_where(wanted: impl Fn(Triple) -> bool) -> Vec<u8> {
        (0..=255).filter(|&kind| wanted((kind, 0, 0))).collect()
    }

    #[test]
    fn every_byte_has_a_shape() {
        let two = kinds_where(|node| Shape::of(node) == Shape::Two(0, 0));
        assert_eq!(two, [8, 9, 10]);
        let binders = kinds_where(|node| Shape::of(node) == Shape::Binder(0, 0));
        assert_eq!(binders, [11, 12]);
        let leaves = kinds_where(|node| Shape::of(node) == Shape::Leaf);
        assert_eq!(leaves.len(), 256 - 5);
        assert_eq!(Shape::of((12, 200, 3)), Shape::Binder(200, 3));
    }

    #[test]
    fn only_kinds_are_read() {
        let read = kinds_where(|node| Node::read(node, 1).is_some());
        assert_eq!(read, Vec::from_iter(0..COUNT as u8));
    }

    /// For each kind the highest A of node 1; its B can only be 0.
    #[test]
    fn highest_operands() {
        let highest = [0, 0, 7, 7, 15, 0, 7, 7, 0, 0, 0, 15, 15, 255, 255];
        assert_eq!(highest.len(), COUNT);
        for (kind, highest) in (0..).zip(highest) {
            for a in 0..=255 {
                let read = Node::read((kind, a, 0), 1).is_some();
                assert_eq!(read, a <= highest, "kind {kind}, {a}");
            }
            assert_eq!(Node::read((kind, highest, 1), 1), None, "kind {kind}");
        }
    }

    #[test]
    fn an_action_is_the_group_of_its_bit() {
        let read = |kind, a| Node::read((kind, a, 0), 0);
        for action in 0..8 {
            assert_eq!(read(6, action), read(13, 1 << action));
            assert_eq!(read(7, action), read(14, 1 << action));
        }
        assert_eq!(read(13, 0b1000_0001), Some(Node::Diamond(0b1000_0001)));
        assert_eq!(read(14, 0), Some(Node::Box(0)));
    }
}
