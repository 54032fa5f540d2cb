//! Judging a regular rule (request 2026-06): rows 1 to 7 as widened there, 14, 9 and 13, then the set.
//!
//! No node of such a rule makes use of the set that it is given, but for the modalities, which are given
//! what stands to their right. So each node yields one set, and a variable stands for one.
use crate::case::Case;
use crate::node::Node;
use crate::output::in_room;
use crate::profile::is_regular;
use crate::refusal::Refusal;
use crate::sets::Set;
use crate::vetting::{parse_within, Limits};
use std::collections::BTreeMap;

/// The bytes of work area for each node, reached or not.
const NODE_BYTES: usize = 64;
/// The bytes of a set: bit i % 8 of byte i / 8 is state i.
const SET_BYTES: usize = 32;

/// The bytes that are written, with areas of so many bytes for work and for output.
pub fn regular(file: &[u8], bytes: usize, room: usize) -> Result<Vec<u8>, Refusal> {
    let case = parse_within(file, Limits::WIDEST)?;
    Refusal::unless(is_regular(&case), 14, 0)?;
    Refusal::unless(bytes >= NODE_BYTES * case.nodes.len(), 9, 0)?;
    in_room(set_bytes(&regular_states(&case)), room)
}

/// Whether every start state is in the set, with a work area of so many bytes: rows 1 to 7, 14 and 9
/// come first.
pub fn regular_starts_hold(file: &[u8], bytes: usize) -> Result<bool, Refusal> {
    let set = regular(file, bytes, SET_BYTES)?;
    let case = parse_within(file, Limits::WIDEST)?;
    let holds = |&state: &u8| set[usize::from(state / 8)] >> (state % 8) & 1 == 1;
    Ok(case.starts.iter().all(holds))
}

/// For each state whether it holds.
///
/// # Panics
/// If rows 1 to 7 meet the case, within the widest limits, or its rule is not regular.
pub fn regular_states(case: &Case) -> Set {
    let nodes = case.nodes.iter().enumerate();
    let read = |(j, &triple)| Node::read(triple, j).expect("a node of a valid case");
    let nodes = Vec::from_iter(nodes.map(read));
    Scope::new(case, &nodes, BTreeMap::new()).set(case.root.into())
}

fn set_bytes(set: &[bool]) -> Vec<u8> {
    let mut bytes = vec![0; SET_BYTES];
    for state in (0..set.len()).filter(|&state| set[state]) {
        bytes[state / 8] |= 1 << (state % 8);
    }
    bytes
}

/// Sets for the variables, and those of the nodes under them.
struct Scope<'a> {
    case: &'a Case,
    nodes: &'a [Node],
    variables: BTreeMap<u8, Set>,
    /// What has been worked out already: 64 nodes can have 2^63 paths, so each is done once.
    known: BTreeMap<usize, Set>,
}

impl<'a> Scope<'a> {
    fn new(case: &'a Case, nodes: &'a [Node], variables: BTreeMap<u8, Set>) -> Self {
        let known = BTreeMap::new();
        Scope {
            case,
            nodes,
            variables,
            known,
        }
    }

    fn set(&mut self, node: usize) -> Set {
        if let Some(known) = self.known.get(&node) {
            return known.clone();
        }
        let set = self.work_out(self.nodes[node]);
        self.known.insert(node, set.clone());
        set
    }

    fn work_out(&mut self, node: Node) -> Set {
        match node {
            Node::True => self.each(|_| true),
            Node::False => self.each(|_| false),
            Node::Proposition(p) => self.each(|label| label >> p & 1 == 1),
            Node::Complement(p) => self.each(|label| label >> p & 1 == 0),
            Node::Variable(variable) => self.variables[&variable].clone(),
            Node::Or(left, right) => self.join(left, right, |l, r| l || r),
            Node::And(left, right) => self.join(left, right, |l, r| l && r),
            Node::Chop(left, right) => {
                let into = self.set(right);
                self.before(self.nodes[left], &into)
            }
            Node::Mu(variable, body) => self.fixed_point(false, variable, body),
            Node::Nu(variable, body) => self.fixed_point(true, variable, body),
            Node::Tau | Node::Diamond(_) | Node::Box(_) => panic!("{node:?} in a regular rule"),
        }
    }

    fn each(&self, holds: impl Fn(u8) -> bool) -> Set {
        self.case.labels.iter().map(|&label| holds(label)).collect()
    }

    fn join(&mut self, left: usize, right: usize, both: fn(bool, bool) -> bool) -> Set {
        let (left, right) = (self.set(left), self.set(right));
        left.iter().zip(right).map(|(&l, r)| both(l, r)).collect()
    }

    /// What the modality yields of a set, by a pass over all steps: one that leads into the set adds its
    /// state to those with some such step, one that leads elsewhere takes it from those with no other.
    fn before(&self, modality: Node, into: &Set) -> Set {
        let (group, all) = match modality {
            Node::Diamond(group) => (group, false),
            Node::Box(group) => (group, true),
            _ => panic!("{modality:?} on the left in a regular rule"),
        };
        let mut set = self.each(|_| all);
        for &(from, action, to) in &self.case.steps {
            if group >> action & 1 == 1 && into[usize::from(to)] != all {
                set[usize::from(from)] = !all;
            }
        }
        set
    }

    /// The first approximant that equals the next one, each worked out from nothing but the one before.
    /// Approximant 0 has every state or none, as `start` says.
    fn fixed_point(&self, start: bool, variable: u8, body: usize) -> Set {
        let mut approximant = self.each(|_| start);
        loop {
            let mut variables = self.variables.clone();
            variables.insert(variable, approximant.clone());
            let next = Scope::new(self.case, self.nodes, variables).set(body);
            if next == approximant {
                return approximant;
            }
            approximant = next;
        }
    }
}

#[cfg(test)]
mod tests {
    use super::*;
    use crate::case::{write, Triple};

    /// Action 0 leads from each state to the next, action 1 from the last to itself; every third state
    /// has proposition 0, and the last is the start state. The root is the last node.
    fn chain(states: usize, nodes: &[Triple]) -> Case {
        let last = (states - 1) as u8;
        let mut steps = Vec::from_iter((0..last).map(|state| (state, 0, state + 1)));
        steps.push((last, 1, last));
        Case {
            labels: (0..states).map(|state| u8::from(state % 3 == 0)).collect(),
            steps,
            nodes: nodes.to_vec(),
            root: nodes.len() as u8 - 1,
            starts: vec![last],
        }
    }

    fn states(case: &Case) -> Vec<usize> {
        let set = regular_states(case);
        (0..set.len()).filter(|&state| set[state]).collect()
    }

    #[test]
    fn modalities() {
        let of = |modality| states(&chain(5, &[modality, (2, 0, 0), (10, 0, 1)]));
        assert_eq!(of((6, 0, 0)), [2], "from 2 to 3");
        assert_eq!(of((7, 0, 0)), [2, 4]);
        assert_eq!(of((6, 1, 0)), [0; 0]);
        assert_eq!(of((7, 1, 0)), [0, 1, 2, 3]);
        assert_eq!(of((13, 0b11, 0)), [2]);
        assert_eq!(of((14, 0b11, 0)), [2]);
        assert_eq!(of((13, 0, 0)), [0; 0]);
        assert_eq!(of((14, 0, 0)), [0, 1, 2, 3, 4]);
    }

    /// The last state alone has a step by action 1; from which is it reached by action 0, and from which
    /// by an even number of steps?
    #[test]
    fn least_fixed_points() {
        let nodes = [(6, 1, 0), (0, 0, 0), (10, 0, 1), (6, 0, 0), (4, 0, 0)];
        let reaching = [&nodes[..], &[(10, 3, 4), (8, 2, 5), (11, 0, 6)]].concat();
        assert_eq!(states(&chain(256, &reaching)), Vec::from_iter(0..256));
        let evenly = [(10, 3, 4), (10, 3, 5), (8, 2, 6), (11, 0, 7)];
        let evenly = [&nodes[..], &evenly].concat();
        let odd = Vec::from_iter((0..256).filter(|state| state % 2 == 1));
        assert_eq!(states(&chain(256, &evenly)), odd);
    }

    /// νZ.⟨0⟩;Z on a chain, of which no state has steps for ever, and νZ.⟨g⟩;Z.
    #[test]
    fn greatest_fixed_points() {
        let always = |modality| states(&chain(9, &[modality, (4, 0, 0), (10, 0, 1), (12, 0, 2)]));
        assert_eq!(always((6, 0, 0)), [0; 0]);
        assert_eq!(always((13, 0b11, 0)), Vec::from_iter(0..9));
    }

    #[test]
    fn rows_and_bytes() {
        let case = chain(17, &[(2, 0, 0), (5, 0, 0), (8, 0, 0)]);
        let file = write(&case);
        let mut set = vec![0; 32];
        set[..3].copy_from_slice(&[0b0100_1001, 0b1001_0010, 0]);
        assert_eq!(regular(&file, 192, 32), Ok(set));
        let refused = |number| Err(Refusal::new(number, 0));
        assert_eq!(regular(&file, 192, 31), refused(13));
        assert_eq!(regular(&file, 191, 31), refused(9));
        let outside = write(&Case { root: 1, ..case });
        assert_eq!(regular(&outside, 191, 31), refused(14));
        assert_eq!(regular(&outside[1..], 191, 31), refused(1));
    }

    #[test]
    fn every_start_state_has_to_hold() {
        for (starts, word) in [
            (&[][..], true),
            (&[0], true),
            (&[15], true),
            (&[16], false),
            (&[3, 4], false),
            (&[9, 12], true),
        ] {
            let mut case = chain(17, &[(2, 0, 0)]);
            case.starts = starts.to_vec();
            let file = write(&case);
            assert_eq!(regular_starts_hold(&file, 64), Ok(word), "{starts:?}");
            assert_eq!(regular_starts_hold(&file, 63), Err(Refusal::new(9, 0)));
        }
    }
}
