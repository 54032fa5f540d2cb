//! A case made ready for its meaning: nodes, labels, and each state's successors.
use crate::case::Case;
use crate::node::{members, Node};
use crate::sets::Set;

pub struct Model {
    pub states: usize,
    pub nodes: Vec<Node>,
    pub root: usize,
    labels: Vec<u8>,
    /// By state and action.
    successors: Vec<[Vec<usize>; 8]>,
}

impl Model {
    /// # Panics
    /// If rows 1 to 7 meet the case.
    pub fn new(case: &Case) -> Model {
        let states = case.labels.len();
        let mut successors: Vec<[Vec<usize>; 8]> = vec![Default::default(); states];
        for &(from, action, to) in &case.steps {
            successors[usize::from(from)][usize::from(action)].push(usize::from(to));
        }
        let read = |(j, &triple)| Node::read(triple, j).expect("a node of a valid case");
        Model {
            states,
            nodes: case.nodes.iter().enumerate().map(read).collect(),
            root: usize::from(case.root),
            labels: case.labels.clone(),
            successors,
        }
    }

    /// The states that `holds` says yes to.
    pub fn states_where(&self, holds: impl Fn(usize) -> bool) -> Set {
        (0..self.states).map(holds).collect()
    }

    pub fn has(&self, state: usize, proposition: u8) -> bool {
        self.labels[state] >> proposition & 1 == 1
    }

    /// Where the steps of this action from the state go.
    pub fn successors(&self, state: usize, action: u8) -> &[usize] {
        &self.successors[state][usize::from(action)]
    }

    /// Where the steps of the group's actions from the state go.
    pub fn successors_by(&self, state: usize, group: u8) -> impl Iterator<Item = usize> + '_ {
        members(group).flat_map(move |action| self.successors(state, action).iter().copied())
    }
}
