//! The meaning of a rule for one or two states just as it is defined: μ and ν go through
//! all monotone functions. It shares nothing with the other meaning but the nodes.
use crate::case::Case;
use crate::node::Node;

/// A set of states as a mask: bit i is state i.
type Mask = u8;

/// The values of a function from sets to sets, by argument.
type Values = Vec<Mask>;

/// For each variable its function, if it has one.
type Variables = [Option<Values>; 16];

const NO_VARIABLES: Variables = [const { None }; 16];

/// The root's function at every set, and its rounds. Takes no care of shared nodes: the time
/// grows with the rule's tree, and 36-fold with each binder inside another.
///
/// # Panics
/// If rows 1 to 7 meet the case, or it has more than two states.
pub fn meaning_by_all_functions(case: &Case) -> (Values, u64) {
    assert!(case.labels.len() <= 2, "too many functions");
    let reading = Reading::new(case);
    let root = usize::from(case.root);
    let values = reading.function(root, &NO_VARIABLES);
    let rounds = match reading.nodes[root] {
        Node::Mu(variable, body) => reading.rounds(0, variable, body),
        Node::Nu(variable, body) => reading.rounds(reading.all(), variable, body),
        _ => 0,
    };
    (values, rounds)
}

struct Reading<'a> {
    case: &'a Case,
    nodes: Vec<Node>,
    monotone: Vec<Values>,
}

impl<'a> Reading<'a> {
    fn new(case: &'a Case) -> Self {
        let read = |(j, &triple)| Node::read(triple, j).expect("a node of a valid case");
        let mut monotone = functions(1 << case.labels.len());
        monotone.retain(|f| is_monotone(f));
        Reading {
            case,
            nodes: case.nodes.iter().enumerate().map(read).collect(),
            monotone,
        }
    }

    /// The set of all states, which is also the last set.
    fn all(&self) -> Mask {
        (1 << self.case.labels.len()) - 1
    }

    fn function(&self, node: usize, variables: &Variables) -> Values {
        let each = |value: &dyn Fn(Mask) -> Mask| (0..=self.all()).map(value).collect();
        let named = |node: usize| self.function(node, variables);
        match self.nodes[node] {
            Node::True => each(&|_| self.all()),
            Node::False => each(&|_| 0),
            Node::Proposition(p) => each(&|_| self.with(p)),
            Node::Complement(p) => each(&|_| self.all() & !self.with(p)),
            Node::Variable(v) => variables[usize::from(v)].clone().expect("a bound variable"),
            Node::Tau => each(&|x| x),
            Node::Diamond(group) => each(&|x| self.sources(group, x)),
            Node::Box(group) => each(&|x| self.all() & !self.sources(group, self.all() & !x)),
            Node::Or(left, right) => {
                let (left, right) = (named(left), named(right));
                each(&|x| value(&left, x) | value(&right, x))
            }
            Node::And(left, right) => {
                let (left, right) = (named(left), named(right));
                each(&|x| value(&left, x) & value(&right, x))
            }
            Node::Chop(left, right) => {
                let (left, right) = (named(left), named(right));
                each(&|x| value(&left, value(&right, x)))
            }
            Node::Mu(v, body) => {
                let closed = self.functions_where(|f| below(&self.body(f, v, body, variables), f));
                let meet = |x| closed.iter().fold(self.all(), |set, f| set & value(f, x));
                each(&meet)
            }
            Node::Nu(v, body) => {
                let closed = self.functions_where(|f| below(f, &self.body(f, v, body, variables)));
                let join = |x| closed.iter().fold(0, |set, f| set | value(f, x));
                each(&join)
            }
        }
    }

    /// The body's function where the variable's is `f`.
    fn body(&self, f: &Values, variable: u8, body: usize, variables: &Variables) -> Values {
        let mut variables = variables.clone();
        variables[usize::from(variable)] = Some(f.clone());
        self.function(body, &variables)
    }

    fn functions_where(&self, wanted: impl Fn(&Values) -> bool) -> Vec<&Values> {
        self.monotone.iter().filter(|f| wanted(f)).collect()
    }

    /// The states that have the proposition.
    fn with(&self, proposition: u8) -> Mask {
        let bit = |s: usize| self.case.labels[s] >> proposition & 1;
        (0..self.case.labels.len()).map(|s| bit(s) << s).sum()
    }

    /// The states with some step into the set whose action is in the group.
    fn sources(&self, group: u8, set: Mask) -> Mask {
        let steps = self.case.steps.iter();
        let into = steps.filter(|&&(_, action, to)| (group >> action) & (set >> to) & 1 == 1);
        into.fold(0, |sources, &(from, _, _)| sources | 1 << from)
    }

    /// The least k whose approximant equals the next one, approximant 0 being `start` everywhere.
    fn rounds(&self, start: Mask, variable: u8, body: usize) -> u64 {
        let mut approximants = vec![vec![start; 1 << self.case.labels.len()]];
        loop {
            let last = approximants.last().expect("approximant 0 at least");
            let next = self.body(last, variable, body, &NO_VARIABLES);
            if next == *last {
                return approximants.len() as u64 - 1;
            }
            approximants.push(next);
        }
    }
}

fn value(f: &[Mask], x: Mask) -> Mask {
    f[usize::from(x)]
}

fn contained(x: Mask, y: Mask) -> bool {
    x & y == x
}

/// Contained at every set.
fn below(f: &[Mask], g: &[Mask]) -> bool {
    f.iter().zip(g).all(|(&x, &y)| contained(x, y))
}

fn is_monotone(f: &[Mask]) -> bool {
    let sets = 0..f.len() as Mask;
    let kept = |x, y| !contained(x, y) || contained(value(f, x), value(f, y));
    sets.clone().all(|x| sets.clone().all(|y| kept(x, y)))
}

/// Every function on this many sets.
fn functions(sets: usize) -> Vec<Values> {
    (0..sets).fold(vec![vec![]], |shorter, _| {
        let longer = |f: Values| (0..sets as Mask).map(move |last| [&f[..], &[last]].concat());
        shorter.into_iter().flat_map(longer).collect()
    })
}

#[cfg(test)]
mod tests {
    use super::*;
    use crate::case::Triple;
    use crate::meaning::meaning;
    use crate::sets::number;

    #[test]
    fn all_monotone_functions_are_there() {
        let monotone = |sets| {
            let all = functions(sets);
            let monotone = all.iter().filter(|f| is_monotone(f)).count();
            (all.len(), monotone)
        };
        // One monotone Boolean function for each state: 3 of one variable, 6 of two.
        assert_eq!(monotone(2), (4, 3));
        assert_eq!(monotone(4), (256, 6 * 6));
    }

    /// What the root yields at each set. Both meanings must agree on it and on the rounds.
    fn both(case: &Case) -> Values {
        let (values, rounds) = meaning_by_all_functions(case);
        let other = meaning(case);
        let sets = other.function.iter().map(|set| number(set) as Mask);
        assert_eq!((sets.collect(), other.rounds), (values.clone(), rounds));
        values
    }

    /// Two states, of which 1 has proposition 0, with the steps by the lowest and the highest
    /// action that the bits tell.
    fn table(bits: u8, nodes: &[Triple]) -> Case {
        let taken = (0..8).filter(|i| bits >> i & 1 == 1);
        Case {
            labels: vec![0, 1],
            steps: taken.map(|i| (i / 4, 7 * (i / 2 % 2), i % 2)).collect(),
            nodes: nodes.to_vec(),
            root: nodes.len() as u8 - 1,
            starts: vec![],
        }
    }

    /// State 0 has a step to itself by action 0 and one to state 1 by action 7.
    #[test]
    fn groups_on_one_table() {
        let at_each_set = |kind, group| both(&table(0b1001, &[(kind, group, 0)]));
        for (group, some, all) in [
            (0b0000_0000, [0, 0, 0, 0], [3, 3, 3, 3]),
            (0b0111_1110, [0, 0, 0, 0], [3, 3, 3, 3]),
            (0b0000_0001, [0, 1, 0, 1], [2, 3, 2, 3]),
            (0b1000_0000, [0, 0, 1, 1], [2, 2, 3, 3]),
            (0b1000_0001, [0, 1, 1, 1], [2, 2, 2, 3]),
            (0b1111_1111, [0, 1, 1, 1], [2, 2, 2, 3]),
        ] {
            assert_eq!(at_each_set(13, group), some, "group {group}");
            assert_eq!(at_each_set(14, group), all, "group {group}");
        }
    }

    /// Every such table, under a group by itself and within a binder.
    #[test]
    fn both_ways_agree_on_groups() {
        for bits in 0..=255 {
            for group in [0, 1, 0b0111_1110, 128, 129, 255] {
                for (kind, operation, binder) in [(13, 8, 11), (14, 9, 12)] {
                    let modality = (kind, group, 0);
                    both(&table(bits, &[modality]));
                    let body = [
                        (2, 0, 0),
                        (4, 0, 0),
                        modality,
                        (10, 2, 1),
                        (operation, 0, 3),
                    ];
                    both(&table(bits, &[&body[..], &[(binder, 0, 4)]].concat()));
                }
            }
        }
    }
}
