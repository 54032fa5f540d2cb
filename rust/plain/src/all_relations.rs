//! Alike states by going through all relations, as the definition says it.
use crate::alike::lowest;
use crate::case::{Case, Triple};
use crate::looks::Looks;

/// For each state the lowest that some bisimulation relates to it. There are 2^(n × n) relations.
///
/// # Panics
/// If rows 1 to 7 meet the case, or it has more than four states.
pub fn classes_by_all_relations(case: &Case) -> Vec<u8> {
    let states = case.labels.len();
    assert!(states <= 4, "too many relations");
    let looks = Looks::of(case);
    let bisimulations = (0_u32..1 << (states * states))
        .map(|number| Numbered { number, states })
        .filter(|relation| relation.is_bisimulation(case, &looks));
    let alike = bisimulations.flat_map(Numbered::pairs).collect();
    lowest(&alike, states)
}

/// A relation by its number: bit n × s + t for the pair of s and t.
#[derive(Clone, Copy)]
struct Numbered {
    number: u32,
    states: usize,
}

impl Numbered {
    fn pairs(self) -> impl Iterator<Item = (usize, usize)> {
        let all = (0..self.states * self.states).map(move |i| (i / self.states, i % self.states));
        all.filter(move |&(s, t)| self.relates(s, t))
    }

    fn relates(self, s: usize, t: usize) -> bool {
        self.number >> (s * self.states + t) & 1 == 1
    }

    fn is_bisimulation(self, case: &Case, looks: &Looks) -> bool {
        let meets = |x: &Triple, y: &Triple| x.1 == y.1 && self.relates(x.2.into(), y.2.into());
        self.pairs().all(|(s, t)| {
            let differ = case.labels[s] ^ case.labels[t];
            looks.propositions.iter().all(|i| differ >> i & 1 == 0)
                && from(case, looks, s).all(|x| from(case, looks, t).any(|y| meets(x, y)))
                && from(case, looks, t).all(|y| from(case, looks, s).any(|x| meets(x, y)))
        })
    }
}

/// The steps of a state that are looked at.
fn from<'a>(case: &'a Case, looks: &'a Looks, state: usize) -> impl Iterator<Item = &'a Triple> {
    let of_state = move |step: &&Triple| usize::from(step.0) == state;
    let steps = case.steps.iter().filter(of_state);
    steps.filter(|step| looks.actions.contains(&step.1))
}

#[cfg(test)]
mod tests {
    use super::*;
    use crate::alike::alike;

    /// Rules that look at nothing, at proposition 0, at actions 0 and 1, at proposition 0 and action 0.
    #[test]
    fn both_ways_agree() {
        both_ways_agree_under(&[(5, 0, 0)]);
        both_ways_agree_under(&[(3, 0, 0)]);
        both_ways_agree_under(&[(14, 0b11, 0)]);
        both_ways_agree_under(&[(2, 0, 0), (6, 0, 0), (10, 1, 0)]);
    }

    /// Every table of two states with one action and two labels.
    fn both_ways_agree_under(nodes: &[Triple]) {
        let all = [(0, 0, 0), (0, 0, 1), (1, 0, 0), (1, 0, 1)];
        for number in 0..1 << 6 {
            let holds = |bit: usize| number >> bit & 1 == 1;
            let case = Case {
                labels: vec![u8::from(holds(4)), u8::from(holds(5))],
                steps: (0..4).filter(|&i| holds(i)).map(|i| all[i]).collect(),
                nodes: nodes.to_vec(),
                root: nodes.len() as u8 - 1,
                starts: vec![],
            };
            let expected = classes_by_all_relations(&case);
            assert_eq!(lowest(&alike(&case), 2), expected, "{case:?}");
        }
    }
}
