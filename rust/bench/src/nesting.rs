//! Nested binders with many rounds on every level.
use plain::kinds::{AND, CHOP, MU, NU, OR, PROPOSITION, VARIABLE};
use plain::{Case, Triple};

/// How the binders of a rule follow one another, from the outermost in.
#[derive(Clone, Copy)]
pub enum Binders {
    /// μ within μ.
    OneKind,
    /// μ, ν, μ and so on.
    Alternating,
}

impl Binders {
    pub fn kind(self, level: usize) -> u8 {
        match self {
            Binders::OneKind => MU,
            Binders::Alternating => [MU, NU][level % 2],
        }
    }
}

/// One proposition a level.
pub const DEEPEST: usize = 8;

/// States in rings that action 0 turns all together, and from each state a step of action 1 to the
/// first of each ring. State i has proposition i.
///
/// Level i takes part in the body, a union, with `pi and ([1] or Xi;⟨0⟩)`, or for ν with
/// `pi and (⟨1⟩ and Xi;⟨0⟩)`. So each state that has a proposition is decided on its own level, which
/// takes as many rounds as the rings need to stand again as they stood: the least common multiple
/// of their sizes. There are at most as many levels as states.
pub fn case(rings: &[usize], levels: usize, binders: Binders) -> Case {
    let states: usize = rings.iter().sum();
    let mut nodes = vec![(6, 0, 0), (7, 1, 0), (6, 1, 0)];
    for level in 0..levels {
        let next = nodes.len() as u8;
        let (operation, modality) = match binders.kind(level) {
            MU => (OR, 1),
            _ => (AND, 2),
        };
        nodes.extend([
            (VARIABLE, level as u8, 0),
            (CHOP, next, 0),
            (operation, modality, next + 1),
            (PROPOSITION, level as u8, 0),
            (AND, next + 3, next + 2),
        ]);
        if level > 0 {
            nodes.push((OR, next - 1, next + 4));
        }
    }
    for level in (0..levels).rev() {
        nodes.push((binders.kind(level), level as u8, nodes.len() as u8 - 1));
    }
    Case {
        labels: (0..states)
            .map(|s| 1_u8.checked_shl(s as u32).unwrap_or(0))
            .collect(),
        steps: steps(rings, states),
        root: nodes.len() as u8 - 1,
        nodes,
        starts: vec![],
    }
}

fn steps(rings: &[usize], states: usize) -> Vec<Triple> {
    let mut steps = vec![];
    let mut start = 0;
    for size in rings {
        let end = start + size;
        for state in start..end {
            let next = if state + 1 == end { start } else { state + 1 };
            steps.push((state as u8, 0, next as u8));
        }
        steps.extend((0..states).map(|state| (state as u8, 1, start as u8)));
        start = end;
    }
    steps.sort_unstable();
    steps
}

#[cfg(test)]
mod tests {
    use super::*;

    /// Every level takes as many rounds as the rings' least common multiple, the outermost too.
    #[test]
    fn rounds_of_the_outermost_level() {
        for binders in [Binders::OneKind, Binders::Alternating] {
            for levels in 1..=3 {
                let file = plain::write(&case(&[2, 3], levels, binders));
                let mut work = vec![0; hoidrul::work_area(&file).unwrap()];
                let proved = hoidrul::judge(&file, 0, &mut work).unwrap();
                assert_eq!(proved.rounds, 6, "{levels} levels");
                let plain = plain::judge(&file, 0, work.len()).unwrap();
                assert_eq!(plain.rounds, 6, "{levels} levels");
            }
        }
    }

    #[test]
    fn the_deepest_rule_is_a_case() {
        let file = plain::write(&case(&[4, 5, 7], DEEPEST, Binders::Alternating));
        assert_eq!(plain::vet(&file, 0), Ok((16, 58)));
    }
}
