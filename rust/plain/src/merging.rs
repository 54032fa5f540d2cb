//! Merging two alike states.
use crate::alike::alike;
use crate::case::{write, Case, Triple};
use crate::output::in_room;
use crate::refusal::Refusal;
use crate::vetting::parse;
use std::cmp::Ordering;
use std::collections::BTreeSet;

/// Rows 1 to 7, 8, 10 and 13, then the file in which the lower state stands for both.
pub fn merge(file: &[u8], s: usize, t: usize, room: usize) -> Result<Vec<u8>, Refusal> {
    let case = parse(file)?;
    let states = case.labels.len();
    Refusal::unless(s < states && t < states, 8, 0)?;
    Refusal::unless(s != t && alike(&case).contains(&(s, t)), 10, 0)?;
    in_room(write(&merged(&case, s.min(t), s.max(t))), room)
}

/// The number that a state has, or the state standing for it, after a merge.
pub fn standing(state: usize, kept: usize, removed: usize) -> usize {
    match state.cmp(&removed) {
        Ordering::Less => state,
        Ordering::Equal => kept,
        Ordering::Greater => state - 1,
    }
}

/// A set puts steps, or start states, in order and makes repeats fall together.
fn merged(case: &Case, kept: usize, removed: usize) -> Case {
    let renumber = |state: u8| standing(state.into(), kept, removed) as u8;
    let steps: BTreeSet<Triple> = case
        .steps
        .iter()
        .filter(|step| usize::from(step.0) != removed)
        .map(|&(from, action, to)| (renumber(from), action, renumber(to)))
        .collect();
    let starts: BTreeSet<u8> = case.starts.iter().map(|&state| renumber(state)).collect();
    let mut labels = case.labels.clone();
    labels.remove(removed);
    Case {
        labels,
        steps: steps.into_iter().collect(),
        starts: starts.into_iter().collect(),
        ..case.clone()
    }
}

#[cfg(test)]
mod tests {
    use super::*;

    /// 0 and 1 are alike, 2 is their successor; 3 has a step to each. The rule looks at the three
    /// actions and at no proposition.
    #[test]
    fn the_lower_state_stands_for_both() {
        let steps = [(0, 0, 2), (1, 0, 2), (3, 1, 0), (3, 1, 1), (3, 2, 2)];
        let case = Case {
            labels: vec![1, 0, 2, 3],
            steps: steps.to_vec(),
            nodes: vec![(13, 0b111, 0)],
            root: 0,
            starts: vec![1, 3],
        };
        let file = write(&case);
        let expected = Case {
            labels: vec![1, 2, 3],
            steps: vec![(0, 0, 1), (2, 1, 0), (2, 2, 1)],
            starts: vec![0, 2],
            ..case
        };
        for (s, t) in [(0, 1), (1, 0)] {
            assert_eq!(merge(&file, s, t, 100), Ok(write(&expected)));
        }
        assert_eq!(merge(&file, 0, 4, 100), Err(Refusal::new(8, 0)));
        assert_eq!(merge(&file, 4, 4, 100), Err(Refusal::new(8, 0)));
        assert_eq!(merge(&file, 3, 3, 100), Err(Refusal::new(10, 0)));
        assert_eq!(merge(&file, 0, 2, 0), Err(Refusal::new(10, 0)));
        assert_eq!(merge(&file, 0, 1, 33), Err(Refusal::new(13, 0)));
        assert_eq!(merge(&file, 0, 1, 34), Ok(write(&expected)));
    }

    /// Start states of a table of three alike states, before 0 and 2 are merged and after.
    #[test]
    fn start_states_are_carried() {
        for (before, after) in [
            (&[][..], &[][..]),
            (&[0], &[0]),
            (&[1], &[1]),
            (&[2], &[0]),
            (&[0, 1], &[0, 1]),
            (&[0, 2], &[0]),
            (&[1, 2], &[0, 1]),
            (&[0, 1, 2], &[0, 1]),
        ] {
            let case = Case {
                labels: vec![0; 3],
                steps: vec![],
                nodes: vec![(5, 0, 0)],
                root: 0,
                starts: before.to_vec(),
            };
            let file = merge(&write(&case), 0, 2, 100).unwrap();
            assert_eq!(parse(&file).unwrap().starts, after, "{before:?}");
        }
    }
}
