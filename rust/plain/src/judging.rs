//! Judging: rows 1 to 9, then the root's function at the set; and the last word of the program.
use crate::case::Case;
use crate::meaning::meaning;
use crate::refusal::Refusal;
use crate::vetting::parse;

/// What judging answers.
#[derive(Clone, Debug, PartialEq, Eq)]
pub struct Verdict {
    /// For each state whether it is in the root's function at the set.
    pub states: Vec<bool>,
    pub rounds: u64,
}

/// The verdict on a set, bit i for state i, with a work area of this many words.
pub fn judge(file: &[u8], set: u16, words: usize) -> Result<Verdict, Refusal> {
    judge_case(&parse(file)?, set, words)
}

/// The same of a case that rows 1 to 7 do not meet.
pub(crate) fn judge_case(case: &Case, set: u16, words: usize) -> Result<Verdict, Refusal> {
    let (set, sets) = (usize::from(set), 1 << case.labels.len());
    Refusal::unless(set < sets, 8, 0)?;
    Refusal::unless(words >= 2 * case.nodes.len() * sets, 9, 0)?;
    let root = meaning(case);
    Ok(Verdict {
        states: root.function[set].clone(),
        rounds: root.rounds,
    })
}

/// The program's last word, with a work area of this many words: rows 1 to 7 and 9, then whether
/// every start state is in the root's function at the set of all states.
pub fn starts_hold(file: &[u8], words: usize) -> Result<bool, Refusal> {
    starts_of_case_hold(&parse(file)?, words)
}

/// The same of a case that rows 1 to 7 do not meet.
pub(crate) fn starts_of_case_hold(case: &Case, words: usize) -> Result<bool, Refusal> {
    let all = (0..case.labels.len()).map(|state| 1 << state).sum();
    let verdict = judge_case(case, all, words)?;
    let holds = |&state: &u8| verdict.states[usize::from(state)];
    Ok(case.starts.iter().all(holds))
}

#[cfg(test)]
mod tests {
    use super::*;
    use crate::case::write;

    /// The rule p0 on three states, of which 0 and 2 have it. It takes 16 words.
    #[test]
    fn every_start_state_has_to_hold() {
        for (starts, word) in [
            (&[][..], true),
            (&[0], true),
            (&[1], false),
            (&[0, 1], false),
            (&[0, 2], true),
            (&[1, 2], false),
            (&[0, 1, 2], false),
        ] {
            let case = Case {
                labels: vec![1, 0, 1],
                steps: vec![],
                nodes: vec![(2, 0, 0)],
                root: 0,
                starts: starts.to_vec(),
            };
            let file = write(&case);
            assert_eq!(starts_hold(&file, 16), Ok(word), "{starts:?}");
            assert_eq!(starts_hold(&file, 15), Err(Refusal::new(9, 0)));
            assert_eq!(starts_hold(&file[1..], 16), Err(Refusal::new(1, 0)));
        }
    }
}
