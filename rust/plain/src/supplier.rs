//! Judging a case with the kind numbers of its supplier (request 2026-07): row 15, then judging's own
//! rows and answer, where a node's kind is what the table says of its first byte.
use crate::case::Case;
use crate::judging::{judge_case, starts_of_case_hold, Verdict};
use crate::node::kinds::COUNT;
use crate::refusal::Refusal;
use crate::vetting::{parse_reading, Limits};

/// The case of the file, its kinds as we number them: row 15, then rows 1 to 7.
pub fn parse_kinds(kinds: &[u8], file: &[u8]) -> Result<Case, Refusal> {
    Refusal::unless(names_each_kind_once(kinds), 15, 0)?;
    // A byte without an entry stands for no kind, as it does without a table.
    let kind = |byte: u8| kinds.get(usize::from(byte)).copied().unwrap_or(byte);
    parse_reading(file, Limits::CASE, kind)
}

/// The verdict on a set, bit i for state i, with a work area of this many words.
pub fn judge_kinds(kinds: &[u8], file: &[u8], set: u16, words: usize) -> Result<Verdict, Refusal> {
    judge_case(&parse_kinds(kinds, file)?, set, words)
}

/// Rows 15, 1 to 7 and 9, then whether every start state holds.
pub fn starts_hold_kinds(kinds: &[u8], file: &[u8], words: usize) -> Result<bool, Refusal> {
    starts_of_case_hold(&parse_kinds(kinds, file)?, words)
}

/// Sorted, the bytes are 0 to 14.
fn names_each_kind_once(kinds: &[u8]) -> bool {
    let mut sorted = kinds.to_vec();
    sorted.sort_unstable();
    sorted.into_iter().eq(0..COUNT as u8)
}

#[cfg(test)]
mod tests {
    use super::*;
    use crate::case::{write, Triple};
    use crate::judging::judge;

    const OURS: [u8; 15] = [0, 1, 2, 3, 4, 5, 6, 7, 8, 9, 10, 11, 12, 13, 14];

    /// Byte i stands for the kind below, and 0 for the last.
    const BELOW: [u8; 15] = [14, 0, 1, 2, 3, 4, 5, 6, 7, 8, 9, 10, 11, 12, 13];

    /// Two states, of which 0 has proposition 0 and a step of action 0 to 1, and start state 0.
    fn file(nodes: &[Triple], root: u8) -> Vec<u8> {
        write(&Case {
            labels: vec![1, 0],
            steps: vec![(0, 0, 1)],
            nodes: nodes.to_vec(),
            root,
            starts: vec![0],
        })
    }

    fn refused<T>(number: u32, place: usize) -> Result<T, Refusal> {
        Err(Refusal::new(number, place))
    }

    #[test]
    fn tables() {
        let is_table = |table: &[u8]| match parse_kinds(table, &[]) {
            Err(Refusal { number, place: 0 }) if number == 1 || number == 15 => number == 1,
            reply => panic!("{reply:?}"),
        };
        assert!(is_table(&OURS) && is_table(&BELOW));
        for at in 0..15 {
            for byte in (0..=255).filter(|&byte| byte != OURS[at]) {
                let mut table = OURS;
                table[at] = byte;
                assert!(!is_table(&table), "{table:?}");
            }
        }
        for length in 0..15 {
            assert!(!is_table(&OURS[..length]) && !is_table(&BELOW[..length]));
        }
        assert!(!is_table(&[&OURS[..], &[15]].concat()) && !is_table(&[OURS, OURS].concat()));
    }

    /// p0 or ⟨0⟩ in either numbers.
    #[test]
    fn kinds_are_read_through_the_table() {
        let ours = file(&[(2, 0, 0), (6, 0, 0), (8, 0, 1)], 2);
        let theirs = file(&[(3, 0, 0), (7, 0, 0), (9, 0, 1)], 2);
        for set in 0..4 {
            let verdict = judge(&ours, set, 24);
            assert_eq!(judge_kinds(&OURS, &ours, set, 24), verdict);
            assert_eq!(judge_kinds(&BELOW, &theirs, set, 24), verdict);
        }
        assert_eq!(starts_hold_kinds(&BELOW, &theirs, 24), Ok(true));
        // As it stands it is: not p0, [0], and both.
        let as_it_stands = judge(&theirs, 0, 24);
        assert_eq!(judge_kinds(&OURS, &theirs, 0, 24), as_it_stands);
        assert_eq!(as_it_stands.unwrap().states, [false, true]);
        assert_eq!(starts_hold_kinds(&OURS, &theirs, 24), Ok(false));
    }

    /// Operands, the root and the bytes above 14 are read as they are, in unreached nodes too.
    #[test]
    fn other_bytes_stay() {
        let with = |node, root| judge_kinds(&BELOW, &file(&[(6, 0, 0), node], root), 3, 16);
        assert!(with((0, 255, 0), 1).is_ok(), "[g]");
        assert_eq!(with((13, 255, 0), 0), refused(5, 1), "ν, and not ⟨g⟩");
        for byte in [15, 16, 255] {
            assert_eq!(with((byte, 0, 0), 0), refused(5, 1));
        }
        assert_eq!(with((6, 0, 0), 2), refused(4, 0));
    }

    #[test]
    fn rows_in_their_order() {
        let right = file(&[(5, 0, 0), (13, 0, 0), (13, 0, 0)], 0);
        assert_eq!(judge_kinds(&BELOW, &right, 4, 0), refused(6, 2));
        let free = file(&[(5, 0, 0)], 0);
        assert_eq!(judge_kinds(&BELOW, &free, 4, 0), refused(7, 0));
        let tau = file(&[(6, 0, 0)], 0);
        assert_eq!(judge_kinds(&BELOW, &tau, 4, 0), refused(8, 0));
        assert_eq!(judge_kinds(&BELOW, &tau, 3, 7), refused(9, 0));
        assert!(judge_kinds(&BELOW, &tau, 3, 8).is_ok());
        assert_eq!(judge_kinds(&BELOW, &tau[1..], 3, 8), refused(1, 0));
        for file in [&right, &free, &tau] {
            assert_eq!(judge_kinds(&BELOW[1..], file, 4, 0), refused(15, 0));
        }
    }
}
