//! Padded files: up to three bytes 0 in front of each section but the first.
use crate::rng::Rng;
use plain::{write, Case, MOST_PADDING, PAIRS_LENGTH};
use std::ops::Range;

/// How many bytes stand in front of sections 1, 2 and 3.
pub type Gaps = [usize; 3];

pub const PACKED: Gaps = [0; 3];
/// As much padding as there can be.
pub const WIDEST: Gaps = [MOST_PADDING; 3];

/// All gaps that a case can have: number 0 is a packed file's.
pub fn all() -> impl Iterator<Item = Gaps> {
    (0..64).map(numbered)
}

/// The gaps whose widths are the number's lowest digits to base four.
pub fn numbered(number: usize) -> Gaps {
    [number % 4, number / 4 % 4, number / 16 % 4]
}

/// Those of a packed file half of the time, else any.
pub fn gaps(rng: &mut Rng) -> Gaps {
    if rng.one_in(2) {
        PACKED
    } else {
        numbered(rng.below(64))
    }
}

/// The file of a case, packed or with random gaps.
pub fn file(rng: &mut Rng, case: &Case) -> Vec<u8> {
    write_padded(case, gaps(rng))
}

pub fn write_padded(case: &Case, gaps: Gaps) -> Vec<u8> {
    padded(&write(case), gaps)
}

/// A packed file with its sections so far apart, whatever is in them.
pub fn padded(packed: &[u8], gaps: Gaps) -> Vec<u8> {
    let mut file = packed[..PAIRS_LENGTH].to_vec();
    for (section, part) in sections(packed).into_iter().enumerate() {
        let gap = if section == 0 { 0 } else { gaps[section - 1] };
        file.resize(file.len() + gap, 0);
        let start = file.len();
        set_number(&mut file, 4 * section, |_| start);
        file.extend(&packed[part]);
    }
    file
}

/// The bytes of padding in front of this section and all before it.
pub fn gap_before(gaps: Gaps, section: usize) -> usize {
    gaps[..section].iter().sum()
}

/// The file as a tool writes it that begins each section at a multiple of four bytes.
pub fn aligned(case: &Case) -> Vec<u8> {
    let packed = write(case);
    let mut gaps = PACKED;
    for (section, part) in sections(&packed).iter().enumerate().skip(1) {
        let end = part.start + gap_before(gaps, section);
        gaps[section - 1] = end.next_multiple_of(4) - end;
    }
    padded(&packed, gaps)
}

/// Where the pairs say that the sections stand, true or not.
///
/// # Panics
/// If the file is shorter than the pairs.
pub fn sections(file: &[u8]) -> [Range<usize>; 4] {
    let number = |at: usize| usize::from(u16::from_le_bytes([file[at], file[at + 1]]));
    [0, 4, 8, 12].map(|at| number(at)..number(at) + number(at + 2))
}

/// How far apart the sections of a case stand.
pub fn gaps_of(case_file: &[u8]) -> Gaps {
    let parts = sections(case_file);
    [0, 1, 2].map(|before| parts[before + 1].start - parts[before].end)
}

/// Where a file has padding.
pub fn padding_of(case_file: &[u8]) -> Vec<usize> {
    let parts = sections(case_file);
    let between = |two: &[Range<usize>]| two[0].end..two[1].start;
    parts.windows(2).flat_map(between).collect()
}

/// Changes a number of the head.
pub fn set_number(file: &mut [u8], at: usize, change: impl FnOnce(usize) -> usize) {
    let number = u16::from_le_bytes([file[at], file[at + 1]]);
    let changed = change(number.into()) as u16;
    file[at..at + 2].copy_from_slice(&changed.to_le_bytes());
}

#[cfg(test)]
mod tests {
    use super::*;
    use crate::drives::{case, starting_in};

    /// One state, no steps, the rule τ and start state 0.
    fn tau() -> Case {
        starting_in(&[0], case(&[7], &[], &[(5, 0, 0)]))
    }

    #[test]
    fn padding_is_written_in_front_of_sections() {
        let written = [
            16, 0, 1, 0, 19, 0, 0, 0, 22, 0, 4, 0, 27, 0, 1, 0, // pairs
            7, 0, 0, 0, 0, 0, // label; two bytes of padding; no steps; three bytes of padding
            5, 0, 0, 0, 0, // rule; one byte of padding
            0,
        ];
        assert_eq!(write_padded(&tau(), [2, 3, 1]), written);
        assert_eq!(gaps_of(&written), [2, 3, 1]);
        assert_eq!(padding_of(&written), [17, 18, 19, 20, 21, 26]);
        assert_eq!(write_padded(&tau(), PACKED), write(&tau()));
    }

    #[test]
    fn aligned_sections_begin_at_multiples_of_four() {
        let parts = [16..17, 20..20, 20..24, 24..25];
        assert_eq!(sections(&aligned(&tau())), parts);
    }

    #[test]
    fn all_gaps_are_drawn() {
        let mut rng = Rng::new(1);
        let mut drawn: Vec<Gaps> = (0..2_000).map(|_| gaps(&mut rng)).collect();
        assert!(drawn.iter().filter(|&&gaps| gaps == PACKED).count() >= 800);
        drawn.sort();
        drawn.dedup();
        assert_eq!(drawn.len(), all().count());
    }
}
