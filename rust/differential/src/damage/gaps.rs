//! Faults of row 1 between sections, in front of the first and behind the last.
use super::{damaged, roomy, Damaged};
use crate::padding::{gaps, padding_of, set_number, write_padded};
use crate::rng::Rng;
use plain::{Limits, PAIRS_LENGTH};

/// One gap has more than three bytes 0, mostly one more.
pub fn wide(rng: &mut Rng, limits: Limits) -> Damaged {
    let case = roomy(rng, limits, |_| true);
    let mut gaps = gaps(rng);
    let most = if rng.one_in(2) { 4 } else { 12 };
    gaps[rng.below(3)] = rng.within(4..=most);
    damaged(write_padded(&case, gaps), 1, 0)
}

/// One byte of padding is not 0, mostly 1.
pub fn not_zero(rng: &mut Rng, limits: Limits) -> Damaged {
    let case = roomy(rng, limits, |_| true);
    let mut gaps = gaps(rng);
    gaps[rng.below(3)] = rng.within(1..=3);
    let mut file = write_padded(&case, gaps);
    let at = rng.pick(&padding_of(&file));
    let most = if rng.one_in(2) { 1 } else { 255 };
    file[at] = rng.within(1..=most) as u8;
    damaged(file, 1, 0)
}

/// A section begins a byte before its predecessor ends, and ends where it did or a byte earlier.
pub fn overlap(rng: &mut Rng, limits: Limits) -> Damaged {
    let case = roomy(rng, limits, |_| true);
    let section = rng.within(1..=3);
    let mut gaps = gaps(rng);
    gaps[section - 1] = 0;
    let mut file = write_padded(&case, gaps);
    set_number(&mut file, 4 * section, |offset| offset - 1);
    if rng.one_in(2) {
        set_number(&mut file, 4 * section + 2, |length| length + 1);
    }
    damaged(file, 1, 0)
}

/// Bytes 0 in front of section 0, under pairs that say so.
pub fn before_labels(rng: &mut Rng, limits: Limits) -> Damaged {
    let case = roomy(rng, limits, |_| true);
    let mut file = write_padded(&case, gaps(rng));
    let more = rng.within(1..=3);
    file.splice(PAIRS_LENGTH..PAIRS_LENGTH, vec![0; more]);
    for section in 0..4 {
        set_number(&mut file, 4 * section, |offset| offset + more);
    }
    damaged(file, 1, 0)
}

/// Bytes 0 behind section 3.
pub fn behind_starts(rng: &mut Rng, limits: Limits) -> Damaged {
    let case = roomy(rng, limits, |_| true);
    let mut file = write_padded(&case, gaps(rng));
    file.resize(file.len() + rng.within(1..=3), 0);
    damaged(file, 1, 0)
}

#[cfg(test)]
mod tests {
    use super::*;
    use crate::padding::gaps_of;

    /// Each gap is too wide by one byte in some file, and by more in some other.
    #[test]
    fn every_gap_is_too_wide() {
        let mut rng = Rng::new(1);
        let draw = |_| gaps_of(&wide(&mut rng, Limits::CASE).file);
        let files: Vec<_> = (0..200).map(draw).collect();
        for place in 0..3 {
            assert!(files.iter().any(|gaps| gaps[place] == 4));
            assert!(files.iter().any(|gaps| gaps[place] > 4));
        }
    }
}
