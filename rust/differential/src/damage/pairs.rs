//! Faults of row 1.
use super::{damaged, Damaged};
use crate::generate::{case, case_where};
use crate::padding::{self, gaps, sections, set_number, write_padded};
use crate::rng::Rng;
use plain::{pack, write, Case, Limits, PAIRS_LENGTH};

/// The file of a valid case, packed or padded.
fn random(rng: &mut Rng, limits: Limits) -> Vec<u8> {
    let case = case(rng, limits);
    padding::file(rng, &case)
}

pub fn cut(rng: &mut Rng, limits: Limits) -> Damaged {
    let mut file = random(rng, limits);
    let most = if rng.one_in(2) { 3 } else { file.len() };
    let lost = rng.within(1..=most);
    file.truncate(file.len() - lost);
    damaged(file, 1, 0)
}

pub fn lengthened(rng: &mut Rng, limits: Limits) -> Damaged {
    let mut file = random(rng, limits);
    let more = rng.within(1..=4);
    file.extend(rng.bytes(more));
    damaged(file, 1, 0)
}

/// Right pairs in a file over the longest. The last section grows, so that offsets still fit two bytes.
pub fn too_long(rng: &mut Rng, limits: Limits) -> Damaged {
    let (mut case, gaps) = (case(rng, limits), gaps(rng));
    let length = limits.longest_file + rng.within(1..=20);
    let more = length - write_padded(&case, gaps).len();
    case.starts.extend(rng.bytes(more));
    damaged(write_padded(&case, gaps), 1, 0)
}

/// One of the eight numbers of a packed file is wrong. No length is one less, since the byte that it
/// leaves out would be padding if it is 0.
pub fn nudged(rng: &mut Rng, limits: Limits) -> Damaged {
    let mut file = write(&case(rng, limits));
    let at = 2 * rng.below(8);
    let is_offset = at.is_multiple_of(4);
    let nudges: &[usize] = if is_offset {
        &[1, 65_535, 16, 256, 32_768]
    } else {
        &[1, 16, 256, 32_768]
    };
    let nudge = rng.pick(nudges);
    set_number(&mut file, at, |number| number + nudge);
    damaged(file, 1, 0)
}

pub fn swapped(rng: &mut Rng, limits: Limits) -> Damaged {
    let mut file = random(rng, limits);
    let second = rng.within(1..=3);
    let (first, second) = (4 * rng.below(second), 4 * second);
    for byte in 0..4 {
        file.swap(first + byte, second + byte);
    }
    damaged(file, 1, 0)
}

/// The steps or the rule run past 65,536 round to the labels, where the next section begins.
pub fn wrapped(rng: &mut Rng, limits: Limits) -> Damaged {
    let case = case(rng, limits);
    let body = [case.labels.clone(), rng.bytes(193)].concat();
    let start = PAIRS_LENGTH as u16;
    let (labels, all) = (case.labels.len() as u16, body.len() as u16);
    let next = start + labels;
    let round = (next, start.wrapping_sub(next));
    let pairs = if rng.one_in(2) {
        [(start, labels), round, (start, all), (start + all, 0)]
    } else {
        [(start, labels), (next, 0), round, (start, all)]
    };
    let numbers = pairs.iter().flat_map(|&(offset, length)| [offset, length]);
    let head: Vec<u8> = numbers.flat_map(u16::to_le_bytes).collect();
    damaged([head, body].concat(), 1, 0)
}

/// As cases were before they had start states.
pub fn three(rng: &mut Rng, limits: Limits) -> Damaged {
    damaged(without_starts(&case(rng, limits)), 1, 0)
}

/// The file that the case had then.
pub fn without_starts(case: &Case) -> Vec<u8> {
    let file = write(case);
    let [labels, steps, rule, _] = sections(&file).map(|part| &file[part]);
    pack(&[labels, steps, rule])
}

/// The file ends within the list, or before it.
pub fn starts_cut(rng: &mut Rng, limits: Limits) -> Damaged {
    let case = case_where(rng, limits, |case| !case.starts.is_empty());
    let mut file = padding::file(rng, &case);
    file.truncate(file.len() - rng.within(1..=case.starts.len()));
    damaged(file, 1, 0)
}
