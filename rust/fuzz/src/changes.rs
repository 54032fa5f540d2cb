//! Changes of a file that make it a wrong case, or at times another right one.
use differential::groups;
use differential::padding::{self, gaps, padded, padding_of, sections};
use differential::rng::Rng;
use plain::{pack, parse_within, Limits, MOST_PADDING, PAIRS_LENGTH};

/// One to three changes of a file that was drawn within the limits.
pub fn change(rng: &mut Rng, limits: Limits, file: &mut Vec<u8>) {
    for _ in 0..rng.within(1..=3) {
        match rng.below(12) {
            0 => flip(rng, file),
            1..=2 => border_byte(rng, file),
            3 => border_pair(rng, limits, file),
            4 => cut(rng, file),
            5 => lengthen(rng, limits, file),
            6 => group(rng, limits, file),
            7 => start(rng, limits, file),
            8 => lay_anew(rng, limits, file),
            9 => padding_byte(rng, limits, file),
            10 => root(rng, limits, file),
            _ => section(rng, limits, file),
        }
    }
}

/// A bit turned over.
fn flip(rng: &mut Rng, file: &mut [u8]) {
    if let Some(byte) = any_byte(rng, file) {
        *byte ^= 1 << rng.below(8);
    }
}

/// A byte at the border of some range, or next to what it was.
fn border_byte(rng: &mut Rng, file: &mut [u8]) {
    const BORDERS: [u8; 17] = [
        0, 1, 4, 5, 7, 8, 10, 11, 12, 13, 14, 15, 16, 63, 64, 128, 255,
    ];
    if let Some(byte) = any_byte(rng, file) {
        let near = [byte.wrapping_add(1), byte.wrapping_sub(1)];
        *byte = if rng.one_in(3) {
            rng.pick(&near)
        } else {
            rng.pick(&BORDERS)
        };
    }
}

/// An offset or a length at a border.
fn border_pair(rng: &mut Rng, limits: Limits, file: &mut [u8]) {
    const BORDERS: [usize; 9] = [0, 1, 15, 16, 17, 255, 256, 32_768, 65_535];
    let longest = limits.longest_file;
    let longest_packed = longest - 3 * MOST_PADDING;
    let length = file.len();
    let at = 2 * rng.below(PAIRS_LENGTH / 2);
    if let Some(number) = file.get_mut(at..at + 2) {
        let sections = length.saturating_sub(PAIRS_LENGTH);
        let near = [length, length - 1, length + 1, sections];
        let value = if rng.one_in(2) {
            rng.pick(&near)
        } else {
            rng.pick(&[&BORDERS[..], &[longest_packed, longest]].concat())
        };
        number.copy_from_slice(&(value as u16).to_le_bytes());
    }
}

fn cut(rng: &mut Rng, file: &mut Vec<u8>) {
    let most = if rng.one_in(2) { 4 } else { file.len() };
    let left = file.len().saturating_sub(rng.within(0..=most));
    file.truncate(left);
}

/// By some bytes, or by many, at times past the longest.
fn lengthen(rng: &mut Rng, limits: Limits, file: &mut Vec<u8>) {
    let most = if rng.one_in(8) {
        limits.longest_file / 10 * 11
    } else {
        4
    };
    let more = rng.within(1..=most);
    file.extend(rng.bytes(more));
}

/// A node that gets a group, its unused byte at times not 0, if the file is still a case.
fn group(rng: &mut Rng, limits: Limits, file: &mut [u8]) {
    if parse_within(file, limits).is_err() {
        return;
    }
    let [_, _, rule, _] = sections(file);
    let at = rule.start + 3 * rng.below(rule.len() / 3);
    let (kind, group, unused) = groups::node(rng);
    let b = if rng.one_in(4) { rng.byte() } else { unused };
    file[at..at + 3].copy_from_slice(&[kind, group, b]);
}

/// Another root, which reaches other nodes, if the file is still a case.
fn root(rng: &mut Rng, limits: Limits, file: &mut [u8]) {
    if let Ok(case) = parse_within(file, limits) {
        let [_, _, rule, _] = sections(file);
        file[rule.end - 1] = rng.byte_below(case.nodes.len() + 1);
    }
}

/// A byte more in the list of start states, in its place or not, if the file is still a case.
fn start(rng: &mut Rng, limits: Limits, file: &mut Vec<u8>) {
    let Ok(mut case) = parse_within(file, limits) else {
        return;
    };
    let state = rng.byte_below(case.labels.len() + 2);
    let place = if rng.one_in(2) {
        case.starts.partition_point(|&before| before < state)
    } else {
        rng.below(case.starts.len() + 1)
    };
    case.starts.insert(place, state);
    *file = padding::file(rng, &case);
}

/// The sections end to end, or some bytes 0 apart, at times too many, if the file is still a case.
fn lay_anew(rng: &mut Rng, limits: Limits, file: &mut Vec<u8>) {
    let Ok(case) = parse_within(file, limits) else {
        return;
    };
    let mut gaps = gaps(rng);
    if rng.one_in(4) {
        gaps[rng.below(3)] = rng.within(3..=5);
    }
    *file = padding::write_padded(&case, gaps);
}

/// A byte of the padding that is any other, if the file is still a case and has some.
fn padding_byte(rng: &mut Rng, limits: Limits, file: &mut [u8]) {
    if parse_within(file, limits).is_err() {
        return;
    }
    let padding = padding_of(file);
    if !padding.is_empty() {
        file[rng.pick(&padding)] = rng.byte();
    }
}

/// A section cut or lengthened under right pairs, if the file is still a case.
fn section(rng: &mut Rng, limits: Limits, file: &mut Vec<u8>) {
    if parse_within(file, limits).is_err() {
        return;
    }
    let mut parts = sections(file).map(|part| file[part].to_vec());
    let part = &mut parts[rng.below(4)];
    let (back, more) = (rng.below(4), rng.below(4));
    part.truncate(part.len().saturating_sub(back));
    part.extend((0..more).map(|_| rng.byte_below(limits.most_states)));
    *file = padded(&pack(&parts.each_ref().map(Vec::as_slice)), gaps(rng));
}

fn any_byte<'a>(rng: &mut Rng, file: &'a mut [u8]) -> Option<&'a mut u8> {
    let at = rng.below(file.len().max(1));
    file.get_mut(at)
}

#[cfg(test)]
mod tests {
    use super::*;

    /// Every change takes a file of any length, also one that ends within the head or before it.
    #[test]
    fn short_files() {
        let mut rng = Rng::new(1);
        for length in 0..=2 * PAIRS_LENGTH {
            for i in 0..500 {
                let mut file = rng.bytes(length);
                let limits = [Limits::CASE, Limits::WIDEST][i % 2];
                change(&mut rng, limits, &mut file);
            }
        }
    }
}
