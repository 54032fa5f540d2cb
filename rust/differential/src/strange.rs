//! Files of which only the two checkers can tell what they get, and section numbers.
use crate::generate::case;
use crate::groups::{group, has_group};
use crate::padding::{self, gaps, padded, padding_of, sections, write_padded, Gaps};
use crate::rng::Rng;
use plain::kinds::{self, VARIABLE};
use plain::{pack, write, Limits, Shape, Triple, PAIRS_LENGTH};

pub type Strange = fn(&mut Rng, Limits) -> Vec<u8>;

pub const STRANGE: [Strange; 7] = [
    bytes_changed,
    sections_swapped,
    sections_cut_elsewhere,
    any_gaps,
    any_sections,
    any_nodes,
    any_bytes,
];

/// A section number: often one that there is, sometimes one that a shorter word would take for it.
pub fn section(rng: &mut Rng) -> usize {
    const HUGE: [usize; 10] = [
        256,
        1 << 16,
        (1 << 16) + 1,
        1 << 32,
        (1 << 32) + 2,
        (1 << 32) + 3,
        1 << 63,
        usize::MAX,
        usize::MAX - 1,
        usize::MAX / 3,
    ];
    if rng.one_in(16) {
        rng.pick(&HUGE)
    } else {
        rng.pick(&[0, 0, 0, 1, 1, 1, 2, 2, 2, 3, 3, 3, 4, 5])
    }
}

/// A few bytes of a valid file are others, often by one.
fn bytes_changed(rng: &mut Rng, limits: Limits) -> Vec<u8> {
    let case = case(rng, limits);
    let mut file = padding::file(rng, &case);
    for _ in 0..rng.within(1..=3) {
        let back = if rng.one_in(2) { 193 } else { file.len() };
        let at = file.len() - rng.within(1..=back.min(file.len()));
        file[at] = match rng.below(4) {
            0 => rng.byte(),
            1 => rng.byte_below(limits.most_states),
            2 => file[at].wrapping_add(1),
            _ => file[at].wrapping_sub(1),
        };
    }
    file
}

fn sections_swapped(rng: &mut Rng, limits: Limits) -> Vec<u8> {
    let file = write(&case(rng, limits));
    let mut parts = sections(&file).map(|part| &file[part]);
    for _ in 0..rng.within(1..=3) {
        let second = rng.within(1..=3);
        parts.swap(rng.below(second), second);
    }
    padded(&pack(&parts), gaps(rng))
}

/// Right pairs over the bytes of a valid file, with the borders moved a little.
fn sections_cut_elsewhere(rng: &mut Rng, limits: Limits) -> Vec<u8> {
    let case = case(rng, limits);
    let file = write(&case);
    let body = &file[PAIRS_LENGTH..];
    let states = case.labels.len();
    let mut moved = |border: usize| (border + rng.below(7)).saturating_sub(3).min(body.len());
    let first = moved(states);
    let second = moved(states + 3 * case.steps.len()).max(first);
    let third = moved(body.len() - case.starts.len()).max(second);
    let (table, rest) = body.split_at(second);
    let (rule, starts) = rest.split_at(third - second);
    let packed = pack(&[&table[..first], &table[first..], rule, starts]);
    padded(&packed, gaps(rng))
}

/// Sections of a valid file up to five bytes apart, of which at times one is not 0.
fn any_gaps(rng: &mut Rng, limits: Limits) -> Vec<u8> {
    let case = case(rng, limits);
    let gaps: Gaps = [0; 3].map(|_| rng.pick(&[0, 0, 1, 1, 2, 2, 3, 3, 4, 5]));
    let mut file = write_padded(&case, gaps);
    let padding = padding_of(&file);
    if !padding.is_empty() && rng.one_in(4) {
        file[rng.pick(&padding)] = rng.byte_below(3);
    }
    file
}

/// Right pairs, sections of any length near the limits, small bytes.
fn any_sections(rng: &mut Rng, limits: Limits) -> Vec<u8> {
    let mut section = |lengths: &[usize]| -> Vec<u8> {
        let length = rng.pick(lengths);
        (0..length).map(|_| rng.byte_below(8)).collect()
    };
    let most = limits.most_states;
    let labels = section(&[0, 1, 2, 8, most - 1, most, most + 1, most + 2, 256, 257]);
    let steps = section(&[0, 0, 0, 0, 1, 2, 3, 4, 6, 9]);
    let rule = section(&[0, 1, 2, 3, 4, 5, 6, 7, 10, 190, 193, 194, 196, 769]);
    let starts = section(&[0, 0, 0, 0, 1, 1, 2, 3, most, most + 1]);
    padded(&pack(&[&labels, &steps, &rule, &starts]), gaps(rng))
}

/// A right state table under nodes that are mostly in range.
fn any_nodes(rng: &mut Rng, limits: Limits) -> Vec<u8> {
    let mut case = case(rng, limits);
    let count = rng.within(1..=8);
    case.nodes = (0..count).map(|number| any_node(rng, number)).collect();
    case.root = rng.byte_below(count);
    padding::file(rng, &case)
}

fn any_node(rng: &mut Rng, number: usize) -> Triple {
    let kind = rng.byte_below(kinds::COUNT + 1);
    match Shape::of((kind, 0, 0)) {
        Shape::Two(..) => (kind, rng.byte_below(number + 1), rng.byte_below(number + 1)),
        Shape::Binder(..) => (kind, rng.byte_below(17), rng.byte_below(number + 1)),
        Shape::Leaf if kind == VARIABLE => (kind, rng.byte_below(3), 0),
        Shape::Leaf if has_group((kind, 0, 0)) => (kind, group(rng), 0),
        Shape::Leaf => (kind, 0, 0),
    }
}

/// Bytes without meaning; every other file begins as a case does.
fn any_bytes(rng: &mut Rng, limits: Limits) -> Vec<u8> {
    let longest = limits.longest_file;
    let borders = [longest - 1, longest, longest + 1, 65_535, 70_000];
    let length = if rng.one_in(4) {
        let short = [0, 1, 4, 12, 15, 16, 17, 55, 100];
        rng.pick(&[&short[..], &borders].concat())
    } else {
        rng.below(80)
    };
    let mut file = rng.bytes(length);
    if rng.one_in(2) {
        file.iter_mut()
            .zip([16, 0, 2, 0, 18, 0, 0, 0, 18, 0])
            .for_each(|(byte, right)| *byte = right);
    }
    file
}
