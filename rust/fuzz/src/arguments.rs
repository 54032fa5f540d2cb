//! The arguments that come with a file: mostly right ones, and those at and past their limits.
use differential::edits::LONGEST;
use differential::kinds::{over_the_head, supplied, table, DAMAGES, OURS};
use differential::measure::nesting;
use differential::padding::padding_of;
use differential::regular::SET_BYTES;
use differential::rng::Rng;
use plain::{Case, Edit, Shape};

/// A number below the limit, at times one at it, above it or far beyond.
pub fn number(rng: &mut Rng, limit: usize) -> usize {
    let beyond = [limit, limit + 1, 255, 256, 1 << 16, 1 << 32, usize::MAX];
    if limit == 0 || rng.one_in(8) {
        return rng.pick(&beyond);
    }
    rng.below(limit)
}

/// A set of these states, at times one beyond them.
pub fn set(rng: &mut Rng, states: usize) -> u16 {
    match rng.below(8) {
        0 => rng.number() as u16,
        1 => ((1_u32 << states) - 1) as u16,
        2 => (1_u32 << states) as u16,
        _ => rng.below(1 << states) as u16,
    }
}

/// The length of a work area. Where judging would take the plain checker long, it is too short.
pub fn words(rng: &mut Rng, case: &Case) -> usize {
    let needed = (2 * case.nodes.len()) << case.labels.len();
    if !judged_soon(case) {
        return rng.below(needed.min(2_000));
    }
    match rng.below(8) {
        0 => needed - 1,
        1 => rng.below(needed),
        2 => needed + rng.below(100),
        _ => needed,
    }
}

/// A table of kinds, and the file by it: mostly the one as the table's supplier writes it; at times as
/// it is, or another whose kinds must not be exchanged, or no table.
pub fn kinds(rng: &mut Rng, file: &[u8]) -> (Vec<u8>, Vec<u8>) {
    let drawn = table(rng);
    match rng.below(16) {
        0..=1 => (OURS.to_vec(), file.to_vec()),
        2..=3 => (drawn.to_vec(), file.to_vec()),
        4 => {
            let (table, file, _) = over_the_head(rng);
            (table.to_vec(), file)
        }
        5..=6 => {
            let damaged = (rng.pick(&DAMAGES).1)(rng, drawn);
            (damaged, supplied(&drawn, file))
        }
        _ => (drawn.to_vec(), supplied(&drawn, file)),
    }
}

/// The length of a work area for a regular rule. Where judging it would take the plain checker long, it
/// is too short.
pub fn bytes(rng: &mut Rng, case: &Case) -> usize {
    let needed = 64 * case.nodes.len();
    let turns = case.labels.len().saturating_pow(nesting(case) as u32);
    if turns.saturating_mul(case.nodes.len()) > 2_000_000 {
        return rng.below(needed);
    }
    match rng.below(8) {
        0 => needed - 1,
        1 => rng.below(needed),
        2 => needed + rng.below(100),
        _ => needed,
    }
}

/// The length of an output area for a set: mostly its 32 bytes.
pub fn set_room(rng: &mut Rng) -> usize {
    match rng.below(8) {
        0 => SET_BYTES - 1,
        1 => rng.below(SET_BYTES),
        2 => SET_BYTES + rng.below(40),
        _ => SET_BYTES,
    }
}

/// Whether the plain checker judges the case within some milliseconds.
pub fn judged_soon(case: &Case) -> bool {
    let turns = 4_usize.saturating_pow(nesting(case) as u32);
    let tables = case.nodes.len() << case.labels.len();
    tables.saturating_mul(turns) <= 100_000
}

/// The length of an output area: enough, about what the file has without its padding, or too little.
pub fn room(rng: &mut Rng, file: &[u8]) -> usize {
    let padding = plain::parse(file).map_or(0, |_| padding_of(file).len());
    let packed = file.len() - padding;
    match rng.below(8) {
        0 => rng.below(20),
        1 => rng.below(file.len() + 1),
        2..=3 => (packed + rng.below(16)).saturating_sub(9),
        4 => LONGEST + rng.below(64),
        _ => file.len() + 16,
    }
}

/// An edit with any numbers.
pub fn edit(rng: &mut Rng, case: &Case) -> Edit {
    if rng.one_in(3) {
        merge(rng, case.labels.len())
    } else {
        rewrite(rng, case)
    }
}

pub fn merge(rng: &mut Rng, states: usize) -> Edit {
    let (s, t) = (number(rng, states), number(rng, states));
    Edit::Merge { s, t }
}

/// A law mostly at a node that names two others, where most laws look.
pub fn rewrite(rng: &mut Rng, case: &Case) -> Edit {
    let two = |&j: &usize| matches!(Shape::of(case.nodes[j]), Shape::Two(..));
    let nodes: Vec<usize> = (0..case.nodes.len()).filter(two).collect();
    let node = if nodes.is_empty() || rng.one_in(4) {
        number(rng, case.nodes.len())
    } else {
        rng.pick(&nodes)
    };
    let law = if rng.one_in(8) {
        number(rng, 11)
    } else {
        rng.within(1..=9)
    };
    Edit::Rewrite { law, node }
}
