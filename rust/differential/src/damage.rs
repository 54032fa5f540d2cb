//! Valid files with one fault, each with the refusal that the fault must get within the limits.
mod gaps;
mod nodes;
mod pairs;
mod sections;

pub use pairs::without_starts;

use crate::generate::case_where;
use crate::padding;
use crate::rng::Rng;
use plain::{Case, Limits, Refusal};
use std::fmt::Debug;

pub struct Damaged {
    pub file: Vec<u8>,
    pub refusal: Refusal,
}

pub type Damage = fn(&mut Rng, Limits) -> Damaged;

pub const DAMAGES: [(&str, Damage); 30] = [
    ("cut", pairs::cut),
    ("lengthened", pairs::lengthened),
    ("too long", pairs::too_long),
    ("pair nudged", pairs::nudged),
    ("pairs swapped", pairs::swapped),
    ("pairs right modulo 65,536", pairs::wrapped),
    ("three pairs", pairs::three),
    ("start states cut", pairs::starts_cut),
    ("gap too wide", gaps::wide),
    ("padding not 0", gaps::not_zero),
    ("sections overlap", gaps::overlap),
    ("padding before section 0", gaps::before_labels),
    ("padding after section 3", gaps::behind_starts),
    ("label count", sections::label_count),
    ("step section length", sections::step_length),
    ("step range", sections::step_range),
    ("step order", sections::step_order),
    ("step repeated", sections::step_repeated),
    ("rule length", sections::rule_length),
    ("node count", sections::node_count),
    ("root", sections::root),
    ("start state range", sections::start_range),
    ("start state order", sections::start_order),
    ("start state repeated", sections::start_repeated),
    ("kind", nodes::kind),
    ("unused byte", nodes::unused_byte),
    ("node range", nodes::range),
    ("named node", nodes::named),
    ("second binder", nodes::second_binder),
    ("free variable", nodes::free_variable),
];

/// Draws so many files with each damage, from a seed of its own, of which the first is `seed`.
/// Each file's reply must be the refusal of its fault.
pub fn expect_refusals<T: Debug + PartialEq>(
    seed: u64,
    files: usize,
    limits: Limits,
    mut reply: impl FnMut(&mut Rng, &[u8]) -> Result<T, Refusal>,
) {
    for (seed, (name, damage)) in (seed..).zip(DAMAGES) {
        let mut rng = Rng::new(seed);
        for _ in 0..files {
            let Damaged { file, refusal } = damage(&mut rng, limits);
            assert_eq!(reply(&mut rng, &file), Err(refusal), "{name}: {file:?}");
        }
    }
}

/// A case with a fault of row 2 or a later one, packed or padded.
fn damaged_case(rng: &mut Rng, case: &Case, number: u32, place: usize) -> Damaged {
    damaged(padding::file(rng, case), number, place)
}

fn damaged(file: Vec<u8>, number: u32, place: usize) -> Damaged {
    let refusal = Refusal::new(number, place);
    Damaged { file, refusal }
}

/// A case with room in its file: sections that grow a little do not make it too long.
fn roomy(rng: &mut Rng, limits: Limits, wanted: impl Fn(&Case) -> bool) -> Case {
    let half = limits.longest_file / 2;
    case_where(rng, limits, |case| {
        3 * case.steps.len() <= half && wanted(case)
    })
}

/// `limit` itself half of the time, else it or anything above.
fn beyond(rng: &mut Rng, limit: usize) -> u8 {
    let highest = if rng.one_in(2) { limit } else { 255 };
    rng.within(limit..=highest) as u8
}
