//! Faults of rows 2 to 4.
use super::{beyond, damaged, damaged_case, roomy, Damaged};
use crate::padding::{gaps, padded, sections};
use crate::rng::Rng;
use plain::{pack, write, Case, Limits, MOST_NODES};

pub fn label_count(rng: &mut Rng, limits: Limits) -> Damaged {
    let mut case = roomy(rng, limits, |_| true);
    let most = limits.most_states;
    let count = match rng.below(3) {
        0 => 0,
        1 => most + 1,
        _ => rng.within(most + 1..=most + 600),
    };
    case.labels.resize(count, 0);
    damaged_case(rng, &case, 2, 0)
}

pub fn step_length(rng: &mut Rng, limits: Limits) -> Damaged {
    let case = roomy(rng, limits, |_| true);
    let more = rng.within(1..=2);
    let file = with_section(&case, 1, |steps| steps.extend(rng.bytes(more)));
    damaged(padded(&file, gaps(rng)), 3, 0)
}

pub fn step_range(rng: &mut Rng, limits: Limits) -> Damaged {
    let mut case = roomy(rng, limits, |case| !case.steps.is_empty());
    let place = rng.below(case.steps.len());
    let states = case.labels.len();
    let step = &mut case.steps[place];
    match rng.below(3) {
        0 if states < 256 => step.0 = beyond(rng, states),
        1 if states < 256 => step.2 = beyond(rng, states),
        _ => step.1 = beyond(rng, 8),
    }
    damaged_case(rng, &case, 3, place)
}

pub fn step_order(rng: &mut Rng, limits: Limits) -> Damaged {
    let mut case = roomy(rng, limits, |case| case.steps.len() > 1);
    let place = rng.within(1..=case.steps.len() - 1);
    case.steps.swap(place - 1, place);
    damaged_case(rng, &case, 3, place)
}

pub fn step_repeated(rng: &mut Rng, limits: Limits) -> Damaged {
    let mut case = roomy(rng, limits, |case| !case.steps.is_empty());
    let place = rng.within(1..=case.steps.len());
    case.steps.insert(place, case.steps[place - 1]);
    damaged_case(rng, &case, 3, place)
}

pub fn rule_length(rng: &mut Rng, limits: Limits) -> Damaged {
    let case = roomy(rng, limits, |_| true);
    let file = with_section(&case, 2, |rule| {
        let by = rng.within(1..=2);
        if rng.one_in(2) {
            rule.truncate(rule.len() - by);
        } else {
            rule.extend(rng.bytes(by));
        }
    });
    damaged(padded(&file, gaps(rng)), 4, 0)
}

pub fn node_count(rng: &mut Rng, limits: Limits) -> Damaged {
    let mut case = roomy(rng, limits, |_| true);
    let count = match rng.below(3) {
        0 => 0,
        1 => MOST_NODES + 1,
        _ => rng.within(MOST_NODES + 1..=300),
    };
    case.nodes.resize(count, (0, 0, 0));
    damaged_case(rng, &case, 4, 0)
}

pub fn root(rng: &mut Rng, limits: Limits) -> Damaged {
    let mut case = roomy(rng, limits, |_| true);
    case.root = beyond(rng, case.nodes.len());
    damaged_case(rng, &case, 4, 0)
}

/// A list that rises, with a state behind the others that the table does not have.
pub fn start_range(rng: &mut Rng, limits: Limits) -> Damaged {
    let mut case = roomy(rng, limits, |case| case.labels.len() < 256);
    case.starts.push(beyond(rng, case.labels.len()));
    damaged_case(rng, &case, 4, 0)
}

pub fn start_order(rng: &mut Rng, limits: Limits) -> Damaged {
    let mut case = roomy(rng, limits, |case| case.starts.len() > 1);
    let place = rng.within(1..=case.starts.len() - 1);
    case.starts.swap(place - 1, place);
    damaged_case(rng, &case, 4, 0)
}

pub fn start_repeated(rng: &mut Rng, limits: Limits) -> Damaged {
    let mut case = roomy(rng, limits, |case| !case.starts.is_empty());
    let place = rng.below(case.starts.len());
    case.starts.insert(place, case.starts[place]);
    damaged_case(rng, &case, 4, 0)
}

/// The packed file with a section changed, under right pairs.
fn with_section(case: &Case, section: usize, change: impl FnOnce(&mut Vec<u8>)) -> Vec<u8> {
    let file = write(case);
    let mut parts = sections(&file).map(|part| file[part].to_vec());
    change(&mut parts[section]);
    pack(&parts.each_ref().map(Vec::as_slice))
}
