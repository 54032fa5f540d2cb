//! Lists of start states, as random cases have them.
use crate::rng::Rng;

/// Any list for so many states; often the empty one, all states or a single one, which few of all
/// lists are.
pub fn starts(rng: &mut Rng, states: usize) -> Vec<u8> {
    let all = (0..states).map(|state| state as u8);
    match rng.below(8) {
        0..=1 => vec![],
        2 => all.collect(),
        3 => vec![rng.byte_below(states)],
        _ => all.filter(|_| rng.one_in(2)).collect(),
    }
}
