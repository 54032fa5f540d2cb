//! The files that entries are called with: cases of every sort, damaged ones, and bytes.
use crate::changes::change;
use differential::damage::DAMAGES;
use differential::drives::drives;
use differential::formulas::{self, Bounds};
use differential::rng::Rng;
use differential::strange::STRANGE;
use differential::{alike_tables, generate, padding, profile, regular};
use plain::{Case, Limits};
use std::ops::RangeInclusive;

pub fn any(rng: &mut Rng, limits: Limits) -> Vec<u8> {
    match rng.below(10) {
        0..=3 => right(rng, limits),
        4..=5 => {
            let mut file = right(rng, limits);
            change(rng, limits, &mut file);
            file
        }
        6..=7 => (rng.pick(&DAMAGES).1)(rng, limits).file,
        8 => rng.pick(&STRANGE)(rng, limits),
        _ => {
            let length = rng.below(96);
            rng.bytes(length)
        }
    }
}

/// The file of a valid case, packed or padded.
fn right(rng: &mut Rng, limits: Limits) -> Vec<u8> {
    let case = case(rng, limits);
    padding::file(rng, &case)
}

fn case(rng: &mut Rng, limits: Limits) -> Case {
    match rng.below(10) {
        0..=1 => judged(rng, limits, 1..=5, 3),
        2 => judged(rng, limits, 6..=8, 1),
        3 => judged(rng, limits, 9..=12, 0),
        4 => generate::case(rng, limits),
        5..=6 => with_alike_states(rng, limits),
        7..=8 => regular(rng, limits),
        _ => {
            let mut drives = drives();
            drives.swap_remove(rng.below(drives.len())).1
        }
    }
}

/// A case with a rule that the plain checker judges soon.
fn judged(rng: &mut Rng, limits: Limits, states: RangeInclusive<usize>, nesting: usize) -> Case {
    let bounds = Bounds {
        states: rng.within(states),
        nesting,
        depth: rng.within(1..=3),
    };
    formulas::case(rng, limits, bounds)
}

/// A case with a regular rule, or with one that is changed so that it is nearly one, or still is.
fn regular(rng: &mut Rng, limits: Limits) -> Case {
    let most = if rng.one_in(2) { limits.most_states } else { 8 };
    let bounds = Bounds {
        states: rng.within(1..=most),
        nesting: rng.within(0..=2),
        depth: rng.within(1..=4),
    };
    let mut case = regular::case(rng, limits, bounds);
    if profile::has_room(&case) && rng.one_in(4) {
        let changes = [&profile::OUTSIDE[..], &profile::INSIDE].concat();
        (rng.pick(&changes).1)(rng, &mut case);
    }
    case
}

/// A case in which merges and rewrites find something to do. Every fourth rule has 60 to 64 nodes,
/// some of them unreached, so that a law finds no room.
pub fn with_alike_states(rng: &mut Rng, limits: Limits) -> Case {
    let most = if rng.one_in(4) { limits.most_states } else { 6 };
    let states = rng.within(1..=most);
    match rng.below(4) {
        0 => alike_tables::case(rng, limits, states),
        1 => alike_tables::with_chops(rng, limits, states, 16),
        2 => alike_tables::with_chops(rng, limits, states, 64),
        _ => {
            let mut full = alike_tables::with_chops(rng, limits, states, 60);
            let nodes = rng.within(60..=64);
            full.nodes.resize_with(nodes, || generate::leaf(rng));
            full
        }
    }
}

#[cfg(test)]
mod tests {
    use super::*;
    use differential::groups::has_group;
    use differential::measure::reaches_group;
    use std::collections::BTreeSet;

    /// Of the files that are cases many have groups that count, and every group comes up.
    #[test]
    fn groups() {
        let mut rng = Rng::new(1);
        let (mut cases, mut reached, mut groups) = (0, 0, BTreeSet::new());
        for _ in 0..20_000 {
            let Ok(case) = plain::parse(&any(&mut rng, Limits::CASE)) else {
                continue;
            };
            cases += 1;
            reached += usize::from(reaches_group(&case));
            groups.extend(case.nodes.into_iter().filter(|&node| has_group(node)));
        }
        assert!(4 * reached >= cases, "{reached} of {cases}");
        assert_eq!(groups.len(), 2 * 256);
    }

    /// Of the files that are cases many have states that differ only where the rule does not look,
    /// and many have states that differ where it does.
    #[test]
    fn likeness() {
        let mut rng = Rng::new(4);
        let (mut cases, mut wider, mut unlike) = (0, 0, 0);
        for _ in 0..4_000 {
            let Ok(case) = plain::parse(&any(&mut rng, Limits::CASE)) else {
                continue;
            };
            let (full, now) = (plain::alike_in_full(&case), plain::alike(&case));
            cases += 1;
            wider += usize::from(now.len() > full.len());
            unlike += usize::from(now.len() < case.labels.len().pow(2));
        }
        assert!(4 * wider >= cases, "{wider} of {cases}");
        assert!(4 * unlike >= cases, "{unlike} of {cases}");
    }

    /// Of the files that are cases many have start states, and every state is one of some case.
    #[test]
    fn starts() {
        let mut rng = Rng::new(2);
        let (mut cases, mut listed, mut states) = (0, 0, BTreeSet::new());
        for _ in 0..10_000 {
            let Ok(case) = plain::parse(&any(&mut rng, Limits::CASE)) else {
                continue;
            };
            cases += 1;
            listed += usize::from(!case.starts.is_empty());
            states.extend(case.starts);
        }
        assert!((cases / 4..cases).contains(&listed), "{listed} of {cases}");
        assert_eq!(states.len(), 16);
    }

    /// Within the widest limits as many are cases, many of them over the limits of a case, by their
    /// states and by their length.
    #[test]
    fn wide() {
        let mut rng = Rng::new(5);
        let (mut cases, mut states, mut long) = (0, 0, 0);
        for _ in 0..2_000 {
            let file = any(&mut rng, Limits::WIDEST);
            let Ok(case) = plain::parse_within(&file, Limits::WIDEST) else {
                continue;
            };
            cases += 1;
            states += usize::from(case.labels.len() > Limits::CASE.most_states);
            long += usize::from(file.len() > Limits::CASE.longest_file);
        }
        assert!(cases >= 800, "{cases}");
        assert!(states >= 100 && long >= 50, "{states}, {long} of {cases}");
    }

    /// Of the files that are cases many are padded and many packed, and all gaps come up.
    #[test]
    fn gaps() {
        let mut rng = Rng::new(3);
        let (mut cases, mut packed, mut gaps) = (0, 0, BTreeSet::new());
        for _ in 0..10_000 {
            let file = any(&mut rng, Limits::CASE);
            if plain::parse(&file).is_ok() {
                let found = padding::gaps_of(&file);
                cases += 1;
                packed += usize::from(found == padding::PACKED);
                gaps.insert(found);
            }
        }
        assert!(
            (cases / 4..3 * cases / 4).contains(&packed),
            "{packed} of {cases}"
        );
        assert_eq!(gaps.len(), 64);
    }
}
