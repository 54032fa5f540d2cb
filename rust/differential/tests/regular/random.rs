//! Random cases with regular rules, from fixed seeds.
use differential::damage::expect_refusals;
use differential::formulas::Bounds;
use differential::judging::{self, all_states, number_of};
use differential::measure::nesting;
use differential::padding::{self, all, padded};
use differential::regular::{case, compare, compare_verdict, needed, SET_BYTES};
use differential::replies::refused;
use differential::rng::Rng;
use differential::strange::STRANGE;
use plain::{reached, write, Case, Limits};
use std::collections::BTreeSet;

/// Cases of so many states, each judged by both checkers, with the bytes that they write.
fn judged(seed: u64, count: usize, bounds: Bounds, mut see: impl FnMut(&Case, &[u8], &[u8])) {
    let mut rng = Rng::new(seed);
    for _ in 0..count {
        let case = case(&mut rng, Limits::WIDEST, bounds);
        let file = padding::file(&mut rng, &case);
        let set = compare(&file, needed(&file), SET_BYTES).expect("a regular rule");
        see(&case, &file, &set);
    }
}

fn bounds(states: usize, nesting: usize) -> Bounds {
    Bounds {
        states,
        nesting,
        depth: 4,
    }
}

/// The set of up to 16 states that these bytes are.
fn number(set: &[u8]) -> u16 {
    assert!(set[2..].iter().all(|&byte| byte == 0));
    u16::from_le_bytes([set[0], set[1]])
}

/// The first judge on the set of all states, and the root's function as the plain checker has it.
#[test]
fn few_states_by_the_first_judge() {
    for states in 1..=5 {
        judged(2_000, 300, bounds(states, 3), |case, file, set| {
            let all = all_states(states);
            let verdict = judging::compare(file, all, judging::needed(file)).unwrap();
            assert_eq!(number(set), number_of(&verdict.states), "{case:?}");
            let function = plain::meaning(case).function;
            assert_eq!(number(set), number_of(&function[usize::from(all)]));
        });
    }
}

/// More are too large for the plain checker's functions, but not for the first judge.
#[test]
fn up_to_sixteen_states_by_the_first_judge() {
    for states in 6..=16 {
        let (count, nesting) = if states <= 10 { (100, 2) } else { (12, 1) };
        judged(2_100, count, bounds(states, nesting), |case, file, set| {
            let verdict = judging::proved(file, all_states(states), judging::needed(file));
            let verdict = number_of(&verdict.unwrap().states);
            assert_eq!(number(set), verdict, "{case:?}");
        });
    }
}

/// Sets of all sorts come out, and rules of all sorts are judged.
#[test]
fn large_tables() {
    let (mut proper, mut nested) = (0, 0);
    let mut kinds = BTreeSet::new();
    let mut states_told = BTreeSet::new();
    for states in (17..=253).step_by(4).chain([254, 255, 256]) {
        judged(
            2_200 + states as u64,
            20,
            bounds(states, 2),
            |case, _, set| {
                let holding = set.iter().map(|byte| byte.count_ones() as usize).sum();
                proper += usize::from((1..states).contains(&holding));
                nested += usize::from(nesting(case) > 1);
                kinds.extend(reached(case).iter().map(|&j| case.nodes[j].0));
                states_told.extend((0..256).filter(|s| set[s / 8] >> (s % 8) & 1 == 1));
            },
        );
    }
    assert!(proper >= 300 && nested >= 600, "{proper}, {nested}");
    let all_but_tau = (0..15).filter(|&kind| kind != 5).collect();
    assert_eq!((kinds, states_told.len()), (all_but_tau, 256));
}

/// Three binders within each other, and deep rules.
#[test]
fn nested_binders() {
    for states in [17, 40, 100, 256] {
        let bounds = Bounds {
            depth: 6,
            ..bounds(states, 3)
        };
        judged(2_300, 100, bounds, |_, _, _| ());
    }
}

/// The binding's verdict: the same set, how many states there are, whether every start state holds.
#[test]
fn verdicts() {
    let mut words = [0; 2];
    for states in [1, 2, 8, 9, 16, 17, 100, 255, 256] {
        judged(2_400, 30, bounds(states, 1), |case, file, _| {
            let bytes = needed(file);
            let word = compare_verdict(file, bytes).unwrap();
            assert!(word || !case.starts.is_empty());
            words[usize::from(word)] += usize::from(!case.starts.is_empty());
            assert_eq!(compare_verdict(file, bytes - 1), refused(9, 0));
        });
    }
    assert!(words.iter().all(|&count| count >= 20), "{words:?}");
}

/// Every padding of a file gets the reply of the packed one, which the plain checker has.
#[test]
fn padded_files() {
    for states in [1, 16, 17, 256] {
        judged(2_500, 3, bounds(states, 1), |case, file, set| {
            let (packed, bytes) = (write(case), needed(file));
            for gaps in all() {
                let reply = compare(&padded(&packed, gaps), bytes, SET_BYTES);
                assert_eq!(reply.as_deref(), Ok(set), "{gaps:?}");
            }
        });
    }
}

/// Rows 1 to 7 come first, whatever the areas.
#[test]
fn damaged_cases() {
    expect_refusals(2_600, 40, Limits::WIDEST, |rng, file| {
        compare(file, rng.below(5_000), rng.below(40))
    });
}

#[test]
fn strange_files() {
    let mut rng = Rng::new(2_700);
    let mut rows = BTreeSet::new();
    for draw in STRANGE {
        for _ in 0..300 {
            let reply = compare(&draw(&mut rng, Limits::WIDEST), 0, 0);
            rows.insert(reply.expect_err("no area").number);
        }
    }
    assert_eq!(rows, BTreeSet::from_iter([1, 2, 3, 4, 5, 6, 7, 9, 14]));
}
