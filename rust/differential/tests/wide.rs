//! Files drawn within limits that are wider than a case's, by the plain checker alone.
use differential::damage::expect_refusals;
use differential::drives::longest;
use differential::formulas::{self, Bounds};
use differential::padding::{self, gaps_of, write_padded, PACKED, WIDEST};
use differential::rng::Rng;
use differential::strange::STRANGE;
use differential::{alike_tables, f_changed, generate, regular};
use plain::{parse_within, Case, Limits, Refusal};
use std::collections::BTreeSet;

/// Each number of states in files of either length.
const LIMITS: [Limits; 4] = [
    of(64, 6_394),
    of(256, 6_394),
    of(64, 65_535),
    Limits::WIDEST,
];

const fn of(most_states: usize, longest_file: usize) -> Limits {
    Limits {
        longest_file,
        most_states,
    }
}

/// The case is one within the limits, packed and with as much padding as there can be. Where it has too
/// many bytes or states for narrower ones, it is refused for that.
fn expect_case(case: &Case, limits: Limits) {
    for gaps in [PACKED, WIDEST] {
        let file = write_padded(case, gaps);
        assert_eq!(parse_within(&file, limits).as_ref(), Ok(case), "{limits:?}");
        for narrow in [Limits::CASE, of(64, limits.longest_file)] {
            let expected = if file.len() > narrow.longest_file {
                Err(Refusal::new(1, 0))
            } else if case.labels.len() > narrow.most_states {
                Err(Refusal::new(2, 0))
            } else {
                Ok(case)
            };
            assert_eq!(parse_within(&file, narrow), expected.cloned());
        }
    }
}

/// Nearly every number of states comes up, and nearly every state as one with a step, as one that a step
/// leads to and as a start state; so do files over half of the longest.
#[test]
fn any_cases() {
    for limits in LIMITS {
        let mut rng = Rng::new(1);
        let mut numbers = [const { BTreeSet::new() }; 4];
        let mut long = 0;
        for _ in 0..2_000 {
            let case = generate::case(&mut rng, limits);
            expect_case(&case, limits);
            numbers[0].insert((case.labels.len() - 1) as u8);
            numbers[1].extend(case.steps.iter().map(|step| step.0));
            numbers[2].extend(case.steps.iter().map(|step| step.2));
            numbers[3].extend(&case.starts);
            long += usize::from(6 * case.steps.len() > limits.longest_file);
        }
        let counts = numbers.map(|set| set.len());
        let enough = limits.most_states - limits.most_states / 16;
        assert!(counts.iter().all(|&count| count >= enough), "{counts:?}");
        assert!(long >= 100, "{limits:?}: {long}");
    }
}

/// Cases for judging, and with alike states.
#[test]
fn cases_of_so_many_states() {
    for limits in LIMITS {
        let mut rng = Rng::new(2);
        for states in [1, 17, limits.most_states - 1, limits.most_states] {
            for _ in 0..25 {
                let bounds = Bounds {
                    states,
                    nesting: 2,
                    depth: 3,
                };
                let cases = [
                    formulas::case(&mut rng, limits, bounds),
                    regular::case(&mut rng, limits, bounds),
                    alike_tables::case(&mut rng, limits, states),
                    alike_tables::with_chops(&mut rng, limits, states, 64),
                ];
                for case in cases {
                    assert_eq!(case.labels.len(), states);
                    expect_case(&case, limits);
                }
            }
        }
    }
}

/// Copies of few originals, so that most tables have states that are alike.
#[test]
fn alike_states() {
    let limits = of(64, 65_535);
    let mut rng = Rng::new(3);
    let mut alike = 0;
    for _ in 0..20 {
        let case = alike_tables::case(&mut rng, limits, 64);
        alike += usize::from(plain::alike(&case).len() > 64);
    }
    assert!(alike >= 10, "{alike}");
}

#[test]
fn damaged_cases() {
    for limits in LIMITS {
        expect_refusals(100, 100, limits, |_, file| parse_within(file, limits));
    }
}

/// Some are cases, and every row comes up.
#[test]
fn strange_files() {
    for limits in LIMITS {
        let mut rng = Rng::new(4);
        let mut rows = BTreeSet::new();
        let mut cases = 0;
        for draw in STRANGE {
            for _ in 0..300 {
                match parse_within(&draw(&mut rng, limits), limits) {
                    Ok(_) => cases += 1,
                    Err(refusal) => drop(rows.insert(refusal.number)),
                }
            }
        }
        assert!(cases >= 100, "{limits:?}: {cases}");
        assert_eq!(rows, BTreeSet::from_iter(1..=7), "{limits:?}");
    }
}

/// Less than a step is missing to the longest file where there is no room for all steps.
#[test]
fn longest_cases() {
    for limits in [Limits::CASE].into_iter().chain(LIMITS) {
        let case = longest(limits);
        expect_case(&case, limits);
        let length = write_padded(&case, WIDEST).len();
        assert!(limits.longest_file - length < 3, "{limits:?}: {length}");
        let shorter = of(limits.most_states, length - 1);
        let file = write_padded(&case, WIDEST);
        assert_eq!(parse_within(&file, shorter), Err(Refusal::new(1, 0)));
    }
}

/// The examples of each row, and what pads them.
#[test]
fn examples() {
    for limits in LIMITS {
        for (file, refusal) in f_changed::refused_files(limits) {
            assert_eq!(parse_within(&file, limits), Err(refusal), "{limits:?}");
        }
        let case = generate::case(&mut Rng::new(5), limits);
        for gaps in padding::all() {
            let file = write_padded(&case, gaps);
            assert_eq!(gaps_of(&file), gaps);
            assert_eq!(parse_within(&file, limits).as_ref(), Ok(&case));
        }
    }
}
