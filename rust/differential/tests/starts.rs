//! Whether every start state holds, by the binding and by the plain checker.
use differential::damage::expect_refusals;
use differential::drives::{case, starting_in};
use differential::formulas::{self, Bounds};
use differential::generate;
use differential::judging::{all_states, compare, compare_starts, needed, number_of, set_of};
use differential::padding;
use differential::replies::refused;
use differential::rng::Rng;
use plain::{write, Limits};

/// Every list of four states: all of them have to be in the set of those that hold.
#[test]
fn every_list() {
    let mut rng = Rng::new(950);
    for _ in 0..100 {
        let bounds = Bounds {
            states: 4,
            nesting: 2,
            depth: 3,
        };
        let case = formulas::case(&mut rng, Limits::CASE, bounds);
        let file = write(&case);
        let verdict = compare(&file, all_states(4), needed(&file)).unwrap();
        let holding = number_of(&verdict.states);
        for list in 0..16 {
            let starts: Vec<u8> = (0..4).filter(|state| list >> state & 1 == 1).collect();
            let file = write(&starting_in(&starts, case.clone()));
            let expected = list & !holding == 0;
            assert_eq!(compare_starts(&file, needed(&file)), Ok(expected));
        }
    }
}

/// The rule [0] on three states: it holds of all on the set of all, so that judging on any other set
/// would tell.
#[test]
fn on_the_set_of_all_states() {
    let table = case(&[0; 3], &[(0, 0, 1), (1, 0, 2), (2, 0, 0)], &[(7, 0, 0)]);
    let file = write(&starting_in(&[0, 1, 2], table));
    assert_eq!(compare_starts(&file, 16), Ok(true));
    for set in [0, set_of(&[0]), set_of(&[1, 2])] {
        let verdict = compare(&file, set, 16).unwrap();
        assert!(verdict.states.contains(&false));
    }
}

/// The words are those of judging, and the refusals too but for 8.
#[test]
fn random_cases() {
    let mut rng = Rng::new(951);
    let mut words = [0; 2];
    for i in 0..400 {
        let bounds = Bounds {
            states: 1 + i % 5,
            nesting: 2,
            depth: 3,
        };
        let case = formulas::case(&mut rng, Limits::CASE, bounds);
        let file = padding::file(&mut rng, &case);
        let needed = needed(&file);
        let word = compare_starts(&file, needed).unwrap();
        assert!(word || !case.starts.is_empty());
        words[usize::from(word)] += usize::from(!case.starts.is_empty());
        for fewer in [0, needed / 2, needed - 1] {
            assert_eq!(compare_starts(&file, fewer), refused(9, 0));
        }
        assert_eq!(compare_starts(&file, needed + 9), Ok(word));
    }
    assert!(words.iter().all(|&count| count >= 50), "{words:?}");
}

#[test]
fn damaged_cases() {
    expect_refusals(960, 100, Limits::CASE, |rng, file| {
        compare_starts(file, rng.below(200))
    });
}

/// Lists of every sort come up in random cases.
#[test]
fn lists_that_are_drawn() {
    let mut rng = Rng::new(952);
    let (mut none, mut all, mut some) = (0, 0, 0);
    for _ in 0..1_000 {
        let case = generate::case_where(&mut rng, Limits::CASE, |case| case.labels.len() > 1);
        match case.starts.len() {
            0 => none += 1,
            listed if listed == case.labels.len() => all += 1,
            _ => some += 1,
        }
    }
    assert!(none >= 100 && all >= 100 && some >= 400);
}
