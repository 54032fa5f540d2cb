//! Classes of alike states by both checkers, from fixed seeds. The comparison checks every byte
//! that is lent.
use differential::damage::expect_refusals;
use differential::edits::{classes, rooms};
use differential::replies::refused;
use differential::rng::Rng;
use differential::strange::STRANGE;
use differential::{alike_tables, drives, generate, padding};
use plain::{classes_by_all_relations, write, Limits};

#[test]
fn drives() {
    assert_eq!(classes(&write(&drives::f()), 2), Ok(vec![0, 1]));
    let wheels = write(&drives::wheels(3, 4));
    assert_eq!(classes(&wheels, 8), Ok(vec![0, 1, 1, 1, 1, 1, 1, 1]));
}

#[test]
fn tables_with_alike_states() {
    let mut rng = Rng::new(600);
    let (mut fewer, mut all) = (0, 0);
    for i in 0..1_500 {
        let states = 1 + i % 16;
        let case = alike_tables::case(&mut rng, Limits::CASE, states);
        let found = classes(&padding::file(&mut rng, &case), 16).unwrap();
        assert_eq!(found.len(), states);
        let count = (0..states).filter(|&s| usize::from(found[s]) == s).count();
        fewer += usize::from(count < states);
        all += usize::from(count == states);
    }
    assert!(fewer >= 800 && all >= 100, "{fewer} {all}");
}

#[test]
fn small_tables_by_all_relations() {
    let mut rng = Rng::new(610);
    for i in 0..300 {
        let case = alike_tables::case(&mut rng, Limits::CASE, 1 + i % 4);
        let expected = classes_by_all_relations(&case);
        let file = padding::file(&mut rng, &case);
        assert_eq!(classes(&file, 4), Ok(expected), "{case:?}");
    }
}

#[test]
fn tables_of_any_kind() {
    let mut rng = Rng::new(620);
    for _ in 0..500 {
        let case = generate::case(&mut rng, Limits::CASE);
        let file = padding::file(&mut rng, &case);
        assert!(classes(&file, 20).is_ok());
    }
}

#[test]
fn areas_of_every_length() {
    let mut rng = Rng::new(630);
    for i in 0..64 {
        let case = alike_tables::case(&mut rng, Limits::CASE, 1 + i % 16);
        let file = padding::file(&mut rng, &case);
        let result = classes(&file, 16).unwrap();
        rooms(&file, &result, classes);
    }
}

#[test]
fn damaged_cases() {
    expect_refusals(640, 50, Limits::CASE, |rng, file| {
        classes(file, rng.below(32))
    });
}

#[test]
fn strange_files() {
    let mut rng = Rng::new(670);
    let mut short = 0;
    for draw in STRANGE {
        for _ in 0..300 {
            let reply = classes(&draw(&mut rng, Limits::CASE), rng.below(16));
            short += usize::from(reply == refused(13, 0));
        }
    }
    assert!(short > 0);
}
