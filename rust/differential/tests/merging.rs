//! Merging by both checkers, from fixed seeds. The comparison checks every byte that is lent.
use differential::damage::expect_refusals;
use differential::drives::LONGEST_PACKED;
use differential::edits::{merge, rooms, LONGEST};
use differential::replies::{refused, LAST_ROW};
use differential::rng::Rng;
use differential::{alike_tables, drives, padding};
use plain::{write, Limits};

/// Each state of the case and some beyond it.
fn states_and_beyond(states: usize) -> Vec<usize> {
    let beyond = [states, states + 1, 256, 1 << 32, usize::MAX];
    (0..states).chain(beyond).collect()
}

#[test]
fn examples_of_the_table() {
    let f = write(&drives::f());
    assert_eq!(merge(&f, 0, 1, 55), refused(10, 0));
    assert_eq!(merge(&f, 1, 1, 55), refused(10, 0));
    assert_eq!(merge(&f, 2, 2, 55), refused(8, 0));
    assert_eq!(merge(&f, 0, 2, 0), refused(8, 0));
    assert_eq!(merge(&f, 0, 1, 0), refused(10, 0));
}

/// So many states without steps, all of them alike, and the start states after a merge.
fn merged_starts(states: usize, starts: &[u8], s: usize, t: usize) -> Vec<u8> {
    let case = drives::case(&vec![0; states], &[], &[(5, 0, 0)]);
    let file = write(&drives::starting_in(starts, case));
    let merged = merge(&file, s, t, LONGEST).expect("alike states");
    assert_eq!(merge(&file, t, s, LONGEST), Ok(merged.clone()));
    // By the bytes of the file: the list stands behind the last node and the root.
    assert_eq!(merged[12..14], [16 + states as u8 - 1 + 4, 0]);
    merged[16 + states - 1 + 4..].to_vec()
}

#[test]
fn start_states_are_carried() {
    for (s, t, starts, carried) in [
        (0, 2, &[1, 2][..], &[0, 1][..]),
        (0, 2, &[0, 2], &[0]),
        (0, 2, &[2], &[0]),
        (0, 2, &[0], &[0]),
        (0, 2, &[1], &[1]),
        (0, 2, &[], &[]),
        (0, 2, &[0, 1, 2], &[0, 1]),
        (0, 1, &[2], &[1]),
        (0, 1, &[1, 2], &[0, 1]),
        (0, 1, &[0, 2], &[0, 1]),
        (0, 1, &[0, 1], &[0]),
        (1, 2, &[2], &[1]),
        (1, 2, &[0, 2], &[0, 1]),
        (1, 2, &[1, 2], &[1]),
    ] {
        assert_eq!(merged_starts(3, starts, s, t), carried, "{starts:?}");
    }
    let all = Vec::from_iter(0..16);
    for (s, t) in [(0, 1), (0, 15), (14, 15), (7, 11)] {
        assert_eq!(merged_starts(16, &all, s, t), all[..15], "{s}, {t}");
    }
    assert_eq!(merged_starts(16, &[3, 9, 15], 9, 12), [3, 9, 14]);
    assert_eq!(merged_starts(16, &[3, 12, 15], 9, 12), [3, 9, 14]);
    assert_eq!(merged_starts(16, &[3, 12, 15], 2, 12), [2, 3, 14]);
    assert_eq!(merged_starts(16, &[8, 15], 8, 15), [8]);
}

#[test]
fn every_pair_of_states() {
    let mut rng = Rng::new(700);
    let (mut merged, mut refused) = (0, [0; LAST_ROW + 1]);
    for i in 0..48 {
        let states = 1 + i % 16;
        let case = alike_tables::case(&mut rng, Limits::CASE, states);
        let file = padding::file(&mut rng, &case);
        for s in states_and_beyond(states) {
            for t in states_and_beyond(states) {
                match merge(&file, s, t, file.len()) {
                    Ok(_) => merged += 1,
                    Err(refusal) => refused[refusal.number as usize] += 1,
                }
            }
        }
    }
    println!("{merged} {refused:?}");
    assert!(merged >= 500 && refused[8] >= 1_000 && refused[10] >= 1_000);
}

/// Merges alike states until none are left; each written file is the next case.
#[test]
fn down_to_the_classes() {
    let mut rng = Rng::new(710);
    for i in 0..150 {
        let case = alike_tables::case(&mut rng, Limits::CASE, 1 + i % 16);
        let mut file = padding::file(&mut rng, &case);
        loop {
            let classes = plain::classes(&file, 16).unwrap();
            let lower = |&s: &usize| usize::from(classes[s]) < s;
            let higher: Vec<usize> = (0..classes.len()).filter(lower).collect();
            if higher.is_empty() {
                break;
            }
            let s = rng.pick(&higher);
            file = merge(&file, s, classes[s].into(), LONGEST).expect("alike states");
        }
    }
}

#[test]
fn areas_of_every_length() {
    let mut rng = Rng::new(720);
    let mut tried = 0;
    while tried < 40 {
        let states = rng.within(2..=16);
        let case = alike_tables::case(&mut rng, Limits::CASE, states);
        let file = padding::file(&mut rng, &case);
        let (s, t) = (rng.below(states), rng.below(states));
        if let Ok(result) = plain::merge(&file, s, t, LONGEST) {
            rooms(&file, &result, |file, room| merge(file, s, t, room));
            tried += 1;
        }
    }
}

/// All states are alike.
#[test]
fn the_longest_case() {
    let packed = write(&drives::longest(Limits::CASE));
    let padded = padding::padded(&packed, padding::WIDEST);
    assert_eq!((packed.len(), padded.len()), (LONGEST_PACKED, LONGEST));
    for (file, s, t) in [
        (&packed, 0, 1),
        (&padded, 0, 1),
        (&packed, 15, 0),
        (&padded, 7, 8),
        (&packed, 15, 14),
    ] {
        let result = merge(file, s, t, LONGEST).unwrap();
        assert_eq!(result.len(), 16 + 15 + 3 * 15 * 8 * 15 + 193 + 15);
        rooms(file, &result, |file, room| merge(file, s, t, room));
    }
}

#[test]
fn damaged_cases() {
    expect_refusals(730, 50, Limits::CASE, |rng, file| {
        merge(file, rng.below(18), rng.below(18), rng.below(200))
    });
}
