//! Random tables over cases and files of every sort, from fixed seeds.
use differential::damage::expect_refusals;
use differential::formulas::{self, Bounds};
use differential::generate;
use differential::judging::{self, Judged};
use differential::kinds::{compare, compare_helpers, exchanged, needed, supplied, table, OURS};
use differential::measure::nesting;
use differential::padding::{self, sections};
use differential::rng::Rng;
use differential::strange::STRANGE;
use plain::{reached, Case, Limits};
use std::collections::BTreeSet;

/// Case by case, written with the kinds of some supplier and judged through its table on some set: the
/// reply is that of the case as we write it. Returns which byte stood for which kind.
fn judged(seed: u64, count: usize, draw: impl Fn(&mut Rng) -> Case) -> BTreeSet<(u8, u8)> {
    let mut rng = Rng::new(seed);
    let mut read = BTreeSet::new();
    for _ in 0..count {
        let (case, table) = (draw(&mut rng), table(&mut rng));
        let ours = padding::file(&mut rng, &case);
        let theirs = supplied(&table, &ours);
        let (set, words) = (
            rng.below(1 << case.labels.len()) as u16,
            judging::needed(&ours),
        );
        assert_eq!(needed(&table, &theirs), words);
        let reply = compare(&table, &theirs, set, words);
        assert_eq!(
            reply,
            judging::compare(&ours, set, words),
            "{table:?}, {case:?}"
        );
        assert!(reply.is_ok());
        let [_, _, rule, _] = sections(&theirs);
        let bytes = theirs[rule].chunks_exact(3).map(|node| node[0]);
        read.extend(bytes.zip(case.nodes.iter().map(|node| node.0)));
    }
    read
}

/// Up to three binders within one another, on up to five states.
#[test]
fn cases_of_suppliers() {
    for states in 1..=5 {
        let bounds = Bounds {
            states,
            nesting: 3,
            depth: 4,
        };
        judged(3_000 + states as u64, 400, |rng| {
            formulas::case(rng, Limits::CASE, bounds)
        });
    }
}

/// Grown from the leaves up: more nodes, more of them shared and unreached.
#[test]
fn cases_from_the_leaves_up() {
    let small = |case: &Case| case.labels.len() <= 5 && nesting(case) <= 2;
    let read = judged(3_010, 500, |rng| {
        generate::case_where(rng, Limits::CASE, small)
    });
    assert_eq!(read.len(), 15 * 15, "every byte for every kind");
    // Some nodes that the root does not reach.
    let unreached = |case: &Case| small(case) && reached(case).len() < case.nodes.len();
    judged(3_011, 200, |rng| {
        generate::case_where(rng, Limits::CASE, unreached)
    });
}

#[test]
fn large_tables() {
    for states in 6..=16 {
        let bounds = Bounds {
            states,
            nesting: usize::from(states < 9),
            depth: 2,
        };
        let count = if states < 12 { 40 } else { 6 };
        judged(3_020 + states as u64, count, |rng| {
            formulas::case(rng, Limits::CASE, bounds)
        });
    }
}

/// What our entry replies, of any file, is what this one replies through a table of the file exchanged.
fn as_judge(table: &[u8; 15], file: &[u8], set: u16, words: usize) -> Judged {
    let theirs = supplied(table, file);
    assert_eq!(exchanged(table, &theirs), file);
    let reply = compare(table, &theirs, set, words);
    assert_eq!(
        reply,
        judging::compare(file, set, words),
        "{table:?}, {file:?}"
    );
    reply
}

/// Each fault gets its own row and place, whatever the table, the set and the area.
#[test]
fn damaged_cases() {
    expect_refusals(3_100, 100, Limits::CASE, |rng, file| {
        let table = table(rng);
        as_judge(&table, file, rng.number() as u16, rng.below(200))
    });
    expect_refusals(3_100, 40, Limits::CASE, |_, file| {
        compare(&OURS, file, 0, 100)
    });
    expect_refusals(3_150, 40, Limits::CASE, |rng, file| {
        let table = table(rng);
        compare_helpers(&table, &supplied(&table, file), rng.below(200))
    });
}

/// Files of which only the checkers can tell what they get, by their own table and by ours; areas too
/// short for most that are cases.
#[test]
fn strange_files() {
    let mut rng = Rng::new(3_200);
    let mut refusals = [0; 10];
    for draw in STRANGE {
        for _ in 0..300 {
            let (table, file) = (table(&mut rng), draw(&mut rng, Limits::CASE));
            let (set, words) = (rng.below(8) as u16, rng.below(32));
            let reply = as_judge(&table, &file, set, words);
            assert_eq!(compare(&OURS, &file, set, words), reply);
            if let Err(refusal) = reply {
                refusals[refusal.number as usize] += 1;
            }
        }
    }
    assert!(refusals[1..].iter().all(|&count| count > 0), "{refusals:?}");
}

/// Our files through tables that are not theirs: another rule, or none.
#[test]
fn tables_of_others() {
    let mut rng = Rng::new(3_300);
    let (mut refusals, mut changed, mut same) = ([0; 10], 0, 0);
    for i in 0..4_000 {
        let bounds = Bounds {
            states: 1 + i % 4,
            nesting: 2,
            depth: 1 + i % 3,
        };
        let case = formulas::case(&mut rng, Limits::CASE, bounds);
        let (table, file) = (table(&mut rng), padding::file(&mut rng, &case));
        let (set, words) = (0, judging::needed(&file));
        match compare(&table, &file, set, words) {
            Err(refusal) => refusals[refusal.number as usize] += 1,
            reply if reply == judging::compare(&file, set, words) => same += 1,
            _ => changed += 1,
        }
        let _ = compare_helpers(&table, &file, words);
    }
    println!("{refusals:?}, {changed} changed, {same} not");
    assert!(
        refusals[5..8].iter().all(|&count| count > 0),
        "{refusals:?}"
    );
    assert!(changed >= 50 && same >= 50, "{changed}, {same}");
}

/// The word on the start states, and one word too few.
#[test]
fn start_states() {
    let mut rng = Rng::new(3_400);
    let mut said = [0; 2];
    for i in 0..400 {
        let bounds = Bounds {
            states: 1 + i % 5,
            nesting: 1,
            depth: 3,
        };
        let case = formulas::case(&mut rng, Limits::CASE, bounds);
        let (table, file) = (table(&mut rng), padding::file(&mut rng, &case));
        let (theirs, words) = (supplied(&table, &file), judging::needed(&file));
        let hold = compare_helpers(&table, &theirs, words);
        assert_eq!(hold, judging::compare_starts(&file, words));
        said[usize::from(hold == Ok(true))] += usize::from(!case.starts.is_empty());
        let short = compare_helpers(&table, &theirs, words - 1);
        assert_eq!(short.map_err(|refusal| refusal.number), Err(9));
    }
    assert!(said.iter().all(|&count| count >= 50), "{said:?}");
}
