//! States are alike as far as the rule looks, by both checkers: random cases from fixed seeds.
use differential::edits::{classes, merge, rewrite, LONGEST};
use differential::judging::{needed, proved_starts, verdict};
use differential::measure::looked_at;
use differential::rng::Rng;
use differential::{alike_tables, generate, padding};
use plain::{alike, alike_in_full, classes_by_all_relations, parse, write, Limits};

/// Law 3 can drop what the rule looks at; no other law changes it.
#[test]
fn looks_after_rewrites() {
    let mut rng = Rng::new(1010);
    let (mut kept, mut narrowed) = (0, 0);
    for _ in 0..400 {
        let case = alike_tables::with_chops(&mut rng, Limits::CASE, 2, 30);
        let before = looked_at(&case);
        for (law, node) in (1..=9).flat_map(|law| (0..case.nodes.len()).map(move |j| (law, j))) {
            let Ok(file) = rewrite(&write(&case), law, node, LONGEST) else {
                continue;
            };
            let after = looked_at(&parse(&file).unwrap());
            assert_eq!((after.0 & !before.0, after.1 & !before.1), (0, 0));
            assert!(law == 3 || after == before, "law {law} at {node}: {case:?}");
            kept += usize::from(after == before);
            narrowed += usize::from(after != before);
        }
    }
    assert!(kept >= 1_000 && narrowed >= 50, "{kept} {narrowed}");
}

/// What was alike when all labels and steps counted still is; what is alike beyond that can be
/// merged, and the verdict stays.
#[test]
fn wider_than_in_full() {
    let mut rng = Rng::new(1020);
    let mut wider = 0;
    for i in 0..600 {
        let case = match i % 3 {
            0 => generate::case_where(&mut rng, Limits::CASE, |case| case.labels.len() <= 5),
            1 => alike_tables::case(&mut rng, Limits::CASE, 2 + i % 6),
            _ => alike_tables::with_chops(&mut rng, Limits::CASE, 2 + i % 6, 16),
        };
        let (full, now) = (alike_in_full(&case), alike(&case));
        assert!(full.is_subset(&now), "{case:?}");
        if let Some(&(s, t)) = now.difference(&full).next() {
            wider += 1;
            let file = padding::file(&mut rng, &case);
            let merged = merge(&file, s, t, LONGEST).expect("alike states");
            let mut standing = verdict(&merged);
            standing.insert(s.max(t), standing[s.min(t)]);
            assert_eq!(standing, verdict(&file), "{case:?}");
            let [before, after] = [&file, &merged].map(|file| proved_starts(file, needed(file)));
            assert_eq!(before, after, "{case:?}");
        }
    }
    assert!((200..600).contains(&wider), "{wider}");
}

/// As the definition says it: up to four states, by going through all relations.
#[test]
fn rules_of_any_kind_by_all_relations() {
    let mut rng = Rng::new(1030);
    let (mut fewer, mut wider) = (0, 0);
    for i in 0..160 {
        let case = match i % 2 {
            0 => generate::case_where(&mut rng, Limits::CASE, |case| case.labels.len() <= 4),
            _ => alike_tables::with_chops(&mut rng, Limits::CASE, 1 + i / 2 % 4, 24),
        };
        let found = classes(&write(&case), 16).expect("a case and room");
        assert_eq!(found, classes_by_all_relations(&case), "{case:?}");
        fewer += usize::from((0..found.len()).any(|s| usize::from(found[s]) < s));
        wider += usize::from(alike(&case) != alike_in_full(&case));
    }
    assert!(fewer >= 40 && wider >= 30, "{fewer} {wider}");
}
