//! Random files by both checkers, from fixed seeds.
use differential::damage::expect_refusals;
use differential::generate::case;
use differential::padding;
use differential::replies::refused;
use differential::rng::Rng;
use differential::strange::{section, STRANGE};
use differential::tally::Tally;
use plain::{parse, Limits};

#[test]
fn valid_cases() {
    let mut rng = Rng::new(1);
    let mut tally = Tally::default();
    for _ in 0..40_000 {
        let case = case(&mut rng, Limits::CASE);
        let file = padding::file(&mut rng, &case);
        let section = section(&mut rng);
        let counts = (case.labels.len(), case.nodes.len());
        let expected = if section < 4 {
            Ok(counts)
        } else {
            refused(8, 0)
        };
        assert_eq!(tally.compare(&file, section), expected, "{case:?}");
        assert_eq!(parse(&file), Ok(case));
    }
    println!("{tally:?}");
    assert_eq!(tally.calls, 80_000);
    assert!(tally.answers > 20_000 && tally.refusals[8] > 5_000);
    assert!(tally.with_groups > 10_000 && tally.with_starts > 15_000);
    assert!(tally.with_padding > 10_000 && tally.with_padding < tally.answers - 10_000);
}

/// Each fault gets its own row and place, whatever the section number.
#[test]
fn damaged_cases() {
    let mut tally = Tally::default();
    expect_refusals(100, 3_000, Limits::CASE, |rng, file| {
        tally.compare(file, section(rng))
    });
    println!("{tally:?}");
    assert_eq!(tally.calls, 180_000);
    for row in 1..=7 {
        assert!(tally.refusals[row] >= 3_000, "row {row}");
    }
    for row in [3, 5, 6] {
        assert!(tally.placed[row] >= 1_000, "row {row}");
    }
}

#[test]
fn strange_files() {
    let mut tally = Tally::default();
    for (seed, draw) in (200..).zip(STRANGE) {
        let mut rng = Rng::new(seed);
        for _ in 0..10_000 {
            let _ = tally.compare(&draw(&mut rng, Limits::CASE), section(&mut rng));
        }
    }
    println!("{tally:?}");
    assert_eq!(tally.calls, 140_000);
    assert!(tally.answers >= 1_000 && tally.with_groups >= 500 && tally.with_starts >= 500);
    assert!(tally.with_padding >= 500);
    for row in 1..=8 {
        assert!(tally.refusals[row] >= 100, "row {row}");
    }
    for row in [3, 5, 6] {
        assert!(tally.placed[row] >= 100, "row {row}");
    }
}
