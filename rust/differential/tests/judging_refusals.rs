//! Refused judgements and work areas of any length, from fixed seeds. The comparison checks every
//! word that is lent.
use differential::damage::expect_refusals;
use differential::formulas::{self, Bounds};
use differential::generate;
use differential::judging::{compare, needed};
use differential::padding;
use differential::replies::{in_plain, refused};
use differential::rng::Rng;
use differential::strange::STRANGE;
use plain::Limits;

/// Around the length that is needed, and far from it.
#[test]
fn areas_of_every_length() {
    let mut rng = Rng::new(400);
    for i in 0..200 {
        let bounds = Bounds {
            states: 1 + i % 4,
            nesting: 2,
            depth: 3,
        };
        let case = formulas::case(&mut rng, Limits::CASE, bounds);
        let file = padding::file(&mut rng, &case);
        let set = rng.below(1 << bounds.states) as u16;
        let needed = needed(&file);
        let near = needed - 2..=needed + 3;
        let far = [0, 1, needed / 2, needed + 64, 2 * needed, 5 * needed + 1];
        for words in near.chain(far) {
            let reply = compare(&file, set, words);
            if words < needed {
                assert_eq!(reply, refused(9, 0), "{words} words");
            } else {
                assert!(reply.is_ok(), "{words} words");
            }
        }
    }
}

/// Valid cases of up to 16 states, with a set beyond the case, too few words, or both.
#[test]
fn sets_and_areas_refused() {
    let mut rng = Rng::new(410);
    let mut refusals = [0; 10];
    for _ in 0..4_000 {
        let case = generate::case(&mut rng, Limits::CASE);
        let file = padding::file(&mut rng, &case);
        let set = if rng.one_in(2) {
            rng.below(4) as u16
        } else {
            rng.number() as u16
        };
        // A long area takes long to check, and is too short for most of the cases too.
        let words = rng.below(needed(&file).min(2_000));
        let refusal = compare(&file, set, words).unwrap_err();
        refusals[refusal.number as usize] += 1;
    }
    assert!(refusals[8] >= 1_000 && refusals[9] >= 1_000, "{refusals:?}");
}

/// Each fault gets its own row and place, whatever the set and the area.
#[test]
fn damaged_cases() {
    expect_refusals(420, 200, Limits::CASE, |rng, file| {
        compare(file, rng.number() as u16, rng.below(200))
    });
    expect_refusals(420, 200, Limits::CASE, |_, file| {
        in_plain(hoidrul::work_area(file))
    });
}

/// Files of which only the checkers can tell what they get; areas too short for most that are cases.
#[test]
fn strange_files() {
    let mut rng = Rng::new(450);
    let mut refusals = [0; 10];
    for draw in STRANGE {
        for _ in 0..500 {
            let (file, words) = (draw(&mut rng, Limits::CASE), rng.below(32));
            if let Err(refusal) = compare(&file, rng.below(8) as u16, words) {
                refusals[refusal.number as usize] += 1;
            }
        }
    }
    println!("{refusals:?}");
    assert!(refusals[1..].iter().all(|&count| count > 0), "{refusals:?}");
}
