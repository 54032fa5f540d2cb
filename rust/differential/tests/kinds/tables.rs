//! Which tables are taken, and that another one is refused before anything else.
use differential::f_changed::{f_with, refused_files};
use differential::judging::Judged;
use differential::kinds::{compare, compare_helpers, supplied, table, DAMAGES, OURS};
use differential::replies::refused;
use differential::rng::Rng;
use differential::strange::STRANGE;
use hoidrul::{KindTable, Reason};
use plain::Limits;

/// On case F as it is, with area enough.
fn of_f(kinds: &[u8]) -> Judged {
    let reply = compare(kinds, &f_with(|_| ()), 3, 80);
    let taken = reply != refused(15, 0);
    assert_eq!(KindTable::new(kinds).is_ok(), taken, "{kinds:?}");
    assert_eq!(KindTable::try_from(kinds).is_ok(), taken, "{kinds:?}");
    reply
}

/// Every other byte at every place of our own table.
#[test]
fn one_byte_changed() {
    assert!(of_f(&OURS).is_ok());
    for place in 0..15 {
        for byte in (0..=255).filter(|&byte| byte != OURS[place]) {
            let mut kinds = OURS;
            kinds[place] = byte;
            assert_eq!(of_f(&kinds), refused(15, 0), "{place}, {byte}");
        }
    }
}

/// Every two entries exchanged, and every turn of the whole table.
#[test]
fn other_tables_that_are_taken() {
    for a in 0..15 {
        for b in 0..a {
            let mut kinds = OURS;
            kinds.swap(a, b);
            assert_ne!(of_f(&kinds), refused(15, 0), "{a}, {b}");
        }
        let mut kinds = OURS;
        kinds.rotate_left(a);
        assert_ne!(of_f(&kinds), refused(15, 0), "{a}");
    }
}

/// All lengths but 15: too few bytes of a table, and more than it has.
#[test]
fn lengths() {
    let bytes: Vec<u8> = (0..15).cycle().take(300).collect();
    for length in (0..60).chain([255, 256, 271, 300]) {
        let reply = of_f(&bytes[..length]);
        assert_eq!(reply == refused(15, 0), length != 15, "{length}");
        let counted: Vec<u8> = (0..length).map(|i| i as u8).collect();
        let reply = of_f(&counted);
        assert_eq!(reply == refused(15, 0), length != 15, "{length}");
    }
}

#[test]
fn damaged_tables() {
    let mut rng = Rng::new(3_700);
    for (name, damage) in DAMAGES {
        for _ in 0..200 {
            let table = table(&mut rng);
            let kinds = damage(&mut rng, table);
            assert_eq!(of_f(&kinds), refused(15, 0), "{name}: {kinds:?}");
        }
    }
}

/// 15 comes before 1 to 9, whatever the file, the set and the area.
#[test]
fn before_every_other_refusal() {
    let mut rng = Rng::new(3_710);
    let right = f_with(|_| ());
    for (name, damage) in DAMAGES {
        for _ in 0..10 {
            let table = table(&mut rng);
            let kinds = damage(&mut rng, table);
            let files = refused_files(Limits::CASE).map(|(file, _)| file);
            for file in files.iter().chain([&right]) {
                for file in [file.clone(), supplied(&table, file)] {
                    for (set, words) in [(3, 80), (4, 80), (3, 79), (4, 0), (65_535, 0)] {
                        let reply = compare(&kinds, &file, set, words);
                        assert_eq!(reply, refused(15, 0), "{name}: {kinds:?}");
                    }
                    assert_eq!(compare_helpers(&kinds, &file, 80), refused(15, 0));
                }
            }
        }
    }
}

/// The others come in their order, through any table.
#[test]
fn rows_are_tested_in_rising_number() {
    let mut rng = Rng::new(3_720);
    for _ in 0..50 {
        let table = table(&mut rng);
        let right = supplied(&table, &f_with(|_| ()));
        assert!(compare(&table, &right, 3, 80).is_ok());
        assert_eq!(compare(&table, &right, 4, 79), refused(8, 0));
        assert_eq!(compare(&table, &right, 3, 79), refused(9, 0));
        assert_eq!(compare(&table, &right, 3, 0), refused(9, 0));
        for (file, refusal) in refused_files(Limits::CASE) {
            for (set, words) in [(3, 80), (4, 80), (3, 79), (65_535, 0)] {
                let reply = compare(&table, &supplied(&table, &file), set, words);
                assert_eq!(reply, Err(refusal));
            }
        }
    }
}

/// Strange files too.
#[test]
fn before_files_of_any_sort() {
    let mut rng = Rng::new(3_730);
    for draw in STRANGE {
        for _ in 0..60 {
            let (file, table) = (draw(&mut rng, Limits::CASE), table(&mut rng));
            let kinds = (rng.pick(&DAMAGES).1)(&mut rng, table);
            let (set, words) = (rng.number() as u16, rng.below(100));
            assert_eq!(compare(&kinds, &file, set, words), refused(15, 0));
        }
    }
}

/// A checked table is its bytes, and is judged through as they are.
#[test]
fn checked_tables() {
    let mut rng = Rng::new(3_740);
    for _ in 0..200 {
        let table = table(&mut rng);
        let checked = KindTable::new(&table).unwrap();
        assert_eq!(checked.as_bytes(), &table);
        assert_eq!(KindTable::try_from(table), Ok(checked));
        for (byte, kind) in (0..).zip(table) {
            assert_eq!(checked.stands_for(byte), kind);
            assert_eq!(checked.inverse().stands_for(kind), byte);
        }
        for byte in 15..=255 {
            assert_eq!(checked.stands_for(byte), byte);
        }
        let file = supplied(&table, &f_with(|_| ()));
        let verdict = hoidrul::judge_kinds(checked, &file, 3, &mut [7; 80]);
        assert_eq!(verdict, hoidrul::judge_kinds(table, &file, 3, &mut [7; 80]));
        assert_eq!(verdict, hoidrul::judge(&f_with(|_| ()), 3, &mut [7; 80]));
    }
    let refusal = KindTable::new(&[]).unwrap_err();
    assert_eq!((refusal.reason, refusal.place), (Reason::Table, 0));
}
