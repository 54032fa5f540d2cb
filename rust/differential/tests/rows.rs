//! Refusals 1 to 8 (docs/SPECIFICATION.md, section 8), by both checkers.
use differential::damage::without_starts;
use differential::drives;
use differential::f_changed::{f_with, refused_files};
use differential::replies::refused;
use differential::tally::compare;
use plain::{pack, write, Case, Limits};

#[test]
fn case_f_is_answered() {
    for section in 0..=3 {
        assert_eq!(compare(&f_with(|_| ()), section), Ok((2, 10)));
    }
}

#[test]
fn examples_of_the_table() {
    for (file, refusal) in refused_files(Limits::CASE) {
        assert_eq!(compare(&file, 0), Err(refusal));
    }
    // The example of row 8 is a set; vetting has the section number.
    assert_eq!(compare(&f_with(|_| ()), 4), refused(8, 0));
}

/// A file with the faults of several rows gets the lowest of them.
#[test]
fn rows_are_tested_in_rising_number() {
    type Fault = fn(&mut Case);
    let faults: [(u32, usize, Fault); 7] = [
        (7, 0, |f| f.root = 4),
        (6, 9, |f| f.nodes[4] = (12, 0, 3)),
        (5, 7, |f| f.nodes[7] = (6, 8, 0)),
        (4, 0, |f| f.starts = vec![0, 2]),
        (4, 0, |f| f.root = 10),
        (3, 1, |f| f.steps[1] = (0, 0, 1)),
        (2, 0, |f| f.labels.clear()),
    ];
    let mut case = drives::f();
    for (number, place, fault) in faults {
        fault(&mut case);
        assert_eq!(compare(&write(&case), 4), refused(number, place));
    }
    let mut file = write(&case);
    file.push(0);
    assert_eq!(compare(&file, 4), refused(1, 0));
}

/// Lists of start states for the two states of F.
const RISING: [&[u8]; 4] = [&[], &[0], &[1], &[0, 1]];
const OTHERS: [&[u8]; 12] = [
    &[2],
    &[16],
    &[255],
    &[0, 0],
    &[1, 1],
    &[1, 0],
    &[0, 2],
    &[1, 255],
    &[0, 1, 0],
    &[0, 1, 1],
    &[0, 1, 2],
    &[0, 0, 1],
];

#[test]
fn start_states() {
    for starts in RISING {
        let file = f_with(|f| f.starts = starts.to_vec());
        assert_eq!(compare(&file, 3), Ok((2, 10)), "{starts:?}");
    }
    for starts in OTHERS {
        let file = f_with(|f| f.starts = starts.to_vec());
        assert_eq!(compare(&file, 3), refused(4, 0), "{starts:?}");
    }
}

/// A wrong list is told after the faults of rows 1 to 3 and before those of rows 5 to 8. The other
/// faults of row 4 have the same number and place.
#[test]
fn start_states_and_another_fault() {
    let other: [(fn(&mut Case), _); 9] = [
        (|f| f.labels.clear(), refused(2, 0)),
        (|f| f.labels = vec![0; 17], refused(2, 0)),
        (|f| f.steps[1] = (0, 0, 1), refused(3, 1)),
        (|f| f.nodes.clear(), refused(4, 0)),
        (|f| f.root = 10, refused(4, 0)),
        (|f| f.nodes[0] = (15, 0, 0), refused(4, 0)),
        (|f| f.nodes[7] = (6, 8, 0), refused(4, 0)),
        (|f| f.nodes[4] = (12, 0, 3), refused(4, 0)),
        (|f| f.root = 4, refused(4, 0)),
    ];
    for starts in OTHERS {
        for (fault, reply) in other {
            let mut case = drives::f();
            case.starts = starts.to_vec();
            fault(&mut case);
            assert_eq!(compare(&write(&case), 4), reply, "{case:?}");
        }
        let mut file = f_with(|f| f.starts = starts.to_vec());
        file.pop();
        assert_eq!(compare(&file, 4), refused(1, 0), "{starts:?}");
    }
}

/// The files of cases as they were before they had start states.
#[test]
fn three_pairs() {
    let f = without_starts(&drives::f());
    assert_eq!((f.len(), &f[..4]), (51, &[12, 0, 2, 0][..]));
    for (name, case) in drives::drives() {
        for section in 0..5 {
            let reply = compare(&without_starts(&case), section);
            assert_eq!(reply, refused(1, 0), "{name}");
        }
    }
}

#[test]
fn places_are_the_lowest() {
    let examples = [
        // Out of order: the later of the two.
        (f_with(|f| f.steps.swap(0, 1)), refused(3, 1)),
        (f_with(|f| f.steps[1] = (0, 0, 1)), refused(3, 1)),
        (
            f_with(|f| f.steps = vec![(0, 0, 1), (2, 0, 0), (0, 0, 0)]),
            refused(3, 1),
        ),
        (
            f_with(|f| f.steps = vec![(0, 0, 1), (0, 8, 1), (0, 0, 2)]),
            refused(3, 1),
        ),
        (
            f_with(|f| (f.nodes[3], f.nodes[8]) = ((15, 0, 0), (15, 0, 0))),
            refused(5, 3),
        ),
        // Three binders of one variable: the second.
        (
            f_with(|f| (f.nodes[4], f.nodes[5]) = ((12, 0, 3), (11, 0, 3))),
            refused(6, 5),
        ),
    ];
    for (file, reply) in examples {
        assert_eq!(compare(&file, 1), reply);
    }
}

#[test]
fn section_lengths() {
    let labels = [0, 0];
    let tt = [0, 0, 0, 0];
    let with = |steps: &[u8], rule: &[u8]| pack(&[&labels, steps, rule, &[]]);
    let examples = [
        (pack(&[&[], &[], &[], &[]]), refused(2, 0)),
        (with(&[], &[]), refused(4, 0)),
        (with(&[], &[0]), refused(4, 0)),
        (with(&[], &tt[..3]), refused(4, 0)),
        (with(&[], &[0, 0, 0, 0, 0]), refused(4, 0)),
        (with(&[], &[0, 0, 0, 0, 0, 0]), refused(4, 0)),
        (with(&[], &tt), Ok((2, 1))),
        // No multiple of 3 is told before any triple is looked at.
        (with(&[0, 0, 0, 9, 9, 9, 0], &tt), refused(3, 0)),
        (with(&[0, 0, 0, 9, 9, 9], &tt), refused(3, 1)),
        (with(&[0], &tt), refused(3, 0)),
        // More sections or fewer.
        (pack(&[]), refused(1, 0)),
        (pack(&[&labels, &[], &tt]), refused(1, 0)),
        (pack(&[&labels, &[], &tt, &[], &[]]), refused(1, 0)),
    ];
    for (file, reply) in examples {
        assert_eq!(compare(&file, 1), reply);
    }
}

/// Unreached nodes may have free variables, but rows 5 and 6 look at them.
#[test]
fn unreached_nodes() {
    let with =
        |nodes: &[plain::Triple], root| f_with(|f| (f.nodes, f.root) = (nodes.to_vec(), root));
    let examples = [
        (with(&[(0, 0, 0), (4, 3, 0)], 0), Ok((2, 2))),
        (with(&[(0, 0, 0), (4, 3, 0), (11, 2, 1)], 0), Ok((2, 3))),
        (with(&[(0, 0, 0), (4, 16, 0)], 0), refused(5, 1)),
        (with(&[(0, 0, 0), (11, 2, 0), (12, 2, 0)], 0), refused(6, 2)),
    ];
    for (file, reply) in examples {
        assert_eq!(compare(&file, 2), reply);
    }
}

/// A variable is free if one path to it meets no binder, though another one does.
#[test]
fn free_on_one_path() {
    let with = |root, top| {
        let nodes = vec![(4, 0, 0), (11, 0, 0), top];
        f_with(|f| (f.nodes, f.root) = (nodes, root))
    };
    assert_eq!(compare(&with(1, (8, 1, 0)), 2), Ok((2, 3)));
    assert_eq!(compare(&with(2, (8, 1, 1)), 2), Ok((2, 3)));
    assert_eq!(compare(&with(2, (8, 1, 0)), 2), refused(7, 0));
    assert_eq!(compare(&with(2, (10, 0, 1)), 2), refused(7, 0));
}

#[test]
fn section_numbers_beyond_the_case() {
    let file = f_with(|_| ());
    let wide = [1 << 16, (1 << 16) + 2, 1 << 32, (1 << 32) + 1, usize::MAX];
    for section in [4, 5, 255, 256, 257].into_iter().chain(wide) {
        assert_eq!(compare(&file, section), refused(8, 0), "section {section}");
    }
}

/// Every beginning of the file is turned back, though the rest of it stands behind.
#[test]
fn beginnings_are_no_cases() {
    for starts in RISING {
        let file = f_with(|f| f.starts = starts.to_vec());
        for length in 0..file.len() {
            assert_eq!(compare(&file[..length], 0), refused(1, 0));
        }
    }
}
