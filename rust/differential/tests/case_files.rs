//! The files of the folder `cases`.
use differential::drives::{self, drives, folder, read, ALIGNED};
use differential::printed::wanted;
use differential::tally::compare;
use std::fs;

/// The 55 bytes of case F, as clause 9.5 has them. There are no start states.
const F: [u8; 55] = [
    16, 0, 2, 0, 18, 0, 6, 0, 24, 0, 31, 0, 55, 0, 0, 0, // pairs
    0, 0, // labels
    0, 0, 1, 1, 1, 1, // steps
    4, 0, 0, 4, 1, 0, 10, 0, 1, 10, 2, 0, 12, 1, 3, // nodes 0 to 4
    6, 0, 0, 10, 5, 4, 6, 1, 0, 8, 7, 6, 11, 0, 8, // nodes 5 to 9
    9, // root
];

/// The 89 bytes of the aligned file: each section begins at a multiple of four.
const ALIGNED_BYTES: [u8; 89] = [
    16, 0, 6, 0, 24, 0, 21, 0, 48, 0, 37, 0, 88, 0, 1, 0, // pairs
    1, 0, 0, 1, 0, 0, // labels
    0, 0, // padding
    0, 1, 1, 1, 0, 0, 1, 1, 2, 2, 0, 1, 3, 1, 4, 4, 0, 3, 4, 0, 5, // steps
    0, 0, 0, // padding
    4, 0, 0, 5, 0, 0, 6, 0, 0, 7, 0, 0, 7, 1, 0, 2, 0, 0, // nodes 0 to 5
    10, 4, 0, 9, 3, 2, 10, 6, 7, 9, 1, 8, 12, 0, 9, 10, 10, 5,  // nodes 6 to 11
    11, // root
    0, 0, 0, // padding
    0, // start state
];

#[test]
fn the_aligned_file_has_its_bytes() {
    assert_eq!(read(ALIGNED), ALIGNED_BYTES);
}

/// The program has to print the same of both. The root is a chop, so that there are no rounds.
#[test]
fn the_aligned_file_is_another_one_padded() {
    let packed = read("pulled_back_fed_again.case");
    assert_eq!(packed.len(), 81);
    assert_eq!(plain::parse(&packed), plain::parse(&ALIGNED_BYTES));
    let print = "states 6\nrounds 0\n0 yes\n1 no\n2 no\n3 no\n4 no\n5 no\nstarts yes\n";
    assert_eq!(wanted(&packed), print);
    assert_eq!(wanted(&ALIGNED_BYTES), print);
}

#[test]
fn case_f_has_its_bytes() {
    assert_eq!(read("f.case"), F);
}

#[test]
fn files_are_those_of_the_drives() {
    for (name, case) in drives() {
        assert_eq!(read(name), drives::file(name, &case), "{name}");
        assert_eq!(plain::parse(&read(name)), Ok(case), "{name}");
    }
}

#[test]
fn every_file_is_accepted() {
    let mut count = 0;
    for entry in fs::read_dir(folder()).unwrap() {
        let path = entry.unwrap().path();
        if path
            .extension()
            .is_some_and(|extension| extension == "case")
        {
            let file = fs::read(&path).unwrap();
            let case = plain::parse(&file).unwrap();
            for section in 0..4 {
                let counts = (case.labels.len(), case.nodes.len());
                assert_eq!(compare(&file, section), Ok(counts), "{path:?}");
            }
            count += 1;
        }
    }
    assert_eq!(count, drives().len());
}
