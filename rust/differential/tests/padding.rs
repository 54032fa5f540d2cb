//! Padding between sections, by both checkers: a padded file gets what the packed one gets, and edits
//! write packed files. (That of files for regular rules is in tests/regular.)
use differential::drives::{self, drives, longest, starting_in};
use differential::edits::{classes, edit, Written, LONGEST};
use differential::f_changed::refused_files;
use differential::judging::{compare as judge, compare_starts, Judged};
use differential::padding::{self, all, gap_before, gaps_of, padded, sections, PACKED, WIDEST};
use differential::replies::{in_plain, refused};
use differential::rng::Rng;
use differential::tally::{compare, Reply};
use differential::{alike_tables, generate};
use plain::{pack, write, Case, Edit, Limits, Refusal};

/// What the entries reply, the places of sections aside.
#[derive(Debug, PartialEq)]
struct Replies {
    vetted: Vec<Reply>,
    opened: Vec<Result<Vec<u8>, Refusal>>,
    judged: Vec<Judged>,
    starts: Vec<Result<bool, Refusal>>,
    classes: Vec<Written>,
    edited: Vec<Written>,
}

/// Calls the entries with arguments that they answer and with some that they do not.
fn replies(file: &[u8]) -> Replies {
    let (states, nodes) = plain::vet(file, 0).unwrap_or((2, 2));
    let opened = |section| in_plain(hoidrul::open(file, section)).map(<[u8]>::to_vec);
    // The plain checker judges small cases soon; for others no work area is lent.
    let needed = (2 * nodes) << states;
    let words = if needed <= 2_000 { needed } else { 0 };
    let all = ((1_u32 << states) - 1) as u16;
    let judged = [(all, words), (1, words), (0, words / 2), (65_535, words)];
    let room = [0, states - 1, states, 40];
    let edited = edits(states, nodes).map(|(change, room)| edit(file, change, room));
    Replies {
        vetted: (0..6).map(|section| compare(file, section)).collect(),
        opened: (0..5).map(opened).collect(),
        judged: judged.map(|(set, words)| judge(file, set, words)).into(),
        starts: vec![compare_starts(file, words)],
        classes: room.map(|room| classes(file, room)).into(),
        edited: edited.collect(),
    }
}

/// Merges of some states and laws at the highest nodes, with areas that are long enough and short.
fn edits(states: usize, nodes: usize) -> impl Iterator<Item = (Edit, usize)> {
    let pairs = [(0, 1), (1, 0), (0, states - 1), (0, 0), (0, states)];
    let merges = pairs.map(|(s, t)| Edit::Merge { s, t });
    let laws = (0..40).map(move |i| Edit::Rewrite {
        law: i % 10,
        node: (nodes + i / 10).saturating_sub(3),
    });
    let both = merges.into_iter().chain(laws);
    both.flat_map(|edit| [(edit, LONGEST), (edit, 33)])
}

/// Two alike states and one that is not, without steps; the rule p0 and tt.
fn small() -> Case {
    drives::case(&[0, 0, 1], &[], &[(2, 0, 0), (0, 0, 0), (9, 0, 1)])
}

/// Cases with and without steps and start states, so that padding stands on both sides of an empty
/// section and at the end of the file; the longest, in which all states are alike; random ones.
fn cases() -> Vec<Case> {
    let limits = Limits::CASE;
    let mut cases = vec![starting_in(&[1, 2], small()), small(), longest(limits)];
    cases.extend(drives().into_iter().map(|(_, case)| case));
    let mut rng = Rng::new(980);
    for i in 0..8 {
        let states = 2 + i % 5;
        cases.push(alike_tables::with_chops(&mut rng, limits, states, 24));
        cases.push(generate::case(&mut rng, limits));
    }
    cases
}

#[test]
fn padded_files_get_the_replies_of_packed_ones() {
    let (mut merged, mut rewritten) = (0, 0);
    for case in cases() {
        let packed = write(&case);
        let expected = replies(&packed);
        let accepted = |replies: &[Written]| replies.iter().filter(|reply| reply.is_ok()).count();
        merged += accepted(&expected.edited[..10]);
        rewritten += accepted(&expected.edited[10..]);
        for gaps in all() {
            let file = padded(&packed, gaps);
            assert_eq!(plain::parse(&file), Ok(case.clone()));
            assert_eq!(replies(&file), expected, "{gaps:?}: {case:?}");
        }
    }
    assert!(merged >= 20 && rewritten >= 30, "{merged} {rewritten}");
}

/// Each section is that part of the file that its pair names, by the bytes of case F.
#[test]
fn sections_are_opened_in_place() {
    let lengths = [2, 6, 31, 0];
    let packed = write(&drives::f());
    for gaps in all() {
        let file = padded(&packed, gaps);
        assert_eq!(file.len(), 55 + gap_before(gaps, 3));
        assert_eq!(compare(&file, 4), refused(8, 0));
        let offsets = [16, 18 + gaps[0], 24 + gaps[0] + gaps[1], file.len()];
        for (section, (offset, length)) in offsets.into_iter().zip(lengths).enumerate() {
            assert_eq!(compare(&file, section), Ok((2, 10)));
            let part = hoidrul::open(&file, section).unwrap();
            assert_eq!(part.as_ptr(), file[offset..].as_ptr());
            assert_eq!(part.len(), length);
        }
    }
}

/// More cases, with gaps at random.
#[test]
fn random_cases() {
    let mut rng = Rng::new(981);
    for _ in 0..500 {
        let packed = write(&generate::case(&mut rng, Limits::CASE));
        let file = padded(&packed, padding::numbered(rng.below(64)));
        assert_eq!(replies(&file), replies(&packed));
    }
}

/// Room for the packed result is enough, though the file that is edited is longer.
#[test]
fn edits_write_packed_files() {
    let mut case = starting_in(&[1, 2], small());
    case.steps = vec![(2, 0, 2)];
    let merged = Case {
        labels: vec![0, 1],
        steps: vec![(1, 0, 1)],
        starts: vec![0, 1],
        ..case.clone()
    };
    let rewritten = Case {
        nodes: vec![(2, 0, 0), (0, 0, 0), (9, 1, 0)],
        ..case.clone()
    };
    let merge = Edit::Merge { s: 1, t: 0 };
    let law_9 = Edit::Rewrite { law: 9, node: 2 };
    for gaps in all() {
        let file = padded(&write(&case), gaps);
        for (change, result) in [(merge, write(&merged)), (law_9, write(&rewritten))] {
            assert_eq!(gaps_of(&result), PACKED);
            let room = result.len();
            assert_eq!(edit(&file, change, room), Ok(result), "{gaps:?}");
            assert_eq!(edit(&file, change, room - 1), refused(13, 0), "{gaps:?}");
        }
    }
}

/// Each refusal of an edit, by its number; neither the area nor the padded file is changed.
#[test]
fn a_refused_edit_leaves_area_and_file() {
    let case = small();
    let full = Case {
        nodes: [&[(5, 0, 0), (10, 0, 0)][..], &[(10, 1, 0); 62]].concat(),
        ..case.clone()
    };
    for (case, change, room, number) in [
        (&case, Edit::Merge { s: 0, t: 3 }, 60, 8),
        (&case, Edit::Merge { s: 0, t: 2 }, 60, 10),
        (&case, Edit::Merge { s: 0, t: 1 }, 27, 13),
        (&case, Edit::Rewrite { law: 1, node: 2 }, 60, 11),
        (&case, Edit::Rewrite { law: 9, node: 2 }, 28, 13),
        (&full, Edit::Rewrite { law: 4, node: 63 }, 300, 12),
    ] {
        let file = padding::write_padded(case, WIDEST);
        let (mut area, lent) = (vec![7; room], file.clone());
        let reply = match change {
            Edit::Merge { s, t } => hoidrul::merge(&lent, s, t, &mut area),
            Edit::Rewrite { law, node } => hoidrul::rewrite(&lent, law, node, &mut area),
        };
        assert_eq!(in_plain(reply), refused(number, 0), "{change:?}");
        assert_eq!((area, lent), (vec![7; room], file), "{change:?}");
    }
}

/// By every entry.
fn refused_by_1(file: &[u8], what: &str) {
    let expected = Replies {
        vetted: vec![refused(1, 0); 6],
        opened: vec![refused(1, 0); 5],
        judged: vec![refused(1, 0); 4],
        starts: vec![refused(1, 0)],
        classes: vec![refused(1, 0); 4],
        edited: vec![refused(1, 0); 90],
    };
    assert_eq!(replies(file), expected, "{what}: {file:?}");
}

/// The file with so many bytes 0 put in, and the offsets of section `first` and later ones moved.
fn put_in(file: &[u8], at: usize, bytes: usize, first: usize) -> Vec<u8> {
    let mut file = file.to_vec();
    file.splice(at..at, vec![0; bytes]);
    for section in first..4 {
        padding::set_number(&mut file, 4 * section, |offset| offset + bytes);
    }
    file
}

#[test]
fn a_gap_is_at_most_three_bytes_wide() {
    for case in cases().iter().filter(|case| case.steps.len() < 2_000) {
        let packed = write(case);
        for place in 0..3 {
            for others in [0, 1, 3] {
                for width in [4, 5, 8, 256] {
                    let mut gaps = [others; 3];
                    gaps[place] = width;
                    refused_by_1(&padded(&packed, gaps), "wide gap");
                }
            }
        }
    }
}

#[test]
fn every_byte_of_a_gap_is_0() {
    let some = [[1; 3], [2; 3], WIDEST, [0, 3, 1], [3, 0, 0], [0, 0, 2]];
    for case in cases().iter().filter(|case| case.steps.len() < 100) {
        for gaps in some {
            let file = padding::write_padded(case, gaps);
            for at in padding::padding_of(&file) {
                for byte in [1, 128, 255] {
                    let mut file = file.clone();
                    file[at] = byte;
                    refused_by_1(&file, "byte in a gap");
                }
            }
        }
    }
}

/// A section that begins one byte early, its end left where it was or moved with it.
#[test]
fn sections_do_not_overlap() {
    for case in &cases() {
        let packed = write(case);
        for section in 0..4 {
            for longer in [0, 1] {
                let mut file = packed.clone();
                padding::set_number(&mut file, 4 * section, |offset| offset - 1);
                padding::set_number(&mut file, 4 * section + 2, |length| length + longer);
                refused_by_1(&file, "overlap");
            }
        }
    }
}

#[test]
fn no_padding_before_the_first_section_or_after_the_last() {
    for case in &cases() {
        let packed = write(case);
        for gaps in [PACKED, [1, 2, 3], [3, 0, 1], [0, 0, 3]] {
            let file = padded(&packed, gaps);
            for bytes in 1..=3 {
                refused_by_1(&put_in(&file, 16, bytes, 0), "before section 0");
                refused_by_1(&put_in(&file, file.len(), bytes, 4), "after section 3");
            }
        }
    }
}

/// Rows 2 to 7 come with their places.
#[test]
fn other_refusals_stay() {
    for (file, refusal) in refused_files(Limits::CASE).into_iter().skip(1) {
        let expected = replies(&file);
        for gaps in all() {
            let file = padded(&file, gaps);
            assert_eq!(compare(&file, 4), Err(refusal), "{gaps:?}");
            assert_eq!(replies(&file), expected, "{gaps:?}");
        }
    }
}

/// The longest case, and labels alone, which are too many for a case but not for row 1.
#[test]
fn the_longest_file() {
    let file = padding::write_padded(&longest(Limits::CASE), WIDEST);
    assert_eq!(file.len(), 6394);
    assert_eq!(sections(&file), [16..32, 35..6179, 6182..6375, 6378..6394]);
    for section in 0..4 {
        assert_eq!(compare(&file, section), Ok((16, 64)));
    }
    for (labels, length, row) in [(6378, 6394, 2), (6379, 6395, 1)] {
        let packed = pack(&[&vec![0; labels], &[], &[], &[]]);
        assert_eq!(packed.len(), length);
        assert_eq!(compare(&packed, 0), refused(row, 0));
        let shorter = pack(&[&vec![0; labels - 9], &[], &[], &[]]);
        assert_eq!(compare(&padded(&shorter, WIDEST), 0), refused(row, 0));
    }
}
