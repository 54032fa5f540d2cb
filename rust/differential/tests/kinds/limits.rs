//! The last value that passes and the first that does not; what is exchanged and what is not.
use differential::drives::{self, longest, starting_in};
use differential::f_changed::f_with;
use differential::judging::{self, all_states, Judged};
use differential::kinds::{
    compare, exchanged, inverse, needed, over_the_head, supplied, table, Table, OURS,
};
use differential::padding::{all, gaps, padded, write_padded, PACKED, WIDEST};
use differential::replies::refused;
use differential::rng::Rng;
use plain::{pack, write, Case, Limits, Triple, Verdict};

const TAU: Triple = (5, 0, 0);

/// Byte i stands for the kind above, and 14 for 0.
const ABOVE: Table = [1, 2, 3, 4, 5, 6, 7, 8, 9, 10, 11, 12, 13, 14, 0];

fn verdict(states: Vec<bool>) -> Judged {
    Ok(Verdict { states, rounds: 0 })
}

/// A case without labels and steps.
fn case(states: usize, nodes: &[Triple]) -> Case {
    drives::case(&vec![0; states], &[], nodes)
}

/// A table in which the byte stands for the kind.
fn with(byte: u8, kind: u8) -> Table {
    let mut table = OURS;
    table.swap(byte.into(), kind.into());
    table
}

/// Each byte for each kind: as the root, below a binder of what there is, and unreached.
#[test]
fn each_byte_for_each_kind() {
    for byte in 0..15 {
        for kind in 0..15 {
            let table = with(byte, kind);
            for ours in [
                vec![TAU, (kind, 0, 0)],
                vec![TAU, (kind, 0, 0), (8, 0, 1)],
                vec![TAU, (4, 0, 0), (kind, 1, 0), (12, 0, 2)],
                vec![(kind, 0, 0), (kind, 1, 0), TAU],
            ] {
                let case = drives::case(&[1, 2, 3], &[(0, 0, 1), (1, 1, 0), (2, 0, 2)], &ours);
                let file = write(&case);
                let theirs = supplied(&table, &file);
                assert_eq!(theirs, supplied(&inverse(&table), &file), "a swap");
                for set in 0..8 {
                    let reply = compare(&table, &theirs, set, 80);
                    assert_eq!(reply, judging::compare(&file, set, 80), "{byte}, {kind}");
                }
            }
        }
    }
}

/// 14 is the last byte that stands for a kind. One above is refused at its node, the lowest of several.
#[test]
fn bytes_that_are_no_kinds() {
    let mut rng = Rng::new(3_600);
    for table in [OURS, ABOVE, inverse(&ABOVE), table(&mut rng)] {
        let tau = inverse(&table)[5];
        for place in 0..8 {
            let with = |byte| {
                let mut case = case(2, &[(tau, 0, 0); 8]);
                case.nodes[place].0 = byte;
                case.root = (place as u8 + 1) % 8;
                compare(&table, &write(&case), 1, 64)
            };
            assert_eq!(with(tau), verdict(vec![true, false]));
            for byte in [15, 16, 17, 30, 127, 128, 254, 255] {
                assert_eq!(with(byte), refused(5, place), "{byte}");
            }
        }
        let several = [tau, tau, 15, tau, 255, 15].map(|kind| (kind, 0, 0));
        assert_eq!(
            compare(&table, &write(&case(2, &several)), 1, 64),
            refused(5, 2)
        );
    }
    assert!(
        compare(&ABOVE, &write(&case(2, &[(14, 0, 0)])), 1, 8).is_ok(),
        "tt"
    );
}

/// Bytes of every section that are kinds too stay what they are: labels, steps, operands, the root and
/// start states.
#[test]
fn only_kinds_are_read_through_the_table() {
    let labels = [0, 1, 2, 3, 4, 5, 6, 7, 8, 9, 10, 11];
    let steps = [
        (0, 0, 1),
        (1, 2, 3),
        (2, 4, 5),
        (3, 6, 7),
        (8, 7, 9),
        (10, 7, 11),
    ];
    let nodes = [
        (2, 1, 0),
        (3, 2, 0),
        (6, 4, 0),
        (7, 6, 0),
        (13, 5, 0),
        (14, 7, 0),
    ];
    let two = [(8, 1, 2), (9, 3, 4), (10, 6, 7), (8, 5, 8), (11, 3, 9)];
    let ours = drives::case(&labels, &steps, &[&nodes[..], &two].concat());
    let ours = starting_in(&[0, 3, 5, 7, 11], ours);
    let mut rng = Rng::new(3_610);
    for _ in 0..20 {
        let table = table(&mut rng);
        let file = write_padded(&ours, gaps(&mut rng));
        let (theirs, words) = (supplied(&table, &file), judging::needed(&file));
        let set = rng.below(1 << 12) as u16;
        let reply = compare(&table, &theirs, set, words);
        assert_eq!(reply, judging::compare(&file, set, words));
        assert!(reply.is_ok());
        let read = plain::parse_kinds(&table, &theirs);
        assert_eq!(read.as_ref(), Ok(&ours));
    }
}

/// 2 × m × 2^n words, unreached nodes included.
#[test]
fn work_areas() {
    for (states, nodes) in [(1, 1), (2, 10), (3, 64), (5, 7), (16, 1)] {
        for root in [0, nodes as u8 - 1] {
            let mut case = case(states, &vec![(4, 0, 0); nodes]);
            case.root = root;
            let file = write(&case);
            let words = (2 * nodes) << states;
            assert_eq!(needed(&ABOVE, &file), words);
            for short in [0, 1, words / 2, words - 1] {
                assert_eq!(compare(&ABOVE, &file, 1, short), refused(9, 0), "{short}");
            }
            let first: Vec<bool> = (0..states).map(|state| state == 0).collect();
            for enough in [words, words + 1, words + 100] {
                let reply = compare(&ABOVE, &file, 1, enough);
                assert_eq!(reply, verdict(first.clone()), "{enough}");
            }
        }
    }
}

/// 2^n - 1 is the last set.
#[test]
fn sets() {
    for states in 1..=16 {
        let file = write(&case(states, &[(4, 0, 0)]));
        let (all, words) = (all_states(states), 2 << states);
        assert_eq!(
            compare(&ABOVE, &file, all, words),
            verdict(vec![true; states])
        );
        assert_eq!(
            compare(&ABOVE, &file, 0, words),
            verdict(vec![false; states])
        );
        if states < 16 {
            for beyond in [all + 1, all + 2, 65_535] {
                assert_eq!(compare(&ABOVE, &file, beyond, words), refused(8, 0));
                assert_eq!(compare(&ABOVE, &file, beyond, 0), refused(8, 0));
            }
        }
    }
    let seventeen = write(&case(17, &[(4, 0, 0)]));
    assert_eq!(compare(&ABOVE, &seventeen, 0, 1 << 18), refused(2, 0));
}

/// The longest file, whatever its padding, and one byte more or less.
#[test]
fn file_lengths() {
    let mut longest = longest(Limits::CASE);
    longest.nodes.fill((4, 0, 0));
    for (gaps, length) in [(PACKED, 6_385), (WIDEST, 6_394)] {
        let file = write_padded(&longest, gaps);
        assert_eq!(file.len(), length);
        assert_eq!(compare(&ABOVE, &file, 0, 1_000), refused(9, 0));
        assert_eq!(
            compare(&ABOVE, &file[..length - 1], 0, 1_000),
            refused(1, 0)
        );
        let more = [&file[..], &[0]].concat();
        assert_eq!(compare(&ABOVE, &more, 0, 1_000), refused(1, 0));
    }
    let words = needed(&ABOVE, &write_padded(&longest, WIDEST));
    let reply = compare(&ABOVE, &write_padded(&longest, WIDEST), 0b101, words);
    assert_eq!(
        reply,
        verdict((0..16).map(|state| state == 0 || state == 2).collect())
    );
    // Right pairs over more bytes than a case has.
    longest.starts.resize(26, 0);
    let too_long = write_padded(&longest, [3, 3, 2]);
    assert_eq!(too_long.len(), 6_403);
    assert_eq!(compare(&ABOVE, &too_long, 0, 1_000), refused(1, 0));
    for length in [0, 1, 8, 15, 16, 17] {
        assert_eq!(compare(&ABOVE, &vec![16; length], 0, 1_000), refused(1, 0));
    }
}

/// Every padding gets the reply of the packed file.
#[test]
fn padded_files() {
    let mut rng = Rng::new(3_620);
    let table = table(&mut rng);
    let packed = supplied(&table, &f_with(|f| f.starts = vec![0, 1]));
    let reply = compare(&table, &packed, 3, 80);
    assert!(reply.is_ok());
    for gaps in all() {
        assert_eq!(
            compare(&table, &padded(&packed, gaps), 3, 80),
            reply,
            "{gaps:?}"
        );
    }
}

/// Section 2 of every length: 3m + 1 with m from 1 to 64 passes, and no other.
#[test]
fn rule_lengths() {
    for length in (0..20).chain(188..200).chain([255, 256, 300, 769, 6_000]) {
        let mut rule: Vec<u8> = [4, 0, 0].into_iter().cycle().take(length).collect();
        if let Some(root) = rule.last_mut() {
            *root = 0;
        }
        let file = pack(&[&[0], &[], &rule, &[]]);
        let right = length % 3 == 1 && (4..=193).contains(&length);
        let reply = compare(&ABOVE, &file, 1, 400);
        let expected = if right {
            verdict(vec![true])
        } else {
            refused(4, 0)
        };
        assert_eq!(reply, expected, "{length}");
        assert_eq!(judging::compare(&exchanged(&ABOVE, &file), 1, 400), reply);
    }
}

/// Pairs that do not hold are refused as they are, also where an exchange would make them hold.
#[test]
fn pairs_that_an_exchange_would_mend() {
    let mut rng = Rng::new(3_630);
    for _ in 0..100 {
        let (table, file, made) = over_the_head(&mut rng);
        assert_eq!(compare(&table, &file, 0, 1_000), refused(1, 0));
        assert_eq!(judging::compare(&made, 0, 1_000), refused(9, 0), "a case");
    }
}

/// Section 2 anywhere in the file or behind it.
#[test]
fn rules_elsewhere() {
    let file = supplied(&ABOVE, &f_with(|_| ()));
    for offset in (0..80).chain([255, 256, 32_768, 65_535]) {
        for length in [0, 1, 3, 4, 31, 32, 55, 65_535] {
            let mut moved = file.clone();
            moved[8..10].copy_from_slice(&u16::to_le_bytes(offset));
            moved[10..12].copy_from_slice(&u16::to_le_bytes(length));
            let right = (offset, length) == (24, 31);
            let reply = compare(&ABOVE, &moved, 3, 80);
            assert!(
                right && reply.is_ok() || reply == refused(1, 0),
                "{offset}, {length}"
            );
        }
    }
}
