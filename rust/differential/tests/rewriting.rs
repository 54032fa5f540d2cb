//! Rewriting by both checkers, from fixed seeds. The comparison checks every byte that is lent.
use differential::damage::expect_refusals;
use differential::edits::{rewrite, rooms, LONGEST};
use differential::formulas::{self, Bounds};
use differential::padding::{numbered, write_padded};
use differential::replies::{refused, LAST_ROW};
use differential::rng::Rng;
use differential::{chops, drives, generate};
use plain::kinds::{self, values_of_a, AND, CHOP, MU, NU, OR, VARIABLE};
use plain::{write, Case, Limits, Refusal, Shape, Triple};

/// The laws and numbers that are none, some of them right modulo a power of two.
const LAWS: [usize; 14] = [
    0,
    1,
    2,
    3,
    4,
    5,
    6,
    7,
    8,
    9,
    10,
    257,
    (1 << 32) + 9,
    usize::MAX,
];

#[derive(Default)]
struct Count {
    /// By law, 1 to 9.
    answers: [usize; 10],
    refusals: [usize; LAST_ROW + 1],
}

impl Count {
    /// Tries every law at every node and beyond, with room for any result. The file's padding is
    /// another for each law.
    fn everywhere(&mut self, case: &Case) {
        let nodes = case.nodes.len();
        let beyond = [nodes, nodes + 1, 256, 1 << 32, usize::MAX];
        for (i, law) in LAWS.into_iter().enumerate() {
            let file = write_padded(case, numbered(5 * i));
            for node in (0..nodes).chain(beyond) {
                self.one(&file, law, node);
            }
        }
    }

    fn one(&mut self, file: &[u8], law: usize, node: usize) {
        match rewrite(file, law, node, file.len() + 6) {
            Ok(_) => self.answers[law] += 1,
            Err(refusal) => self.refusals[refusal.number as usize] += 1,
        }
    }
}

#[test]
fn examples_of_the_table() {
    let f = write(&drives::f());
    assert_eq!(rewrite(&f, 1, 9, 55), refused(11, 0));
    assert_eq!(rewrite(&f, 9, 8, 54), refused(13, 0));
    assert_eq!(rewrite(&f, 9, 8, 55).unwrap()[48..51], [8, 6, 7]);
}

#[test]
fn random_rules() {
    let mut rng = Rng::new(800);
    let mut count = Count::default();
    for i in 0..24 {
        let bounds = Bounds {
            states: 1 + i % 3,
            nesting: 2,
            depth: 4,
        };
        let case = formulas::case(&mut rng, Limits::CASE, bounds);
        count.everywhere(&case);
        count.everywhere(&chops::put_into(&mut rng, case, 64));
        count.everywhere(&generate::case_where(&mut rng, Limits::CASE, |case| {
            case.steps.len() <= 30
        }));
    }
    println!("{:?} {:?}", count.answers, count.refusals);
    assert!(count.answers[1..].iter().all(|&answers| answers >= 5));
}

/// A node of this kind over nodes 0 and 1, its variable free or bound by no other. A group has the
/// number of the node that is rewritten, which it does not name.
fn over_leaves(kind: u8, variable: u8) -> Triple {
    match Shape::of((kind, 0, 0)) {
        Shape::Leaf if values_of_a(kind) == Some(1) => (kind, 0, 0),
        Shape::Leaf if values_of_a(kind) == Some(256) => (kind, 4, 0),
        Shape::Leaf => (kind, 1, 0),
        Shape::Two(..) => (kind, 0, 1),
        Shape::Binder(..) => (kind, variable, 1),
    }
}

/// A node of kind `top` over two of kinds `left` and `right`, or over the same one twice, with
/// other mentions of it behind.
fn shape(top: u8, left: u8, right: u8, twice: bool) -> Case {
    let (a, b) = if twice { (2, 2) } else { (2, 3) };
    let binds = Shape::of((top, a, b)).bound().is_some();
    let a = if binds { 14 } else { a };
    let nodes = vec![
        (6, 0, 0),
        (7, 1, 0),
        over_leaves(left, 12),
        over_leaves(right, 13),
        (top, a, b),
        (8, 4, 4),
        (10, 4, 5),
        (12, 4, 6),
        (13, 4, 0),
    ];
    // Node 4 cannot be the root where it has a free variable.
    let closed = left != VARIABLE && right != VARIABLE;
    Case {
        labels: vec![1],
        steps: vec![(0, 0, 0)],
        nodes,
        root: if closed { 4 + top % 4 } else { 0 },
        starts: if twice { vec![0] } else { vec![] },
    }
}

fn shapes() -> impl Iterator<Item = Case> {
    const TOPS: [u8; 5] = [OR, AND, CHOP, MU, NU];
    const PAIRS: usize = kinds::COUNT * kinds::COUNT;
    (0..TOPS.len() * 2 * PAIRS).map(|i| {
        let kind = |i: usize| (i % kinds::COUNT) as u8;
        let (left, right) = (kind(i), kind(i / kinds::COUNT));
        shape(TOPS[i / PAIRS / 2], left, right, i / PAIRS % 2 == 1)
    })
}

/// Every shape of a node over two others: those that a law wants and those that are nearly so.
#[test]
fn every_shape() {
    let mut count = Count::default();
    for case in shapes() {
        let file = write(&case);
        for law in LAWS {
            (4..=6).for_each(|node| count.one(&file, law, node));
        }
    }
    println!("{:?} {:?}", count.answers, count.refusals);
    assert!(count.answers[1..].iter().all(|&answers| answers >= 20));
}

/// The nodes of a case after a law at node 4. Its root is the last.
fn rewritten(law: usize, nodes: &[Triple]) -> Result<Vec<Triple>, Refusal> {
    let file = write(&drives::case(&[0], &[], nodes));
    let file = rewrite(&file, law, 4, LONGEST)?;
    Ok(plain::parse(&file).expect("a case").nodes)
}

/// Nodes with groups below the rewritten node and above it keep their bytes, whatever the group is,
/// and law 3 takes none of them for a constant.
#[test]
fn groups_stay_as_they_are() {
    for (kind, group) in (0..=255).flat_map(|group| [(13, group), (14, group)]) {
        let (g, h) = ((kind, group, 0), (27 - kind, group, 0));
        // The root names a node and the group behind the nodes that change.
        let rule = |middle: &[Triple], named: u8| {
            let behind = 3 + middle.len() as u8;
            [&[g, h, g], middle, &[h, (9, named, behind)]].concat()
        };
        let expect = |law, given: [Triple; 2], middle: &[Triple], named| {
            let found = rewritten(law, &rule(&given, 4));
            assert_eq!(found, Ok(rule(middle, named)), "law {law}, group {group}");
        };
        let (tau, tt, ab) = ((5, 0, 0), (0, 0, 0), (10, 0, 1));
        for (law, given, left_over) in [
            (1, [tau, (10, 3, 2)], 2),
            (2, [tau, (10, 2, 3)], 2),
            (3, [tt, (10, 3, 2)], 3),
            (8, [ab, (8, 2, 2)], 2),
        ] {
            expect(law, given, &given, left_over);
        }
        expect(4, [ab, (10, 3, 2)], &[ab, (10, 1, 2), (10, 0, 4)], 5);
        expect(5, [ab, (10, 2, 3)], &[ab, (10, 2, 0), (10, 4, 1)], 5);
        for (law, both) in [(6, 8), (7, 9)] {
            let given = [(both, 0, 1), (10, 3, 2)];
            let chops = [(10, 0, 2), (10, 1, 2)];
            expect(law, given, &[given[0], chops[0], chops[1], (both, 4, 5)], 6);
        }
        expect(9, [ab, (8, 3, 2)], &[ab, (8, 2, 3)], 4);
        assert_eq!(rewritten(3, &rule(&[ab, (10, 0, 3)], 4)), refused(11, 0));
    }
}

/// Under every law that fits: the last bytes of the file, and the pair that says so.
#[test]
fn start_states_stay() {
    let mut fitted = [0; 10];
    for (i, case) in shapes().enumerate() {
        let starts = [&[][..], &[0], &[1, 3], &[0, 1, 2, 3]][i % 4];
        let labels = vec![0; 4];
        let file = write(&drives::starting_in(starts, Case { labels, ..case }));
        for (law, count) in fitted.iter_mut().enumerate().skip(1) {
            let Ok(result) = rewrite(&file, law, 4, LONGEST) else {
                continue;
            };
            let (rest, list) = result.split_at(result.len() - starts.len());
            assert_eq!(list, starts, "law {law}");
            assert_eq!(rest[12..16], [rest.len() as u8, 0, list.len() as u8, 0]);
            *count += 1;
        }
    }
    assert!(fitted[1..].iter().all(|&count| count >= 20), "{fitted:?}");
}

/// Leaves before the shape, or behind it, up to so many nodes.
fn filled(case: &Case, nodes: usize, in_front: bool) -> Case {
    let more = nodes - case.nodes.len();
    let mut filled = case.clone();
    if !in_front {
        filled.nodes.resize(nodes, (5, 0, 0));
        return filled;
    }
    let up = |named: u8| named + more as u8;
    filled.nodes = vec![(5, 0, 0); more];
    let moved = |&(kind, a, b): &Triple| match Shape::of((kind, a, b)) {
        Shape::Leaf => (kind, a, b),
        Shape::Two(..) => (kind, up(a), up(b)),
        Shape::Binder(..) => (kind, a, up(b)),
    };
    filled.nodes.extend(case.nodes.iter().map(moved));
    filled.root = up(case.root);
    filled
}

/// One node more fits 63 nodes, two more fit 62.
#[test]
fn near_64_nodes() {
    let mut too_many = 0;
    for case in [
        shape(10, 8, 10, false),
        shape(10, 9, 5, false),
        shape(10, 10, 10, true),
    ] {
        for (nodes, in_front) in [61, 62, 63, 64]
            .iter()
            .flat_map(|&n| [(n, false), (n, true)])
        {
            let mut count = Count::default();
            let filled = filled(&case, nodes, in_front);
            count.everywhere(&filled);
            too_many += count.refusals[12];
            let added = nodes - case.nodes.len();
            let node = if in_front { 4 + added } else { 4 };
            let file = write(&filled);
            for (law, more) in [(4, 1), (5, 1), (6, 2), (7, 2)] {
                let fits = rewrite(&write(&case), law, 4, LONGEST).is_ok();
                let expected = match (fits, nodes + more > 64) {
                    (false, _) => refused(11, 0),
                    (true, true) => refused(12, 0),
                    (true, false) => Ok(file.len() + 3 * more),
                };
                let reply = rewrite(&file, law, node, LONGEST).map(|file| file.len());
                assert_eq!(reply, expected, "law {law}, {nodes} nodes");
                // Too many nodes are told before the area is.
                let short = expected.map_or_else(|r| r, |_| Refusal::new(13, 0));
                assert_eq!(rewrite(&file, law, node, 0), Err(short));
            }
        }
    }
    assert!(too_many >= 20, "{too_many}");
}

#[test]
fn areas_of_every_length() {
    for law in 1..=9 {
        let mut tried = 0;
        for (i, case) in shapes().enumerate() {
            let file = write_padded(&case, numbered(i));
            let node = 4 + tried % 3;
            let Ok(result) = plain::rewrite(&file, law, node, LONGEST) else {
                continue;
            };
            rooms(&file, &result, |file, room| rewrite(file, law, node, room));
            tried += 1;
            if tried == 20 {
                break;
            }
        }
        assert!(tried > 0, "law {law}");
    }
}

#[test]
fn damaged_cases() {
    expect_refusals(830, 50, Limits::CASE, |rng, file| {
        rewrite(file, rng.below(11), rng.below(66), rng.below(200))
    });
}
