//! Whole lists of edits, refused ones included, by the library and by the plain book, from fixed
//! seeds. At the end each state of the first case must hold if and only if the state standing for
//! it does, and every start state of the last case if and only if every one of the first did. The
//! first file may be padded; refusals leave it so, and what the first accepted edit writes is packed.
use differential::edits::{turn, LONGEST};
use differential::groups::has_group;
use differential::judging::{needed, proved_starts, verdict};
use differential::padding::{self, gaps_of, padding_of, PACKED};
use differential::replies::{refused, LAST_ROW};
use differential::rng::Rng;
use differential::{alike_tables, drives, generate};
use plain::{alike, alike_in_full, write, Book, Case, Edit, Limits, Shape, Triple};

/// How often each reply came.
#[derive(Default, Debug)]
struct Count {
    merges: usize,
    /// Those of a case whose rule has groups.
    merges_with_groups: usize,
    /// Those of states that differ where the rule does not look.
    merges_by_looks: usize,
    /// Those of states that the first rule of the list tells apart.
    merges_after_widening: usize,
    rewrites: usize,
    /// Those that put nodes in, with groups at lower nodes and at higher ones.
    between_groups: usize,
    refusals: [usize; LAST_ROW + 1],
    /// Lists of a case in which some states hold and some do not.
    mixed: usize,
    /// Lists of a case that has start states, by whether all of these hold: no, yes.
    starts: [usize; 2],
    /// Merges of a start state into another state.
    starts_merged: usize,
    /// Edits of a file that is still padded: those refused, and those accepted.
    padded: [usize; 2],
}

impl Count {
    /// An edit of this file that left it as it was.
    fn refused(&mut self, file: &[u8], number: u32) {
        self.refusals[number as usize] += 1;
        self.padded[0] += usize::from(gaps_of(file) != PACKED);
    }

    /// An edit of this file that wrote another.
    fn accepted(&mut self, file: &[u8], edit: Edit, written: &[u8]) {
        let case = plain::parse(file).expect("a case");
        let nodes = &case.nodes;
        self.padded[1] += usize::from(gaps_of(file) != PACKED);
        let groups = |nodes: &[Triple]| nodes.iter().any(|&node| has_group(node));
        match edit {
            Edit::Merge { s, t } => {
                self.merges += 1;
                let removed = s.max(t) as u8;
                self.starts_merged += usize::from(case.starts.contains(&removed));
                self.merges_with_groups += usize::from(groups(nodes));
                let in_full = alike_in_full(&case).contains(&(s, t));
                self.merges_by_looks += usize::from(!in_full);
            }
            Edit::Rewrite { node, .. } => {
                self.rewrites += 1;
                let (lower, higher) = nodes.split_at(node);
                let between = groups(lower) && groups(higher);
                let more = plain::vet(written, 0).expect("a case").1 > nodes.len();
                self.between_groups += usize::from(between && more);
            }
        }
    }

    /// An edit that is accepted: would it have been under the rule of the first file?
    fn widened(&mut self, first: &[u8], file: &[u8], edit: Edit) {
        let [first, case] = [first, file].map(|file| plain::parse(file).expect("a case"));
        if let Edit::Merge { s, t } = edit {
            let before = Case {
                nodes: first.nodes,
                root: first.root,
                ..case
            };
            let refused = !alike(&before).contains(&(s, t));
            self.merges_after_widening += usize::from(refused);
        }
    }
}

/// Whether every start state holds, of the states in the verdict.
fn last_word(file: &[u8], verdict: &[bool]) -> bool {
    let starts = plain::parse(file).expect("a case").starts;
    let hold = starts.iter().all(|&state| verdict[usize::from(state)]);
    assert_eq!(proved_starts(file, needed(file)), Ok(hold), "{file:?}");
    hold
}

fn is_mixed(verdict: &[bool]) -> bool {
    verdict.contains(&true) && verdict.contains(&false)
}

/// Up to 60 edits of this file; each gets what the last accepted one wrote.
fn run(rng: &mut Rng, first: &[u8], count: &mut Count) {
    let mut book = Book::new(first).expect("an accepted case");
    let mut file = first.to_vec();
    for _ in 0..rng.within(1..=60) {
        let edit = draw(rng, &file);
        let room = room(rng, &file);
        match (turn(&mut book, &file, edit, room), edit) {
            (Err(refusal), _) => count.refused(&file, refusal.number),
            (Ok(written), edit) => {
                assert_eq!(gaps_of(&written), PACKED, "{edit:?} of {file:?}");
                count.accepted(&file, edit, &written);
                count.widened(first, &file, edit);
                file = written;
            }
        }
        // A refusal has left it, with its padding.
        assert_eq!(file, book.file());
    }
    let (start, end) = (verdict(first), verdict(&file));
    count.mixed += usize::from(is_mixed(&start));
    let standing: Vec<bool> = book.standing().iter().map(|&state| end[state]).collect();
    assert_eq!(start, standing, "{first:?} became {file:?}");
    let word = last_word(first, &start);
    assert_eq!(word, last_word(&file, &end), "{first:?} became {file:?}");
    let listed = !plain::parse(first).expect("a case").starts.is_empty();
    count.starts[usize::from(word)] += usize::from(listed);
}

/// Mostly an edit that fits, if a few draws find one; merges are rarer, so that states last.
fn draw(rng: &mut Rng, file: &[u8]) -> Edit {
    let case = plain::parse(file).expect("a case");
    let any = [rng.below(64), case.nodes.len(), 256, usize::MAX];
    match rng.below(8) {
        0 => first_that_fits(file, || merge(rng, case.labels.len())),
        1..=5 => first_that_fits(file, || rewrite_at_two(rng, &case)),
        6 => merge(rng, case.labels.len() + 1),
        _ => Edit::Rewrite {
            law: rng.below(11),
            node: rng.pick(&any),
        },
    }
}

/// The first of some draws that is neither unlike states nor a shape that isn't there.
fn first_that_fits(file: &[u8], mut draw: impl FnMut() -> Edit) -> Edit {
    let fits = |edit: &Edit| {
        let reply = match *edit {
            Edit::Merge { s, t } => plain::merge(file, s, t, LONGEST),
            Edit::Rewrite { law, node } => plain::rewrite(file, law, node, LONGEST),
        };
        reply.map_or_else(|refusal| refusal.number == 12, |_| true)
    };
    let draws: Vec<Edit> = (0..12).map(|_| draw()).collect();
    draws.iter().copied().find(fits).unwrap_or(draws[0])
}

fn merge(rng: &mut Rng, states: usize) -> Edit {
    let (s, t) = (rng.below(states), rng.below(states));
    Edit::Merge { s, t }
}

/// A law at a node that names two others, if there is one.
fn rewrite_at_two(rng: &mut Rng, case: &Case) -> Edit {
    let two = |&j: &usize| matches!(Shape::of(case.nodes[j]), Shape::Two(..));
    let mut nodes: Vec<usize> = (0..case.nodes.len()).filter(two).collect();
    nodes.push(0);
    Edit::Rewrite {
        law: rng.within(1..=9),
        node: rng.pick(&nodes),
    }
}

/// Mostly enough, else around what a result may need, which is packed.
fn room(rng: &mut Rng, file: &[u8]) -> usize {
    let packed = file.len() - padding_of(file).len();
    match rng.below(8) {
        0 => rng.within(packed - 10..=packed + 6),
        1 => rng.below(file.len()),
        _ => LONGEST,
    }
}

/// A case with alike states, its rule small, middling or large.
fn case(rng: &mut Rng, i: usize) -> Case {
    let states = 1 + i % 8;
    match i % 3 {
        0 => alike_tables::case(rng, Limits::CASE, states),
        1 => alike_tables::with_chops(rng, Limits::CASE, states, 24),
        _ => alike_tables::with_chops(rng, Limits::CASE, states, 64),
    }
}

#[test]
fn alike_states() {
    let mut rng = Rng::new(901);
    let mut count = Count::default();
    for i in 0..400 {
        // A verdict of all states or none tells little: a few draws look for another.
        let draws: Vec<Case> = (0..6).map(|_| case(&mut rng, i)).collect();
        let mixed = draws.iter().find(|case| is_mixed(&verdict(&write(case))));
        let first = padding::file(&mut rng, mixed.unwrap_or(&draws[0]));
        run(&mut rng, &first, &mut count);
    }
    println!("{count:?}");
    assert!(count.merges >= 200 && count.rewrites >= 1_000, "{count:?}");
    for row in [8, 10, 11, 12, 13] {
        assert!(count.refusals[row] >= 20, "{count:?}");
    }
    assert!(count.mixed >= 80, "{count:?}");
    assert!(count.starts.iter().all(|&lists| lists >= 40), "{count:?}");
    assert!(count.starts_merged >= 50, "{count:?}");
    assert!(count.merges_with_groups >= 100, "{count:?}");
    assert!(count.merges_by_looks >= 100, "{count:?}");
    assert!(count.merges_after_widening >= 5, "{count:?}");
    assert!(count.between_groups >= 100, "{count:?}");
    assert!(count.padded.iter().all(|&edits| edits >= 100), "{count:?}");
}

/// The rule p0 and tt, with law 9 at its last node; two alike states and one that is not.
#[test]
fn a_refusal_leaves_the_padding() {
    let case = drives::case(&[0, 0, 1], &[], &[(2, 0, 0), (0, 0, 0), (9, 0, 1)]);
    let case = drives::starting_in(&[1, 2], case);
    let packed = write(&case);
    for gaps in padding::all() {
        let first = padding::padded(&packed, gaps);
        let mut book = Book::new(&first).expect("an accepted case");
        for (edit, room, row) in [
            (Edit::Merge { s: 0, t: 2 }, LONGEST, 10),
            (Edit::Merge { s: 0, t: 3 }, LONGEST, 8),
            (Edit::Merge { s: 0, t: 1 }, packed.len() - 2, 13),
            (Edit::Rewrite { law: 1, node: 2 }, LONGEST, 11),
            (Edit::Rewrite { law: 9, node: 2 }, packed.len() - 1, 13),
        ] {
            assert_eq!(turn(&mut book, &first, edit, room), refused(row, 0));
            assert_eq!(book.file(), first);
        }
        let edit = Edit::Rewrite { law: 9, node: 2 };
        let written = turn(&mut book, &first, edit, packed.len()).expect("the law fits");
        let swapped = Case {
            nodes: vec![(2, 0, 0), (0, 0, 0), (9, 1, 0)],
            ..case.clone()
        };
        assert_eq!(written, write(&swapped));
        assert_eq!(book.file(), written);
    }
}

#[test]
fn rules_of_any_kind() {
    let mut rng = Rng::new(910);
    let mut count = Count::default();
    for _ in 0..80 {
        let case = generate::case_where(&mut rng, Limits::CASE, |case| case.labels.len() <= 5);
        let first = padding::file(&mut rng, &case);
        run(&mut rng, &first, &mut count);
    }
    println!("{count:?}");
    assert!(count.rewrites >= 500, "{count:?}");
    assert!(count.between_groups >= 20, "{count:?}");
}

#[test]
fn drives() {
    let mut rng = Rng::new(920);
    let mut count = Count::default();
    for (_, case) in drives::drives() {
        for _ in 0..5 {
            let first = padding::file(&mut rng, &case);
            run(&mut rng, &first, &mut count);
        }
    }
    assert!(count.merges >= 5 && count.rewrites >= 100, "{count:?}");
}
