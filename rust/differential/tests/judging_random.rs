//! Random cases judged by both checkers, from fixed seeds.
use differential::formulas::{case, Bounds};
use differential::generate;
use differential::judging::{compare_sets, compare_with_all_functions};
use differential::measure::{nesting, reaches_group, tree_size};
use differential::rng::Rng;
use plain::{Case, Limits};

/// Every set of so many states, or `most` of them at random.
fn sets(rng: &mut Rng, states: usize, most: usize) -> Vec<u16> {
    let all = 1 << states;
    if all <= most {
        return (0..all as u16).collect();
    }
    (0..most).map(|_| rng.below(all) as u16).collect()
}

#[derive(Debug, Default)]
struct Count {
    /// How often so many rounds came; the last counts all above.
    rounds: [usize; 6],
    /// Rules whose root reaches a node with a group.
    groups: usize,
}

impl Count {
    fn add(&mut self, case: &Case, rounds: u64) {
        self.rounds[(rounds as usize).min(5)] += 1;
        self.groups += usize::from(reaches_group(case));
    }

    fn at_least(&self, rounds: usize) -> usize {
        self.rounds[rounds..].iter().sum()
    }
}

fn judge_drawn(
    seed: u64,
    count: usize,
    most_sets: usize,
    draw: impl Fn(&mut Rng) -> Case,
) -> Count {
    let mut rng = Rng::new(seed);
    let mut counted = Count::default();
    for _ in 0..count {
        let case = draw(&mut rng);
        let sets = sets(&mut rng, case.labels.len(), most_sets);
        counted.add(&case, compare_sets(&case, &sets));
    }
    println!("{counted:?}");
    counted
}

fn judge_within(bounds: Bounds, count: usize, most_sets: usize) -> Count {
    let seed = 300 + bounds.states as u64;
    judge_drawn(seed, count, most_sets, |rng| {
        case(rng, Limits::CASE, bounds)
    })
}

/// Up to three binders within one another.
const NESTED: Bounds = Bounds {
    states: 1,
    nesting: 3,
    depth: 4,
};

const SINGLE: Bounds = Bounds {
    nesting: 1,
    ..NESTED
};

/// No binder, so that the plain checker ends soon.
const UNBOUND: Bounds = Bounds {
    nesting: 0,
    depth: 2,
    ..NESTED
};

/// On every set of up to four states.
#[test]
fn nested_binders() {
    for states in 1..=5 {
        let count = judge_within(Bounds { states, ..NESTED }, 1_000, 16);
        assert!(count.at_least(1) >= 300, "{states} states");
        assert!(states == 1 || count.at_least(2) >= 50, "{states} states");
        assert!(count.groups >= 300, "{states} states");
    }
}

#[test]
fn single_binders() {
    for states in 6..=8 {
        let count = judge_within(Bounds { states, ..SINGLE }, 300, 8);
        assert!(count.at_least(2) >= 30, "{states} states");
        assert!(count.groups >= 100, "{states} states");
    }
}

#[test]
fn large_tables() {
    for states in 9..=16 {
        judge_within(Bounds { states, ..UNBOUND }, 8, 8);
    }
}

/// Rules grown from the leaves up, as the tests of vetting draw them: more nodes, more of them
/// shared and unreached.
#[test]
fn rules_from_the_leaves_up() {
    let small = |case: &Case| case.labels.len() <= 5 && nesting(case) <= 3;
    let count = judge_drawn(320, 1_500, 8, |rng| {
        generate::case_where(rng, Limits::CASE, small)
    });
    assert!(count.at_least(1) >= 200 && count.groups >= 200);
}

/// Both checkers against meet and join of all monotone functions.
#[test]
fn all_monotone_functions() {
    let mut rng = Rng::new(330);
    let mut count = Count::default();
    for i in 0..1_000 {
        let states = 1 + i % 2;
        let bounds = Bounds {
            states,
            depth: 3,
            ..NESTED
        };
        let turns = [0, 3, 36][states];
        let case = loop {
            let case = case(&mut rng, Limits::CASE, bounds);
            if tree_size(&case, turns) <= 50_000 {
                break case;
            }
        };
        count.add(&case, compare_with_all_functions(&case));
    }
    println!("{count:?}");
    assert!(count.at_least(1) >= 300 && count.at_least(2) >= 20);
    assert!(count.groups >= 300);
}
