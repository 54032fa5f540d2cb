//! Modalities over groups of actions, judged by both checkers: kinds 13 and 14 in terms of kinds 6
//! and 7 on random tables and in random rules, and on a table that tells the actions apart.
use differential::drives::case;
use differential::formulas::{self, Bounds};
use differential::generate;
use differential::groups::has_group;
use differential::judging::{all_states, compare, compare_sets, needed, number_of, set_of};
use differential::measure::reaches_group;
use differential::rng::Rng;
use plain::{write, Case, Limits, Shape, Triple};

/// Up to five states with steps of any action.
fn tables(seed: u64, count: usize) -> Vec<Case> {
    let mut rng = Rng::new(seed);
    let fits = |case: &Case| case.labels.len() <= 5 && !case.steps.is_empty();
    (0..count)
        .map(|_| generate::case_where(&mut rng, Limits::CASE, fits))
        .collect()
}

/// The sets that a rule yields on a table, by the number of the set that it is given. Its root is
/// the last node.
fn yielded(table: &Case, nodes: &[Triple]) -> Vec<u16> {
    let case = case(&table.labels, &table.steps, nodes);
    let sets: Vec<u16> = (0..1 << table.labels.len()).collect();
    compare_sets(&case, &sets);
    let function = plain::meaning(&case).function;
    function.iter().map(|set| number_of(set)).collect()
}

/// The numbers of a group's actions.
fn actions(group: u8) -> impl Iterator<Item = usize> {
    (0..8).filter(move |action| group >> action & 1 == 1)
}

#[test]
fn a_group_of_one_is_its_action() {
    for table in tables(350, 60) {
        for action in 0..8 {
            for (group, single) in [(13, 6), (14, 7)] {
                let expected = yielded(&table, &[(single, action, 0)]);
                let found = yielded(&table, &[(group, 1 << action, 0)]);
                assert_eq!(found, expected, "kind {group}, action {action}, {table:?}");
            }
        }
    }
}

#[test]
fn the_empty_group() {
    for table in tables(351, 60) {
        let all = all_states(table.labels.len());
        assert!(yielded(&table, &[(13, 0, 0)]).iter().all(|&set| set == 0));
        assert!(yielded(&table, &[(14, 0, 0)]).iter().all(|&set| set == all));
    }
}

/// What the actions of a group yield one by one, joined: by union for kind 13, by intersection for
/// kind 14.
#[test]
fn every_group_by_its_actions() {
    for table in tables(352, 16) {
        let each = |kind| (0..8).map(move |action| (kind, action, 0));
        let some: Vec<_> = each(6).map(|node| yielded(&table, &[node])).collect();
        let every: Vec<_> = each(7).map(|node| yielded(&table, &[node])).collect();
        let all = all_states(table.labels.len());
        for group in 0..=255 {
            let union = |set: usize| actions(group).fold(0, |sum, a| sum | some[a][set]);
            let meet = |set: usize| actions(group).fold(all, |cut, a| cut & every[a][set]);
            let sets = 0..=usize::from(all);
            let found = yielded(&table, &[(13, group, 0)]);
            assert!(sets.clone().map(union).eq(found), "{group}, {table:?}");
            let found = yielded(&table, &[(14, group, 0)]);
            assert!(sets.map(meet).eq(found), "{group}, {table:?}");
        }
    }
}

/// On a table where state 0 has one step of each action, and action a leads to state a + 1, where
/// no step begins: what the two modalities yield if they are of these actions, bit a for action a.
fn on_nine_states(some: Triple, all: Triple, actions: u8) {
    let steps: Vec<Triple> = (0..8).map(|action| (0, action, action + 1)).collect();
    let table = case(&[0; 9], &steps, &[(5, 0, 0)]);
    let state_0 = set_of(&[0]);
    let [some, all] = [some, all].map(|node| yielded(&table, &[node]));
    for set in 0..1 << 9 {
        let entered = (set >> 1) as u8;
        let leads = if actions & entered != 0 { state_0 } else { 0 };
        assert_eq!(some[set], leads, "actions {actions}, set {set}");
        let leaves = if actions & !entered != 0 { state_0 } else { 0 };
        assert_eq!(all[set], all_states(9) - leaves, "{actions}, set {set}");
    }
}

#[test]
fn every_group_where_each_action_leads_elsewhere() {
    for group in 0..=255 {
        on_nine_states((13, group, 0), (14, group, 0), group);
    }
    for action in 0..8 {
        on_nine_states((6, action, 0), (7, action, 0), 1 << action);
    }
}

/// Its B names no node, so that a variable at node 0 is not free in it; its A is no variable, so
/// that no binder binds it.
#[test]
fn a_group_is_no_variable() {
    for table in tables(353, 8) {
        for kind in [13, 14] {
            for group in 0..=255 {
                let alone = yielded(&table, &[(kind, group, 0)]);
                let beside = yielded(&table, &[(4, group % 16, 0), (kind, group, 0)]);
                assert_eq!(beside, alone, "{group}, {table:?}");
                for binder in [11, 12] {
                    let nodes = [(kind, group, 0), (binder, group % 16, 0)];
                    assert_eq!(yielded(&table, &nodes), alone, "{group}, {table:?}");
                }
            }
        }
    }
}

/// μ and ν over a group move once, to what it yields, if that is not what they begin with.
#[test]
fn rounds_over_a_group() {
    let table = [(0, 7, 1)];
    for (kind, group, binder, rounds) in [
        (13, 0, 11, 0),
        (13, 0, 12, 1),
        (14, 0, 11, 1),
        (14, 0, 12, 0),
        (13, 127, 11, 0),
        (13, 128, 11, 1),
        (14, 127, 12, 0),
        (14, 128, 12, 1),
    ] {
        let file = write(&case(&[0, 0], &table, &[(kind, group, 0), (binder, 0, 0)]));
        let verdict = compare(&file, 0, needed(&file)).unwrap();
        assert_eq!(verdict.rounds, rounds, "kind {kind}, group {group}");
    }
}

/// The rule with kinds 13 and 14 spelled out as ff or ⟨a⟩ or ⟨b⟩ .. and as tt and [a] and [b] ..,
/// if 64 nodes suffice for it.
fn spelled_out(case: &Case) -> Option<Case> {
    let mut nodes: Vec<Triple> = vec![];
    let mut places: Vec<u8> = vec![];
    for &node in &case.nodes {
        let (kind, a, _) = node;
        match Shape::of(node) {
            Shape::Leaf if has_group(node) => {
                let (start, single, operation) = [(1, 6, 8), (0, 7, 9)][usize::from(kind - 13)];
                nodes.push((start, 0, 0));
                for action in actions(a) {
                    let so_far = nodes.len() as u8 - 1;
                    nodes.push((single, action as u8, 0));
                    nodes.push((operation, so_far, so_far + 1));
                }
            }
            Shape::Leaf => nodes.push(node),
            Shape::Two(left, right) => nodes.push((kind, places[left], places[right])),
            Shape::Binder(variable, body) => nodes.push((kind, variable, places[body])),
        }
        if nodes.len() > 64 {
            return None;
        }
        places.push(nodes.len() as u8 - 1);
    }
    let root = places[usize::from(case.root)];
    Some(Case {
        nodes,
        root,
        ..case.clone()
    })
}

/// Sets and rounds are those of the same rule without groups.
#[test]
fn random_rules_spelled_out() {
    let mut rng = Rng::new(354);
    let mut compared = 0;
    for i in 0..2_000 {
        let bounds = Bounds {
            states: 1 + i % 4,
            nesting: 2,
            depth: 3,
        };
        let with_groups = formulas::case(&mut rng, Limits::CASE, bounds);
        let Some(without) = spelled_out(&with_groups) else {
            continue;
        };
        let sets: Vec<u16> = (0..1 << bounds.states).collect();
        let rounds = [&with_groups, &without].map(|case| compare_sets(case, &sets));
        assert_eq!(rounds[0], rounds[1], "{with_groups:?}");
        let functions = [&with_groups, &without].map(|case| plain::meaning(case).function);
        assert_eq!(functions[0], functions[1], "{with_groups:?}");
        compared += usize::from(reaches_group(&with_groups));
    }
    assert!(compared >= 500, "{compared}");
}
