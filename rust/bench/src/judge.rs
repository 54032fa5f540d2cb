//! The proved judge's algorithm in Rust: node j's table is the words from j × 2^n on.
use crate::plan::Plan;
use crate::rule::ALWAYS;
use crate::tables::Tables;
use plain::kinds::{
    AND, BOX, CHOP, COMPLEMENT, DIAMOND, FALSE, GROUP_BOX, GROUP_DIAMOND, MU, OR, PROPOSITION, TAU,
    TRUE, VARIABLE,
};
use plain::Shape;

/// The root's function at the set, and its rounds. The area is zero afterwards.
pub fn judge(plan: &Plan, set: usize, work: &mut impl Tables) -> (u16, u64) {
    refresh(plan, plan.rule.root, 0, ALWAYS, 0, work);
    let rounds = compute(plan, plan.rule.root, ALWAYS, 0, work);
    let answer = work.word(plan.rule.root * plan.size + set);
    work.clear();
    (answer, rounds)
}

/// Computes the nodes below k that depend only on what is in `active`, and not only on what is in
/// `old`. `grown` is the kind of the binder whose table alone has moved since, 0 if they start anew.
fn refresh<T: Tables>(plan: &Plan, k: usize, old: u32, active: u32, grown: u8, work: &mut T) {
    if k == 0 {
        return;
    }
    let j = k - 1;
    refresh(plan, j, old, active, grown, work);
    let scope = plan.rule.scopes[j];
    if scope | active == active && scope | old != old {
        compute(plan, j, active, grown, work);
    }
}

/// Computes node j from the lower ones: a binder's approximants until one equals the next. The
/// answer is how many it took.
fn compute<T: Tables>(plan: &Plan, j: usize, active: u32, grown: u8, work: &mut T) -> u64 {
    let Shape::Binder(variable, body) = Shape::of(plan.rule.node(j)) else {
        fill(plan, j, work);
        return 0;
    };
    let (kind, ..) = plan.rule.node(j);
    if kind != grown {
        let start = if kind == MU { 0 } else { full(plan) };
        work.constant(plan.size, j * plan.size, start);
    }
    let mut rounds = 0;
    let mut moved = 0;
    loop {
        refresh(plan, j, active, active | 1 << variable, moved, work);
        if !work.advance(plan.size, body * plan.size, j * plan.size) {
            return rounds;
        }
        moved = kind;
        rounds += 1;
    }
}

fn full(plan: &Plan) -> u16 {
    (plan.size - 1) as u16
}

/// Node j, which is no binder.
fn fill<T: Tables>(plan: &Plan, j: usize, work: &mut T) {
    let (kind, a, b) = plan.rule.node(j);
    let (a, b) = (usize::from(a), usize::from(b));
    let size = plan.size;
    let (left, right, to) = (a * size, b * size, j * size);
    match kind {
        TRUE => work.constant(size, to, full(plan)),
        FALSE => work.constant(size, to, 0),
        PROPOSITION => work.constant(size, to, plan.props[a]),
        COMPLEMENT => work.constant(size, to, full(plan) - plan.props[a]),
        VARIABLE => work.copy(size, plan.rule.homes[a] * size, to),
        TAU => work.identity(size, to),
        DIAMOND => diamond(plan, 1 << a, to, work),
        BOX => boxed(plan, 1 << a, to, work),
        GROUP_DIAMOND => diamond(plan, a, to, work),
        GROUP_BOX => boxed(plan, a, to, work),
        OR => work.union(size, left, right, to),
        AND => work.intersection(size, left, right, to),
        CHOP => work.chop(size, left, right, to),
        _ => unreachable!("no kind of a node that is filled"),
    }
}

/// None into the empty set; a state more adds those with a step of the group into it.
fn diamond<T: Tables>(plan: &Plan, group: usize, to: usize, work: &mut T) {
    work.constant(1, to, 0);
    for state in 0..plan.states {
        work.widen(1 << state, to, plan.sources_by(state, group));
    }
}

/// All states into the set of all; a state less takes away those with a step of the group into it.
fn boxed<T: Tables>(plan: &Plan, group: usize, to: usize, work: &mut T) {
    let mut filled = to + plan.size - 1;
    work.constant(1, filled, full(plan));
    for state in 0..plan.states {
        filled -= 1 << state;
        work.narrow(1 << state, filled, !plan.sources_by(state, group));
    }
}

#[cfg(test)]
mod tests {
    use super::*;
    use crate::tables::Sliced;
    use differential::formulas::{self, Bounds};
    use differential::measure::reaches_group;
    use differential::rng::Rng;
    use plain::Limits;

    /// Random rules, a third of them at least with groups, against the plain checker.
    #[test]
    fn answers_are_the_plain_checkers() {
        let mut rng = Rng::new(1_000);
        let mut groups = 0;
        for i in 0..300 {
            let bounds = Bounds {
                states: 1 + i % 4,
                nesting: 2,
                depth: 3,
            };
            let case = formulas::case(&mut rng, Limits::CASE, bounds);
            groups += usize::from(reaches_group(&case));
            let file = plain::write(&case);
            let (plan, set) = (Plan::new(&file), rng.below(1 << bounds.states));
            let mut work = vec![0; plan.words()];
            let (answer, rounds) = judge(&plan, set, &mut Sliced(&mut work));
            let expected = plain::judge(&file, set as u16, usize::MAX).unwrap();
            let states = (0..bounds.states).map(|s| answer >> s & 1 == 1);
            assert!(states.eq(expected.states), "{case:?}");
            assert_eq!(rounds, expected.rounds, "{case:?}");
        }
        assert!(groups >= 100, "{groups}");
    }
}
