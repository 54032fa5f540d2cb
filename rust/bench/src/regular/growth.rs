//! How times of the proved judge of regular rules grow, beside the first judge's on the same case:
//! one line a measurement.
use super::cases::{nest, no_binder, one_binder, STATES, STEPS};
use super::task::Task;
use crate::nesting::Binders::{self, Alternating, OneKind};
use crate::nesting::DEEPEST;
use crate::table::Table;
use crate::task;
use crate::timing::a_few;
use differential::judging::all_states;
use plain::Case;
use std::hint::black_box;
use std::io;
use std::time::Duration;

/// The steps of each state, where there are many.
const MANY: usize = STEPS / STATES;

/// The rounds of each level of a nest.
const ROUNDS: [usize; 4] = [4, 8, 16, 32];

/// Writes nanoseconds a call.
pub fn write(path: &str, longest: Duration) -> io::Result<()> {
    let mut table = Table::create(path, "series\tn\tsteps\tm\tnesting\tnanoseconds")?;
    with_states(&mut table)?;
    with_steps(&mut table)?;
    for rounds in ROUNDS {
        for binders in [OneKind, Alternating] {
            with_nesting(&mut table, rounds, binders, longest)?;
        }
    }
    Ok(())
}

fn line(table: &mut Table, series: &str, case: &Case, nesting: usize, time: f64) -> io::Result<()> {
    let [n, steps, m] = [case.labels.len(), case.steps.len(), case.nodes.len()];
    table.line(&format!(
        "{series}\t{n}\t{steps}\t{m}\t{nesting}\t{time:.0}"
    ))
}

/// Judges the case, and returns the nanoseconds.
fn judged(table: &mut Table, series: &'static str, case: &Case, nesting: usize) -> io::Result<f64> {
    let task = Task::new(series, case);
    let mut work = task.work_area();
    let time = a_few(&mut || {
        black_box(task.proved(&mut work));
    });
    line(table, series, case, nesting, time)?;
    Ok(time)
}

/// Judges the case by the first judge.
fn judged_first(table: &mut Table, series: &'static str, case: &Case) -> io::Result<()> {
    let task = task::Task::new(series, case, all_states(case.labels.len()));
    let mut work = task.work_area();
    let time = a_few(&mut || {
        black_box(task.proved(&mut work));
    });
    line(table, series, case, 1, time)
}

fn with_states(table: &mut Table) -> io::Result<()> {
    let doubled = |from: usize| (from.ilog2()..=STATES.ilog2()).map(|power| 1_usize << power);
    for states in 2..=16 {
        let case = one_binder(states, states - 1);
        judged_first(table, "first judge, a step a state", &case)?;
    }
    for states in doubled(2) {
        let case = one_binder(states, states - 1);
        judged(table, "one binder, a step a state", &case, 1)?;
    }
    for states in doubled(16) {
        let case = one_binder(states, MANY * states);
        judged(table, "one binder, many steps a state", &case, 1)?;
    }
    for states in doubled(16) {
        let case = no_binder(states, MANY * states);
        judged(table, "no binder, many steps a state", &case, 0)?;
    }
    Ok(())
}

fn with_steps(table: &mut Table) -> io::Result<()> {
    let counts = || (8..15).map(|power| (1 << power) - 1).chain([STEPS]);
    for steps in counts() {
        judged(table, "one binder", &one_binder(STATES, steps), 1)?;
    }
    for steps in counts() {
        judged(table, "no binder", &no_binder(STATES, steps), 0)?;
    }
    Ok(())
}

/// Deeper and deeper, until the next is likely to take too long.
fn with_nesting(
    table: &mut Table,
    rounds: usize,
    binders: Binders,
    longest: Duration,
) -> io::Result<()> {
    let series = match binders {
        OneKind => "binders of one kind",
        Alternating => "alternating binders",
    };
    let mut next = 0.0;
    let mut last: Option<f64> = None;
    for levels in 1..=DEEPEST {
        if next > longest.as_nanos() as f64 {
            break;
        }
        let time = judged(table, series, &nest(rounds, levels, binders), levels)?;
        next = last.map_or(0.0, |last| time * (time / last).max(1.5));
        last = Some(time);
    }
    Ok(())
}
