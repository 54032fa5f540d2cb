//! How times of the proved library grow, and its worst cases: one line a measurement.
use crate::cases;
use crate::nesting::Binders::{self, Alternating, OneKind};
use crate::nesting::{self, DEEPEST};
use crate::table::Table;
use crate::task::Task;
use crate::timing::a_few;
use plain::Case;
use std::hint::black_box;
use std::io;
use std::time::Duration;

/// The sizes of m that are tried.
const NODES: [usize; 8] = [6, 8, 12, 16, 24, 32, 48, 64];

/// 4, 6, 8, 10, 12 and 16 states in rings that take long to stand again as they stood.
const RINGS: [&[usize]; 6] = [&[4], &[6], &[3, 5], &[2, 3, 5], &[3, 4, 5], &[4, 5, 7]];

/// Writes nanoseconds a call.
pub fn write(path: &str, longest: Duration) -> io::Result<()> {
    let head = "series\tn\tm\tnesting\trounds\tnanoseconds";
    let mut table = Table::create(path, head)?;
    with_states(&mut table)?;
    with_nodes(&mut table)?;
    for rings in RINGS {
        for binders in [OneKind, Alternating] {
            with_nesting(&mut table, rings, binders, longest)?;
        }
    }
    judged(&mut table, "two wheels, 64 nodes", &cases::full_wheels(), 1)?;
    longest_file(&mut table)
}

/// Judges the case on no states, and returns the nanoseconds.
fn judged(table: &mut Table, series: &'static str, case: &Case, nesting: usize) -> io::Result<f64> {
    let task = Task::new(series, case, 0);
    let mut work = task.work_area();
    let mut rounds = 0;
    let time = a_few(&mut || rounds = task.proved(&mut work).1);
    let (n, m) = (case.labels.len(), case.nodes.len());
    table.line(&format!(
        "{series}\t{n}\t{m}\t{nesting}\t{rounds}\t{time:.0}"
    ))?;
    Ok(time)
}

/// Calls an entry other than judging on this case.
fn called(
    table: &mut Table,
    series: &str,
    case: &Case,
    mut call: impl FnMut(&[u8]),
) -> io::Result<()> {
    let file = plain::write(case);
    let time = a_few(&mut || call(black_box(&file)));
    let (n, m) = (case.labels.len(), case.nodes.len());
    table.line(&format!("{series}\t{n}\t{m}\t0\t0\t{time:.0}"))
}

fn with_states(table: &mut Table) -> io::Result<()> {
    for states in 1..=16 {
        judged(table, "64 nodes, no binder", &cases::chops(states, 64), 0)?;
    }
    for states in 1..=16 {
        judged(
            table,
            "8 nodes, one binder",
            &cases::one_binder(states, 8),
            1,
        )?;
    }
    Ok(())
}

fn with_nodes(table: &mut Table) -> io::Result<()> {
    for nodes in NODES {
        judged(table, "12 states, no binder", &cases::chops(12, nodes), 0)?;
    }
    for nodes in NODES {
        judged(
            table,
            "12 states, one binder",
            &cases::one_binder(12, nodes),
            1,
        )?;
    }
    Ok(())
}

/// Deeper and deeper, until the next is likely to take too long.
fn with_nesting(
    table: &mut Table,
    rings: &[usize],
    binders: Binders,
    longest: Duration,
) -> io::Result<()> {
    let series = match binders {
        OneKind => "binders of one kind",
        Alternating => "alternating binders",
    };
    let mut next = 0.0;
    let mut last: Option<f64> = None;
    for levels in 1..=DEEPEST.min(rings.iter().sum()) {
        if next > longest.as_nanos() as f64 {
            break;
        }
        let case = nesting::case(rings, levels, binders);
        let time = judged(table, series, &case, levels)?;
        next = last.map_or(0.0, |last| time * (time / last).max(1.5));
        last = Some(time);
    }
    Ok(())
}

fn longest_file(table: &mut Table) -> io::Result<()> {
    let (case, compared) = (cases::longest(), cases::all_compared());
    let mut out = [0; hoidrul::LONGEST];
    called(table, "longest file: vet", &case, |file| {
        black_box(hoidrul::vet(file, 2)).expect("a case");
    })?;
    called(table, "longest file: open", &case, |file| {
        black_box(hoidrul::open(file, 2)).expect("a section");
    })?;
    judged(table, "longest file: judge", &case, 0)?;
    called(table, "longest file: classes", &compared, |file| {
        hoidrul::classes(file, &mut out).expect("classes");
    })?;
    called(table, "stairs: classes", &cases::stairs(), |file| {
        hoidrul::classes(file, &mut out).expect("classes");
    })?;
    called(table, "longest file: merge", &compared, |file| {
        hoidrul::merge(file, 0, 15, &mut out).expect("alike states");
    })?;
    called(table, "longest file: rewrite", &case, |file| {
        hoidrul::rewrite(file, 9, 63, &mut out).expect("law 9 fits");
    })
}
