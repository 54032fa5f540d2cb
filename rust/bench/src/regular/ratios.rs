//! The proved judge of regular rules against the same scheme in unchecked Rust, and against the plain
//! checker. All times of a line are of one run.
use super::cases::{no_binder, one_binder, two_alternating, two_of_one_kind, STATES, STEPS};
use super::task::Task;
use crate::table::Table;
use crate::timing::{a_few, part, runs, sorted};
use differential::duplex;
use std::hint::black_box;
use std::io;

/// Writes medians of nanoseconds a call: the whole proved call, its vetting alone, and the judging in
/// unchecked Rust; then by how much the proved call is longer than that vetting with that judging,
/// and by how much its judging alone, with two values that nine of ten runs lie between.
pub fn write(path: &str) -> io::Result<()> {
    let head = "case\tn\tsteps\tm\tproved\tvetting\tunchecked\twhole\tjudging\tlow\thigh\tplain";
    let mut table = Table::create(path, head)?;
    for steps in [STEPS, STATES - 1] {
        for (name, case) in [
            ("one binder", one_binder(STATES, steps)),
            ("two of one kind", two_of_one_kind(STATES, steps)),
            ("two alternating", two_alternating(STATES, steps)),
            ("no binder", no_binder(STATES, steps)),
        ] {
            compared(&mut table, &Task::new(name, &case))?;
        }
    }
    compared(&mut table, &Task::new("duplex printer", &duplex::printer()))
}

fn compared(table: &mut Table, task: &Task) -> io::Result<()> {
    let [mut a, mut b, mut c] = [(); 3].map(|()| task.work_area());
    assert_eq!(task.proved(&mut a), task.unchecked(&mut c));
    let times = runs([
        &mut || _ = black_box(task.proved(&mut a)),
        &mut || task.vetted(&mut b),
        &mut || _ = black_box(task.unchecked(&mut c)),
    ]);
    let of = |value: fn(&[f64; 3]) -> f64| sorted(times.iter().map(value));
    let [proved, vetting, unchecked] = [of(|t| t[0]), of(|t| t[1]), of(|t| t[2])];
    let medians = [proved, vetting, unchecked].map(|times| format!("{:.0}", part(&times, 50)));
    let whole = of(|[proved, vetting, unchecked]| proved / (vetting + unchecked));
    let judging = of(|[proved, vetting, unchecked]| (proved - vetting) / unchecked);
    let ratios = [(&whole, 50), (&judging, 50), (&judging, 5), (&judging, 95)];
    let ratios = ratios.map(|(values, percent)| format!("{:.2}", part(values, percent)));
    let plain = a_few(&mut || _ = black_box(task.plain()));
    table.line(&format!(
        "{}\t{}\t{}\t{}\t{}\t{}\t{plain:.0}",
        task.name,
        task.states,
        task.steps,
        task.nodes,
        medians.join("\t"),
        ratios.join("\t"),
    ))
}
