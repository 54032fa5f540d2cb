//! The proved judge against the same algorithm in Rust (safe and indexed word by word, safe on
//! slices, unchecked), and against the plain checker, which proved classes are timed against too. All
//! times of a line are of one run.
use crate::cases::{all_compared, modal, nested, repeated, stairs};
use crate::nesting::{self, Binders};
use crate::table::Table;
use crate::task::Task;
use crate::timing::best;
use differential::drives::wheels;
use differential::judging::set_of;
use plain::Case;
use std::hint::black_box;
use std::io;

/// Writes nanoseconds a judgement, or a call of classes, each the best of several runs.
pub fn write(path: &str) -> io::Result<()> {
    let head = "case\tn\trounds\tproved\tindexed\tsliced\tunchecked\tplain";
    let mut table = Table::create(path, head)?;
    whole_rules(&mut table)?;
    for (name, kind) in [("union", 8), ("intersection", 9), ("chop", 10)] {
        against_rust(
            &mut table,
            &on_last(name, |p, q| repeated(p, q, kind), 5, 6),
        )?;
    }
    for (name, modality) in [
        ("diamond, union", (6, 0, 0)),
        ("box, union", (7, 0, 0)),
        ("diamond of a group, union", (13, 255, 0)),
        ("box of a group, union", (14, 255, 0)),
    ] {
        let case = |p, q| modal(p, q, modality);
        against_rust(&mut table, &on_last(name, case, 5, 6))?;
    }
    against_plain(&mut table, &on_last("two wheels", wheels, 3, 4))?;
    against_plain(&mut table, &on_last("nested binders", nested, 3, 4))?;
    classes(&mut table, "longest file: classes", &all_compared())?;
    classes(&mut table, "stairs: classes", &stairs())
}

fn whole_rules(table: &mut Table) -> io::Result<()> {
    for (first, second) in [(3, 4), (5, 6), (7, 8)] {
        against_rust(table, &on_last("two wheels", wheels, first, second))?;
    }
    for (first, second) in [(3, 4), (5, 6)] {
        against_rust(table, &on_last("nested binders", nested, first, second))?;
    }
    for (name, binders) in [
        ("three of one kind", Binders::OneKind),
        ("three alternating", Binders::Alternating),
    ] {
        for rings in [[3, 4], [4, 5]] {
            let case = nesting::case(&rings, 3, binders);
            against_rust(table, &Task::new(name, &case, 0))?;
        }
    }
    Ok(())
}

/// Wheels of these sizes, judged on the last state of each.
fn on_last(
    name: &'static str,
    case: impl Fn(usize, usize) -> Case,
    first: usize,
    second: usize,
) -> Task {
    let set = set_of(&[first, first + second]);
    Task::new(name, &case(first, second), set)
}

fn against_rust(table: &mut Table, task: &Task) -> io::Result<()> {
    let [mut a, mut b, mut c, mut d] = [(); 4].map(|()| task.work_area());
    let answer = task.proved(&mut a);
    assert_eq!(task.indexed(&mut b), answer);
    assert_eq!(task.sliced(&mut c), answer);
    assert_eq!(task.unchecked(&mut d), answer);
    let [proved, indexed, sliced, unchecked] = best([
        &mut || task.proved(&mut a),
        &mut || task.indexed(&mut b),
        &mut || task.sliced(&mut c),
        &mut || task.unchecked(&mut d),
    ]);
    let (name, n, rounds) = (task.name, task.states, answer.1);
    table.line(&format!(
        "{name}\t{n}\t{rounds}\t{proved:.0}\t{indexed:.0}\t{sliced:.0}\t{unchecked:.0}\t"
    ))
}

fn against_plain(table: &mut Table, task: &Task) -> io::Result<()> {
    let mut work = task.work_area();
    let answer = task.proved(&mut work);
    assert_eq!(answer, task.plain());
    let [proved, plain] = best([&mut || task.proved(&mut work), &mut || task.plain()]);
    let (name, n, rounds) = (task.name, task.states, answer.1);
    table.line(&format!(
        "{name}\t{n}\t{rounds}\t{proved:.0}\t\t\t\t{plain:.0}"
    ))
}

/// Classes against those of the plain checker.
fn classes(table: &mut Table, name: &str, case: &Case) -> io::Result<()> {
    let (file, n) = (plain::write(case), case.labels.len());
    let mut out = vec![0; n];
    let found = plain::classes(&file, n).expect("classes");
    assert_eq!(hoidrul::classes(&file, &mut out), Ok(n));
    assert_eq!(out, found);
    let [proved, plain] = best([
        &mut || hoidrul::classes(black_box(&file), &mut out).expect("classes"),
        &mut || plain::classes(black_box(&file), n).expect("classes").len(),
    ]);
    table.line(&format!("{name}\t{n}\t\t{proved:.0}\t\t\t\t{plain:.0}"))
}
