//! What a supplier's table of kinds costs: judging through it beside judging the same case as we write
//! it, and against the same scheme in unchecked Rust. All times of a line are of one run.
use crate::cases::longest;
use crate::judge::judge;
use crate::plan::Plan;
use crate::table::Table;
use crate::tables::{Indexed, Unchecked};
use crate::timing::{part, runs, sorted};
use differential::drives::{case, wheels};
use differential::kinds::supplied;
use differential::supplier::{motor, KINDS};
use hoidrul::{KindTable, Reason, Refusal, Verdict, LONGEST};
use plain::Case;
use std::hint::black_box;
use std::io;

/// Writes medians of nanoseconds a call: without a table, through one, and that in unchecked Rust; then
/// by how much the second is longer than either, with two values that nine of ten runs lie between.
pub fn write(path: &str) -> io::Result<()> {
    let head = [
        ["case", "n", "m", "bytes"].join("\t"),
        ["judge", "kinds", "unchecked"].join("\t"),
        ["/ judge", "judge low", "judge high"].join("\t"),
        ["/ unchecked", "unchecked low", "unchecked high"].join("\t"),
    ];
    let mut table = Table::create(path, &head.join("\t"))?;
    let tau = case(&[0], &[], &[(5, 0, 0)]);
    let motor = plain::parse_kinds(&KINDS, &plain::write(&motor())).expect("a case");
    for (name, case) in [
        ("one state, one node", tau),
        ("label feed motor", motor),
        ("two wheels", wheels(3, 4)),
        ("longest file", longest()),
    ] {
        judged(&mut table, name, &Task::new(&case))?;
    }
    refused(
        &mut table,
        "longest file, refused by 9",
        &Task::new(&longest()),
    )
}

fn judged(table: &mut Table, name: &str, task: &Task) -> io::Result<()> {
    let [mut a, mut b, mut c] = [(); 3].map(|()| task.work_area());
    let answer = task.ours(&mut a).map(answer);
    assert_eq!(task.through_table(&mut b).map(self::answer), answer);
    assert_eq!(Ok(task.unchecked(&mut c)), answer);
    let times = runs([
        &mut || _ = black_box(task.ours(&mut a)),
        &mut || _ = black_box(task.through_table(&mut b)),
        &mut || _ = black_box(task.unchecked(&mut c)),
    ]);
    line(table, name, task, &times)
}

/// All but the judging: a call without a work area, and in Rust one that stops before it.
fn refused(table: &mut Table, name: &str, task: &Task) -> io::Result<()> {
    let refusal = task.ours(&mut []).expect_err("no area");
    assert_eq!(refusal.reason, Reason::Work);
    assert_eq!(task.through_table(&mut []), Err(refusal));
    let times = runs([
        &mut || _ = black_box(task.ours(&mut [])),
        &mut || _ = black_box(task.through_table(&mut [])),
        &mut || _ = black_box(task.exchanged(<[u8]>::len)),
    ]);
    line(table, name, task, &times)
}

fn line(table: &mut Table, name: &str, task: &Task, times: &[[f64; 3]]) -> io::Result<()> {
    let of = |value: fn(&[f64; 3]) -> f64| sorted(times.iter().map(value));
    let medians = [of(|t| t[0]), of(|t| t[1]), of(|t| t[2])];
    let medians = medians.map(|times| format!("{:.0}", part(&times, 50)));
    let ratios = [of(|t| t[1] / t[0]), of(|t| t[1] / t[2])];
    let ratios = ratios.map(|ratios| [50, 5, 95].map(|percent| part(&ratios, percent)));
    let ratios = ratios
        .concat()
        .into_iter()
        .map(|ratio| format!("{ratio:.2}"));
    table.line(&format!(
        "{name}\t{}\t{}\t{}\t{}\t{}",
        task.states,
        task.nodes,
        task.ours.len(),
        medians.join("\t"),
        Vec::from_iter(ratios).join("\t"),
    ))
}

/// A case as we write it and as a supplier does, judged on no states.
struct Task {
    states: usize,
    nodes: usize,
    ours: Vec<u8>,
    theirs: Vec<u8>,
    table: KindTable,
}

/// The set and the rounds.
type Answer = (u16, u64);

const SET: u16 = 0;

impl Task {
    fn new(case: &Case) -> Task {
        let ours = plain::write(case);
        Task {
            states: case.labels.len(),
            nodes: case.nodes.len(),
            theirs: supplied(&KINDS, &ours),
            ours,
            table: KindTable::new(&KINDS).expect("a table"),
        }
    }

    fn work_area(&self) -> Vec<u16> {
        vec![0; hoidrul::work_area(&self.ours).expect("a case")]
    }

    fn ours(&self, work: &mut [u16]) -> Result<Verdict, Refusal> {
        hoidrul::judge(black_box(&self.ours), SET, work)
    }

    fn through_table(&self, work: &mut [u16]) -> Result<Verdict, Refusal> {
        hoidrul::judge_kinds(black_box(&self.table), black_box(&self.theirs), SET, work)
    }

    #[allow(unsafe_code)]
    fn unchecked(&self, work: &mut [u16]) -> Answer {
        self.exchanged(|file| {
            let plan = Plan::new(file);
            assert!(work.len() >= plan.words());
            // SAFETY: of a vetted case every table lies within the area, and every set that a table
            // holds is below 2^n; so is the set that is judged on.
            let words = unsafe { Unchecked::new(work) };
            judge(&plan, SET.into(), &mut Indexed(words))
        })
    }

    /// What is done with a copy that has the kinds exchanged, by a table that was tested, and has
    /// passed the proved vetting.
    #[allow(unsafe_code)]
    fn exchanged<A>(&self, judge: impl FnOnce(&[u8]) -> A) -> A {
        let (table, file) = (black_box(&self.table), black_box(&self.theirs));
        assert!(names_each_kind_once(table.as_bytes()));
        let mut copy = [0; LONGEST];
        let copy = &mut copy[..file.len()];
        copy.copy_from_slice(file);
        // SAFETY: the file is that of a case, so that its pairs are right.
        unsafe { exchange(table.as_bytes(), copy) };
        hoidrul::vet(copy, 0).expect("a case");
        judge(copy)
    }
}

/// By counting each kind, as the proved test does.
fn names_each_kind_once(table: &[u8]) -> bool {
    let times = |kind| table.iter().filter(|&&other| other == kind).count();
    table.len() == KINDS.len() && (0..KINDS.len() as u8).all(|kind| times(kind) == 1)
}

/// # Safety
/// Section 2 of the file lies where its pairs say.
#[allow(unsafe_code)]
unsafe fn exchange(table: &[u8], file: &mut [u8]) {
    let number = |at: usize| usize::from(u16::from_le_bytes([file[at], file[at + 1]]));
    let (offset, nodes) = (number(8), number(10) / 3);
    for node in 0..nodes {
        // SAFETY: the caller has promised it, and only a byte with an entry is looked up.
        unsafe {
            let kind = file.get_unchecked_mut(offset + 3 * node);
            if usize::from(*kind) < table.len() {
                *kind = *table.get_unchecked(usize::from(*kind));
            }
        }
    }
}

fn answer(verdict: Verdict) -> Answer {
    let states = verdict.states.to_u16().expect("16 states at most");
    (states, verdict.rounds)
}

#[cfg(test)]
mod tests {
    use super::*;
    use differential::formulas::{self, Bounds};
    use differential::rng::Rng;
    use plain::Limits;

    /// Random rules by all three.
    #[test]
    fn answers_are_the_same() {
        let mut rng = Rng::new(3_000);
        for i in 0..200 {
            let bounds = Bounds {
                states: 1 + i % 4,
                nesting: 2,
                depth: 3,
            };
            let case = formulas::case(&mut rng, Limits::CASE, bounds);
            let task = Task::new(&case);
            let mut work = task.work_area();
            let verdict = task.ours(&mut work);
            assert_eq!(task.through_table(&mut work), verdict, "{case:?}");
            let unchecked = task.unchecked(&mut work);
            assert_eq!(verdict.map(answer), Ok(unchecked), "{case:?}");
        }
    }
}
