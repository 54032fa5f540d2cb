//! Judges a case on all its states, merges those that are alike, and shows that verdicts stay:
//!
//! `cargo run --release --example merge_alike -- CASE [SMALLER]`
//!
//! `SMALLER`, if it is named, is the file to which the smaller case is written. Exit status: 0, or
//! with a line on standard error 1 for a refusal and 2 for any trouble.
use hoidrul::{Refusal, Verdict, LABELS, LONGEST, STARTS};
use std::env;
use std::fmt::Display;
use std::fs::{self, File};
use std::io::{self, Read, Write};
use std::path::{Path, PathBuf};
use std::process::ExitCode;

/// A status, and the line that tells why.
type Failure = (u8, String);

const REFUSED: u8 = 1;
const TROUBLE: u8 = 2;

fn main() -> ExitCode {
    let Err((status, line)) = run() else {
        return ExitCode::SUCCESS;
    };
    // `eprintln` would panic if the line cannot be written.
    let _ = writeln!(io::stderr(), "{line}");
    ExitCode::from(status)
}

fn run() -> Result<(), Failure> {
    let mut paths = env::args_os().skip(1).map(PathBuf::from);
    let usage = "usage: merge_alike CASE [SMALLER]";
    let path = paths.next().ok_or((TROUBLE, usage.into()))?;
    let file = read(&path).map_err(|error| (TROUBLE, about(&path, error)))?;
    let (page, smaller) = merged(&file).map_err(|refusal| (REFUSED, about(&path, refusal)))?;
    print(&page).map_err(|error| (TROUBLE, format!("standard output: {error}")))?;
    if let Some(path) = paths.next() {
        fs::write(&path, smaller).map_err(|error| (TROUBLE, about(&path, error)))?;
    }
    Ok(())
}

/// Which file an error is about.
fn about(path: &Path, error: impl Display) -> String {
    format!("{}: {error}", path.display())
}

/// One byte more than a case can have is enough to see that there are too many.
fn read(path: &Path) -> io::Result<Vec<u8>> {
    let mut file = vec![];
    let most = LONGEST as u64 + 1;
    File::open(path)?.take(most).read_to_end(&mut file)?;
    Ok(file)
}

/// (`print` would panic if the page cannot be written.)
fn print(page: &str) -> io::Result<()> {
    let mut out = io::stdout().lock();
    out.write_all(page.as_bytes())?;
    out.flush()
}

/// What is printed, with the verdicts before and after, and the smaller case.
fn merged(file: &[u8]) -> Result<(String, Vec<u8>), Refusal> {
    let classes = classes(file)?;
    let smaller = merge_alike(file, &classes)?;
    let (before, after) = (judge(file)?, judge(&smaller)?);

    let kept = classes.iter().zip(0..).filter(|&(&lowest, s)| lowest == s);
    let mut page = format!("states {}, merged {}\n", classes.len(), kept.count());
    page += &format!("rounds {}, merged {}\n", before.rounds, after.rounds);
    for state in 0..classes.len() {
        let stands = standing(&classes, state);
        let (holds, still) = (before.holds(state), after.holds(stands));
        page += &format!("{state} {}, as {stands} {}\n", word(holds), word(still));
    }
    let (hold, still) = (starts_hold(file, before)?, starts_hold(&smaller, after)?);
    page += &format!("starts {}, merged {}\n", word(hold), word(still));
    Ok((page, smaller))
}

/// The verdict on the set of all states.
fn judge(file: &[u8]) -> Result<Verdict, Refusal> {
    let all = hoidrul::vet(file, LABELS)?.all_states();
    let mut work = vec![0; hoidrul::work_area(file)?];
    hoidrul::judge(file, all, &mut work)
}

/// Whether every start state holds, by the verdict, so that nothing is judged twice.
fn starts_hold(file: &[u8], verdict: Verdict) -> Result<bool, Refusal> {
    let starts = hoidrul::open(file, STARTS)?;
    Ok(starts.iter().all(|&state| verdict.holds(state.into())))
}

/// The classes: at each state, the lowest that is alike to it.
fn classes(file: &[u8]) -> Result<Vec<u8>, Refusal> {
    let mut classes = vec![0; hoidrul::vet(file, LABELS)?.states];
    hoidrul::classes(file, &mut classes)?;
    Ok(classes)
}

/// Merges each state that has a lower one alike to it with that one. A merge moves higher states
/// down, so the highest goes first: those still to be merged keep their numbers.
fn merge_alike(file: &[u8], classes: &[u8]) -> Result<Vec<u8>, Refusal> {
    let mut file = file.to_vec();
    let mut out = vec![0; LONGEST];
    for (state, &lowest) in classes.iter().enumerate().rev() {
        let lowest = usize::from(lowest);
        if lowest < state {
            let length = hoidrul::merge(&file, lowest, state, &mut out)?;
            file = out[..length].to_vec();
        }
    }
    Ok(file)
}

/// The number, after all merges, of the state standing for this one: as many were kept below.
fn standing(classes: &[u8], state: usize) -> usize {
    let kept = (0..classes[state]).filter(|&below| classes[usize::from(below)] == below);
    kept.count()
}

fn word(holds: bool) -> &'static str {
    if holds {
        "yes"
    } else {
        "no"
    }
}
