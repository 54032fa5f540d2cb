//! Judges a case on the set of all its states, and prints what the script `judge` prints:
//!
//! `cargo run --release --example holds -- [CASE]`
//!
//! It lends as much work area as the case needs, so no case is too large. A file that is too long or
//! has too many states for judging is taken for one with a regular rule, of which no rounds are told.
//! Without a path it reads standard input. Exit status: 0 for a verdict, 1 for a refusal, whose words
//! go to standard error, and 2 for any trouble, which is told there.
use hoidrul::{Reason, Refusal, StateSet};
use std::fs::File;
use std::io::{self, Read, Write};
use std::path::PathBuf;
use std::process::ExitCode;
use std::{env, fmt};

fn main() -> ExitCode {
    match run() {
        Ok(None) => ExitCode::SUCCESS,
        Ok(Some(refusal)) => told(1, refusal.reason),
        Err(trouble) => told(2, trouble),
    }
}

/// A line on standard error, and a status. (`eprintln` would panic if the line cannot be written.)
fn told(status: u8, line: impl fmt::Display) -> ExitCode {
    let _ = writeln!(io::stderr(), "holds: {line}");
    ExitCode::from(status)
}

/// Prints the verdict, or the refusal, which is returned. (A standard output that is closed from the
/// start is no trouble that could be seen: Rust opens /dev/null in its place.)
fn run() -> Result<Option<Refusal>, String> {
    let (print, refusal) = match page(&case()?) {
        Ok(page) => (page, None),
        Err(refusal) => {
            let line = format!("refused {} {}\n", refusal.number(), refusal.place);
            (line, Some(refusal))
        }
    };
    let mut out = io::stdout().lock();
    let written = out.write_all(print.as_bytes()).and_then(|()| out.flush());
    written.map_err(|error| format!("the answer could not be written: {error}"))?;
    Ok(refusal)
}

/// The bytes of the file whose path is the argument, or of standard input.
fn case() -> Result<Vec<u8>, String> {
    let mut paths = env::args_os().skip(1).map(PathBuf::from);
    let (name, file) = match (paths.next(), paths.next()) {
        (None, _) => ("standard input".into(), read(io::stdin())),
        (Some(path), None) => (format!("{path:?}"), File::open(path).and_then(read)),
        _ => return Err("more than one argument is given".into()),
    };
    file.map_err(|error| format!("cannot read {name}: {error}"))
}

/// One byte more than a case can have is enough to see that there are too many.
fn read(source: impl Read) -> io::Result<Vec<u8>> {
    let mut file = vec![];
    let most = hoidrul::REGULAR_LONGEST as u64 + 1;
    source.take(most).read_to_end(&mut file)?;
    Ok(file)
}

/// What is printed of a case: how many states it has, the rounds, which states hold, and whether
/// every start state does.
fn page(file: &[u8]) -> Result<String, Refusal> {
    match judged(file) {
        Err(Refusal {
            reason: Reason::Pairs | Reason::Labels,
            ..
        }) => judged_as_regular(file),
        reply => reply,
    }
}

fn judged(file: &[u8]) -> Result<String, Refusal> {
    let counts = hoidrul::vet(file, hoidrul::LABELS)?;
    let mut work = vec![0; hoidrul::work_area(file)?];
    let verdict = hoidrul::judge(file, counts.all_states(), &mut work)?;
    let starts = hoidrul::open(file, hoidrul::STARTS)?;
    let hold = starts.iter().all(|&state| verdict.holds(state.into()));
    let head = format!("states {}\nrounds {}\n", counts.states, verdict.rounds);
    Ok(head + &lines(counts.states, verdict.states, hold))
}

fn judged_as_regular(file: &[u8]) -> Result<String, Refusal> {
    let mut work = vec![0; hoidrul::regular_work_area(file)?];
    let verdict = hoidrul::regular(file, &mut work)?;
    let head = format!("states {}\n", verdict.count);
    Ok(head + &lines(verdict.count, verdict.states, verdict.starts_hold))
}

/// A line for each of the states, and the last one.
fn lines(count: usize, states: StateSet, starts_hold: bool) -> String {
    let word = |holds| if holds { "yes" } else { "no" };
    let line = |state| format!("{state} {}\n", word(states.contains(state)));
    let lines: String = (0..count).map(line).collect();
    lines + &format!("starts {}\n", word(starts_hold))
}
