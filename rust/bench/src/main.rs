//! Takes the processor time of whole judgements, and writes it as a table. To be run with `--release`.
//!
//! - `bench ratios FILE`: the proved judge against the same algorithm in Rust, and against the
//!   plain checker; proved classes against those of the plain checker.
//! - `bench groups FILE`: the proved library alone; what a modality over a group costs beside one
//!   over a single action.
//! - `bench kinds FILE`: judging through a supplier's table of kinds beside judging without, and
//!   against the same scheme in unchecked Rust.
//! - `bench growth FILE [SECONDS]`: the proved library alone; how times grow with states, nodes and
//!   nesting, and the worst cases. A case is left out if it is likely to take more than so many
//!   seconds, 60 if none are given.
//! - `bench regular-ratios FILE`: the proved judge of regular rules against the same scheme in
//!   unchecked Rust, and against the plain checker.
//! - `bench regular-growth FILE [SECONDS]`: that judge alone; how its times grow with states, steps
//!   and nesting.
#![deny(unsafe_code)]

mod cases;
mod clock;
mod groups;
mod growth;
mod judge;
mod kinds;
mod nesting;
mod plan;
mod ratios;
mod regular;
mod rule;
mod table;
mod tables;
mod task;
mod timing;

use std::env::args;
use std::process::ExitCode;
use std::time::Duration;

fn main() -> ExitCode {
    let given: Vec<String> = args().skip(1).collect();
    let given: Vec<&str> = given.iter().map(String::as_str).collect();
    let (what, file, seconds) = match given[..] {
        [what, file] => (what, file, Ok(60)),
        [what, file, seconds] if what.ends_with("growth") => (what, file, seconds.parse()),
        _ => return usage(),
    };
    let Ok(longest) = seconds.map(Duration::from_secs) else {
        return usage();
    };
    let written = match what {
        "ratios" => ratios::write(file),
        "groups" => groups::write(file),
        "kinds" => kinds::write(file),
        "growth" => growth::write(file, longest),
        "regular-ratios" => regular::ratios::write(file),
        "regular-growth" => regular::growth::write(file, longest),
        _ => return usage(),
    };
    match written {
        Ok(()) => ExitCode::SUCCESS,
        Err(error) => {
            eprintln!("{file}: {error}");
            ExitCode::FAILURE
        }
    }
}

fn usage() -> ExitCode {
    eprintln!(
        "bench ratios|groups|kinds|regular-ratios FILE, or bench growth|regular-growth FILE [SECONDS]"
    );
    ExitCode::from(2)
}
