//! What the judging program and the example `holds` must print, by the plain checker.
use crate::judging::all_states;
use plain::{judge, parse_within, regular_starts_hold, regular_states, starts_hold, vet};
use plain::{Limits, Refusal};

/// The program's work area, in words.
pub const WORDS: usize = 32_768;

/// What the program has to print of a file (docs/SPECIFICATION.md, section 9).
pub fn wanted(file: &[u8]) -> String {
    wanted_in(file, WORDS)
}

/// The same by a work area of so many words.
fn wanted_in(file: &[u8], words: usize) -> String {
    let states = vet(file, 0).map_or(0, |(states, _)| states);
    match judge(file, all_states(states), words) {
        Err(refusal) => refused(refusal),
        Ok(verdict) => {
            let hold = starts_hold(file, words).expect("it has been judged");
            let head = format!("states {states}\nrounds {}\n", verdict.rounds);
            head + &lines(&verdict.states, hold)
        }
    }
}

/// What the example prints, which has words enough, and takes what rows 1 and 2 refuse for a regular
/// rule.
pub fn wanted_of_any(file: &[u8]) -> String {
    match vet(file, 0) {
        Err(Refusal { number: 1 | 2, .. }) => wanted_of_regular(file),
        _ => wanted_in(file, usize::MAX),
    }
}

fn wanted_of_regular(file: &[u8]) -> String {
    match regular_starts_hold(file, usize::MAX) {
        Err(refusal) => refused(refusal),
        Ok(hold) => {
            let case = parse_within(file, Limits::WIDEST).expect("it has been judged");
            format!("states {}\n", case.labels.len()) + &lines(&regular_states(&case), hold)
        }
    }
}

fn refused(Refusal { number, place }: Refusal) -> String {
    format!("refused {number} {place}\n")
}

/// A line for each state, and whether every start state holds.
fn lines(states: &[bool], hold: bool) -> String {
    let line = |(state, &holds)| format!("{state} {}\n", word(holds));
    let lines: String = states.iter().enumerate().map(line).collect();
    lines + &format!("starts {}\n", word(hold))
}

pub fn word(holds: bool) -> &'static str {
    if holds {
        "yes"
    } else {
        "no"
    }
}
