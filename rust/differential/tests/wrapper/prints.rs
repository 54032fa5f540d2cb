//! Made-up programs: which prints are answers to the script, and what it says of them.
use crate::calls::{in_words, shells};
use crate::stub::Repository;
use hoidrul::{Reason, Refusal};

/// A repository whose rt builds a program that does this.
fn repository(name: &str, does: &str) -> Repository {
    let repository = Repository::new(name);
    let build = "cat program >$program; chmod +x $program; stamp >$program.stamp";
    let during = format!("mkdir -p crates/judge_case/out; {build}");
    repository.put("during judge_case", &during);
    repository.put("program", &format!("#!/bin/sh\n{does}\n"));
    repository
}

#[test]
fn prints_that_are_answers() {
    for (i, print) in [
        "states 2\\nrounds 18446744073709551615\\n0 yes\\n1 no\\nstarts yes\\n",
        "states 1\\nrounds 1\\n0 no\\nstarts no\\n",
    ]
    .into_iter()
    .enumerate()
    {
        let repository = repository(&format!("answer {i}"), &format!("printf '{print}'"));
        repository.call();
        let print = print.replace("\\n", "\n");
        repository.call().answers(&print, "");
    }
}

/// A program that refuses what it reads with the numbers that it reads.
#[test]
fn refusals_in_words() {
    let repository = repository("in words", "read -r numbers; echo \"refused $numbers\"");
    repository.call();
    for shell in shells() {
        let refuses = |number: u32, place: usize, said: &dyn Fn(&str) -> String| {
            let numbers = format!("{number} {place}\n");
            let outcome = repository
                .wrapper
                .run_by(shell, "judge", numbers.as_bytes());
            let print = format!("refused {numbers}");
            outcome.answers(&print, &said(&print));
        };
        for (i, &reason) in Reason::ALL.iter().enumerate() {
            let place = 500 * i;
            refuses(Refusal { reason, place }.number(), place, &in_words);
        }
        for number in [0, 1 + Reason::ALL.len() as u32, 99] {
            let unknown = "the script knows no refusal of this number";
            refuses(number, 5, &|print| {
                format!("judge: {}: {unknown}\n", print.trim_end())
            });
        }
    }
}

#[test]
fn prints_that_are_none() {
    for (i, print) in [
        "",
        "\\n",
        "junk\\n",
        "refused\\n",
        "refused 1\\n",
        "refused  0\\n",
        "refused 1 \\n",
        "refused 1 0 0\\n",
        "refused 1 0\\nmore\\n",
        "refused one 0\\n",
        "refused 1 -1\\n",
        "states 1\\n",
        "states 1\\nrounds 1\\n",
        "states 1\\nrounds 1\\n0 yes\\n",
        "states 1\\nrounds 1\\n0 no\\n",
        "states 1\\nrounds 1\\n0 yes\\nstarts maybe\\n",
        "states 1\\nrounds 1\\n0 yes\\nstarts yes\\nmore\\n",
        "states 1\\nrounds 1\\n0 starts yes\\n",
        "starts yes\\n",
        "rounds 1\\nstates 1\\n0 yes\\nstarts yes\\n",
    ]
    .into_iter()
    .enumerate()
    {
        let repository = repository(&format!("print {i}"), &format!("printf '{print}'"));
        repository.call().ends_in_trouble("something else");
        repository.call().is_trouble("something else");
    }
}

/// The print is an answer, and yet the program did not end as it should.
#[test]
fn programs_that_die() {
    let print = "printf 'refused 1 0\\n'";
    for (name, end) in [
        ("status", "exit 3"),
        ("segv", "kill -s SEGV $$"),
        ("killed", "kill -s KILL $$"),
        ("pipe", "kill -s PIPE $$"),
    ] {
        let repository = repository(name, &format!("{print}; echo noise >&2; {end}"));
        repository.call().ends_in_trouble("died");
        for shell in shells() {
            let outcome = repository.wrapper.run_by(shell, "judge", b"");
            outcome.is_trouble("died");
        }
    }
}

/// A file that no system runs.
#[test]
fn no_program() {
    let repository = repository("no program", "exit");
    repository.put("program", "\0");
    repository.call().ends_in_trouble("judge: the program");
}
