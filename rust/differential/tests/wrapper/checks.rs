//! The script over made-up crates: when it has them checked, and what it says.
use crate::calls::{outcome, shells};
use crate::stub::{answer, Repository, RT, SAID};
use std::env;
use std::fs::{self, File, Permissions};
use std::os::unix::fs::PermissionsExt;
use std::path::PathBuf;
use std::time::SystemTime;

const LOW: &str = "crates/low/src/lib";
const PROGRAM: &str = "crates/judge_case/out/judge_case";

/// The calls of rt, and what the script says, in one file.
#[test]
fn each_crate_is_said_first() {
    let repository = Repository::new("order");
    let outcome = repository.wrapper.run("judge 2>>calls");
    outcome.answers(&answer(1), "");
    let calls = fs::read_to_string(repository.root.join("calls")).expect("calls");
    let lines: Vec<_> = calls.lines().filter(|line| *line != "version").collect();
    let mut expected = Vec::new();
    for (said, call) in SAID
        .lines()
        .zip(["lib low", "lib middle", "run judge_case"])
    {
        expected.extend([said.to_string(), call.to_string()]);
    }
    assert_eq!(lines, expected);
    let log = repository.root.join("target/judge.log");
    let log = fs::read_to_string(log).expect("the log");
    assert!(log.starts_with("rt at low\nrt complains\nrt at middle\n"));
}

/// What the script does not read of an input that is too long, rt does not read either.
#[test]
fn the_input_is_not_for_rt() {
    let repository = Repository::new("input");
    let input = vec![b'x'; 300_000];
    let outcome = repository.wrapper.run_by("", "judge", &input);
    assert_eq!(outcome.status, Some(0), "{outcome:?}");
    let calls = fs::read_to_string(repository.root.join("calls")).expect("calls");
    assert!(calls.contains("version") && !calls.contains('x'));
    assert_eq!(repository.checked(), ["low", "middle", "judge_case"]);
}

#[test]
fn each_change_is_checked() {
    let repository = Repository::new("changes");
    repository.checks(1);
    repository.answers(1);
    repository.put(LOW, "2");
    repository.checks(2);
    for name in [
        "crates/middle/src/lib",
        "crates/middle/src/added",
        "crates/low/specs/Added",
        "crates/low/proofs/Added",
        "crates/low/src/out/added",
        "crates/judge_case/stdin",
        "crates/judge_case/stdout",
    ] {
        repository.put(name, "changed");
        repository.checks(2);
        repository.answers(2);
    }
    repository.remove("crates/middle/src/added");
    repository.checks(2);
    repository.put("version", "kit 2");
    repository.checks(2);
    let lines = "low:\nmiddle: low\njudge_case: middle, io # last\nhigh staticlib: low\n";
    repository.put("crates.txt", lines);
    repository.checks(2);
    for other in [
        "crates/high/src/lib",
        "crates/low/must-fail/other.edit",
        "crates/low/out/other",
    ] {
        repository.put(other, "changed");
        repository.answers(2);
    }
}

/// A crate that the program's line does not name is one of its crates through another.
#[test]
fn the_crates_of_the_list() {
    let repository = Repository::new("list");
    repository.checks(1);
    repository.put(
        "crates.txt",
        "judge_case status=0 :high low\nhigh: low\nlow:# none\n",
    );
    assert_eq!(repository.call().print, answer(1));
    assert_eq!(repository.checked(), ["low", "high", "judge_case"]);
    repository.put("crates.txt", "low:\n");
    repository.call().is_trouble("crates.txt");
    repository.remove("crates.txt");
    repository.call().is_trouble("crates.txt");
}

/// A file as long as before, and written at the same time by what it says itself.
#[test]
fn times_are_not_trusted() {
    let repository = Repository::new("times");
    let set = |time| {
        let file = File::options().write(true).open(repository.root.join(LOW));
        file.and_then(|file| file.set_modified(time)).expect("time");
    };
    set(SystemTime::UNIX_EPOCH);
    repository.checks(1);
    repository.put(LOW, "2");
    set(SystemTime::UNIX_EPOCH);
    repository.checks(2);
    set(SystemTime::now());
    repository.answers(2);
}

/// rt is called by hand between an edit and its undoing: its program is not that of the sources.
#[test]
fn put_back() {
    let repository = Repository::new("put back");
    repository.checks(1);
    repository.put(LOW, "2");
    let by_hand = repository
        .wrapper
        .run("cd crates/judge_case && rt run </dev/null 2>&1");
    assert_eq!(by_hand.status, Some(0));
    repository.put(LOW, "1");
    repository.checked();
    repository.checks(1);
}

/// Edits that are undone while rt runs: rt's stamps would hold for the sources, and what it built not.
#[test]
fn changed_while_checked() {
    let repository = Repository::new("meanwhile");
    let edit = format!("printf 7 >{LOW}");
    let built = format!("printf '#!/bin/sh\\nprintf \"{}\"' >{PROGRAM}", "junk");
    let undo = format!("chmod +x {PROGRAM}; printf 1 >{LOW}; stamp >{PROGRAM}.stamp");
    let during = format!("mkdir -p crates/judge_case/out; {edit}; {built}; {undo}");
    repository.put("during judge_case", &during);
    repository.call().ends_in_trouble("changed");
    repository.remove("during judge_case");
    repository.checked();
    repository.checks(1);
    let built = "library low; printf 7 >crates/low/out/rlib/lib";
    let during = format!("{edit}; printf 1 >{LOW}; {built}");
    repository.put("during low", &during);
    repository.put("crates/judge_case/src/main", "more");
    repository.call().ends_in_trouble("changed");
    repository.remove("during low");
    repository.checked();
    repository.checks(1);
    let come_and_gone = "touch crates/middle/src/gone; rm crates/middle/src/gone";
    repository.put("during middle", come_and_gone);
    repository.answers(1);
    repository.put(LOW, "2");
    repository.call().ends_in_trouble("changed");
    repository.remove("during middle");
    repository.checked();
    repository.checks(2);
}

/// rt's stamp would have it that there is nothing to do.
#[test]
fn the_program_itself() {
    let repository = Repository::new("program");
    repository.checks(1);
    repository.remove(PROGRAM);
    repository.checks(1);
    repository.put_program(PROGRAM, "#!/bin/sh\nprintf 'states 0\\nrounds 0\\n'\n");
    repository.checks(1);
    let program = repository.root.join(PROGRAM);
    fs::set_permissions(program, Permissions::from_mode(0o644)).expect("permissions set");
    repository.checks(1);
    repository.remove("target/judge.sums");
    repository.remove(PROGRAM);
    repository.checks(1);
    fs::remove_dir_all(repository.root.join("target")).expect("target removed");
    repository.checks(1);
}

#[test]
fn not_proved() {
    let repository = Repository::new("not proved");
    repository.put("bad middle", "");
    let outcome = repository.call();
    let log = repository.root.join("target/judge.log");
    outcome.ends_in_trouble(log.to_str().expect("a plain name"));
    outcome.ends_in_trouble("middle is not proved");
    assert_eq!(outcome.said.lines().count(), 3, "{outcome:?}");
    assert_eq!(repository.checked(), ["low", "middle"]);
    repository.remove("bad middle");
    repository.checks(1);
    repository.put("bad low", "");
    repository.put(LOW, "2");
    for _ in 0..2 {
        repository.call().ends_in_trouble("low is not proved");
    }
    repository.checked();
    repository.put(LOW, "1");
    repository.answers(1);
    repository.remove("bad low");
    repository.put("bad judge_case", "");
    repository.put(LOW, "2");
    repository
        .call()
        .ends_in_trouble("judge_case is not proved");
    repository.checked();
    repository.put(LOW, "1");
    repository.answers(1);
}

/// A rt that succeeds and builds nothing, and one that has no version.
#[test]
fn a_strange_rt() {
    let repository = Repository::new("strange rt");
    repository.put_program("bin/rt", "#!/bin/sh\n");
    repository.call().ends_in_trouble("has not built");
    repository.put_program("bin/rt", RT);
    repository.checks(1);
    repository.remove("version");
    repository.call().ends_in_trouble("judge_case");
    repository.remove("target/judge.sums");
    repository.call().ends_in_trouble("judge_case");
}

#[test]
fn no_rt() {
    let mut repository = Repository::new("no rt");
    repository.checks(1);
    let path = env::var_os("PATH").expect("PATH");
    let without: Vec<PathBuf> = env::split_paths(&path)
        .filter(|folder| !folder.join("rt").exists())
        .collect();
    repository.wrapper.path = env::join_paths(without).expect("a path");
    repository.call().is_trouble("rt is not on PATH");
}

/// Nothing is written where nothing has to be checked. A folder stands in for a tree that is not
/// the caller's: root can write anywhere.
#[test]
fn no_room_for_a_check() {
    let repository = Repository::new("no room");
    repository.checks(1);
    repository.remove("target/judge.lock");
    fs::create_dir(repository.root.join("target/judge.lock")).expect("a folder");
    repository.answers(1);
    repository.put(LOW, "2");
    for shell in shells() {
        let outcome = repository.wrapper.run_by(shell, "judge", b"");
        outcome.is_trouble("cannot write in");
    }
}

/// The first has the crates checked, and the others wait for it.
#[test]
fn calls_at_once() {
    let repository = Repository::new("at once");
    repository.put("during middle", "sleep 0.3");
    let begin = |_| repository.wrapper.begin("", "judge </dev/null");
    let children: Vec<_> = (0..4).map(begin).collect();
    let outcomes: Vec<_> = children.into_iter().map(outcome).collect();
    for outcome in &outcomes {
        assert_eq!((&*outcome.print, outcome.status), (&*answer(1), Some(0)));
    }
    let said = outcomes.iter().filter(|outcome| outcome.said == SAID);
    assert_eq!(said.count(), 1);
    let waited = outcomes.iter().filter(|outcome| {
        let waiting = "judge: waiting for another call, which has the program checked\n";
        outcome.said.is_empty() || outcome.said == waiting
    });
    assert_eq!(waited.count(), 3);
    assert_eq!(repository.checked(), ["low", "middle", "judge_case"]);
}

/// From another folder, by a link, with CDPATH leading elsewhere.
#[test]
fn another_folder() {
    let mut repository = Repository::new("elsewhere");
    repository.put("crates/crates/file", "");
    repository.wrapper.from = repository.root.join("crates");
    let text = "export CDPATH=$PWD; ln -s ../judge link; ./link; ../judge; cd /; judge";
    let outcome = repository.wrapper.run_by("", text, b"");
    assert_eq!(outcome.print, answer(1).repeat(3));
    assert_eq!(outcome.said, SAID);
    assert!(!repository.root.join("crates/target").exists());
}
