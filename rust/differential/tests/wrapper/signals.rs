//! Signals: they end the script and whatever it has started, and nothing is left.
use crate::calls::{script, Wrapper};
use crate::inputs::wrapper;
use crate::running::{all_shells, signals, slow, until, wrapper_of_slow, Call, JUDGE, TERM};
use crate::stub::{answer, Repository};
use std::fs;
use std::thread::sleep;
use std::time::Duration;

#[test]
fn a_judgement() {
    assert_eq!(plain::vet(&slow(), 0), Ok((8, 58)));
    let wrapper = wrapper_of_slow("signal to a judgement");
    let (signals, by) = signals();
    for shell in all_shells() {
        for signal in &signals {
            let text = format!("exec {by} $BY \"$JUDGE\" slow");
            let mut call = Call::begin(&wrapper, shell, &text);
            call.runs("judge_case");
            call.send(signal.0);
            call.is_ended_by(*signal);
            call.leaves_nothing();
        }
    }
}

/// `timeout` tells the whole group, and so the program too, or the script alone.
#[test]
fn a_parent_that_gives_up() {
    let wrapper = wrapper_of_slow("signal from a parent");
    for shell in all_shells() {
        for whom in ["", "--foreground"] {
            let text = format!("exec timeout {whom} 600 $BY \"$JUDGE\" slow");
            let mut call = Call::begin(&wrapper, shell, &text);
            call.runs("judge_case");
            call.send("TERM");
            call.end();
            call.leaves_nothing();
        }
    }
}

/// No script can see to this: the kernel does.
#[test]
fn a_script_that_is_killed() {
    let wrapper = wrapper_of_slow("signal KILL");
    let bound = "setpriv --pdeathsig KILL true";
    if wrapper.run(bound).status != Some(0) {
        println!("skipped: there is no setpriv that knows --pdeathsig");
        return;
    }
    for shell in all_shells() {
        let mut call = Call::begin(&wrapper, shell, &format!("{JUDGE} slow"));
        call.runs("judge_case");
        call.send("KILL");
        call.is_ended_by(("KILL", 9));
        call.leaves_nothing_soon();
    }
}

/// At any moment, of which each has another command running, and most while the script itself is at work.
#[test]
fn any_moment() {
    let wrapper = wrapper_of_slow("signal at any moment");
    for shell in all_shells() {
        for moment in (0..40).step_by(2).chain((40..120).step_by(10)) {
            let mut call = Call::begin(&wrapper, shell, &format!("{JUDGE} slow"));
            sleep(Duration::from_millis(moment));
            call.send("TERM");
            call.is_ended_by(TERM);
            call.leaves_nothing_soon();
        }
    }
}

/// The moments at which a shell would lose a signal are too short for the test above: bash when it reads
/// `$(...)` again to expand it, and dash when a trap is taken back. So the script has neither, but where
/// signals are ignored already.
#[test]
fn nothing_that_loses_a_signal() {
    let text = fs::read_to_string(script()).expect("the script");
    assert!(!text.replace("$((", "").contains("$("));
    assert!(text.contains("    trap '' $signals\n"));
    assert_eq!(text.matches("trap - ").count(), 1);
}

/// A signal that is ignored where the script is called stays ignored. (INT does not quite: bash attends
/// to it for a moment whenever it begins to wait.)
#[test]
fn an_ignored_signal() {
    let wrapper = wrapper_of_slow("signal ignored");
    for shell in all_shells() {
        let mut call = Call::begin(&wrapper, shell, &format!("trap '' HUP; {JUDGE} slow"));
        call.runs("judge_case");
        call.send("HUP");
        call.send("TERM");
        call.is_ended_by(TERM);
        call.leaves_nothing();
    }
}

/// Where the input does not come, and where nobody opens the pipe's other end.
#[test]
fn an_input() {
    let wrapper = wrapper("signal to an input");
    let (signals, by) = signals();
    for shell in all_shells() {
        for signal in &signals {
            let text = format!("exec {by} $BY \"$JUDGE\"");
            let mut call = Call::begin(&wrapper, shell, &text);
            call.runs("head");
            call.send(signal.0);
            call.is_ended_by(*signal);
            call.leaves_nothing();
        }
        let fifo = wrapper.from.join("fifo");
        let mut call = Call::begin(&wrapper, shell, &format!("mkfifo fifo; {JUDGE} fifo"));
        until("a pipe", || fifo.exists().then_some(()));
        sleep(Duration::from_millis(50));
        call.send("TERM");
        call.is_ended_by(TERM);
        call.leaves_nothing_soon();
        fs::remove_file(fifo).expect("a pipe removed");
    }
}

/// What rt has started ends too, and the next call can have all checked.
#[test]
fn a_check() {
    let repository = Repository::new("signal to a check");
    let (signals, by) = signals();
    for shell in all_shells() {
        for signal in &signals {
            repository.put("during middle", "nice sleep 600");
            let text = format!("exec {by} $BY \"$JUDGE\" /dev/null 2>/dev/null");
            let mut call = Call::begin(&repository.wrapper, shell, &text);
            call.runs("sleep");
            call.send(signal.0);
            call.is_ended_by(*signal);
            call.leaves_nothing_soon();
            repository.remove("during middle");
            repository.checked();
            repository.checks(1);
            fs::remove_dir_all(repository.root.join("target")).expect("target removed");
        }
    }
}

/// A shell may take it that a command which lives on after INT has dealt with it.
#[test]
fn a_command_in_the_foreground() {
    let (signals, by) = signals();
    for name in ["rt", "mkdir"] {
        let repository = Repository::new(&format!("signal in the foreground, {name}"));
        let file = |name: &str| repository.root.join(name);
        let command = format!("bin/{name}");
        let wait = "until [ -e go ]; do sleep 0.01; done";
        repository.put_program(&command, &format!("#!/bin/sh\n: >asked\n{wait}\n"));
        for shell in all_shells() {
            for signal in &signals {
                let text = format!("exec {by} $BY \"$JUDGE\" /dev/null");
                let mut call = Call::begin(&repository.wrapper, shell, &text);
                until(name, || file("asked").exists().then_some(()));
                call.send(signal.0);
                repository.put("go", "");
                call.is_ended_by(*signal);
                call.leaves_nothing_soon();
                repository.remove("asked");
                repository.remove("go");
            }
        }
    }
}

/// Of two calls the second waits for the first, which does not notice that the second is ended.
#[test]
fn a_call_that_waits() {
    let repository = Repository::new("signal to one that waits");
    let file = |name| repository.root.join(name);
    let text_of = |name| fs::read_to_string(file(name)).unwrap_or_default();
    let Wrapper { script, path, .. } = &repository.wrapper;
    let other = Wrapper {
        script: script.clone(),
        from: file("other"),
        path: path.clone(),
        temporary: file("other/temporary"),
    };
    fs::create_dir_all(&other.temporary).expect("a folder");
    repository.put("during middle", "until [ -e go ]; do sleep 0.01; done");
    let text = "judge </dev/null >print 2>/dev/null";
    let mut first = Call::begin(&repository.wrapper, "", text);
    until("a check", || {
        text_of("calls").contains("lib middle").then_some(())
    });
    let (signals, by) = signals();
    for shell in all_shells() {
        for signal in &signals {
            let text = format!("exec {by} $BY \"$JUDGE\" /dev/null 2>/dev/null");
            let mut second = Call::begin(&other, shell, &text);
            second.runs("flock");
            second.send(signal.0);
            second.is_ended_by(*signal);
            second.leaves_nothing();
        }
    }
    repository.put("go", "");
    assert!(first.end().success());
    assert_eq!(text_of("print"), answer(1));
}
