//! A repository of made-up crates with a stub for rt.
use crate::calls::{script, Outcome, Wrapper};
use std::env;
use std::ffi::OsString;
use std::fs;
use std::io::Write;
use std::path::PathBuf;
use std::process::{self, Command, Stdio};
use std::thread::panicking;

/// Says that it was called, in which crate's folder, and what was left to it on standard input. As rt,
/// it trusts its stamps: where one is there for the sources as they are, and for the program as it is,
/// it builds nothing. A library is a copy of its source. The program, which is run once it is built, prints
/// as many rounds as the library `low` says.
pub const RT: &str = r#"#!/bin/sh
input=$(cat)
if [ "$1" = version ]; then
    echo "version$input" >>calls
    exec cat version
fi
name=${PWD##*/}
cd ../..
echo "$1 $name$input" >>calls
echo "rt at $name"
echo "rt complains" >&2
library() {
    out=crates/$1/out/rlib
    sources=$(cat version crates/$1/src/*)
    if [ "$sources" = "$(cat "$out/stamp" 2>/dev/null)" ]; then return; fi
    mkdir -p $out
    cat crates/$1/src/lib >$out/lib
    echo "$sources" >$out/stamp
}
program=crates/judge_case/out/judge_case
stamp() { cat version crates/*/src/* $program 2>/dev/null; }
if [ -e "during $name" ]; then . "./during $name"; fi
[ ! -e "bad $name" ] || exit 1
if [ "$1" = lib ]; then
    library "$name"
    exit
fi
for source in crates/*/src/lib; do
    below=${source%/src/lib}
    library "${below##*/}"
done
if [ "$(stamp)" != "$(cat $program.stamp 2>/dev/null)" ]; then
    mkdir -p "${program%/*}"
    printf '#!/bin/sh\nprintf "states 1\\nrounds %s\\n0 yes\\nstarts yes\\n"\n' "$(cat crates/low/out/rlib/lib)" >$program
    chmod +x $program
    stamp >$program.stamp
fi
cd "crates/$name" && exec out/judge_case
"#;

/// A repository of made-up crates. The last does not belong to the program. It is outside the real
/// repository, where rt would take its crates.txt for one too many, and is removed in the end.
pub struct Repository {
    pub root: PathBuf,
    pub wrapper: Wrapper,
}

impl Repository {
    pub fn new(name: &str) -> Repository {
        let top = env::temp_dir().canonicalize().expect("a folder");
        let root = top.join(format!("judge {name} {}", process::id()));
        for part in ["bin", "temporary", "crates/low/must-fail"] {
            fs::create_dir_all(root.join(part)).expect("a folder");
        }
        let mut path = OsString::from(root.join("bin"));
        path.push(":");
        path.push(env::var_os("PATH").expect("PATH"));
        let wrapper = Wrapper {
            script: root.join("judge"),
            from: root.clone(),
            path,
            temporary: root.join("temporary"),
        };
        let repository = Repository { root, wrapper };
        let judge = fs::read_to_string(script()).expect("the script");
        repository.put_program("judge", &judge);
        repository.fill();
        repository
    }

    fn fill(&self) {
        let lines = "# Lowest first.\nlow: \nmiddle: low\njudge_case: middle io\nhigh: low\n";
        self.put("crates.txt", lines);
        self.put("crates/low/src/lib", "1");
        self.put("crates/middle/src/lib", "middle");
        self.put("crates/judge_case/src/main", "main");
        self.put("crates/judge_case/stdin", "case");
        self.put("crates/high/src/lib", "high");
        self.put("version", "kit 1");
        self.put_program("bin/rt", RT);
    }

    pub fn put(&self, name: &str, text: &str) {
        let file = self.root.join(name);
        fs::create_dir_all(file.parent().expect("a folder")).expect("a folder");
        fs::write(file, text).expect("a file written");
    }

    /// A program, which a process of its own writes: what this one writes is open for a moment in each
    /// child that another thread forks, and cannot be run then.
    pub fn put_program(&self, name: &str, text: &str) {
        let mut writer = Command::new("sh")
            .args(["-c", r#"cat >"$0" && chmod 755 "$0""#])
            .arg(self.root.join(name))
            .stdin(Stdio::piped())
            .spawn()
            .expect("sh");
        let mut input = writer.stdin.take().expect("its input");
        let written = input.write_all(text.as_bytes());
        drop(input);
        written.expect("a program written");
        assert!(writer.wait().expect("its end").success());
    }

    pub fn remove(&self, name: &str) {
        fs::remove_file(self.root.join(name)).expect("a file removed");
    }

    pub fn call(&self) -> Outcome {
        let outcome = self.wrapper.run("judge");
        assert!(self.wrapper.is_clean());
        outcome
    }

    /// The crates that rt was asked to prove and build since this was last asked.
    pub fn checked(&self) -> Vec<String> {
        let calls = fs::read_to_string(self.root.join("calls")).expect("calls");
        self.put("calls", "");
        let checks = calls
            .lines()
            .filter_map(|call| match call.split_once(' ')? {
                ("lib", name) if name != "judge_case" => Some(name),
                ("run", name) if name == "judge_case" => Some(name),
                _ => panic!("a strange call: {call}"),
            });
        checks.map(String::from).collect()
    }

    /// A call that has all crates checked, and the answer of the program that has so many rounds.
    pub fn checks(&self, rounds: usize) {
        let outcome = self.call();
        assert_eq!(outcome.print, answer(rounds), "{outcome:?}");
        assert_eq!((&*outcome.said, outcome.status), (SAID, Some(0)));
        assert_eq!(self.checked(), ["low", "middle", "judge_case"]);
    }

    /// A call that has nothing checked.
    pub fn answers(&self, rounds: usize) {
        self.call().answers(&answer(rounds), "");
        assert!(self.checked().is_empty());
    }
}

impl Drop for Repository {
    fn drop(&mut self) {
        let removed = fs::remove_dir_all(&self.root);
        assert!(removed.is_ok() || panicking(), "{removed:?}");
    }
}

pub fn answer(rounds: usize) -> String {
    format!("states 1\nrounds {rounds}\n0 yes\nstarts yes\n")
}

/// What a call says that has all crates checked.
pub const SAID: &str = "judge: checking low (1 of 3)
judge: checking middle (2 of 3)
judge: checking judge_case (3 of 3)
";
