//! The script over the proved program: where a case may come from, and its answer.
use crate::calls::{folder, in_words, script, shells, Outcome, Wrapper, NO_START};
use differential::drives::{case, drives, folder as cases, longest, read, starting_in};
use differential::padding::{all, write_padded, WIDEST};
use differential::printed::wanted;
use plain::{parse, Limits};
use std::env;
use std::fs;
use std::os::unix::fs::symlink;
use std::path::Path;
use std::process::Command;
use std::sync::Once;

/// The script of the repository, called from an empty folder.
pub fn wrapper(name: &str) -> Wrapper {
    static CHECKED: Once = Once::new();
    let from = folder(name);
    let temporary = from.join("temporary");
    fs::create_dir(&temporary).expect("a folder");
    let wrapper = Wrapper {
        script: script(),
        from,
        path: env::var_os("PATH").expect("PATH"),
        temporary,
    };
    // The first call says which crates it checks.
    CHECKED.call_once(|| {
        let first = wrapper.run_by("", "judge", &read("f.case"));
        assert_eq!(
            first.print,
            "states 2\nrounds 2\n0 yes\n1 yes\nstarts yes\n"
        );
        assert_eq!(first.status, Some(0), "{}", first.said);
    });
    wrapper
}

/// Looks at the outcomes of a text by each of the shells.
pub fn each(wrapper: &Wrapper, text: &str, input: &[u8], look: impl Fn(Outcome)) {
    for shell in shells() {
        println!("{shell}: {text}");
        look(wrapper.run_by(shell, text, input));
        assert!(wrapper.is_clean());
    }
}

/// What the script has to print of a case and to say.
pub struct Answer {
    print: String,
    said: String,
}

impl Answer {
    fn to(file: &[u8]) -> Answer {
        let print = wanted(file);
        let said = match parse(file) {
            _ if print.starts_with("refused ") => in_words(&print),
            Ok(case) if case.starts.is_empty() => NO_START.to_string(),
            _ => String::new(),
        };
        Answer { print, said }
    }

    fn is(&self, outcome: &Outcome) {
        outcome.answers(&self.print, &self.said);
    }
}

fn each_answers(wrapper: &Wrapper, text: &str, input: &[u8], answer: &Answer) {
    each(wrapper, text, input, |outcome| answer.is(&outcome));
}

pub fn each_is_trouble(wrapper: &Wrapper, text: &str, word: &str) {
    each(wrapper, text, b"", |outcome| outcome.is_trouble(word));
}

/// Two wheels, as a file of this name in the folder of the call.
pub fn put(wrapper: &Wrapper, name: &str) -> Answer {
    let file = read("two_wheels.case");
    fs::write(wrapper.from.join(name), &file).expect("a file written");
    Answer::to(&file)
}

#[test]
fn files_of_the_folder() {
    let wrapper = wrapper("cases");
    for (name, _) in drives() {
        let answer = Answer::to(&read(name));
        let file = cases().join(name);
        let file = file.to_str().expect("a plain name");
        answer.is(&wrapper.run(&format!("judge '{file}'")));
        answer.is(&wrapper.run_by("", "judge", &read(name)));
    }
}

/// The rule p0 on states of which 0 and 2 have it. What is said rests on the start states alone, wherever
/// their section begins, also behind byte 256.
#[test]
fn start_states() {
    let wrapper = wrapper("starts");
    let steps: Vec<_> = (0..24).map(|i| (i / 8, i % 8, 0)).collect();
    let expect = |starts: &[u8], last: &str, said: &str| {
        let case = starting_in(starts, case(&[1, 0, 1], &steps, &[(2, 0, 0); 64]));
        let print = format!("states 3\nrounds 0\n0 yes\n1 no\n2 yes\nstarts {last}\n");
        let answer = Answer::to(&write_padded(&case, WIDEST));
        assert_eq!((&*answer.print, &*answer.said), (&*print, said));
        each_answers(&wrapper, "judge", &write_padded(&case, WIDEST), &answer);
        for gaps in all().step_by(7) {
            answer.is(&wrapper.run_by("", "judge", &write_padded(&case, gaps)));
        }
    };
    expect(&[], "yes", NO_START);
    expect(&[0], "yes", "");
    expect(&[0, 2], "yes", "");
    expect(&[1], "no", "");
}

#[test]
fn strange_names() {
    let wrapper = wrapper("names");
    for name in ["-n", "--", "a b", "a\nb\n", "*", "!", "(", "$HOME", "é"] {
        let answer = put(&wrapper, name);
        each_answers(&wrapper, &format!("judge '{name}'"), b"", &answer);
    }
    for name in ["-", "-h", "--help"] {
        let answer = put(&wrapper, name);
        each_answers(&wrapper, &format!("judge ./{name}"), b"", &answer);
    }
}

/// Even where there is a file of that name.
#[test]
fn a_dash_is_standard_input() {
    let wrapper = wrapper("dash");
    put(&wrapper, "-");
    let file = read("f.case");
    each_answers(&wrapper, "judge -", &file, &Answer::to(&file));
    each_is_trouble(&wrapper, "judge - <&-", "standard input is closed");
}

#[test]
fn other_than_files() {
    let wrapper = wrapper("others");
    let answer = put(&wrapper, "case");
    for text in [
        "judge /dev/stdin <case",
        "judge /dev/fd/3 3<case",
        "judge /dev/fd/9 9<case",
        "judge /dev/fd/2 2<case",
        "cat case | judge /dev/fd/0",
        "cat case | judge",
        "mkfifo fifo; { sleep 0.1; cat case; } >fifo & judge fifo; rm fifo",
        "mkfifo fifo; cat case >fifo & timeout 5 $BY \"$JUDGE\" fifo; rm fifo",
        "judge case <&-",
        "judge case 2>&-",
    ] {
        let said = if text.contains(" 2") { "" } else { NO_START };
        let text = format!("{text}\n");
        each(&wrapper, &text, b"", |outcome| {
            assert_eq!(outcome.print, answer.print);
            assert_eq!(outcome.said, said);
        });
    }
}

#[test]
fn help() {
    let wrapper = wrapper("help");
    put(&wrapper, "-h");
    for text in ["judge --help", "judge -h"] {
        each(&wrapper, text, b"", |outcome| {
            assert!(outcome.print.starts_with("usage: judge [FILE]\n"));
            assert_eq!((&*outcome.said, outcome.status), ("", Some(0)));
        });
    }
    each_is_trouble(&wrapper, "judge --help --help", "more than one");
    each_is_trouble(&wrapper, "judge -h -", "more than one");
    each_is_trouble(&wrapper, "judge --help >/dev/full", "written");
}

#[test]
fn refusals() {
    let wrapper = wrapper("refusals");
    let longest = write_padded(&longest(Limits::CASE), WIDEST);
    let too_large = Answer::to(&longest);
    assert_eq!(too_large.print, "refused 9 0\n");
    each_answers(&wrapper, "judge", &longest, &too_large);
    let too_long = Answer::to(&[0; 65_536]);
    assert_eq!(too_long.print, "refused 1 0\n");
    for length in [0, 1, longest.len() + 1, 65_535, 65_536, 65_537, 300_000] {
        let mut file = longest.clone();
        file.resize(length, 0);
        assert_eq!(wanted(&file), too_long.print);
        too_long.is(&wrapper.run_by("", "judge", &file));
    }
    each_answers(&wrapper, "judge </dev/zero", b"", &too_long);
    each_answers(&wrapper, "judge /dev/zero", b"", &too_long);
}

/// By a link, by a link to it and through a linked folder, with a CDPATH that leads elsewhere.
#[test]
fn through_links() {
    let wrapper = wrapper("links");
    let answer = put(&wrapper, "case");
    let from = &wrapper.from;
    fs::create_dir_all(from.join("bin/more")).expect("a folder");
    symlink(script(), from.join("bin/first")).expect("a link");
    symlink("../first", from.join("bin/more/second")).expect("a link");
    symlink("bin/more", from.join("third")).expect("a link");
    let repository = script();
    let repository = repository.parent().and_then(Path::to_str);
    for (folder, call) in [
        (".", "$BY bin/first"),
        (".", "$BY ./bin/more/second"),
        (".", "$BY third/second"),
        ("bin/more", "$BY ./second"),
        ("third", "$BY ../more/second"),
        ("third", "${BY:-sh} second"),
        (".", "PATH=$PATH:$FROM/bin first"),
        (".", "PATH=$PATH:bin first"),
        ("/", "judge"),
        (repository.expect("a plain name"), "${BY:-sh} judge"),
    ] {
        let start = format!("FROM=$PWD; cd '{folder}'; export CDPATH=\"$FROM:/:..\"");
        let text = format!("{start}; {call} \"$FROM/case\"");
        each_answers(&wrapper, &text, b"", &answer);
    }
}

/// The message comes first, so that nobody waits without knowing what for.
#[test]
fn at_a_terminal() {
    if Command::new("script").arg("--version").output().is_err() {
        println!("skipped: there is no script of util-linux");
        return;
    }
    let wrapper = wrapper("terminal");
    let text = "SHELL=/bin/sh script -qec '$BY \"$JUDGE\"' /dev/null";
    for shell in shells() {
        let outcome = wrapper.run_by(shell, text, b"typed\n");
        let said = outcome.print.find("judge: ").expect("a message");
        let answer = outcome.print.find("refused 1 0").expect("an answer");
        assert!(outcome.print[said..answer].contains("terminal"));
        assert_eq!(outcome.status, Some(1));
    }
}
