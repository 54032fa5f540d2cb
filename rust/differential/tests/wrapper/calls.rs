//! Calls of the script, in a shell, for what no argument can say: closed and redirected files.
use hoidrul::{Reason, Refusal};
use std::ffi::OsString;
use std::fs;
use std::io::{ErrorKind, Write};
use std::path::{Path, PathBuf};
use std::process::{Child, Command, Stdio};

/// The script of the repository.
pub fn script() -> PathBuf {
    let script = Path::new(env!("CARGO_MANIFEST_DIR")).join("../../judge");
    script.canonicalize().expect("the script judge")
}

/// An empty folder of this name, which has a space.
pub fn folder(name: &str) -> PathBuf {
    let folder = Path::new(env!("CARGO_TARGET_TMPDIR")).join(format!("judge {name}"));
    if folder.exists() {
        fs::remove_dir_all(&folder).expect("an old folder removed");
    }
    fs::create_dir(&folder).expect("a folder");
    folder
}

/// How to run a script: by its first line, and by each of these shells that is there.
pub fn shells() -> Vec<&'static str> {
    let there = |shell: &&str| {
        let words: Vec<_> = shell.split(' ').collect();
        let mut call = Command::new(words[0]);
        call.args(&words[1..]).args(["-c", ":"]);
        call.status().is_ok_and(|status| status.success())
    };
    let mut shells = vec![""];
    shells.extend(["dash", "bash --posix"].into_iter().filter(there));
    shells
}

/// What the script says where `starts yes` rests on no start state.
pub const NO_START: &str =
    "judge: the case names no start state, so starts yes says nothing of the drive\n";

/// What the script says of a refusal: the binding's words, and of the work area where to turn.
pub fn in_words(print: &str) -> String {
    let (refused, place) = print.trim_end().rsplit_once(' ').expect("a place");
    let place: usize = place.parse().expect("a number");
    let known = Reason::ALL.iter().map(|&reason| Refusal { reason, place });
    let mut lines = known.map(|refusal| refusal.to_string());
    let line = lines.find(|line| line.starts_with(&format!("{refused} {place}: ")));
    let more = if refused == "refused 9" {
        " (the program has 32,768 words; larger cases go by the library)"
    } else {
        ""
    };
    format!("judge: {}{more}\n", line.expect("a known refusal"))
}

/// The outcome of a call.
#[derive(Debug, PartialEq)]
pub struct Outcome {
    pub print: String,
    pub said: String,
    pub status: Option<i32>,
}

impl Outcome {
    /// This answer, with its status, and this on standard error.
    pub fn answers(&self, print: &str, said: &str) {
        let status = i32::from(print.starts_with("refused "));
        assert_eq!((&*self.print, &*self.said), (print, said));
        assert_eq!(self.status, Some(status));
    }

    /// No answer, and one line on standard error, which has this word.
    pub fn is_trouble(&self, word: &str) {
        self.ends_in_trouble(word);
        assert_eq!(self.said.lines().count(), 1, "{self:?}");
    }

    /// The same where crates were checked before, and said to be.
    pub fn ends_in_trouble(&self, word: &str) {
        assert_eq!((&*self.print, self.status), ("", Some(2)), "{self:?}");
        assert!(self.said.ends_with('\n'), "{self:?}");
        let last = self.said.lines().last().expect("a line");
        assert!(last.starts_with("judge: "), "{self:?}");
        assert!(last.contains(word), "{word}: {self:?}");
    }
}

/// A script to call, from this folder, with this PATH and this folder for temporary files.
pub struct Wrapper {
    pub script: PathBuf,
    pub from: PathBuf,
    pub path: OsString,
    pub temporary: PathBuf,
}

impl Wrapper {
    /// Begins a text of shell, in which `judge` calls the script by the shell named.
    pub fn begin(&self, shell: &str, text: &str) -> Child {
        let judge = r#"judge() { $BY "$JUDGE" "$@"; }"#;
        Command::new("sh")
            .args(["-c", &format!("{judge}\n{text}")])
            .env("BY", shell)
            .env("JUDGE", &self.script)
            .env("PATH", &self.path)
            .env("TMPDIR", &self.temporary)
            .current_dir(&self.from)
            .stdin(Stdio::piped())
            .stdout(Stdio::piped())
            .stderr(Stdio::piped())
            .spawn()
            .expect("a shell")
    }

    /// The outcome of a text of shell, with this on standard input.
    pub fn run_by(&self, shell: &str, text: &str, input: &[u8]) -> Outcome {
        let mut child = self.begin(shell, text);
        let mut stdin = child.stdin.take().expect("a pipe");
        // The script may end before it has read all.
        let sent = stdin.write_all(input);
        assert!(sent.is_ok() || sent.is_err_and(|error| error.kind() == ErrorKind::BrokenPipe));
        drop(stdin);
        outcome(child)
    }

    pub fn run(&self, text: &str) -> Outcome {
        self.run_by("", text, b"")
    }

    /// That nothing is left of the script's temporary files.
    pub fn is_clean(&self) -> bool {
        fs::read_dir(&self.temporary).expect("a folder").count() == 0
    }

    /// The numbers and names of the processes that calls have started and that still run. Their folder
    /// for temporary files tells them from all others.
    pub fn running(&self) -> Vec<(String, String)> {
        let mark = format!("TMPDIR={}\0", self.temporary.display());
        let mut running = vec![];
        for process in fs::read_dir("/proc").expect("/proc").flatten() {
            let read = |name| {
                let bytes = fs::read(process.path().join(name)).unwrap_or_default();
                String::from_utf8_lossy(&bytes).into_owned()
            };
            if read("environ").contains(&mark) {
                let number = process.file_name().into_string().expect("text");
                running.push((number, read("comm").trim_end().to_string()));
            }
        }
        running
    }
}

pub fn outcome(child: Child) -> Outcome {
    let output = child.wait_with_output().expect("the shell's output");
    Outcome {
        print: String::from_utf8(output.stdout).expect("text"),
        said: String::from_utf8(output.stderr).expect("text"),
        status: output.status.code(),
    }
}
