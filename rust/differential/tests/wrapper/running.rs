//! Calls that run long, to be ended by a signal, and what is left of them.
use crate::calls::{shells, Wrapper};
use crate::inputs::wrapper;
use differential::drives::case;
use plain::kinds::{AND, CHOP, MU, NU, OR, PROPOSITION, VARIABLE};
use plain::write;
use std::fs;
use std::io::Read;
use std::os::unix::process::ExitStatusExt;
use std::process::{Child, Command, ExitStatus, Stdio};
use std::thread::sleep;
use std::time::{Duration, Instant};

pub const TERM: (&str, i32) = ("TERM", 15);

/// Calls the script in place of the shell, whose number is then the script's.
pub const JUDGE: &str = "exec $BY \"$JUDGE\"";

/// Each signal that can be tried here, with its number, and what to call the script by: where the tests
/// run, HUP and INT may be ignored.
pub fn signals() -> (Vec<(&'static str, i32)>, &'static str) {
    let by = "env --default-signal=HUP,INT,TERM";
    let tried = Command::new("sh")
        .args(["-c", &format!("{by} true")])
        .output();
    if tried.is_ok_and(|output| output.status.success()) {
        (vec![TERM, ("INT", 2), ("HUP", 1)], by)
    } else {
        println!("skipped: env has no --default-signal, so INT and HUP may be ignored here");
        (vec![TERM], "")
    }
}

pub fn all_shells() -> Vec<&'static str> {
    let mut all = shells();
    if all.contains(&"bash --posix") {
        all.push("bash");
    }
    all
}

/// Looks again and again, for a minute at most.
pub fn until<T>(what: &str, mut look: impl FnMut() -> Option<T>) -> T {
    let began = Instant::now();
    loop {
        if let Some(seen) = look() {
            return seen;
        }
        assert!(began.elapsed() < Duration::from_secs(60), "never: {what}");
        sleep(Duration::from_millis(5));
    }
}

/// A call whose processes are ended with it, also where a test fails.
pub struct Call<'a> {
    wrapper: &'a Wrapper,
    pub child: Child,
}

impl Call<'_> {
    pub fn begin<'a>(wrapper: &'a Wrapper, shell: &str, text: &str) -> Call<'a> {
        println!("{shell}: {text}");
        let child = wrapper.begin(shell, text);
        Call { wrapper, child }
    }

    /// Waits for a process of this name.
    pub fn runs(&self, name: &str) {
        let is_named = |(_, other): &(String, String)| other == name;
        let look = || self.wrapper.running().iter().any(is_named).then_some(());
        until(name, look);
    }

    pub fn send(&self, signal: &str) {
        kill(signal, &self.child.id().to_string());
    }

    pub fn end(&mut self) -> ExitStatus {
        until("the end", || self.child.try_wait().expect("a status"))
    }

    pub fn is_ended_by(&mut self, (name, number): (&str, i32)) {
        let status = self.end();
        assert_eq!(status.signal(), Some(number), "{name}: {status}");
    }

    /// That nothing is left once the script has ended, and it has said nothing.
    pub fn leaves_nothing(&mut self) {
        let running = self.wrapper.running();
        assert!(running.is_empty(), "{running:?}");
        assert!(self.wrapper.is_clean());
        let mut text = String::new();
        let print = self.child.stdout.as_mut().expect("a pipe");
        print.read_to_string(&mut text).expect("text");
        let said = self.child.stderr.as_mut().expect("a pipe");
        said.read_to_string(&mut text).expect("text");
        assert_eq!(text, "");
    }

    /// The same, where something may run on for a moment.
    pub fn leaves_nothing_soon(&mut self) {
        let look = || self.wrapper.running().is_empty().then_some(());
        until("the end of all", look);
        self.leaves_nothing();
    }
}

impl Drop for Call<'_> {
    fn drop(&mut self) {
        for (number, _) in self.wrapper.running() {
            kill("KILL", &number);
        }
        self.child.wait().expect("an end");
    }
}

/// The process may have ended before.
fn kill(signal: &str, number: &str) {
    let kill = Command::new("kill")
        .args(["-s", signal, number])
        .stdin(Stdio::null())
        .stderr(Stdio::null())
        .status();
    kill.expect("kill");
}

/// A case that is judged for hours: eight binders in each other, μ and ν in turn, where each takes 15
/// rounds in every round of the one around it. States turn by action 0 in a ring of three and one of
/// five, and by action 1 step to the first of each; a proposition stands for the state of its number.
/// In the body Xi has the part pi and ([1] or Xi;⟨0⟩), or for ν pi and (⟨1⟩ and Xi;⟨0⟩).
pub fn slow() -> Vec<u8> {
    let mut nodes = vec![(6, 0, 0), (7, 1, 0), (6, 1, 0)];
    for level in 0..8 {
        let next = nodes.len() as u8;
        let (operation, modality) = [(OR, 1), (AND, 2)][usize::from(level % 2)];
        nodes.extend([
            (VARIABLE, level, 0),
            (CHOP, next, 0),
            (operation, modality, next + 1),
            (PROPOSITION, level, 0),
            (AND, next + 3, next + 2),
        ]);
        if level > 0 {
            nodes.push((OR, next - 1, next + 4));
        }
    }
    for level in (0..8).rev() {
        let kind = [MU, NU][usize::from(level % 2)];
        nodes.push((kind, level, nodes.len() as u8 - 1));
    }
    let turned = [1, 2, 0, 4, 5, 6, 7, 3].into_iter().zip(0..);
    let steps: Vec<_> = turned
        .flat_map(|(to, from)| [(from, 0, to), (from, 1, 0), (from, 1, 3)])
        .collect();
    let labels: Vec<u8> = (0..8).map(|state| 1 << state).collect();
    write(&case(&labels, &steps, &nodes))
}

pub fn wrapper_of_slow(name: &str) -> Wrapper {
    let wrapper = wrapper(name);
    fs::write(wrapper.from.join("slow"), slow()).expect("a file written");
    wrapper
}
