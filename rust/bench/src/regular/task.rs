//! One judgement of a regular rule, by each of the judges.
use super::judge::{judge, BLOCK};
use hoidrul::Reason;
use plain::Case;
use std::hint::black_box;

/// A file, and what it is called.
pub struct Task {
    pub name: &'static str,
    pub states: usize,
    pub steps: usize,
    pub nodes: usize,
    pub file: Vec<u8>,
}

pub type Answer = [u8; 32];

impl Task {
    pub fn new(name: &'static str, case: &Case) -> Task {
        let task = Task {
            name,
            states: case.labels.len(),
            steps: case.steps.len(),
            nodes: case.nodes.len(),
            file: plain::write(case),
        };
        task.vetted(&mut task.work_area());
        task
    }

    pub fn work_area(&self) -> Vec<u8> {
        vec![0; BLOCK * self.nodes]
    }

    pub fn proved(&self, work: &mut [u8]) -> Answer {
        let mut out = [0; 32];
        let written = hoidrul::regular_into(black_box(&self.file), work, &mut out);
        assert_eq!(written, Ok(32));
        out
    }

    /// The part of the proved entry that comes before the judging: refusals 1 to 7, 14, 9 and 13.
    pub fn vetted(&self, work: &mut [u8]) {
        let refusal = hoidrul::regular_into(black_box(&self.file), work, &mut []);
        let reason = refusal.expect_err("no room").reason;
        assert_eq!(reason, Reason::Room);
    }

    /// The judging alone.
    #[allow(unsafe_code)]
    pub fn unchecked(&self, work: &mut [u8]) -> Answer {
        assert!(work.len() >= BLOCK * self.nodes);
        // SAFETY: `new` has vetted the file, with its rule, and the area is long enough.
        unsafe { judge(black_box(&self.file), work) }
    }

    pub fn plain(&self) -> Answer {
        let set = plain::regular(black_box(&self.file), usize::MAX, 32);
        set.expect("a set").try_into().expect("32 bytes")
    }
}
