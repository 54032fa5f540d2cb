//! One judgement, by each of the judges.
use crate::judge::judge;
use crate::plan::Plan;
use crate::tables::{Checked, Indexed, Sliced, Unchecked};
use differential::judging::number_of;
use plain::Case;
use std::hint::black_box;

/// A file, the set it is judged on, and what it is called.
pub struct Task {
    pub name: &'static str,
    pub states: usize,
    file: Vec<u8>,
    set: u16,
}

/// The set and the rounds.
pub type Answer = (u16, u64);

impl Task {
    pub fn new(name: &'static str, case: &Case, set: u16) -> Task {
        Task {
            name,
            states: case.labels.len(),
            file: plain::write(case),
            set,
        }
    }

    pub fn work_area(&self) -> Vec<u16> {
        vec![0; hoidrul::work_area(&self.file).expect("a case")]
    }

    pub fn proved(&self, work: &mut [u16]) -> Answer {
        let verdict = hoidrul::judge(black_box(&self.file), self.set, work).expect("a verdict");
        let states = verdict.states.to_u16().expect("16 states at most");
        (states, verdict.rounds)
    }

    pub fn indexed(&self, work: &mut [u16]) -> Answer {
        judge(&self.plan(), self.set.into(), &mut Indexed(Checked(work)))
    }

    pub fn sliced(&self, work: &mut [u16]) -> Answer {
        judge(&self.plan(), self.set.into(), &mut Sliced(work))
    }

    #[allow(unsafe_code)]
    pub fn unchecked(&self, work: &mut [u16]) -> Answer {
        let (plan, set) = (self.plan(), self.set.into());
        assert!(work.len() >= plan.words() && set < plan.size);
        // SAFETY: of a vetted case every table lies within the area, and every set that a table
        // holds is below 2^n; so is the set that is judged on.
        let words = unsafe { Unchecked::new(work) };
        judge(&plan, set, &mut Indexed(words))
    }

    /// The Rust judges begin with the proved vetting, so that what differs is the judging.
    fn plan(&self) -> Plan<'_> {
        let file = black_box(&self.file);
        hoidrul::vet(file, 0).expect("a case");
        Plan::new(file)
    }

    pub fn plain(&self) -> Answer {
        let file = black_box(&self.file);
        let verdict = plain::judge(file, self.set, usize::MAX).expect("a verdict");
        (number_of(&verdict.states), verdict.rounds)
    }
}
