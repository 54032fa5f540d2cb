//! What a judgement works out once from the file, as the proved judge does.
use crate::rule::Rule;

pub struct Plan<'a> {
    pub states: usize,
    /// The words of a table: 2^n.
    pub size: usize,
    pub rule: Rule<'a>,
    /// For each proposition the states that have it.
    pub props: [u16; 8],
    /// At 8t + a the states with an a-step to t.
    sources: [u16; 128],
}

impl<'a> Plan<'a> {
    /// The plan of a file that vetting accepts.
    pub fn new(file: &'a [u8]) -> Self {
        let [labels, steps, rule] = [0, 1, 2].map(|section| section_of(file, section));
        let mut plan = Plan {
            states: labels.len(),
            size: 1 << labels.len(),
            rule: Rule::new(rule),
            props: [0; 8],
            sources: [0; 128],
        };
        plan.read_labels(labels);
        plan.read_steps(steps);
        plan
    }

    /// The words of all tables.
    pub fn words(&self) -> usize {
        self.rule.count() * self.size
    }

    /// The states with a step to this one whose action is in the group: bit a is action a.
    pub fn sources_by(&self, state: usize, group: usize) -> u16 {
        let sources = &self.sources[8 * state..8 * state + 8];
        let members = (0..8).filter(|action| group >> action & 1 == 1);
        members.fold(0, |set, action| set | sources[action])
    }

    fn read_labels(&mut self, labels: &[u8]) {
        for (state, label) in labels.iter().enumerate() {
            for (i, prop) in self.props.iter_mut().enumerate() {
                *prop |= u16::from(label >> i & 1) << state;
            }
        }
    }

    fn read_steps(&mut self, steps: &[u8]) {
        for step in steps.chunks_exact(3) {
            self.sources[8 * usize::from(step[2]) + usize::from(step[1])] |= 1 << step[0];
        }
    }
}

/// A section of a file that vetting accepts.
pub fn section_of(file: &[u8], section: usize) -> &[u8] {
    let number = |at: usize| usize::from(u16::from_le_bytes([file[at], file[at + 1]]));
    let offset = number(4 * section);
    &file[offset..offset + number(4 * section + 2)]
}
