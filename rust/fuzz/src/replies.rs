//! How often each entry replied what.
use differential::replies::LAST_ROW;
use plain::Refusal;
use std::fmt;

#[derive(Clone, Copy, Debug)]
pub enum Entry {
    Vet,
    Open,
    Judge,
    Classes,
    Merge,
    Rewrite,
    Regular,
    JudgeKinds,
}

impl Entry {
    pub const ALL: [Entry; 8] = [
        Entry::Vet,
        Entry::Open,
        Entry::Judge,
        Entry::Classes,
        Entry::Merge,
        Entry::Rewrite,
        Entry::Regular,
        Entry::JudgeKinds,
    ];

    /// The refusals that the entry gives (docs/SPECIFICATION.md, 7.4).
    pub fn rows(self) -> Vec<usize> {
        let own: &[usize] = match self {
            Entry::Vet | Entry::Open => &[8],
            Entry::Judge => &[8, 9],
            Entry::Classes => &[13],
            Entry::Merge => &[8, 10, 13],
            Entry::Rewrite => &[11, 12, 13],
            Entry::Regular => &[9, 13, 14],
            Entry::JudgeKinds => &[8, 9, 15],
        };
        (1..=7).chain(own.iter().copied()).collect()
    }
}

/// For each entry the answers and, by number, the refusals.
#[derive(Debug, Default)]
pub struct Replies([[usize; LAST_ROW + 1]; Entry::ALL.len()]);

impl Replies {
    pub fn count<A>(&mut self, entry: Entry, reply: &Result<A, Refusal>) {
        let row = reply.as_ref().map_or_else(|refusal| refusal.number, |_| 0);
        self.0[entry as usize][row as usize] += 1;
    }

    pub fn calls(&self) -> usize {
        self.0.iter().flatten().sum()
    }

    pub fn answers(&self, entry: Entry) -> usize {
        self.0[entry as usize][0]
    }

    pub fn refusals(&self, entry: Entry, number: usize) -> usize {
        self.0[entry as usize][number]
    }
}

impl fmt::Display for Replies {
    fn fmt(&self, f: &mut fmt::Formatter<'_>) -> fmt::Result {
        write!(f, "{:<10} {:>8} {:>8}", "entry", "calls", "answers")?;
        (1..=LAST_ROW).try_for_each(|number| write!(f, " {number:>7}"))?;
        for entry in Entry::ALL {
            let counts = &self.0[entry as usize];
            let name = format!("{entry:?}").to_lowercase();
            write!(f, "\n{name:<10} {:>8}", counts.iter().sum::<usize>())?;
            write!(f, " {:>8}", counts[0])?;
            counts[1..]
                .iter()
                .try_for_each(|count| write!(f, " {count:>7}"))?;
        }
        write!(f, "\n{} calls", self.calls())
    }
}
