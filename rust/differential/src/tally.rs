//! The comparison of the two checkers, and a count of what was compared.
use crate::groups::has_group;
use crate::padding::{gaps_of, PACKED};
use crate::replies::{in_plain, LAST_ROW};
use plain::Refusal;
use std::hint::black_box;
use std::ops::Range;

/// What vetting replies: n and m, or a refusal.
pub type Reply = Result<(usize, usize), Refusal>;

/// How often each reply came.
#[derive(Debug, Default)]
pub struct Tally {
    /// Calls of the proved library.
    pub calls: usize,
    pub answers: usize,
    /// Those of them about a rule that has a node with a group.
    pub with_groups: usize,
    /// Those about a case that has start states.
    pub with_starts: usize,
    /// Those about a padded file.
    pub with_padding: usize,
    /// By number; index 0 is unused.
    pub refusals: [usize; LAST_ROW + 1],
    /// Those of them whose place is not 0.
    pub placed: [usize; LAST_ROW + 1],
}

impl Tally {
    /// Vets and opens by both checkers, which must agree, and returns their reply.
    pub fn compare(&mut self, file: &[u8], section: usize) -> Reply {
        let reply = compare(file, section);
        self.calls += 2;
        match reply {
            Ok(_) => {
                self.answers += 1;
                let case = plain::parse(file).expect("what is answered is a case");
                let has_groups = case.nodes.iter().any(|&node| has_group(node));
                self.with_groups += usize::from(has_groups);
                self.with_starts += usize::from(!case.starts.is_empty());
                self.with_padding += usize::from(gaps_of(file) != PACKED);
            }
            Err(refusal) => {
                self.refusals[refusal.number as usize] += 1;
                self.placed[refusal.number as usize] += usize::from(refusal.place != 0);
            }
        }
        reply
    }
}

/// Vets and opens by both checkers, which must agree, and returns their reply.
pub fn compare(file: &[u8], section: usize) -> Reply {
    let before = file.to_vec();
    let proved = in_plain(hoidrul::vet(file, section));
    let proved = proved.map(|counts| (counts.states, counts.nodes));
    let part = in_plain(hoidrul::open(file, section)).map(|part| part_of(file, part));
    assert!(black_box(file) == before, "the lent file was changed");

    let plain = plain::vet(file, section);
    assert_eq!(proved, plain, "vetting section {section} of {file:?}");
    let expected = plain::open(file, section);
    assert_eq!(part, expected, "opening section {section} of {file:?}");
    plain
}

/// Where the part stands within the file: by its address, so that a copy is not taken for it.
fn part_of(file: &[u8], part: &[u8]) -> Range<usize> {
    let (lent, given) = (file.as_ptr_range(), part.as_ptr_range());
    assert!(
        lent.start <= given.start && given.end <= lent.end,
        "a part outside the lent file"
    );
    let start = given.start as usize - lent.start as usize;
    start..start + part.len()
}
