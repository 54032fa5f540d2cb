//! Vetting a case and opening its sections.
use crate::refusal::answer;
use crate::{ffi, Refusal, MOST_NODES, MOST_STATES};

/// The section of labels: a byte a state, bit i for proposition i.
pub const LABELS: usize = 0;
/// The section of steps: three bytes each, from, action, to.
pub const STEPS: usize = 1;
/// The section of the rule: nodes (kind, A, B), then the root's number.
///
/// | Kind | Yields | A | B |
/// |---|---|---|---|
/// | 0 | tt: all states | | |
/// | 1 | ff: no state | | |
/// | 2 | the states that have proposition A | 0 to 7 | |
/// | 3 | those that do not have it | 0 to 7 | |
/// | 4 | what variable A yields | 0 to 15 | |
/// | 5 | τ: the set that is given | | |
/// | 6 | ⟨a⟩: some step by action A leads into the set | 0 to 7 | |
/// | 7 | \[a\]: all such steps do | 0 to 7 | |
/// | 8 | what A or B yields | a node | a node |
/// | 9 | what both A and B yield | a node | a node |
/// | 10 | A;B: what A yields of what B yields | a node | a node |
/// | 11 | μ: the least fixed point | its variable, 0 to 15 | its body, a node |
/// | 12 | ν: the greatest fixed point | the same | the same |
/// | 13 | some step whose action is in the group A leads into the set | 0 to 255, bit i for action i | |
/// | 14 | all such steps do | the same | |
///
/// An operand without an entry is unused and has to be 0; a node that is named has to be lower. Of a
/// state without such a step all such steps lead into the set, so that the empty group, 0, yields
/// no state by kind 13 and every state by kind 14.
pub const RULE: usize = 2;
/// The section of start states: a byte each, the state's number, strictly rising. It may be empty.
pub const STARTS: usize = 3;

/// What vetting answers: how many states and nodes there are.
#[derive(Clone, Copy, Debug, PartialEq, Eq, Hash)]
#[non_exhaustive]
pub struct Counts {
    /// n, 1 to 16.
    pub states: usize,
    /// m, 1 to 64, unreached nodes included.
    pub nodes: usize,
}

impl Counts {
    /// The set of all states: bit i is state i.
    #[must_use]
    pub fn all_states(self) -> u16 {
        (0..self.states.min(MOST_STATES))
            .map(|state| 1 << state)
            .sum()
    }

    /// How many words of work area are enough to judge the case: 2 × m × 2^n.
    #[must_use]
    pub fn words(self) -> usize {
        (2 * self.nodes.min(MOST_NODES)) << self.states.min(MOST_STATES)
    }
}

/// Vets the whole case, then the section number.
///
/// # Errors
///
/// Refusals 1 to 7 if the file is no case; then 8 ([`Beyond`]) for a number that is no section's.
///
/// # Examples
///
/// ```
/// // One state, no steps, the rule τ.
/// let file = [16, 0, 1, 0, 17, 0, 0, 0, 17, 0, 4, 0, 21, 0, 0, 0, 0, 5, 0, 0, 0];
/// let counts = hoidrul::vet(&file, hoidrul::RULE)?;
/// assert_eq!((counts.states, counts.nodes), (1, 1));
/// assert_eq!((counts.all_states(), counts.words()), (0b1, 4));
///
/// let refusal = hoidrul::vet(&file, 4).unwrap_err();
/// assert_eq!(refusal.reason, hoidrul::Reason::Beyond);
/// # Ok::<(), hoidrul::Refusal>(())
/// ```
///
/// [`Beyond`]: crate::Reason::Beyond
pub fn vet(file: &[u8], section: usize) -> Result<Counts, Refusal> {
    let counts = answer(ffi::vet(file, section))?;
    Ok(Counts {
        states: (counts & 0xffff) as usize,
        nodes: (counts >> 16) as usize,
    })
}

/// Opens a section: a part of the lent file, without copying and without padding. Steps and start
/// states may be empty.
///
/// # Errors
///
/// The refusals of [`vet`].
///
/// # Examples
///
/// ```
/// use hoidrul::{open, LABELS, RULE, STARTS, STEPS};
///
/// // One state with proposition 2, no steps, the rule τ, and state 0 as the only start state.
/// let file = [
///     16, 0, 1, 0, 17, 0, 0, 0, 17, 0, 4, 0, 21, 0, 1, 0, // pairs
///     0b100, // labels
///     5, 0, 0, 0, // rule
///     0, // start states
/// ];
/// assert_eq!(open(&file, LABELS)?, [0b100]);
/// assert_eq!(open(&file, STEPS)?, []);
/// assert_eq!(open(&file, RULE)?, [5, 0, 0, 0]);
/// assert_eq!(open(&file, STARTS)?, [0]);
///
/// assert_eq!(open(&file, 4).unwrap_err().number(), 8);
///
/// // The same sections, each at a multiple of four.
/// let aligned = [
///     16, 0, 1, 0, 20, 0, 0, 0, 20, 0, 4, 0, 24, 0, 1, 0, // pairs
///     0b100, 0, 0, 0, // labels, and three bytes of padding
///     5, 0, 0, 0, // rule
///     0, // start states
/// ];
/// for section in [LABELS, STEPS, RULE, STARTS] {
///     assert_eq!(open(&aligned, section)?, open(&file, section)?);
/// }
/// # Ok::<(), hoidrul::Refusal>(())
/// ```
pub fn open(file: &[u8], section: usize) -> Result<&[u8], Refusal> {
    let part = ffi::open(file, section);
    if part == 0 {
        // Opening does not say why it refuses, but vetting refuses for the same reason.
        vet(file, section)?;
    }
    let (offset, length) = ((part >> 32) as usize, part as u32 as usize);
    Ok(&file[offset..offset + length])
}

/// A section of a file that an entry has accepted, which has found its pairs right.
pub(crate) fn accepted_section(file: &[u8], section: usize) -> &[u8] {
    let number = |at: usize| usize::from(u16::from_le_bytes([file[at], file[at + 1]]));
    let offset = number(4 * section);
    &file[offset..offset + number(4 * section + 2)]
}
