//! Judging regular rules, on tables that may be larger than those of the other entries.
use crate::refusal::answer;
use crate::sections::accepted_section;
use crate::{ffi, Reason, Refusal, StateSet};
use crate::{LABELS, REGULAR_NODE_BYTES, REGULAR_SET_BYTES, RULE, STARTS};

/// What judging a regular rule answers.
#[must_use]
#[derive(Clone, Copy, Debug, PartialEq, Eq, Hash)]
#[non_exhaustive]
pub struct RegularVerdict {
    /// The states that hold.
    pub states: StateSet,
    /// How many states the table has: n, 1 to 256.
    pub count: usize,
    /// Whether every start state holds, which is so of an empty list.
    pub starts_hold: bool,
}

impl RegularVerdict {
    /// Whether the state holds. A state beyond the table does not.
    #[must_use]
    pub fn holds(self, state: usize) -> bool {
        self.states.contains(state)
    }
}

/// Judges a regular rule on the set of all states, of which there may be 256, in a file of up to
/// 65,535 bytes.
///
/// A rule is regular if its root reaches no τ, if every chop that it reaches has a node of kind 6, 7,
/// 13 or 14 on its left, and if it reaches such nodes only there. Nodes that it does not reach may be
/// any. On a table of up to 16 states it is what [`judge`](crate::judge) answers.
///
/// The work area may hold anything, and holds zero everywhere after an answer.
///
/// A binder takes up to n rounds, and nested binders of alternating kinds multiply theirs, so that
/// this too can take long. Only ending the process stops a call.
///
/// # Errors
///
/// Refusals 1 to 7 if the file is no case within these limits; then 14 ([`Form`]) if its rule is not
/// regular, then 9 ([`Work`]) for a work area of fewer bytes than [`regular_work_area`] tells.
///
/// # Examples
///
/// ```
/// // 200 states in a row, a step of action 0 from each to the next, and the last has proposition 0;
/// // the rule μZ.p0 or ⟨0⟩;Z; start states 0 and 199.
/// let mut file = vec![16, 0, 200, 0, 216, 0, 85, 2, 45, 3, 19, 0, 64, 3, 2, 0];
/// file.extend((0..200).map(|state| u8::from(state == 199))); // labels
/// file.extend((0..199).flat_map(|state| [state, 0, state + 1])); // steps
/// file.extend([2, 0, 0, 4, 0, 0, 6, 0, 0, 10, 2, 1, 8, 0, 3, 11, 0, 4, 5]); // rule
/// file.extend([0, 199]); // start states
///
/// let mut work = vec![7; hoidrul::regular_work_area(&file)?];
/// let verdict = hoidrul::regular(&file, &mut work)?;
/// assert!(work.iter().all(|&byte| byte == 0));
/// assert_eq!((verdict.count, verdict.states.len()), (200, 200));
/// assert!(verdict.holds(0) && verdict.starts_hold && !verdict.holds(200));
///
/// // Its root is now ⟨0⟩, a node that may stand on the left of a chop only.
/// file[832 - 1] = 2;
/// let refusal = hoidrul::regular(&file, &mut work).unwrap_err();
/// assert_eq!(refusal.reason, hoidrul::Reason::Form);
/// # Ok::<(), hoidrul::Refusal>(())
/// ```
///
/// [`Form`]: crate::Reason::Form
/// [`Work`]: crate::Reason::Work
pub fn regular(file: &[u8], work: &mut [u8]) -> Result<RegularVerdict, Refusal> {
    let mut bytes = [0; REGULAR_SET_BYTES];
    regular_into(file, work, &mut bytes)?;
    let states = StateSet::from(bytes);
    let mut starts = accepted_section(file, STARTS).iter();
    Ok(RegularVerdict {
        states,
        count: accepted_section(file, LABELS).len(),
        starts_hold: starts.all(|&state| states.contains(state.into())),
    })
}

/// Judges as [`regular`] does, and writes the set: 32 bytes, state 0 the lowest bit of the first, the
/// bits past the states 0. Answers the count of bytes written. Output bytes past them stay as they were.
///
/// # Errors
///
/// The refusals of [`regular`]; then 13 ([`Room`]) for an output area of fewer than 32 bytes.
///
/// # Examples
///
/// ```
/// // Three states, of which 0 and 2 have proposition 0; no steps, the rule p0, no start states.
/// let file = [
///     16, 0, 3, 0, 19, 0, 0, 0, 19, 0, 4, 0, 23, 0, 0, 0, // pairs
///     1, 0, 1, // labels
///     2, 0, 0, 0, // rule
/// ];
/// let mut out = [9; 33];
/// assert_eq!(hoidrul::regular_into(&file, &mut [0; 64], &mut out)?, 32);
/// assert_eq!((out[0], &out[1..32], out[32]), (0b101, &[0; 31][..], 9));
///
/// let refusal = hoidrul::regular_into(&file, &mut [0; 64], &mut out[..31]).unwrap_err();
/// assert_eq!(refusal.reason, hoidrul::Reason::Room);
/// # Ok::<(), hoidrul::Refusal>(())
/// ```
///
/// [`Room`]: crate::Reason::Room
pub fn regular_into(file: &[u8], work: &mut [u8], out: &mut [u8]) -> Result<usize, Refusal> {
    answer(ffi::regular(file, work, out)).map(|bytes| bytes as usize)
}

/// How many bytes of work area are enough to judge the case by [`regular`]: 64 × m, at most 4,096.
///
/// # Errors
///
/// Refusals 1 to 7 if the file is no case within the limits of [`regular`]; then 14
/// ([`Form`](crate::Reason::Form)) if its rule is not regular.
///
/// # Examples
///
/// ```
/// // One state, no steps, the rule tt.
/// let file = [16, 0, 1, 0, 17, 0, 0, 0, 17, 0, 4, 0, 21, 0, 0, 0, 0, 0, 0, 0, 0];
/// assert_eq!(hoidrul::regular_work_area(&file)?, 64);
/// assert!(hoidrul::regular(&file, &mut [0; 64]).is_ok());
/// let refusal = hoidrul::regular(&file, &mut [0; 63]).unwrap_err();
/// assert_eq!(refusal.reason, hoidrul::Reason::Work);
/// # Ok::<(), hoidrul::Refusal>(())
/// ```
pub fn regular_work_area(file: &[u8]) -> Result<usize, Refusal> {
    // No area is enough for any rule, so that a case is refused for that, if for nothing else.
    match regular_into(file, &mut [], &mut []) {
        Err(refusal) if refusal.reason != Reason::Work => Err(refusal),
        _ => Ok(REGULAR_NODE_BYTES * (accepted_section(file, RULE).len() / 3)),
    }
}
