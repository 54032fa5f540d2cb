//! Judging: the root's function at a set of states, and whether the start states hold.
use crate::refusal::answer;
use crate::{ffi, open, vet, Counts, Refusal, StateSet, LABELS, STARTS};

/// What judging answers.
#[must_use]
#[derive(Clone, Copy, Debug, PartialEq, Eq, Hash)]
#[non_exhaustive]
pub struct Verdict {
    /// The root's function at the given set.
    pub states: StateSet,
    /// The least k whose approximant of the root equals the next at every set; 0 where the root
    /// is no binder.
    pub rounds: u64,
}

impl Verdict {
    /// Whether the state is in the set: judged on the set of all states, whether it holds. A state
    /// beyond the case is not.
    #[must_use]
    pub fn holds(self, state: usize) -> bool {
        self.states.contains(state)
    }
}

/// Judges the case on a set of states, bit i for state i: the root's function at the set.
///
/// The work area may hold anything, and holds zero everywhere after an answer.
///
/// This can take hours: a binder takes up to n × 2^n rounds, and nested binders of alternating
/// kinds multiply theirs. Only ending the process stops a call.
///
/// # Errors
///
/// Refusals 1 to 7 if the file is no case; then 8 ([`Beyond`]) for a set beyond the case, then 9
/// ([`Work`]) for a work area of fewer words than [`work_area`] tells.
///
/// # Examples
///
/// ```
/// // Two states, a step of action 0 from 0 to 1; the rule μZ.τ or ⟨0⟩;Z: some steps lead there.
/// let file = [
///     16, 0, 2, 0, 18, 0, 3, 0, 21, 0, 19, 0, 40, 0, 0, 0, // pairs
///     0, 0, // labels
///     0, 0, 1, // steps
///     4, 0, 0, 6, 0, 0, 10, 1, 0, 5, 0, 0, 8, 3, 2, 11, 0, 4, // nodes
///     5, // root
/// ];
/// let mut work = vec![7; hoidrul::work_area(&file)?];
/// let verdict = hoidrul::judge(&file, 0b10, &mut work)?;
/// assert_eq!((verdict.states, verdict.rounds), (0b11_u16.into(), 2));
/// assert!(work.iter().all(|&word| word == 0));
/// assert!(verdict.holds(0) && verdict.holds(1) && !verdict.holds(2));
///
/// let refusal = hoidrul::judge(&file, 0b100, &mut work).unwrap_err();
/// assert_eq!(refusal.reason, hoidrul::Reason::Beyond);
/// # Ok::<(), hoidrul::Refusal>(())
/// ```
///
/// [`Beyond`]: crate::Reason::Beyond
/// [`Work`]: crate::Reason::Work
pub fn judge(file: &[u8], set: u16, work: &mut [u16]) -> Result<Verdict, Refusal> {
    verdict(ffi::judge(file, set, work))
}

/// Takes a judging entry's reply apart.
pub(crate) fn verdict(reply: u64) -> Result<Verdict, Refusal> {
    let reply = answer(reply)?;
    Ok(Verdict {
        states: (reply as u16).into(),
        rounds: reply >> 16,
    })
}

/// Whether every start state holds, which is judged on the set of all states: the last word of the
/// judging program. It is so of an empty list.
///
/// The work area and the time are those of [`judge`]. Who has the verdict on all states already
/// need not judge again: the start states are the bytes of the section [`STARTS`].
///
/// # Errors
///
/// Refusals 1 to 7 if the file is no case; then 9 ([`Work`]) for a work area of fewer words than
/// [`work_area`] tells.
///
/// # Examples
///
/// ```
/// // Two states, of which 0 has proposition 0; no steps, the rule p0, and a list of start states.
/// let file = |start| {
///     [
///         16, 0, 2, 0, 18, 0, 0, 0, 18, 0, 4, 0, 22, 0, 1, 0, // pairs
///         1, 0, // labels
///         2, 0, 0, 0, // rule
///         start,
///     ]
/// };
/// assert!(hoidrul::starts_hold(&file(0), &mut [0; 8])?);
/// assert!(!hoidrul::starts_hold(&file(1), &mut [0; 8])?);
///
/// let refusal = hoidrul::starts_hold(&file(2), &mut [0; 8]).unwrap_err();
/// assert_eq!(refusal.reason, hoidrul::Reason::Rule);
/// let refusal = hoidrul::starts_hold(&file(0), &mut [0; 7]).unwrap_err();
/// assert_eq!(refusal.reason, hoidrul::Reason::Work);
/// # Ok::<(), hoidrul::Refusal>(())
/// ```
///
/// [`Work`]: crate::Reason::Work
pub fn starts_hold(file: &[u8], work: &mut [u16]) -> Result<bool, Refusal> {
    let all = vet(file, STARTS)?.all_states();
    let verdict = judge(file, all, work)?;
    let starts = open(file, STARTS)?;
    Ok(starts.iter().all(|&state| verdict.holds(state.into())))
}

/// How many words of work area are enough to judge the case: 2 × m × 2^n.
///
/// # Errors
///
/// Refusals 1 to 7 if the file is no case.
///
/// # Examples
///
/// ```
/// // One state, no steps, the rule τ.
/// let file = [16, 0, 1, 0, 17, 0, 0, 0, 17, 0, 4, 0, 21, 0, 0, 0, 0, 5, 0, 0, 0];
/// assert_eq!(hoidrul::work_area(&file)?, 4);
/// assert!(hoidrul::judge(&file, 0, &mut [0; 4]).is_ok());
/// let refusal = hoidrul::judge(&file, 0, &mut [0; 3]).unwrap_err();
/// assert_eq!(refusal.reason, hoidrul::Reason::Work);
/// # Ok::<(), hoidrul::Refusal>(())
/// ```
pub fn work_area(file: &[u8]) -> Result<usize, Refusal> {
    vet(file, LABELS).map(Counts::words)
}
