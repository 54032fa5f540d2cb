//! Entries that write to an output area: classes, merging, rewriting.
//!
//! Each answers the count of bytes written, from the area's start. Output bytes past the result
//! stay as they were. A written file is packed, whatever padding the given one has.
use crate::refusal::answer;
use crate::{ffi, Refusal};

/// Writes one byte a state, the lowest that is alike to it, and answers the count of bytes, which
/// is that of states.
///
/// States are alike where a bisimulation relates them: their labels agree, and each step of either
/// state is met by one of the other, with the same action and into a related state. It compares only
/// as far as the rule looks: the propositions, and the steps of the actions, that occur in a node
/// that the root reaches, where a group of actions stands for all of them. Other label bits and steps
/// make no difference.
///
/// # Errors
///
/// Refusals 1 to 7 if the file is no case; then 13 ([`Room`]) for an area shorter than the result.
///
/// # Examples
///
/// ```
/// // Three states, a step of action 0 from each of 0 and 1 to 2; the rule ⟨0⟩ does not look at
/// // proposition 7, which only state 1 has; start states 1 and 2.
/// let file = [
///     16, 0, 3, 0, 19, 0, 6, 0, 25, 0, 4, 0, 29, 0, 2, 0, // pairs
///     0, 128, 0, // labels
///     0, 0, 2, 1, 0, 2, // steps
///     6, 0, 0, 0, // rule
///     1, 2, // start states
/// ];
/// let mut out = [9; 4];
/// assert_eq!(hoidrul::classes(&file, &mut out)?, 3);
/// assert_eq!(out, [0, 0, 2, 9]);
///
/// let refusal = hoidrul::classes(&file, &mut [0; 2]).unwrap_err();
/// assert_eq!(refusal.reason, hoidrul::Reason::Room);
/// # Ok::<(), hoidrul::Refusal>(())
/// ```
///
/// [`Room`]: crate::Reason::Room
pub fn classes(file: &[u8], out: &mut [u8]) -> Result<usize, Refusal> {
    count(ffi::classes(file, out))
}

/// Merges two alike states, given in either order: writes the packed file of the case in which the
/// lower stands for both, also in the list of start states, and answers its count of bytes. The lower
/// keeps its whole label and all its steps, and steps to the higher lead to it, also where the rule
/// does not look; steps of the higher are dropped. States above the higher move down by one. On the
/// set of all states, each state holds exactly if the state standing for it does.
///
/// # Errors
///
/// Refusals 1 to 7 if the file is no case; then 8 ([`Beyond`]) for a state beyond the case, 10
/// ([`Unlike`]) for a state with itself or states not alike, 13 ([`Room`]) for an area shorter than
/// the result.
///
/// # Examples
///
/// ```
/// // The case of `classes`.
/// let file = [
///     16, 0, 3, 0, 19, 0, 6, 0, 25, 0, 4, 0, 29, 0, 2, 0, // pairs
///     0, 128, 0, // labels
///     0, 0, 2, 1, 0, 2, // steps
///     6, 0, 0, 0, // rule
///     1, 2, // start states
/// ];
/// let mut out = [0; hoidrul::LONGEST];
/// let length = hoidrul::merge(&file, 1, 0, &mut out)?;
/// assert_eq!(hoidrul::open(&out[..length], hoidrul::LABELS)?, [0, 0]);
/// assert_eq!(hoidrul::open(&out[..length], hoidrul::STEPS)?, [0, 0, 1]);
/// assert_eq!(hoidrul::open(&out[..length], hoidrul::STARTS)?, [0, 1]);
///
/// let refusal = hoidrul::merge(&file, 0, 2, &mut out).unwrap_err();
/// assert_eq!(refusal.reason, hoidrul::Reason::Unlike);
/// # Ok::<(), hoidrul::Refusal>(())
/// ```
///
/// [`Beyond`]: crate::Reason::Beyond
/// [`Unlike`]: crate::Reason::Unlike
/// [`Room`]: crate::Reason::Room
pub fn merge(file: &[u8], s: usize, t: usize, out: &mut [u8]) -> Result<usize, Refusal> {
    count(ffi::merge(file, s, t, out))
}

/// Rewrites by a law, 1 to 9, at a node: writes the packed file of the case with that rule, and
/// answers its count of bytes. The rule keeps its meaning, and the other sections stay.
///
/// | Law | From | To |
/// |---|---|---|
/// | 1 | τ;A | A |
/// | 2 | A;τ | A |
/// | 3 | q;A with q of kind 0 to 3 | q |
/// | 4 | (A;B);C | A;(B;C) |
/// | 5 | A;(B;C) | (A;B);C |
/// | 6 | (A or B);C | (A;C) or (B;C) |
/// | 7 | (A and B);C | (A;C) and (B;C) |
/// | 8 | A or A, A and A, one node named twice | A |
/// | 9 | A or B, A and B | B or A, B and A |
///
/// # Errors
///
/// Refusals 1 to 7 if the file is no case; then 11 ([`Shape`]) where there is no such law or node or
/// its shape does not fit, 12 ([`TooManyNodes`]) where the rule would pass 64 nodes, 13 ([`Room`])
/// for an area shorter than the result.
///
/// # Examples
///
/// ```
/// // One state, no steps, the rule tt or ff, no start states; law 9 swaps tt and ff.
/// let file = [
///     16, 0, 1, 0, 17, 0, 0, 0, 17, 0, 10, 0, 27, 0, 0, 0, // pairs
///     0, // labels
///     0, 0, 0, 1, 0, 0, 8, 0, 1, // nodes
///     2, // root
/// ];
/// let mut out = [0; hoidrul::LONGEST];
/// let length = hoidrul::rewrite(&file, 9, 2, &mut out)?;
/// let rule = hoidrul::open(&out[..length], hoidrul::RULE)?;
/// assert_eq!(rule, [0, 0, 0, 1, 0, 0, 8, 1, 0, 2]);
///
/// let refusal = hoidrul::rewrite(&file, 8, 2, &mut out).unwrap_err();
/// assert_eq!(refusal.reason, hoidrul::Reason::Shape);
/// # Ok::<(), hoidrul::Refusal>(())
/// ```
///
/// [`Shape`]: crate::Reason::Shape
/// [`TooManyNodes`]: crate::Reason::TooManyNodes
/// [`Room`]: crate::Reason::Room
pub fn rewrite(file: &[u8], law: usize, node: usize, out: &mut [u8]) -> Result<usize, Refusal> {
    count(ffi::rewrite(file, law, node, out))
}

fn count(reply: u64) -> Result<usize, Refusal> {
    answer(reply).map(|bytes| bytes as usize)
}
