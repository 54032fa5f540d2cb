//! Judging by a table of kinds: a case whose supplier numbers them differently.
use crate::judging::verdict;
use crate::sections::accepted_section;
use crate::{ffi, Counts, Reason, Refusal, Verdict, KINDS, LABELS, RULE, STARTS};

/// A supplier's table of kinds: for each of the bytes 0 to 14 the kind that it stands for, as
/// [`RULE`](crate::RULE) numbers them. Each kind has one byte. [`judge_kinds`] takes such a table.
///
/// ```
/// use hoidrul::{KindTable, Reason};
///
/// // This supplier numbers ⟨g⟩ and [g] next to ⟨a⟩ and [a].
/// let table = KindTable::new(&[0, 1, 2, 3, 4, 5, 6, 13, 7, 14, 8, 9, 10, 11, 12])?;
/// assert_eq!(table.stands_for(10), 8);
/// assert_eq!(table.inverse().stands_for(8), 10);
///
/// let twice = KindTable::new(&[0, 0, 2, 3, 4, 5, 6, 7, 8, 9, 10, 11, 12, 13, 14]);
/// assert_eq!(twice.unwrap_err().reason, Reason::Table);
/// # Ok::<(), hoidrul::Refusal>(())
/// ```
#[must_use]
#[derive(Clone, Copy, Debug, PartialEq, Eq, Hash)]
pub struct KindTable {
    kinds: [u8; KINDS],
}

impl KindTable {
    /// Each byte stands for itself: through this table [`judge_kinds`] replies as
    /// [`judge`](crate::judge) does.
    pub const IDENTITY: KindTable = KindTable {
        kinds: [0, 1, 2, 3, 4, 5, 6, 7, 8, 9, 10, 11, 12, 13, 14],
    };

    /// The table of these bytes: byte i stands for kind `kinds[i]`.
    ///
    /// # Errors
    ///
    /// 15 ([`Table`](crate::Reason::Table)) unless there are 15 bytes, each of 0 to 14 once.
    pub fn new(kinds: &[u8]) -> Result<KindTable, Refusal> {
        // A table is looked at before the file, and no bytes are no case: the call is refused for
        // that, if not for the table. So the test is the proved one.
        match (vet_kinds(kinds, &[]), kinds.try_into()) {
            (Err(refusal), Ok(kinds)) if refusal.reason != Reason::Table => Ok(KindTable { kinds }),
            _ => Err(Refusal {
                reason: Reason::Table,
                place: 0,
            }),
        }
    }

    /// The kind that a supplier's byte stands for. One above 14 stands for no kind, and is told as it is.
    #[must_use]
    pub fn stands_for(&self, byte: u8) -> u8 {
        self.kinds.get(usize::from(byte)).copied().unwrap_or(byte)
    }

    /// The table the other way round, from our kinds to the supplier's bytes.
    pub fn inverse(&self) -> KindTable {
        let mut kinds = [0; KINDS];
        for (byte, &kind) in (0..).zip(&self.kinds) {
            kinds[usize::from(kind)] = byte;
        }
        KindTable { kinds }
    }

    /// The bytes that [`new`](KindTable::new) takes.
    #[must_use]
    pub fn as_bytes(&self) -> &[u8; KINDS] {
        &self.kinds
    }
}

/// The table of these bytes, or the refusal of [`KindTable::new`].
impl TryFrom<&[u8]> for KindTable {
    type Error = Refusal;

    fn try_from(kinds: &[u8]) -> Result<KindTable, Refusal> {
        KindTable::new(kinds)
    }
}

/// The table of these bytes, or the refusal of [`KindTable::new`].
impl TryFrom<[u8; KINDS]> for KindTable {
    type Error = Refusal;

    fn try_from(kinds: [u8; KINDS]) -> Result<KindTable, Refusal> {
        KindTable::new(&kinds)
    }
}

/// Its bytes.
impl AsRef<[u8]> for KindTable {
    fn as_ref(&self) -> &[u8] {
        &self.kinds
    }
}

/// Judges a supplier's case as [`judge`](crate::judge) would if each node's kind were written as we
/// number it. The table is a [`KindTable`], for which no call is refused, or any bytes.
///
/// The kind of every node is read through the table, also of those that the root does not reach, and
/// nothing else is. The file is not written to; a copy of it stands on the stack. Work area and time
/// are those of [`judge`](crate::judge).
///
/// # Errors
///
/// 15 ([`Table`]) if the bytes are no [`KindTable`], whatever the file; then the refusals of
/// [`judge`](crate::judge): 1 to 7 if the file is no case, of which 5 is for a kind byte above 14 too;
/// then 8 ([`Beyond`]) for a set beyond the case, then 9 ([`Work`]) for a work area of fewer words than
/// [`vet_kinds`] tells.
///
/// # Examples
///
/// ```
/// use hoidrul::{KindTable, Reason};
///
/// // Two states, a step of action 0 from 0 to 1, and the rule μZ.τ or ⟨0⟩;Z by a supplier to whom or,
/// // and, chop, μ and ν are 10 to 14.
/// let file = [
///     16, 0, 2, 0, 18, 0, 3, 0, 21, 0, 19, 0, 40, 0, 0, 0, // pairs
///     0, 0, // labels
///     0, 0, 1, // steps
///     4, 0, 0, 6, 0, 0, 12, 1, 0, 5, 0, 0, 10, 3, 2, 13, 0, 4, // nodes
///     5, // root
/// ];
/// let table = KindTable::new(&[0, 1, 2, 3, 4, 5, 6, 13, 7, 14, 8, 9, 10, 11, 12])?;
/// let counts = hoidrul::vet_kinds(&table, &file)?;
/// let mut work = vec![7; counts.words()];
/// let verdict = hoidrul::judge_kinds(&table, &file, 0b10, &mut work)?;
/// assert_eq!((verdict.states, verdict.rounds), (0b11_u16.into(), 2));
/// assert!(work.iter().all(|&word| word == 0));
///
/// // Through the table the wrong way round node 5 is [0], whose unused byte is not 0.
/// let refusal = hoidrul::judge_kinds(table.inverse(), &file, 0b10, &mut work).unwrap_err();
/// assert_eq!((refusal.reason, refusal.place), (Reason::Node, 5));
/// // Bytes that are no table are refused before the file is looked at.
/// let refusal = hoidrul::judge_kinds([0; 15], &[], 0, &mut []).unwrap_err();
/// assert_eq!(refusal.reason, Reason::Table);
/// # Ok::<(), hoidrul::Refusal>(())
/// ```
///
/// [`Beyond`]: crate::Reason::Beyond
/// [`Table`]: crate::Reason::Table
/// [`Work`]: crate::Reason::Work
pub fn judge_kinds(
    kinds: impl AsRef<[u8]>,
    file: &[u8],
    set: u16,
    work: &mut [u16],
) -> Result<Verdict, Refusal> {
    verdict(ffi::judge_kinds(kinds.as_ref(), file, set, work))
}

/// How many states and nodes a supplier's case has, from which there are the set of all states and
/// the words of work area that [`judge_kinds`] needs. [`vet`](crate::vet) would take the supplier's
/// kinds for ours.
///
/// # Errors
///
/// 15 ([`Table`](crate::Reason::Table)) if the bytes are no [`KindTable`]; then 1 to 7 if the file, its
/// kinds read through the table, is no case.
///
/// # Examples
///
/// ```
/// use hoidrul::{KindTable, Reason};
///
/// // One state, no steps, the rule τ, which is 0 to this supplier, while tt is 5.
/// let file = [16, 0, 1, 0, 17, 0, 0, 0, 17, 0, 4, 0, 21, 0, 0, 0, 0, 0, 0, 0, 0];
/// let table = KindTable::new(&[5, 1, 2, 3, 4, 0, 6, 7, 8, 9, 10, 11, 12, 13, 14])?;
/// let counts = hoidrul::vet_kinds(&table, &file)?;
/// assert_eq!((counts.states, counts.nodes), (1, 1));
/// assert_eq!((counts.all_states(), counts.words()), (0b1, 4));
///
/// assert_eq!(hoidrul::vet_kinds(&table, &[]).unwrap_err().reason, Reason::Pairs);
/// # Ok::<(), hoidrul::Refusal>(())
/// ```
pub fn vet_kinds(kinds: impl AsRef<[u8]>, file: &[u8]) -> Result<Counts, Refusal> {
    // Every case has the empty set, and no area is enough for any: a case is refused for that alone.
    match judge_kinds(kinds, file, 0, &mut []) {
        Err(refusal) if refusal.reason != Reason::Work => Err(refusal),
        _ => Ok(Counts {
            states: accepted_section(file, LABELS).len(),
            nodes: accepted_section(file, RULE).len() / 3,
        }),
    }
}

/// Whether every start state of a supplier's case holds, as [`starts_hold`](crate::starts_hold) says
/// it of one with our kinds.
///
/// # Errors
///
/// The refusals of [`vet_kinds`]; then 9 ([`Work`](crate::Reason::Work)) for a work area of fewer
/// words than that tells.
///
/// # Examples
///
/// ```
/// use hoidrul::{KindTable, Reason};
///
/// // Two states, of which 0 has proposition 0, no steps, start state 0, and the rule p0, which is 3 to
/// // this supplier, while not p0 is 2.
/// let file = [
///     16, 0, 2, 0, 18, 0, 0, 0, 18, 0, 4, 0, 22, 0, 1, 0, // pairs
///     1, 0, // labels
///     3, 0, 0, 0, // rule
///     0, // start states
/// ];
/// let table = KindTable::new(&[0, 1, 3, 2, 4, 5, 6, 7, 8, 9, 10, 11, 12, 13, 14])?;
/// assert!(hoidrul::starts_hold_kinds(&table, &file, &mut [0; 8])?);
/// assert!(!hoidrul::starts_hold(&file, &mut [0; 8])?, "not p0, as it stands");
///
/// let refusal = hoidrul::starts_hold_kinds(&table, &file, &mut [0; 7]).unwrap_err();
/// assert_eq!(refusal.reason, Reason::Work);
/// # Ok::<(), hoidrul::Refusal>(())
/// ```
pub fn starts_hold_kinds(
    kinds: impl AsRef<[u8]>,
    file: &[u8],
    work: &mut [u16],
) -> Result<bool, Refusal> {
    let kinds = kinds.as_ref();
    let all = vet_kinds(kinds, file)?.all_states();
    let verdict = judge_kinds(kinds, file, all, work)?;
    let mut starts = accepted_section(file, STARTS).iter();
    Ok(starts.all(|&state| verdict.holds(state.into())))
}

#[cfg(test)]
mod tests {
    use super::*;

    #[test]
    fn inverses() {
        assert_eq!(KindTable::IDENTITY.inverse(), KindTable::IDENTITY);
        let turned = KindTable::new(&[3, 0, 1, 2, 4, 6, 5, 7, 8, 9, 10, 14, 11, 12, 13]).unwrap();
        assert_ne!(turned.inverse(), turned);
        assert_eq!(turned.inverse().inverse(), turned);
        for byte in 0..=255 {
            assert_eq!(turned.inverse().stands_for(turned.stands_for(byte)), byte);
            assert_eq!(KindTable::IDENTITY.stands_for(byte), byte);
        }
        assert_eq!(KindTable::new(turned.as_bytes()), Ok(turned));
        assert_eq!(KindTable::try_from(*turned.as_bytes()), Ok(turned));
        assert_eq!(KindTable::try_from(turned.as_ref()), Ok(turned));
    }
}
