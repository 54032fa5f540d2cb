//! Sets of states, as answers have them whatever number of states the entry takes.
use core::fmt;

/// A set of states; there is room for 256. It is made of a number, bit i for state i, or of bytes,
/// bit i % 8 of byte i / 8 for state i.
///
/// ```
/// use hoidrul::StateSet;
///
/// let set = StateSet::from(0b1001_u16);
/// assert!(set.contains(3) && !set.contains(4) && !set.contains(usize::MAX));
/// assert_eq!(set.iter().collect::<Vec<_>>(), [0, 3]);
/// assert_eq!((set.len(), set.is_empty()), (2, false));
/// assert_eq!(format!("{set:?}"), "{0, 3}");
///
/// assert_eq!(set, StateSet::from(0b1001_u64));
/// let mut bytes = [0; 32];
/// bytes[0] = 0b1001;
/// assert_eq!(set, StateSet::from(bytes));
/// ```
#[must_use]
#[derive(Clone, Copy, PartialEq, Eq, Hash)]
pub struct StateSet {
    bytes: [u8; 32],
}

impl StateSet {
    /// Whether the state is in the set. No state from 256 on is.
    #[must_use]
    pub fn contains(self, state: usize) -> bool {
        let byte = self.bytes.get(state / 8);
        byte.is_some_and(|byte| byte >> (state % 8) & 1 == 1)
    }

    /// The states of the set, in rising order.
    pub fn iter(self) -> impl Iterator<Item = usize> {
        (0..256).filter(move |&state| self.contains(state))
    }

    /// How many states the set has.
    #[must_use]
    pub fn len(self) -> usize {
        self.iter().count()
    }

    /// Whether the set has no state.
    #[must_use]
    pub fn is_empty(self) -> bool {
        self.len() == 0
    }

    /// The number of the set, bit i for state i, unless it has a state from 16 on.
    ///
    /// ```
    /// assert_eq!(hoidrul::StateSet::from(0x8001_u64).to_u16(), Some(0x8001));
    /// assert_eq!(hoidrul::StateSet::from(0x1_8001_u64).to_u16(), None);
    /// ```
    #[must_use]
    pub fn to_u16(self) -> Option<u16> {
        self.to_u64()?.try_into().ok()
    }

    /// The number of the set, bit i for state i, unless it has a state from 64 on.
    ///
    /// ```
    /// use hoidrul::StateSet;
    ///
    /// let mut bytes = [0; 32];
    /// bytes[7] = 0b1000_0000;
    /// assert_eq!(StateSet::from(bytes).to_u64(), Some(1 << 63));
    /// bytes[8] = 1;
    /// assert_eq!(StateSet::from(bytes).to_u64(), None);
    /// ```
    #[must_use]
    pub fn to_u64(self) -> Option<u64> {
        let (number, beyond) = self.bytes.split_first_chunk()?;
        let fits = beyond.iter().all(|&byte| byte == 0);
        fits.then(|| u64::from_le_bytes(*number))
    }
}

/// The set with this number: bit i for state i.
impl From<u16> for StateSet {
    fn from(number: u16) -> StateSet {
        u64::from(number).into()
    }
}

/// The set with this number: bit i for state i.
impl From<u64> for StateSet {
    fn from(number: u64) -> StateSet {
        let mut bytes = [0; 32];
        bytes[..8].copy_from_slice(&number.to_le_bytes());
        StateSet { bytes }
    }
}

/// The set of these bytes: bit i % 8 of byte i / 8 for state i.
impl From<[u8; 32]> for StateSet {
    fn from(bytes: [u8; 32]) -> StateSet {
        StateSet { bytes }
    }
}

/// The states, as of a set.
impl fmt::Debug for StateSet {
    fn fmt(&self, f: &mut fmt::Formatter<'_>) -> fmt::Result {
        f.debug_set().entries(self.iter()).finish()
    }
}

#[cfg(test)]
mod tests {
    extern crate std;

    use super::*;
    use std::vec::Vec;

    /// The bytes of the set of these states, bit by bit.
    fn bytes(states: &[usize]) -> [u8; 32] {
        let byte = |i| (0..8).filter(move |bit| states.contains(&(8 * i + bit)));
        core::array::from_fn(|i| byte(i).map(|bit| 1 << bit).sum())
    }

    #[test]
    fn each_state_alone_and_all_together() {
        for state in 0..256 {
            let set = StateSet::from(bytes(&[state]));
            assert_eq!(Vec::from_iter(set.iter()), [state]);
            assert!((0..300).all(|other| set.contains(other) == (other == state)));
            assert_eq!(set.to_u16(), (state < 16).then(|| 1 << state));
            assert_eq!(set.to_u64(), (state < 64).then(|| 1 << state));
        }
        let all = Vec::from_iter(0..256);
        assert_eq!(Vec::from_iter(StateSet::from([255; 32]).iter()), all);
        assert_eq!(StateSet::from(bytes(&all)).len(), 256);
    }

    #[test]
    fn numbers_come_back() {
        for number in [0, 1, 0x8000, 0xffff] {
            assert_eq!(StateSet::from(number).to_u16(), Some(number));
        }
        for number in [0, 0xffff, 0x1_0000, 1 << 63, u64::MAX] {
            assert_eq!(StateSet::from(number).to_u64(), Some(number));
        }
        assert!(StateSet::from(0_u16).is_empty());
    }
}
