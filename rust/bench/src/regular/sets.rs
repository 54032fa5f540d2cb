//! Sets of states in a byte area, 32 bytes from a place on, byte by byte as the proved code has
//! them. No access is checked.
use super::view::{Modality, View};
use crate::tables::{Unchecked, Words};

pub struct Sets<'a>(pub Unchecked<'a, u8>);

const BYTES: usize = 32;

impl Sets<'_> {
    pub fn clear(&mut self) {
        for at in 0..self.0.count() {
            self.0.set(at, 0);
        }
    }

    pub fn take(&self, from: usize) -> [u8; BYTES] {
        std::array::from_fn(|i| self.0.get(from + i))
    }

    /// All states, or none.
    pub fn constant(&mut self, states: usize, full: bool, to: usize) {
        for i in 0..BYTES {
            let byte = if full { full_byte(states, i) } else { 0 };
            self.0.set(to + i, byte);
        }
    }

    pub fn copy(&mut self, from: usize, to: usize) {
        for i in 0..BYTES {
            self.0.set(to + i, self.0.get(from + i));
        }
    }

    pub fn union(&mut self, left: usize, right: usize, to: usize) {
        for i in 0..BYTES {
            let byte = self.0.get(left + i) | self.0.get(right + i);
            self.0.set(to + i, byte);
        }
    }

    pub fn intersection(&mut self, left: usize, right: usize, to: usize) {
        for i in 0..BYTES {
            let byte = self.0.get(left + i) & self.0.get(right + i);
            self.0.set(to + i, byte);
        }
    }

    /// The set at `from`. The answer is whether anything changed.
    pub fn advance(&mut self, from: usize, to: usize) -> bool {
        let mut change = 0;
        for i in 0..BYTES {
            let byte = self.0.get(from + i);
            change |= byte ^ self.0.get(to + i);
            self.0.set(to + i, byte);
        }
        change != 0
    }

    /// The states that have the proposition, or with the flag false those that have it not.
    pub fn labelled(&mut self, view: &View, proposition: usize, with: bool, to: usize) {
        self.each(view.states, to, |state| {
            view.has(state, proposition) == with
        });
    }

    /// The modality of the set at `from`.
    pub fn modal(&mut self, view: &View, modality: Modality, from: usize, to: usize) {
        let set = self.take(from);
        self.each(view.states, to, |state| view.holds(modality, &set, state));
    }

    /// The states that the test passes, eight a byte, the lowest last.
    #[inline(always)]
    fn each(&mut self, states: usize, to: usize, passes: impl Fn(usize) -> bool) {
        for i in 0..BYTES {
            let mut byte = 0;
            for state in (8 * i..8 * i + 8).rev() {
                byte = 2 * byte + u8::from(state < states && passes(state));
            }
            self.0.set(to + i, byte);
        }
    }
}

/// Byte i of the set of all states.
fn full_byte(states: usize, i: usize) -> u8 {
    match states.saturating_sub(8 * i) {
        8.. => 255,
        rest => (1 << rest) - 1,
    }
}
