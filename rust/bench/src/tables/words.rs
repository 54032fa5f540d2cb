//! The work area, with and without bounds checks.
#![allow(unsafe_code)]

pub trait Words<T> {
    fn get(&self, at: usize) -> T;
    fn set(&mut self, at: usize, word: T);
    fn count(&self) -> usize;
}

/// Safe Rust: every access is checked.
pub struct Checked<'a>(pub &'a mut [u16]);

impl Words<u16> for Checked<'_> {
    #[inline(always)]
    fn get(&self, at: usize) -> u16 {
        self.0[at]
    }

    #[inline(always)]
    fn set(&mut self, at: usize, word: u16) {
        self.0[at] = word;
    }

    fn count(&self) -> usize {
        self.0.len()
    }
}

/// No access is checked.
pub struct Unchecked<'a, T>(&'a mut [T]);

impl<'a, T> Unchecked<'a, T> {
    /// # Safety
    /// Only words within the area are asked for as long as this lives.
    pub unsafe fn new(words: &'a mut [T]) -> Self {
        Unchecked(words)
    }
}

impl<T: Copy> Words<T> for Unchecked<'_, T> {
    #[inline(always)]
    fn get(&self, at: usize) -> T {
        // SAFETY: whoever called `new` has promised it.
        unsafe { *self.0.get_unchecked(at) }
    }

    #[inline(always)]
    fn set(&mut self, at: usize, word: T) {
        // SAFETY: as in `get`.
        unsafe { *self.0.get_unchecked_mut(at) = word }
    }

    fn count(&self) -> usize {
        self.0.len()
    }
}
