//! Operations on tables: blocks of one work area, of `size` words each, the result's the highest
//! unless said otherwise. Three ways to write them in Rust.
mod indexed;
mod sliced;
mod words;

pub use indexed::Indexed;
pub use sliced::Sliced;
pub use words::{Checked, Unchecked, Words};

pub trait Tables {
    fn word(&self, at: usize) -> u16;
    fn clear(&mut self);
    /// One set everywhere.
    fn constant(&mut self, size: usize, to: usize, set: u16);
    /// Each set for itself.
    fn identity(&mut self, size: usize, to: usize);
    /// The table at `from`, above.
    fn copy(&mut self, size: usize, from: usize, to: usize);
    fn union(&mut self, size: usize, left: usize, right: usize, to: usize);
    fn intersection(&mut self, size: usize, left: usize, right: usize, to: usize);
    /// The left table of the right one.
    fn chop(&mut self, size: usize, left: usize, right: usize, to: usize);
    /// The `size` words after those at `at`: the same with a set added.
    fn widen(&mut self, size: usize, at: usize, set: u16);
    /// The `size` words at `at`: those after them, cut down to a set.
    fn narrow(&mut self, size: usize, at: usize, set: u16);
    /// The table at `from`. The answer is whether anything changed.
    fn advance(&mut self, size: usize, from: usize, to: usize) -> bool;
}
