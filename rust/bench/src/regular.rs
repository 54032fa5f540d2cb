//! The judge of regular rules: the proved one, the same scheme in unchecked Rust, and how the time
//! of the proved one grows.
mod cases;
pub mod growth;
mod judge;
pub mod ratios;
mod sets;
mod task;
#[cfg(test)]
mod tests;
mod view;
