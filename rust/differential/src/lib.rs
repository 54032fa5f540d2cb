//! Random files and the comparison of the proved library with the plain checker.
//!
//! Everything is drawn from fixed seeds, so each run makes the same calls.
#![forbid(unsafe_code)]

pub mod alike_tables;
pub mod chops;
pub mod damage;
pub mod drives;
pub mod duplex;
pub mod edits;
pub mod f_changed;
pub mod formulas;
pub mod generate;
pub mod groups;
pub mod guards;
pub mod judging;
pub mod kinds;
pub mod measure;
pub mod padding;
pub mod printed;
pub mod printer;
pub mod profile;
pub mod regular;
pub mod replies;
pub mod rings;
pub mod rng;
pub mod starts;
pub mod strange;
pub mod supplier;
pub mod tally;
