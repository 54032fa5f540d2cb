//! Judging through a supplier's table of kinds (request 2026-07): the reply and every word of the work
//! area, by both checkers.
mod limits;
mod random;
mod tables;
