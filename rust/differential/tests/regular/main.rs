//! Judging regular rules on tables of up to 256 states, by both checkers.
mod fixed_points;
mod limits;
mod profile;
mod random;
