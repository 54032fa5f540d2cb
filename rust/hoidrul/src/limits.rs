//! Limits of a case, and what a call needs. The header has the same, with `HOIDRUL_` before the name.

/// The longest case, in bytes, with its padding. An output area of this length has room for every
/// result, which is packed and has at most 6,385 bytes.
pub const LONGEST: usize = 6_394;

/// The longest file that [`regular`](crate::regular) takes, in bytes, with its padding.
pub const REGULAR_LONGEST: usize = 65_535;
/// The most states that it takes.
pub const REGULAR_MOST_STATES: usize = 256;
/// The bytes of the set that [`regular_into`](crate::regular_into) writes.
pub const REGULAR_SET_BYTES: usize = 32;
/// The bytes of work area that it takes for each node: [`MOST_NODES`] times as many are enough for
/// every rule.
pub const REGULAR_NODE_BYTES: usize = 64;

/// Enough stack for a thread that calls, in bytes. In tests a call took at most 44,984 bytes.
/// Rust's threads have more unless they are built with less.
pub const STACK: usize = 128 * 1024;

/// The most states of a case. Their numbers count from 0, as those of nodes, actions, propositions
/// and variables do.
pub const MOST_STATES: usize = 16;
/// The most nodes of a rule.
pub const MOST_NODES: usize = 64;
/// How many actions there are.
pub const MOST_ACTIONS: usize = 8;
/// How many propositions there are.
pub const MOST_PROPOSITIONS: usize = 8;
/// How many variables there are.
pub const MOST_VARIABLES: usize = 16;
/// How many kinds of nodes there are, which is how many bytes a table of kinds has.
pub const KINDS: usize = 15;
/// How many laws there are. Their numbers count from 1.
pub const MOST_LAWS: usize = 9;
/// The most bytes of padding between two sections.
pub const MOST_PADDING: usize = 3;
