//! A checker of case files, written from document 01 and requests 2026-01 and 2026-03 to
//! 2026-07 alone, which docs/SPECIFICATION.md restates.
//!
//! It is the yardstick for the proved library: meant to be seen right, not to be fast, and to
//! work by other means than the proved code wherever there is a choice.
#![forbid(unsafe_code)]

mod alike;
mod all_functions;
mod all_relations;
mod book;
mod case;
mod free;
mod judging;
mod keyed;
mod looks;
mod meaning;
mod merging;
mod model;
mod node;
mod output;
mod profile;
mod reach;
mod refusal;
mod regular;
mod rewriting;
mod sets;
mod supplier;
mod vetting;

pub use alike::{alike, alike_in_full, classes};
pub use all_functions::meaning_by_all_functions;
pub use all_relations::classes_by_all_relations;
pub use book::{Book, Edit};
pub use case::{pack, write, Case, Triple};
pub use judging::{judge, starts_hold, Verdict};
pub use meaning::{meaning, Meaning};
pub use merging::merge;
pub use node::{kinds, members, Shape};
pub use profile::is_regular;
pub use reach::reached;
pub use refusal::Refusal;
pub use regular::{regular, regular_starts_hold, regular_states};
pub use rewriting::rewrite;
pub use supplier::{judge_kinds, parse_kinds, starts_hold_kinds};
pub use vetting::{open, parse, parse_within, vet, Limits, MOST_NODES, MOST_PADDING, PAIRS_LENGTH};
