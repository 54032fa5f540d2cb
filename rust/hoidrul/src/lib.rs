//! Safe binding to the proved checker of case files.
//!
//! A case file holds one state table, one rule in Fixed Point Logic with Chop and a list of start
//! states, in four sections: [`LABELS`], [`STEPS`], [`RULE`] and [`STARTS`]. A head tells for each
//! where it begins and how many bytes it has; the first begins behind the head, any other where the
//! one before ends or up to three bytes later, and the bytes between, the padding, are 0. The entries
//! take such a file:
//!
//! | Entry | Answers |
//! |---|---|
//! | [`vet`] | how many states and nodes the case has |
//! | [`open`] | a section without padding, as that part of the file |
//! | [`judge`] | which states hold, and after how many rounds |
//! | [`judge_kinds`] | the same by a table of kinds, of a case with its supplier's numbers of them |
//! | [`classes`] | which states are alike |
//! | [`merge`] | the case with two alike states made one |
//! | [`rewrite`] | the case with its rule rewritten by one of nine laws |
//! | [`regular`] | which states hold, of a regular rule on a table of up to 256 states |
//!
//! A padded file gets the replies of the packed one, which has the same sections without padding.
//! [`merge`] and [`rewrite`] write packed files.
//!
//! Each takes any bytes and any numbers, always ends, and answers or returns a [`Refusal`]. The
//! caller lends every area that is written, and a refusal leaves it unchanged. Entries keep no
//! state, so threads may call at once; a thread needs [`STACK`] bytes of stack. docs/SPECIFICATION.md
//! says what they answer in full. Some helpers are made of them: [`work_area`], [`vet_kinds`] and
//! [`regular_work_area`] tell how much judging needs, [`starts_hold`] and [`starts_hold_kinds`] judge
//! and say whether every start state holds, and [`regular_into`] writes the set where it is told to.
//!
//! ```
//! // One state, no steps, the rule τ, no start states.
//! let file = [16, 0, 1, 0, 17, 0, 0, 0, 17, 0, 4, 0, 21, 0, 0, 0, 0, 5, 0, 0, 0];
//! let all = hoidrul::vet(&file, hoidrul::RULE)?.all_states();
//! let mut work = vec![0; hoidrul::work_area(&file)?];
//! let verdict = hoidrul::judge(&file, all, &mut work)?;
//! assert!(verdict.holds(0));
//! # Ok::<(), hoidrul::Refusal>(())
//! ```
//!
//! # The archive
//!
//! The entries are those of the proved archive libhoidrul.a, which `rt lib` makes in crates/hoidrul
//! of the repository. It is linked from crates/hoidrul/out there, or from the folder that the
//! environment variable `HOIDRUL_LIB_DIR` names at build time: an absolute path, or one from this
//! package's folder. Set to nothing, it serves `cargo check` and `cargo doc` where there is no
//! archive. An archive is for x86-64 Linux, and the build stops for any other target.
//!
//! Take the binding and the archive of one version. If a newer archive refuses with a number that
//! this binding does not know, the reason is [`Reason::Unknown`].
//!
//! The binding needs `core` alone, and the archive `memcpy` and `memset`.
#![no_std]
#![deny(unsafe_code)]
#![warn(missing_docs)]

mod edits;
#[allow(unsafe_code)]
mod ffi;
mod judging;
mod kinds;
mod limits;
mod refusal;
mod regular;
mod sections;
mod state_set;

pub use edits::{classes, merge, rewrite};
pub use judging::{judge, starts_hold, work_area, Verdict};
pub use kinds::{judge_kinds, starts_hold_kinds, vet_kinds, KindTable};
pub use limits::{
    KINDS, LONGEST, MOST_ACTIONS, MOST_LAWS, MOST_NODES, MOST_PADDING, MOST_PROPOSITIONS,
    MOST_STATES, MOST_VARIABLES, REGULAR_LONGEST, REGULAR_MOST_STATES, REGULAR_NODE_BYTES,
    REGULAR_SET_BYTES, STACK,
};
pub use refusal::{Reason, Refusal, UnknownReason};
pub use regular::{regular, regular_into, regular_work_area, RegularVerdict};
pub use sections::{open, vet, Counts, LABELS, RULE, STARTS, STEPS};
pub use state_set::StateSet;

/// The snippets of docs/ENTRIES.md.
#[cfg(doctest)]
#[doc = include_str!("../../../docs/ENTRIES.md")]
struct Entries;
