//! Random calls of every entry of the proved library, each compared with the plain checker: the
//! reply, and every byte and word that was lent. The first difference stops the run by a panic
//! that tells the input.
#![forbid(unsafe_code)]

mod arguments;
mod changes;
mod entries;
mod files;
mod list;
mod replies;

pub use replies::{Entry, Replies};

use differential::rng::Rng;
use plain::Limits;
use std::thread::panicking;

/// Makes at least so many calls. The rounds are drawn from `seed`, `seed` + 1 and so on, so that
/// one of them can be made again by itself.
pub fn run(count: usize, seed: u64) -> Replies {
    let mut replies = Replies::default();
    let mut seed = seed;
    while replies.calls() < count {
        let _told = Round(seed);
        round(&mut Rng::new(seed), &mut replies);
        seed = seed.wrapping_add(1);
    }
    replies
}

/// A list of edits every sixth time; then every entry on the file that it led to, or on any. At times
/// the file is a case for regular rules alone, whose limits are wider.
fn round(rng: &mut Rng, replies: &mut Replies) {
    let file = match rng.below(24) {
        0..=3 => list::edits(rng, replies),
        4..=6 => files::any(rng, Limits::WIDEST),
        _ => files::any(rng, Limits::CASE),
    };
    entries::every(rng, &file, replies);
}

/// Tells the seed of the round that a difference stops.
struct Round(u64);

impl Drop for Round {
    fn drop(&mut self) {
        if panicking() {
            eprintln!("this round alone: fuzz 1 {}", self.0);
        }
    }
}
