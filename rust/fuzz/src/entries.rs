//! Every entry on one file.
use crate::arguments;
use crate::replies::{Entry, Replies};
use differential::rng::Rng;
use differential::strange::section;
use differential::{edits, judging, kinds, regular, tally};
use plain::{Case, Edit, Limits};

pub fn every(rng: &mut Rng, file: &[u8], replies: &mut Replies) {
    let reply = tally::compare(file, section(rng));
    replies.count(Entry::Vet, &reply);
    replies.count(Entry::Open, &reply);

    // A file that is no case is refused whatever the numbers; those of a small case do.
    let case = plain::parse(file).unwrap_or_else(|_| small());
    judge(rng, file, &case, replies);

    let reply = edits::classes(file, classes_room(rng));
    replies.count(Entry::Classes, &reply);
    let merge = fitting(rng, file, |rng| arguments::merge(rng, case.labels.len()));
    edit(rng, file, merge, replies);
    let rewrite = fitting(rng, file, |rng| arguments::rewrite(rng, &case));
    edit(rng, file, rewrite, replies);
    judge_regular(rng, file, replies);
    judge_kinds(rng, file, replies);
}

fn judge(rng: &mut Rng, file: &[u8], case: &Case, replies: &mut Replies) {
    let set = arguments::set(rng, case.labels.len());
    let words = arguments::words(rng, case);
    replies.count(Entry::Judge, &judging::compare(file, set, words));
    // The binding's own, made of vetting, judging and opening.
    let _ = judging::compare_starts(file, words);
}

fn judge_regular(rng: &mut Rng, file: &[u8], replies: &mut Replies) {
    let case = plain::parse_within(file, Limits::WIDEST).unwrap_or_else(|_| small());
    let bytes = arguments::bytes(rng, &case);
    let reply = regular::compare(file, bytes, arguments::set_room(rng));
    replies.count(Entry::Regular, &reply);
    // The binding's own, which reads two sections too.
    let _ = regular::compare_verdict(file, bytes);
}

fn judge_kinds(rng: &mut Rng, file: &[u8], replies: &mut Replies) {
    let (kinds, file) = arguments::kinds(rng, file);
    let case = plain::parse_kinds(&kinds, &file).unwrap_or_else(|_| small());
    let set = arguments::set(rng, case.labels.len());
    let words = arguments::words(rng, &case);
    let reply = kinds::compare(&kinds, &file, set, words);
    replies.count(Entry::JudgeKinds, &reply);
    // The binding's own, made of this entry.
    let _ = kinds::compare_helpers(&kinds, &file, words);
}

fn edit(rng: &mut Rng, file: &[u8], edit: Edit, replies: &mut Replies) {
    let room = arguments::room(rng, file);
    count(edit, &edits::edit(file, edit, room), replies);
}

pub fn count(edit: Edit, reply: &edits::Written, replies: &mut Replies) {
    let entry = match edit {
        Edit::Merge { .. } => Entry::Merge,
        Edit::Rewrite { .. } => Entry::Rewrite,
    };
    replies.count(entry, reply);
}

/// Mostly the first of some draws that neither finds states unlike nor misses a law's shape.
pub fn fitting(rng: &mut Rng, file: &[u8], draw: impl Fn(&mut Rng) -> Edit) -> Edit {
    let draws: Vec<Edit> = (0..8).map(|_| draw(rng)).collect();
    if rng.one_in(4) {
        return draws[0];
    }
    let fits = |edit: &Edit| {
        let reply = match *edit {
            Edit::Merge { s, t } => plain::merge(file, s, t, edits::LONGEST),
            Edit::Rewrite { law, node } => plain::rewrite(file, law, node, edits::LONGEST),
        };
        reply.map_or_else(|refusal| refusal.number == 12, |_| true)
    };
    draws.iter().copied().find(fits).unwrap_or(draws[0])
}

/// About 16 bytes.
fn classes_room(rng: &mut Rng) -> usize {
    if rng.one_in(8) {
        edits::LONGEST
    } else {
        rng.below(24)
    }
}

fn small() -> Case {
    Case {
        labels: vec![0, 0],
        steps: vec![],
        nodes: vec![(5, 0, 0); 4],
        root: 0,
        starts: vec![],
    }
}
