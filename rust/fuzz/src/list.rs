//! Lists of edits: each gets what the last accepted one wrote, and the plain book is asked.
use crate::replies::{Entry, Replies};
use crate::{arguments, entries, files};
use differential::edits::turn;
use differential::judging::{all_states, compare, compare_starts, needed};
use differential::padding;
use differential::rng::Rng;
use plain::{Book, Limits};

/// Makes up to 12 edits of a case, and returns the file that they lead to. Each state of the first
/// case must hold if and only if the state standing for it does, and every start state of the last
/// case if and only if every one of the first did.
pub fn edits(rng: &mut Rng, replies: &mut Replies) -> Vec<u8> {
    let case = files::with_alike_states(rng, Limits::CASE);
    let first = padding::file(rng, &case);
    let mut book = Book::new(&first).expect("a valid case");
    let mut file = first.clone();
    for _ in 0..rng.within(1..=12) {
        let case = plain::parse(&file).expect("an accepted edit writes a case");
        let edit = entries::fitting(rng, &file, |rng| arguments::edit(rng, &case));
        let room = arguments::room(rng, &file);
        let reply = turn(&mut book, &file, edit, room);
        entries::count(edit, &reply, replies);
        file = reply.unwrap_or(file);
        assert_eq!(file, book.file(), "{edit:?} after {first:?}");
    }
    if let (Some(start), Some(end)) = (verdict(&first, replies), verdict(&file, replies)) {
        let standing: Vec<bool> = book.standing().iter().map(|&state| end[state]).collect();
        assert_eq!(start, standing, "{first:?} became {file:?}");
        let words = [&first, &file].map(|file| compare_starts(file, needed(file)));
        assert_eq!(words[0], words[1], "{first:?} became {file:?}");
    }
    file
}

/// For each state whether it holds, if the plain checker can tell soon.
fn verdict(file: &[u8], replies: &mut Replies) -> Option<Vec<bool>> {
    let case = plain::parse(file).expect("a case");
    if !arguments::judged_soon(&case) {
        return None;
    }
    let judged = compare(file, all_states(case.labels.len()), needed(file));
    replies.count(Entry::Judge, &judged);
    Some(judged.expect("the area suffices").states)
}
