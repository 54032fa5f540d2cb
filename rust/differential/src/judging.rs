//! The comparison of judging by the two checkers, every lent word included, and of the word on the
//! start states.
use crate::padding::{numbered, write_padded};
use crate::replies::in_plain;
use crate::rng::Rng;
use plain::{Case, Refusal, Verdict};
use std::hint::black_box;

/// What judging replies.
pub type Judged = Result<Verdict, Refusal>;

/// Words on either side of the lent area, to see that nothing is written there.
const MARGIN: usize = 8;

/// The set of all of so many states.
pub fn all_states(states: usize) -> u16 {
    ((1_u32 << states) - 1) as u16
}

/// The set of these states.
pub fn set_of(states: &[usize]) -> u16 {
    states.iter().map(|&state| 1 << state).sum()
}

/// The number of a set that says of each state whether it is in.
pub fn number_of(set: &[bool]) -> u16 {
    let states: Vec<usize> = (0..set.len()).filter(|&state| set[state]).collect();
    set_of(&states)
}

/// Judges by both checkers, which must agree, and returns their reply.
pub fn compare(file: &[u8], set: u16, words: usize) -> Judged {
    let plain = plain::judge(file, set, words);
    let proved = proved(file, set, words);
    assert_eq!(proved, plain, "set {set}, {words} words, file {file:?}");
    proved
}

/// Asks both checkers, which must agree, whether every start state holds, and returns their reply.
pub fn compare_starts(file: &[u8], words: usize) -> Result<bool, Refusal> {
    let plain = plain::starts_hold(file, words);
    let proved = proved_starts(file, words);
    assert_eq!(proved, plain, "start states, {words} words, file {file:?}");
    proved
}

/// The same by the proved library alone.
pub fn proved_starts(file: &[u8], words: usize) -> Result<bool, Refusal> {
    lending(file, words, 0, hoidrul::starts_hold)
}

/// Judges a valid case on these sets by the proved library, compares with the root's function by
/// the plain checker, and returns the rounds. The gaps follow the set's number.
pub fn compare_sets(case: &Case, sets: &[u16]) -> u64 {
    let words = needed(&plain::write(case));
    let root = plain::meaning(case);
    for &set in sets {
        let file = write_padded(case, numbered(set.into()));
        let expected = Verdict {
            states: root.function[usize::from(set)].clone(),
            rounds: root.rounds,
        };
        assert_eq!(proved(&file, set, words), Ok(expected), "{set}: {case:?}");
    }
    root.rounds
}

/// Judges a valid case of one or two states on every set by both checkers, compares with meet and
/// join of all monotone functions, and returns the rounds. Set k is judged in a file with gaps of k bytes.
pub fn compare_with_all_functions(case: &Case) -> u64 {
    let states = case.labels.len();
    let (values, rounds) = plain::meaning_by_all_functions(case);
    for set in 0..1 << states {
        let file = write_padded(case, [set.into(); 3]);
        let value = values[usize::from(set)];
        let states = (0..states).map(|s| value >> s & 1 == 1).collect();
        let expected = Ok(Verdict { states, rounds });
        assert_eq!(compare(&file, set, needed(&file)), expected, "{case:?}");
    }
    rounds
}

/// Judges by the proved library alone.
pub fn proved(file: &[u8], set: u16, words: usize) -> Judged {
    let judge = |file: &[u8], work: &mut [u16]| hoidrul::judge(file, set, work);
    let reply = lending(file, words, set, judge);
    reply.map(|verdict| {
        let (states, _) = plain::vet(file, 0).expect("what is answered is a case");
        in_states(states, verdict)
    })
}

/// For each state of a case whether it holds, by the proved library alone.
pub fn verdict(file: &[u8]) -> Vec<bool> {
    let (states, _) = plain::vet(file, 0).expect("a case");
    let judged = proved(file, all_states(states), needed(file));
    judged.expect("the area suffices").states
}

/// Calls the library with an area that held garbage, and checks every word of it: zero after an
/// answer, unchanged after a refusal.
pub(crate) fn lending<T: std::fmt::Debug>(
    file: &[u8],
    words: usize,
    set: u16,
    call: impl FnOnce(&[u8], &mut [u16]) -> Result<T, hoidrul::Refusal>,
) -> Result<T, Refusal> {
    let mut rng = Rng::new(words as u64 ^ u64::from(set) << 32);
    let before: Vec<u16> = (0..words + 2 * MARGIN)
        .map(|_| rng.number() as u16)
        .collect();
    let mut area = before.clone();
    let lent = MARGIN..MARGIN + words;
    let file_before = file.to_vec();

    let reply = call(file, &mut area[lent.clone()]);

    assert!(black_box(file) == file_before, "the lent file was changed");
    let mut expected = before;
    if reply.is_ok() {
        expected[lent].fill(0);
    }
    assert!(
        black_box(&area) == &expected,
        "the work area after {reply:?}, set {set}, {words} words, file {file:?}"
    );
    in_plain(reply)
}

/// The verdict with its set state by state; no state beyond those of the case may be in it.
pub(crate) fn in_states(states: usize, verdict: hoidrul::Verdict) -> Verdict {
    let beyond = verdict.states.iter().any(|state| state >= states);
    assert!(!beyond, "{verdict:?} of {states} states");
    Verdict {
        states: (0..states).map(|s| verdict.holds(s)).collect(),
        rounds: verdict.rounds,
    }
}

/// How many words judging the file needs.
///
/// # Panics
/// If the file is no case.
pub fn needed(file: &[u8]) -> usize {
    let (states, nodes) = plain::vet(file, 0).expect("a case");
    let words = 2 * nodes * (1 << states);
    assert_eq!(hoidrul::work_area(file), Ok(words));
    words
}
