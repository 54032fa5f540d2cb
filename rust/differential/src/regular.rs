//! The comparison of judging regular rules by the two checkers, every lent byte included; and regular
//! cases of any size.
use crate::formulas::{rule, Bounds, Form};
use crate::generate::{self, most_steps};
use crate::replies::in_plain;
use crate::rings;
use crate::rng::Rng;
use crate::starts::starts;
use plain::{Case, Limits, Refusal};
use std::hint::black_box;

/// The bytes that were written.
pub type Written = Result<Vec<u8>, Refusal>;

/// The bytes of a set.
pub const SET_BYTES: usize = 32;

/// Bytes on either side of the lent areas, to see that nothing is written there.
const MARGIN: usize = 16;

/// A case of these bounds with a regular rule, whose file is within the limits, whatever its padding.
/// Steps of every sort, and few labels on one long way, so that fixed points take many rounds.
pub fn case(rng: &mut Rng, limits: Limits, bounds: Bounds) -> Case {
    let states = bounds.states;
    let most = most_steps(limits, states);
    let (nodes, root) = rule(rng, Form::Regular, bounds);
    let (labels, steps) = match rng.below(4) {
        0 => (rng.bytes(states), generate::steps(rng, limits, states)),
        1 => (rng.bytes(states), rings::steps(rng, states, most)),
        _ => (sparse(rng, states), rings::long_way(rng, states)),
    };
    Case {
        labels,
        steps,
        nodes,
        root,
        starts: starts(rng, states),
    }
}

/// Each proposition holds of few states or of nearly all.
fn sparse(rng: &mut Rng, states: usize) -> Vec<u8> {
    let mut labels = vec![rng.byte(); states];
    for proposition in 0..8 {
        labels[rng.below(states)] ^= 1 << proposition;
    }
    labels
}

/// Judges by both checkers, which must agree, and returns what they wrote.
pub fn compare(file: &[u8], bytes: usize, room: usize) -> Written {
    expect(file, bytes, room, plain::regular(file, bytes, room))
}

/// Judges by the library, with areas that held garbage. Its reply must be the expected one, and every
/// byte of either area what was written, zero after an answer, or else what it was before.
pub fn expect(file: &[u8], bytes: usize, room: usize, expected: Written) -> Written {
    let mut rng = Rng::new((bytes as u64) << 32 ^ room as u64);
    let mut work = Area::new(&mut rng, bytes);
    let mut out = Area::new(&mut rng, room);
    let file_before = file.to_vec();

    let reply = hoidrul::regular_into(file, work.lent(), out.lent());

    assert!(black_box(file) == file_before, "the lent file was changed");
    let length = expected.as_ref().map(Vec::len).map_err(|&refusal| refusal);
    assert_eq!(
        in_plain(reply),
        length,
        "{bytes}, {room} bytes, file {file:?}"
    );
    let cleared = expected.as_ref().map_or(vec![], |_| vec![0; bytes]);
    work.expect(&cleared, file);
    out.expect(expected.as_deref().unwrap_or_default(), file);
    expected
}

/// Asks the binding for its verdict, which is that of both checkers, and whether every start state holds.
pub fn compare_verdict(file: &[u8], bytes: usize) -> Result<bool, Refusal> {
    let verdict = in_plain(hoidrul::regular(file, &mut vec![7; bytes]));
    let hold = plain::regular_starts_hold(file, bytes);
    let starts = verdict.map(|verdict| verdict.starts_hold);
    assert_eq!(starts, hold, "{bytes} bytes, file {file:?}");
    if let Ok(verdict) = verdict {
        let case = plain::parse_within(file, Limits::WIDEST).expect("a case");
        let states = plain::regular_states(&case);
        assert_eq!(verdict.count, states.len());
        let holding = (0..states.len()).filter(|&state| states[state]);
        let told = (0..300).filter(|&state| verdict.holds(state));
        assert!(told.eq(holding), "{verdict:?}, file {file:?}");
    }
    hold
}

/// How many bytes of work area the file needs.
///
/// # Panics
/// If the file is no case with a regular rule.
pub fn needed(file: &[u8]) -> usize {
    let case = plain::parse_within(file, Limits::WIDEST).expect("a case");
    let bytes = 64 * case.nodes.len();
    assert_eq!(hoidrul::regular_work_area(file), Ok(bytes));
    bytes
}

/// An area to lend, with margins.
struct Area {
    before: Vec<u8>,
    now: Vec<u8>,
}

impl Area {
    fn new(rng: &mut Rng, length: usize) -> Area {
        let before = rng.bytes(length + 2 * MARGIN);
        Area {
            now: before.clone(),
            before,
        }
    }

    fn lent(&mut self) -> &mut [u8] {
        let end = self.now.len() - MARGIN;
        &mut self.now[MARGIN..end]
    }

    /// These bytes were written, from the first on, and no other.
    fn expect(mut self, written: &[u8], file: &[u8]) {
        self.before[MARGIN..MARGIN + written.len()].copy_from_slice(written);
        assert_eq!(black_box(&self.now), &self.before, "file {file:?}");
    }
}
