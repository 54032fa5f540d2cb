//! Cancelling a thread that calls, as the C header says it.
mod common;

use common::c::compile;
use common::{case, file, printed, run, scratch};
use std::fs;
use std::path::Path;
use std::process::Command;

/// Four binders in each other, of alternating kinds, on 16 states in rings of 4, 5 and 7. Each takes
/// 140 rounds in every round of the one around it: far more than anyone waits for.
fn endless() -> Vec<u8> {
    let firsts = [0, 4, 9, 16];
    let mut steps = vec![];
    for ring in firsts.windows(2) {
        let turns = |state| {
            if state + 1 == ring[1] {
                ring[0]
            } else {
                state + 1
            }
        };
        steps.extend((ring[0]..ring[1]).map(|state| [state, 0, turns(state)]));
        steps.extend((0..16).map(|state| [state, 1, ring[0]]));
    }
    steps.sort_unstable();
    // Level v has, for state v alone, [1] or Xv;⟨0⟩, and where it is a ν, ⟨1⟩ and Xv;⟨0⟩.
    let mut nodes = vec![[6, 0, 0], [7, 1, 0], [6, 1, 0], [1, 0, 0]];
    for v in 0..4 {
        let next = nodes.len() as u8;
        nodes.extend([[4, v, 0], [10, next, 0], [8 + v % 2, 1 + v % 2, next + 1]]);
        nodes.extend([[2, v, 0], [9, next + 2, next + 3], [8, next - 1, next + 4]]);
    }
    let body = nodes.len() as u8 - 1;
    nodes.extend((0..4).map(|v| [11 + (3 - v) % 2, 3 - v, body + v]));
    let labels = [&[1, 2, 4, 8][..], &[0; 12]].concat();
    file(&labels, &steps, &nodes, &[], 0)
}

#[test]
fn only_asynchronous_cancellation_ends_a_call() {
    let source = Path::new(env!("CARGO_MANIFEST_DIR")).join("tests/c/cancelling.c");
    let program = compile(&source, "cancelling");
    let path = scratch("endless.case");
    fs::write(&path, endless()).unwrap();
    let print = printed(run(Command::new(program).arg(path).arg(case("f.case"))));
    // The area that the ended call left serves the next.
    let lines = "asynchronous: 1, answered: 0\ndeferred: 1, answered: 1, 3\n";
    assert_eq!(print, lines);
}
