//! Every entry in threads of `STACK` bytes of stack, many at once, on the cases that need the most.
mod common;

use common::Triple;
use hoidrul::{KindTable, Refusal, Verdict};
use hoidrul::{LABELS, LONGEST, MOST_PADDING, REGULAR_LONGEST, RULE, STACK};
use std::sync::Barrier;
use std::thread::{self, Builder};

/// The file of a case whose states are all start states, with as much padding as there can be.
fn file(labels: &[u8], steps: &[Triple], nodes: &[Triple]) -> Vec<u8> {
    let starts: Vec<u8> = (0..labels.len()).map(|state| state as u8).collect();
    common::file(labels, steps, nodes, &starts, MOST_PADDING)
}

/// Every step that 16 states can have, in order.
fn all_steps() -> Vec<Triple> {
    steps(16, 2048)
}

/// So many of the steps that these states can have, in order.
fn steps(states: usize, count: usize) -> Vec<Triple> {
    let step = |i: usize| [i / states / 8, i / states % 8, i % states].map(|byte| byte as u8);
    (0..count).map(step).collect()
}

/// 64 nodes without a binder, each with the one below twice, so that all are shared.
fn chops(leaf: Triple) -> Vec<Triple> {
    let mut nodes = vec![leaf];
    nodes.extend((0..62).map(|below| [10, below, below]));
    nodes.push([8, 61, 62]);
    nodes
}

/// 64 nodes: a union of all 16 variables, shared, then a binder of each, nested. Every recursion
/// over nodes goes through all of them, and judging computes binder within binder.
fn binders(kind: impl Fn(u8) -> u8) -> Vec<Triple> {
    let mut nodes: Vec<Triple> = (0..16).map(|v| [4, v, 0]).collect();
    nodes.push([8, 0, 1]);
    nodes.extend((2..16).map(|v| [8, v + 14, v]));
    nodes.extend((30..47).map(|below| [8, below, below]));
    nodes.extend((0..16).map(|v| [kind(v), v, v + 47]));
    nodes
}

/// 64 nodes of a regular rule: a binder over chops within chops, with its variable at the bottom.
fn tower(kind: u8, modality: Triple) -> Vec<Triple> {
    let mut nodes = vec![modality, [4, 0, 0]];
    nodes.extend((1..62).map(|below| [10, 0, below]));
    nodes.push([kind, 0, 62]);
    nodes
}

/// Of a table for regular rules alone, with as many steps as have room.
fn large(nodes: &[Triple]) -> Vec<u8> {
    file(&[255; 256], &steps(256, 21_601), nodes)
}

fn worst_cases() -> Vec<Vec<u8>> {
    let mut stairs = all_steps();
    stairs.retain(|&[from, _, to]| to == from + 1);
    let one_kind = binders(|_| 11);
    vec![
        file(&[255; 16], &all_steps(), &chops([6, 0, 0])),
        file(&[255; 16], &stairs, &chops([13, 255, 0])),
        file(&[255; 16], &all_steps(), &chops([14, 255, 0])),
        file(&[0; 16], &all_steps(), &one_kind),
        file(&[0; 2], &[[0, 0, 1], [1, 0, 0]], &one_kind),
        file(&[0], &[[0, 0, 0]], &binders(|v| 11 + v % 2)),
        // A variable is free in the root, which is found last, and one is bound twice.
        file(
            &[0; 16],
            &all_steps(),
            &[&one_kind[..62], &[[8, 61, 61]; 2]].concat(),
        ),
        file(
            &[0; 16],
            &all_steps(),
            &[&one_kind[..63], &[[11, 0, 62]]].concat(),
        ),
        large(&tower(12, [6, 0, 0])),
        large(&tower(11, [14, 255, 0])),
        large(&one_kind),
        large(&binders(|v| 11 + v % 2)),
    ]
}

type Judge<'a> = &'a dyn Fn(u16, &mut [u16]) -> Result<Verdict, Refusal>;

/// What every entry replies, lent areas from the heap.
fn replies(file: &[u8]) -> Vec<Result<Vec<u8>, Refusal>> {
    let written = |call: &dyn Fn(&mut [u8]) -> Result<usize, Refusal>| {
        let mut out = vec![0; LONGEST];
        call(&mut out).map(|length| out[..length].to_vec())
    };
    let judged = |judge: Judge| {
        let counts = hoidrul::vet(file, LABELS)?;
        let verdict = judge(counts.all_states(), &mut vec![0; counts.words()])?;
        let states = verdict.states.to_u64().expect("16 states at most");
        Ok([states, verdict.rounds].map(u64::to_le_bytes).concat())
    };
    vec![
        hoidrul::vet(file, RULE).map(|counts| vec![counts.states as u8, counts.nodes as u8]),
        hoidrul::open(file, RULE).map(<[u8]>::to_vec),
        judged(&|all, work| hoidrul::judge(file, all, work)),
        judged(&|all, work| hoidrul::judge_kinds(KindTable::IDENTITY, file, all, work)),
        written(&|out| hoidrul::classes(file, out)),
        written(&|out| hoidrul::merge(file, 0, 1, out)),
        written(&|out| hoidrul::rewrite(file, 9, 63, out)),
        written(&|out| hoidrul::rewrite(file, 8, 40, out)),
        written(&|out| hoidrul::regular_into(file, &mut vec![0; 64 * 64], out)),
    ]
}

/// Where the stack is too small, the process dies. Replies are those of a large stack.
#[test]
fn every_entry_fits() {
    let cases = worst_cases();
    assert_eq!(cases[0].len(), LONGEST);
    assert!(REGULAR_LONGEST - cases[8].len() < 3);
    let barrier = Barrier::new(cases.len());
    thread::scope(|scope| {
        let call = |file| {
            barrier.wait();
            replies(file)
        };
        let small = |file| {
            Builder::new()
                .stack_size(STACK)
                .spawn_scoped(scope, move || call(file))
        };
        let threads: Vec<_> = cases.iter().map(|file| small(file).unwrap()).collect();
        for (file, thread) in cases.iter().zip(threads) {
            assert_eq!(thread.join().unwrap(), replies(file));
        }
    });
}

/// The cases are what they are meant to be: each entry answers some of them.
#[test]
fn answers_and_refusals() {
    let answered = |file: &Vec<u8>| replies(file).iter().filter(|reply| reply.is_ok()).count();
    let counts: Vec<usize> = worst_cases().iter().map(answered).collect();
    assert_eq!(counts, [7, 6, 7, 8, 8, 7, 0, 0, 1, 1, 1, 1]);
    let numbers = |file: &Vec<u8>| hoidrul::vet(file, RULE).map_err(Refusal::number).err();
    let numbers: Vec<_> = worst_cases().iter().map(numbers).collect();
    assert_eq!(numbers[..6], [None; 6]);
    assert_eq!(numbers[6..8], [Some(7), Some(6)]);
    assert_eq!(numbers[8..], [Some(1); 4], "too large for the others");
}
