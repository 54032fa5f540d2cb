//! The proved judge's scheme in unchecked Rust: node j's set is the first 32 of the 64 bytes from
//! 64 × j on.
#![allow(unsafe_code)]
use super::sets::Sets;
use super::view::{Modality, View};
use crate::rule::ALWAYS;
use crate::tables::Unchecked;
use plain::kinds::{
    AND, BOX, CHOP, COMPLEMENT, DIAMOND, GROUP_BOX, GROUP_DIAMOND, MU, NU, OR, PROPOSITION, TRUE,
    VARIABLE,
};

/// The bytes of a node.
pub const BLOCK: usize = 64;

/// The root's set. The area is zero afterwards.
///
/// # Safety
/// The file is a case of at most 256 states with a regular rule, and the area has a block for each
/// node.
pub unsafe fn judge(file: &[u8], work: &mut [u8]) -> [u8; 32] {
    // SAFETY: what is asked for are blocks of the case's nodes.
    let mut sets = Sets(unsafe { Unchecked::new(work) });
    sets.clear();
    // SAFETY: what is asked for are nodes and states of the case.
    let view = unsafe { View::new(file) };
    refresh(&view, view.rule.root + 1, 0, ALWAYS, 0, &mut sets);
    let set = sets.take(BLOCK * view.rule.root);
    sets.clear();
    set
}

/// Computes the nodes below k that depend only on what is in `active`, and not only on what is in
/// `old`. `grown` is the kind of the binder whose set alone has moved since, 0 if they start anew.
fn refresh(view: &View, k: usize, old: u32, active: u32, grown: u8, sets: &mut Sets) {
    if k == 0 {
        return;
    }
    let j = k - 1;
    refresh(view, j, old, active, grown, sets);
    let scope = view.scope(j);
    if scope | active == active && scope | old != old {
        compute(view, j, active, grown, sets);
    }
}

/// Computes node j from the lower ones.
fn compute(view: &View, j: usize, active: u32, grown: u8, sets: &mut Sets) {
    match view.node(j).0 {
        MU | NU => iterate(view, j, active, grown, sets),
        _ => fill(view, j, sets),
    }
}

/// A binder's iterates, until one is as the next.
fn iterate(view: &View, j: usize, active: u32, grown: u8, sets: &mut Sets) {
    let (kind, variable, body) = view.node(j);
    if kind != grown {
        sets.constant(view.states, kind == NU, BLOCK * j);
    }
    let mut moved = 0;
    for _ in 0..view.states {
        refresh(view, j, active, active | 1 << variable, moved, sets);
        if !sets.advance(BLOCK * usize::from(body), BLOCK * j) {
            return;
        }
        moved = kind;
    }
}

/// Node j, which is no binder.
fn fill(view: &View, j: usize, sets: &mut Sets) {
    let (kind, a, b) = view.node(j);
    let (a, b) = (usize::from(a), usize::from(b));
    let (left, right, to) = (BLOCK * a, BLOCK * b, BLOCK * j);
    match kind {
        TRUE => sets.constant(view.states, true, to),
        PROPOSITION => sets.labelled(view, a, true, to),
        COMPLEMENT => sets.labelled(view, a, false, to),
        VARIABLE => sets.copy(BLOCK * view.binder(a), to),
        OR => sets.union(left, right, to),
        AND => sets.intersection(left, right, to),
        CHOP => sets.modal(view, modality(view, a), right, to),
        // ff; and a modality, which has no set of its own.
        _ => sets.constant(view.states, false, to),
    }
}

/// That of node j, the left side of a chop, which in a regular rule is one; of another node, one by
/// no action.
fn modality(view: &View, j: usize) -> Modality {
    let (kind, a, _) = view.node(j);
    let a = usize::from(a);
    match kind {
        DIAMOND => Modality::by_action(true, a),
        BOX => Modality::by_action(false, a),
        GROUP_DIAMOND => Modality::by_group(true, a),
        GROUP_BOX => Modality::by_group(false, a),
        _ => Modality::by_group(true, 0),
    }
}
