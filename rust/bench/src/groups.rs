//! What a group costs: rules full of modalities over groups of one, four and eight actions, each
//! beside the same rule with single actions. All times of a line are of one run.
use crate::cases::modalities;
use crate::table::Table;
use crate::task::Task;
use crate::timing::best;
use plain::kinds::{BOX, DIAMOND, GROUP_BOX, GROUP_DIAMOND};
use plain::Triple;
use std::cell::RefCell;
use std::io;

const STATES: [usize; 4] = [3, 8, 12, 16];

/// Of one, of four and of eight actions.
const GROUPS: [u8; 3] = [0b1, 0b1111, 0b1111_1111];

/// Writes nanoseconds a judgement, each the best of several runs, and how much longer a rule with
/// groups takes than the one beside it.
pub fn write(path: &str) -> io::Result<()> {
    let head = "case\tn\tgroup size\tkind 6\tkind 13\t13 / 6\tkind 7\tkind 14\t14 / 7";
    let mut table = Table::create(path, head)?;
    for states in STATES {
        for group in GROUPS {
            beside_single_actions(&mut table, states, group)?;
        }
    }
    Ok(())
}

fn beside_single_actions(table: &mut Table, states: usize, group: u8) -> io::Result<()> {
    let name = "32 modalities, 32 unions";
    let tasks = [DIAMOND, GROUP_DIAMOND, BOX, GROUP_BOX].map(|kind| {
        let case = modalities(states, |i| modality(kind, group, i));
        Task::new(name, &case, 1)
    });
    // One area for all, so that where an area lies does not tell between them.
    let work = RefCell::new(tasks[0].work_area());
    for task in &tasks {
        let answer = task.proved(&mut work.borrow_mut());
        assert_eq!(answer, task.sliced(&mut work.borrow_mut()));
    }
    let judge = |task: &Task| task.proved(&mut work.borrow_mut());
    let [p, q, r, s] = &tasks;
    let [diamond, group_diamond, boxed, group_box] = best([
        &mut || judge(p),
        &mut || judge(q),
        &mut || judge(r),
        &mut || judge(s),
    ]);
    let size = group.count_ones();
    let (some, all) = (group_diamond / diamond, group_box / boxed);
    table.line(&format!(
        "{name}\t{states}\t{size}\t{diamond:.0}\t{group_diamond:.0}\t{some:.2}\t{boxed:.0}\t{group_box:.0}\t{all:.2}"
    ))
}

/// The i-th modality: the actions take turns, so that no two in a row are alike.
fn modality(kind: u8, group: u8, i: u8) -> Triple {
    match kind {
        GROUP_DIAMOND | GROUP_BOX => (kind, group.rotate_left(i.into()), 0),
        _ => (kind, i % 8, 0),
    }
}
