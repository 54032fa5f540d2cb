//! Case F with a change: an example of each refusal of a file.
use crate::drives;
use plain::{write, Case, Limits, Refusal};

/// The file of case F with a change.
pub fn f_with(change: impl FnOnce(&mut Case)) -> Vec<u8> {
    let mut case = drives::f();
    change(&mut case);
    write(&case)
}

/// Examples of rows 1 to 7, each with its refusal.
pub fn refused_files(limits: Limits) -> [(Vec<u8>, Refusal); 9] {
    let labels = vec![0; limits.most_states + 1];
    [
        (vec![], Refusal::new(1, 0)),
        (f_with(|f| f.labels = labels), Refusal::new(2, 0)),
        (f_with(|f| f.steps[0] = (0, 0, 2)), Refusal::new(3, 0)),
        (f_with(|f| f.root = 10), Refusal::new(4, 0)),
        (f_with(|f| f.starts = vec![2]), Refusal::new(4, 0)),
        (f_with(|f| f.starts = vec![1, 0]), Refusal::new(4, 0)),
        (f_with(|f| f.nodes[2] = (10, 0, 2)), Refusal::new(5, 2)),
        (f_with(|f| f.nodes[4] = (12, 0, 3)), Refusal::new(6, 9)),
        (f_with(|f| f.root = 4), Refusal::new(7, 0)),
    ]
}
