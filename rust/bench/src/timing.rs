//! Processor times in nanoseconds, each the best of several runs. They are made at various depths of
//! the stack, since where it lies moves the time of a call that keeps tables there.
use crate::clock::now;
use std::hint::black_box;
use std::time::Duration;

const RUNS: usize = 100;
const DEPTHS: usize = 32;
/// A run is repeated until it takes about so long, so that the clock's grain does not matter.
const LEAST: Duration = Duration::from_millis(4);

/// The best time of one call of each.
pub fn best<A, const N: usize>(tasks: [&mut dyn FnMut() -> A; N]) -> [f64; N] {
    let least = |best: [f64; N], run: [f64; N]| std::array::from_fn(|i| best[i].min(run[i]));
    runs(tasks).into_iter().fold([f64::MAX; N], least)
}

/// The times of one call of each, run by run. They take turns, so that a busy moment of the machine
/// does not fall on one of them alone.
pub fn runs<A, const N: usize>(mut tasks: [&mut dyn FnMut() -> A; N]) -> Vec<[f64; N]> {
    let repeats = tasks.each_mut().map(|task| {
        let once = time(*task, 1).max(1.0);
        (LEAST.as_nanos() as f64 / once).ceil() as usize
    });
    let mut run = |depth| {
        let mut times = [0.0; N];
        for ((task, repeats), spent) in tasks.iter_mut().zip(repeats).zip(&mut times) {
            *spent = lowered(depth, &mut || time(*task, repeats));
        }
        times
    };
    (0..RUNS).map(|i| run(i % DEPTHS)).collect()
}

pub fn sorted(values: impl Iterator<Item = f64>) -> Vec<f64> {
    let mut values: Vec<f64> = values.collect();
    values.sort_by(f64::total_cmp);
    values
}

/// The value that so many percent of the others are below.
pub fn part(sorted: &[f64], percent: usize) -> f64 {
    sorted[(sorted.len() - 1) * percent / 100]
}

fn time<A>(task: &mut dyn FnMut() -> A, repeats: usize) -> f64 {
    let start = now();
    for _ in 0..repeats {
        black_box(task());
    }
    (now() - start).as_nanos() as f64 / repeats as f64
}

/// Runs so many frames further down the stack.
#[inline(never)]
fn lowered(frames: usize, run: &mut dyn FnMut() -> f64) -> f64 {
    let room = black_box([0_u8; 96]);
    let time = match frames.checked_sub(1) {
        Some(fewer) => lowered(fewer, run),
        None => run(),
    };
    black_box(room);
    time
}

/// The best time of one call within about a second; of a single call, if that takes longer.
pub fn a_few(task: &mut dyn FnMut()) -> f64 {
    const ENOUGH: f64 = 1e9;
    let once = time(task, 1).max(1.0);
    let repeats = (LEAST.as_nanos() as f64 / once).ceil() as usize;
    let runs = (ENOUGH / (once * repeats as f64)) as usize;
    (0..runs.min(RUNS)).fold(once, |best, run| {
        best.min(lowered(run % DEPTHS, &mut || time(task, repeats)))
    })
}
