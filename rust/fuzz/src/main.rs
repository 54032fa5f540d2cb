//! `fuzz [COUNT [SEED]]`: makes at least COUNT calls and prints how often each reply came.
use std::env::args;
use std::process::ExitCode;
use std::str::FromStr;

const COUNT: usize = 100_000;
const MOST: usize = 100_000_000;
const SEED: u64 = 1;

fn main() -> ExitCode {
    let given: Vec<String> = args().skip(1).collect();
    let (count, seed) = (number(&given, 0, COUNT), number(&given, 1, SEED));
    let (Some(count @ ..=MOST), Some(seed), ..=2) = (count, seed, given.len()) else {
        eprintln!("fuzz [COUNT [SEED]], COUNT at most {MOST}");
        return ExitCode::from(2);
    };
    println!("{}", fuzz::run(count, seed));
    println!("no difference; seed {seed}");
    ExitCode::SUCCESS
}

/// The argument, or what stands for it if it is not given; `None` if it is no number.
fn number<N: FromStr>(given: &[String], place: usize, default: N) -> Option<N> {
    given
        .get(place)
        .map_or(Some(default), |text| text.parse().ok())
}
