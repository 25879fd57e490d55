//! Compares the two run calls with the second implementation: `compare_runs [RUNS [SEED]]`.
//! Compared are the answer and every lent byte, with a margin around each slice. The edges that
//! the specification names come first, the largest run last.

use second::compare::{argument, verdict, Call, Rng, Tally, MANY_DIFFERENCES};
use second::run_cases::{compare_run, edges, largest, Met, Sizes, LEAST_RUNS};
use std::process::ExitCode;

const RUNS: u64 = 3_000;
const SEED: u64 = 1;

fn run() -> Result<(), String> {
    let (runs, seed) = (argument(1, "RUNS", RUNS)?, argument(2, "SEED", SEED)?);
    if runs < LEAST_RUNS {
        return Err(format!("RUNS is {LEAST_RUNS} or more"));
    }
    println!("run calls against the second implementation: {runs} runs, SEED={seed}");
    let (mut tally, mut met, sizes) = (Tally::default(), Met::default(), Sizes::default());
    edges(&mut tally, &mut Rng::of_index(seed, runs));
    for index in 0..runs {
        let mut rng = Rng::of_index(seed, index);
        met.count(&compare_run(&mut tally, &mut rng, &sizes, index));
        if tally.differences() > MANY_DIFFERENCES {
            return Err("too many differences, the rest is left out".to_string());
        }
    }
    largest(&mut tally, &mut Rng::of_index(seed, runs + 1));
    tally.report(&[Call::RunWrite, Call::RunRead], seed)?;
    met.report()
}

fn main() -> ExitCode {
    verdict(run())
}
