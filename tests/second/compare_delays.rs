//! Compares the two delay calls with the second implementation: `compare_delays [DELAYS [SEED]]`.
//! Whole runs go through both sides of a line first, step after step: the symbols given are those of
//! a queue for each row, and step 9's places. Then single steps of any number on areas of any
//! content: compared are the answer and every lent byte, with a margin around each slice.

use second::compare::{argument, verdict, Call, Rng, Tally, MANY_DIFFERENCES};
use second::run_cases::{compare_any_delay, compare_delay, compare_lines, Sizes, LEAST_DELAYS};
use std::process::ExitCode;

const DELAYS: u64 = 10_000;
const SEED: u64 = 1;

fn run() -> Result<(), String> {
    let (delays, seed) = (argument(1, "DELAYS", DELAYS)?, argument(2, "SEED", SEED)?);
    if delays < LEAST_DELAYS {
        return Err(format!("DELAYS is {LEAST_DELAYS} or more"));
    }
    println!("delay calls against the second implementation: {delays} steps, SEED={seed}");
    let (mut tally, sizes) = (Tally::default(), Sizes::default());
    for bits in 2..=8 {
        let mut rng = Rng::of_index(seed, delays + bits);
        compare_lines(&mut tally, &mut rng, &sizes, bits);
    }
    for index in 0..delays {
        let mut rng = Rng::of_index(seed, index);
        compare_delay(&mut tally, &mut rng, &sizes, index);
        if index % 16 == 0 {
            compare_any_delay(&mut tally, &mut rng, &sizes); // the largest areas take a while
        }
        if tally.differences() > MANY_DIFFERENCES {
            return Err("too many differences, the rest is left out".to_string());
        }
    }
    tally.report(&[Call::DelayWrite, Call::DelayRead], seed)
}

fn main() -> ExitCode {
    verdict(run())
}
