//! Compares the two pass calls with the second implementation: `compare_passes [PASSES [SEED]]`.
//! Compared are the answer and every lent byte, with a margin around each slice. Passes of 211 come
//! last.

use second::compare::{argument, verdict, Call, Rng, Tally, MANY_DIFFERENCES};
use second::pass_cases::{compare_pass, largest, LEAST_PASSES};
use std::process::ExitCode;

const PASSES: u64 = 900;
const SEED: u64 = 1;

fn run() -> Result<(), String> {
    let (passes, seed) = (argument(1, "PASSES", PASSES)?, argument(2, "SEED", SEED)?);
    if passes < LEAST_PASSES {
        return Err(format!("PASSES is {LEAST_PASSES} or more"));
    }
    println!("pass calls against the second implementation: {passes} passes, SEED={seed}");
    let mut tally = Tally::default();
    for index in 0..passes {
        compare_pass(&mut tally, &mut Rng::of_index(seed, index), index);
        if tally.differences() > MANY_DIFFERENCES {
            return Err("too many differences, the rest is left out".to_string());
        }
    }
    largest(&mut tally, &mut Rng::of_index(seed, passes));
    tally.report(&[Call::PassWrite, Call::PassRead], seed)
}

fn main() -> ExitCode {
    verdict(run())
}
