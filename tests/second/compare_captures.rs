//! Compares `mahyrei_run_find`, `mahyrei_run_find_from` and `mahyrei_run_cut` with the second
//! implementation: `compare_captures [CAPTURES [SEED]]`. Compared are the answer and every lent
//! byte, with a margin around each slice. The specification's example in a capture comes last.

use second::compare::{argument, verdict, Call, Rng, Tally, MANY_DIFFERENCES};
use second::run_cases::{compare_capture, example_capture, Sizes, LEAST_CAPTURES};
use std::process::ExitCode;

const CAPTURES: u64 = 1_500;
const SEED: u64 = 1;

fn run() -> Result<(), String> {
    let captures = argument(1, "CAPTURES", CAPTURES)?;
    let seed = argument(2, "SEED", SEED)?;
    if captures < LEAST_CAPTURES {
        return Err(format!("CAPTURES is {LEAST_CAPTURES} or more"));
    }
    println!("captures against the second implementation: {captures} captures, SEED={seed}");
    let (mut tally, sizes) = (Tally::default(), Sizes::default());
    for index in 0..captures {
        let mut rng = Rng::of_index(seed, index);
        compare_capture(&mut tally, &mut rng, &sizes, index);
        if tally.differences() > MANY_DIFFERENCES {
            return Err("too many differences, the rest is left out".to_string());
        }
    }
    example_capture(&mut tally, &mut Rng::of_index(seed, captures));
    tally.report(&[Call::RunFind, Call::RunFindFrom, Call::RunCut], seed)
}

fn main() -> ExitCode {
    verdict(run())
}
