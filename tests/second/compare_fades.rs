//! Compares `mahyrei_fades_count` with the second implementation: `compare_fades [FADES [SEED]]`.
//! Compared are the answer and every lent number, with a margin around each slice. The edges come
//! first, and with them the run that has the most symbols.

use second::compare::{argument, verdict, Call, Rng, Tally, MANY_DIFFERENCES};
use second::run_cases::{compare_fades, fade_edges, Sizes, LEAST_FADES};
use std::process::ExitCode;

const FADES: u64 = 3_000;
const SEED: u64 = 1;

fn run() -> Result<(), String> {
    let lists = argument(1, "FADES", FADES)?;
    let seed = argument(2, "SEED", SEED)?;
    if lists < LEAST_FADES {
        return Err(format!("FADES is {LEAST_FADES} or more"));
    }
    println!("fades against the second implementation: {lists} lists, SEED={seed}");
    let (mut tally, sizes) = (Tally::default(), Sizes::default());
    fade_edges(&mut tally, &mut Rng::of_index(seed, lists));
    for index in 0..lists {
        let mut rng = Rng::of_index(seed, index);
        compare_fades(&mut tally, &mut rng, &sizes, index);
        if tally.differences() > MANY_DIFFERENCES {
            return Err("too many differences, the rest is left out".to_string());
        }
    }
    tally.report(&[Call::FadesCount], seed)
}

fn main() -> ExitCode {
    verdict(run())
}
