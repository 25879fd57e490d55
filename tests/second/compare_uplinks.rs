//! Compares the two uplink calls with the second implementation: `compare_uplinks [UPLINKS [SEED]]`.
//! Compared are the answer and every lent byte, with a margin around each slice. The frames with one
//! bit, and every one or two wrong bits of a codeblock, come first.

use second::compare::{argument, verdict, Call, Rng, Tally, MANY_DIFFERENCES};
use second::uplink_cases::{compare_uplink, every, LEAST_UPLINKS};
use std::process::ExitCode;

const UPLINKS: u64 = 34_000;
const SEED: u64 = 1;

fn run() -> Result<(), String> {
    let (uplinks, seed) = (argument(1, "UPLINKS", UPLINKS)?, argument(2, "SEED", SEED)?);
    if uplinks < LEAST_UPLINKS {
        return Err(format!("UPLINKS is {LEAST_UPLINKS} or more"));
    }
    println!("uplink calls against the second implementation: {uplinks} uplinks, SEED={seed}");
    let mut tally = Tally::default();
    every(&mut tally, &mut Rng::of_index(seed, uplinks));
    for index in 0..uplinks {
        compare_uplink(&mut tally, &mut Rng::of_index(seed, index), index);
        if tally.differences() > MANY_DIFFERENCES {
            return Err("too many differences, the rest is left out".to_string());
        }
    }
    tally.report(&[Call::UplinkWrite, Call::UplinkRead], seed)
}

fn main() -> ExitCode {
    verdict(run())
}
