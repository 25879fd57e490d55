//! Compares `mahyrei_bit_spread` with the second implementation, on every bit of every rate:
//! `compare_spreads [SEED]`. Compared are the answer and every lent byte, with a margin around the
//! slice; and the fewest and the most places that change are what they are known to be.

use second::compare::{argument, verdict, Call, Rng, Tally, MANY_DIFFERENCES};
use second::spread_cases::{compare_every_bit, compare_spread};
use std::process::ExitCode;

const SEED: u64 = 1;
const BLOCKS: u64 = 600;

/// By rate: the fewest places that change, and the most, each with the first bit that changes so
/// many.
const KNOWN: [[(usize, usize); 2]; 3] = [
    [(34, 4992), (84, 4697)],
    [(26, 14), (54, 7217)],
    [(14, 189), (42, 1176)],
];

fn run() -> Result<(), String> {
    let seed = argument(1, "SEED", SEED)?;
    println!("bit_spread against the second implementation: every bit of a block, SEED={seed}");
    let mut tally = Tally::default();
    for (rate, known) in (0..).zip(KNOWN) {
        let counts = compare_every_bit(&mut tally, &mut Rng::of_index(seed, rate), rate)?;
        if [counts.least, counts.most] != known {
            let (least, most) = (counts.least, counts.most);
            return Err(format!(
                "at rate {rate} {least:?} to {most:?} places and bits"
            ));
        }
        if tally.differences() > MANY_DIFFERENCES {
            return Err("too many differences, the rest is left out".to_string());
        }
    }
    for index in 0..BLOCKS {
        compare_spread(&mut tally, &mut Rng::of_index(seed, 3 + index), index);
    }
    println!("  84, 54 and 42 coded bits change at the most, 34, 26 and 14 at the least");
    tally.report(&[Call::BitSpread], seed)
}

fn main() -> ExitCode {
    verdict(run())
}
