//! Compares the four rack calls with the second implementation: `compare_racks [TRACES [SEED]]`.
//! Traces of calls of all missions: compared are each answer and every lent byte, with a margin
//! around each slice. Then pairs of traces that differ in calls that may not matter to a mission,
//! which is told the same in both; and the same of racks that leak, which such pairs have to find
//! out.

use second::compare::{argument, verdict, Call, Rng, Tally, MANY_DIFFERENCES};
use second::run_cases::{compare_pair, compare_trace, same_told, Sizes, LEAKY};
use std::process::ExitCode;

const TRACES: u64 = 3_000;
const SEED: u64 = 1;

/// How many of these pairs a rack is found out by.
fn found_by(pairs: u64, seed: u64, sizes: &Sizes, make: second::run_cases::MakeRack) -> u64 {
    let told = |index| same_told(&mut Rng::of_index(seed, index), sizes, &make);
    (0..pairs).filter(|&index| told(index).is_err()).count() as u64
}

fn run() -> Result<(), String> {
    let (traces, seed) = (argument(1, "TRACES", TRACES)?, argument(2, "SEED", SEED)?);
    if traces < 1000 {
        return Err("TRACES is 1000 or more".to_string());
    }
    let pairs = traces.min(4_000);
    println!("rack calls against the second implementation: {traces} traces of 60, SEED={seed}");
    let (mut tally, sizes) = (Tally::default(), Sizes::default());
    for index in 0..traces {
        compare_trace(&mut tally, &mut Rng::of_index(seed, index), &sizes, index);
        if index < pairs {
            compare_pair(&mut tally, &mut Rng::of_index(!seed, index), &sizes, index);
        }
        if tally.differences() > MANY_DIFFERENCES {
            return Err("too many differences, the rest is left out".to_string());
        }
    }
    println!("  {pairs} pairs of traces that are alike to one mission; of a rack that");
    for (name, make) in LEAKY {
        let found = found_by(pairs, !seed, &sizes, make);
        println!("  {name:<29} {found:>12} are not");
        if found == 0 {
            return Err(format!("no pair finds out a rack that {name}"));
        }
    }
    let calls = [
        Call::RackLoad,
        Call::RackRead,
        Call::RackDrop,
        Call::RackLend,
    ];
    tally.report(&calls, seed)
}

fn main() -> ExitCode {
    verdict(run())
}
