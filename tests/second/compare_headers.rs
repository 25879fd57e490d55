//! Compares `mahyrei_header_widen` and `mahyrei_header_narrow` with the second implementation:
//! `compare_headers [HEADERS [SEED]]`. Compared are the answer and every lent byte, with a margin
//! around each slice. The edges of the factor come first, for every call that is lent a header.

use second::compare::{argument, verdict, Call, Rng, Tally, MANY_DIFFERENCES};
use second::run_cases::{compare_header, header_edges, Sizes, LEAST_HEADERS};
use std::process::ExitCode;

const HEADERS: u64 = 20_000;
const SEED: u64 = 1;

fn run() -> Result<(), String> {
    let headers = argument(1, "HEADERS", HEADERS)?;
    let seed = argument(2, "SEED", SEED)?;
    if headers < LEAST_HEADERS {
        return Err(format!("HEADERS is {LEAST_HEADERS} or more"));
    }
    println!("headers against the second implementation: {headers} headers, SEED={seed}");
    let (mut tally, sizes) = (Tally::default(), Sizes::default());
    header_edges(&mut tally, &mut Rng::of_index(seed, headers));
    for index in 0..headers {
        let mut rng = Rng::of_index(seed, index);
        compare_header(&mut tally, &mut rng, &sizes, index);
        if tally.differences() > MANY_DIFFERENCES {
            return Err("too many differences, the rest is left out".to_string());
        }
    }
    tally.report(&[Call::HeaderWiden, Call::HeaderNarrow], seed)
}

fn main() -> ExitCode {
    verdict(run())
}
