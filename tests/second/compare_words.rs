//! Compares the two word calls with the second implementation: `compare_words [WORDS [SEED]]`.
//! Compared are the answer and every lent byte, with a margin around each slice. What the check
//! finds comes first.

use second::compare::{argument, verdict, Call, Rng, Tally, MANY_DIFFERENCES};
use second::word_cases::{compare_windows, compare_word, LEAST_WORDS};
use std::process::ExitCode;

const WORDS: u64 = 24_000;
const SEED: u64 = 1;

fn run() -> Result<(), String> {
    let (words, seed) = (argument(1, "WORDS", WORDS)?, argument(2, "SEED", SEED)?);
    if words < LEAST_WORDS {
        return Err(format!("WORDS is {LEAST_WORDS} or more"));
    }
    println!("word calls against the second implementation: {words} words, SEED={seed}");
    let mut tally = Tally::default();
    compare_windows(&mut tally, &mut Rng::of_index(seed, words));
    for index in 0..words {
        compare_word(&mut tally, &mut Rng::of_index(seed, index), index);
        if tally.differences() > MANY_DIFFERENCES {
            return Err("too many differences, the rest is left out".to_string());
        }
    }
    tally.report(&[Call::WordWrite, Call::WordRead], seed)
}

fn main() -> ExitCode {
    verdict(run())
}
