//! Compares all calls with the second implementation, on all cores and for a given time:
//! `soak [SECONDS]`.
//!
//! The cases of one SEED are numbered, and each depends on the seed and its number alone, not on
//! the threads. Without SEED a fresh one is drawn and printed; with CASE that one case is put
//! alone, so SEED and CASE show again what a soak found. A crash of the library names no case, but
//! the same SEED comes to it again.

use second::compare::{argument, optional_argument, verdict, Call, Rng, Tally, MANY_DIFFERENCES};
use second::pass_cases::compare_pass;
use second::run_cases::{
    compare_any, compare_any_delay, compare_capture, compare_delay, compare_fades, compare_header,
    compare_pair, compare_run, compare_trace, edges, fade_edges, header_edges, Sizes,
};
use second::spread_cases::compare_spread;
use second::uplink_cases::compare_uplink;
use second::word_cases::compare_word;
use std::fs::File;
use std::io::Read;
use std::panic::{catch_unwind, AssertUnwindSafe};
use std::process::ExitCode;
use std::sync::atomic::{AtomicBool, AtomicU64, Ordering::Relaxed};
use std::thread;
use std::time::{Duration, Instant};

const SECONDS: u64 = 60;

/// What the library promises to do with.
const STACK: usize = 1 << 20;

/// What the threads share.
struct Soak {
    seed: u64,
    end: Instant,
    next: AtomicU64,
    stop: AtomicBool,
    sizes: Sizes,
}

/// A seed that nobody chose.
fn fresh_seed() -> Result<u64, String> {
    let mut bytes = [0; 8];
    File::open("/dev/urandom")
        .and_then(|mut file| file.read_exact(&mut bytes))
        .map_err(|error| format!("no SEED, and /dev/urandom gives none: {error}"))?;
    Ok(u64::from_be_bytes(bytes))
}

/// Puts one case. Of 32, 9 are words, one is a list of fades, one has traces of a rack, one has steps
/// of delay lines, one is a header, 2 are captures, one is an uplink, one a block bit, 3 are passes,
/// 11 are runs, one is a run with any header, of which some are large; the specification's edges come
/// first.
fn put_case(tally: &mut Tally, soak: &Soak, case: u64) {
    let rng = &mut Rng::of_index(soak.seed, case);
    let (round, seat) = (case / 32, case % 32);
    match seat {
        _ if case == 0 => {
            edges(tally, rng);
            header_edges(tally, rng);
            fade_edges(tally, rng);
        }
        0..=8 => compare_word(tally, rng, 9 * round + seat),
        9 => compare_fades(tally, rng, &soak.sizes, round),
        10 => {
            (0..4).for_each(|i| compare_trace(tally, rng, &soak.sizes, 4 * round + i));
            compare_pair(tally, rng, &soak.sizes, round);
        }
        11 => {
            (0..16).for_each(|i| compare_delay(tally, rng, &soak.sizes, 16 * round + i));
            compare_any_delay(tally, rng, &soak.sizes);
        }
        12 => compare_header(tally, rng, &soak.sizes, round),
        13..=14 => compare_capture(tally, rng, &soak.sizes, 2 * round + seat - 13),
        15 => compare_uplink(tally, rng, round),
        16 => compare_spread(tally, rng, round),
        17..=19 => compare_pass(tally, rng, 3 * round + seat - 17),
        20..=30 => drop(compare_run(tally, rng, &soak.sizes, 11 * round + seat - 20)),
        _ => compare_any(tally, rng, &soak.sizes, round),
    }
}

/// Puts one case, and says how to put it again where it went wrong. Fails where there is no going
/// on: the second implementation or the maker of the case panicked.
fn try_case(tally: &mut Tally, soak: &Soak, case: u64) -> Result<(), String> {
    let before = tally.differences();
    let ended = catch_unwind(AssertUnwindSafe(|| put_case(tally, soak, case)));
    if ended.is_err() || tally.differences() > before {
        println!("  shown again by: make soak SEED={} CASE={case}", soak.seed);
    }
    ended.map_err(|_| format!("case {case} panicked"))
}

/// The cases of one thread: the next that no other thread has taken, until time is up.
fn work(soak: &Soak) -> Result<Tally, String> {
    let mut tally = Tally::default();
    while Instant::now() < soak.end && !soak.stop.load(Relaxed) {
        let ended = try_case(&mut tally, soak, soak.next.fetch_add(1, Relaxed));
        if ended.is_err() || tally.differences() > MANY_DIFFERENCES {
            soak.stop.store(true, Relaxed);
        }
        ended?;
    }
    Ok(tally)
}

/// All threads, and the sum of what they counted.
fn work_on_all_cores(soak: &Soak, cores: usize) -> Result<Tally, String> {
    thread::scope(|scope| {
        let start = |_| {
            let thread = thread::Builder::new().stack_size(STACK);
            thread.spawn_scoped(scope, || work(soak))
        };
        let threads: Result<Vec<_>, _> = (0..cores).map(start).collect();
        let mut all = Tally::default();
        for thread in threads.map_err(|error| format!("no thread: {error}"))? {
            all.add(&thread.join().map_err(|_| "a thread panicked")??);
        }
        Ok(all)
    })
}

fn run() -> Result<(), String> {
    let seconds = argument(1, "SECONDS", SECONDS)?;
    let seed = match optional_argument(2, "SEED")? {
        Some(seed) => seed,
        None => fresh_seed()?,
    };
    let soak = Soak {
        seed,
        end: Instant::now() + Duration::from_secs(seconds),
        next: AtomicU64::new(0),
        stop: AtomicBool::new(false),
        sizes: Sizes::default(),
    };
    let tally = match optional_argument(3, "CASE")? {
        Some(case) => {
            println!("soak: case {case} alone, SEED={seed}");
            let mut tally = Tally::default();
            try_case(&mut tally, &soak, case)?;
            tally
        }
        None => {
            let cores = thread::available_parallelism().map_or(1, |cores| cores.get());
            println!("soak: {seconds} s on {cores} cores, SEED={seed}");
            work_on_all_cores(&soak, cores)?
        }
    };
    tally.table(&Call::ALL);
    match tally.differences() {
        0 => Ok(()),
        _ => Err("library and second implementation differ".to_string()),
    }
}

fn main() -> ExitCode {
    verdict(run())
}
