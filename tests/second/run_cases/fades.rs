//! Cases for `mahyrei_fades_count`: lists of every shape on runs of every kind, whole or broken in
//! one way.

use super::headers::{any_header, some_header, Sizes};
use super::refusals::{break_header, failed_too};
use crate::compare::{Call, Case, Rng, Tally};
use crate::run::{Header, Run, HEADER_BYTES};
use crate::{fades, library};

/// The questions that the call puts, in their order.
const ORDER: [u8; 10] = [1, 2, 3, 4, 5, 6, 7, 20, 8, 22];

/// One turn of every question at each m.
pub const LEAST_FADES: u64 = 7 * 2 * ORDER.len() as u64;

/// The most symbols of a run, so that a case takes no longer than a moment.
const MOST_SYMBOLS: usize = 200_000;

fn bytes_of(numbers: &[u32]) -> Vec<u8> {
    numbers.iter().flat_map(|n| n.to_ne_bytes()).collect()
}

/// A lent slice as numbers; it has whole ones, and begins where a number can.
fn numbers(bytes: &[u8]) -> &[u32] {
    // SAFETY: every four bytes are a number
    let (before, numbers, behind) = unsafe { bytes.align_to() };
    assert!(before.is_empty() && behind.is_empty());
    numbers
}

fn numbers_mut(bytes: &mut [u8]) -> &mut [u32] {
    // SAFETY: every four bytes are a number
    let (before, numbers, behind) = unsafe { bytes.align_to_mut() };
    assert!(before.is_empty() && behind.is_empty());
    numbers
}

fn put(
    tally: &mut Tally,
    rng: &mut Rng,
    header: &[u8],
    list: &[u32],
    counts_len: usize,
    allowed: &[u8],
    what: &str,
) {
    let expected = fades::count(header, list, counts_len);
    let case = Case {
        call: Call::FadesCount,
        inputs: &[header, &bytes_of(list)],
        output_len: 4 * counts_len,
        expected: expected.map(|counts| bytes_of(&counts)),
        place: 0,
        numbers: allowed,
        what: &format!(
            "fades_count, {what}, {} numbers, header {header:02X?}",
            list.len()
        ),
    };
    tally.compare(rng, case, |inputs, counts| {
        library::fades_count(inputs[0], numbers(inputs[1]), numbers_mut(counts))
    });
}

// ---- lists

/// A list that keeps the rules, of one of several shapes.
fn some_list(rng: &mut Rng, run: &Run) -> Vec<u32> {
    let all = run.symbols();
    let mut list = Vec::new();
    let mut pair = |first: usize, length: usize| list.extend([first as u32, length as u32]);
    match rng.below(8) {
        0 => (),
        1 => pair(0, all),
        2 => {
            let first = rng.below(all);
            pair(first, 1);
        }
        3 => {
            let first = rng.below(all);
            pair(first, 1 + rng.below(all - first));
        }
        4 => {
            // each symbol a fade of its own, or every second
            let step = 1 + rng.below(2);
            (0..all.min(20_000))
                .step_by(step)
                .for_each(|first| pair(first, 1));
        }
        5 => {
            // touching fades, over the whole run
            let mut first = 0;
            while first < all {
                let length = (1 + rng.below(3_000)).min(all - first);
                pair(first, length);
                first += length;
            }
        }
        6 => {
            // the markers alone
            for line in 0..all / run.period() {
                pair(line * run.period(), run.marker_len());
            }
        }
        _ => {
            let (gap, length) = (1 << rng.below(14), 1 << rng.below(12));
            let mut first = rng.below(gap);
            while first < all {
                let length = (1 + rng.below(length)).min(all - first);
                pair(first, length);
                first += length + rng.below(gap);
            }
        }
    }
    list
}

/// Breaks a list in one way.
fn break_list(rng: &mut Rng, run: &Run, list: &mut Vec<u32>) {
    let all = run.symbols() as u32;
    if list.is_empty() {
        list.extend([0, 1]);
    }
    let at = 2 * rng.below(list.len() / 2);
    match rng.below(9) {
        0 => list[at + 1] = 0,
        1 => list.push(0),
        2 => list.truncate(list.len() - 1),
        3 => list.extend([all, 1]),
        4 => list.extend([u32::MAX, 1]), // its end is no number of 32 bits
        5 => {
            // the same again
            let pair = [list[at], list[at + 1]];
            list.splice(at..at, pair);
        }
        6 => {
            // one symbol too long: into the next, or after the run
            let next = list.get(at + 2).copied().unwrap_or(all);
            list[at + 1] = next - list[at] + 1;
        }
        7 => list[at + 1] = u32::MAX,
        _ => {
            // one that comes too late
            let last = list.len() - 2;
            let end = list[last] + list[last + 1];
            list.extend([end - 1, 1]);
        }
    }
}

/// A header of one of the numbered runs, and now and then one of any fields; not too large.
fn some_run(rng: &mut Rng, sizes: &Sizes, index: u64) -> Header {
    for _ in 0..8 {
        let header = match rng.below(2) {
            0 => some_header(rng, sizes, index),
            _ => any_header(rng, sizes),
        };
        let fits = |run: &Run| run.is_factor() && run.symbols() <= MOST_SYMBOLS;
        if header.spare == 0 && header.run().is_ok_and(|run| fits(&run)) {
            return header;
        }
    }
    let small = some_header(rng, sizes, index);
    Header { rows: 1, ..small }
}

/// The list of this index on some run: whole, or with the next question failed first and, by
/// chance, some of those after it.
pub fn compare_fades(tally: &mut Tally, rng: &mut Rng, sizes: &Sizes, index: u64) {
    let what = format!("fades {index}");
    let mut header = some_run(rng, sizes, index);
    let run = header.run().expect("a header that passes");
    let mut list = some_list(rng, &run);
    let summed = fades::count(&header.pack(), &list, run.blocks());
    let summed = summed.expect("accepted").iter().sum::<u32>();
    let own = fades::covered_in_words(&run, &list);
    assert_eq!(summed, own, "{what}: the sum of the counts");
    put(tally, rng, &header.pack(), &list, run.blocks(), &[0], &what);

    let first = ORDER[index as usize % ORDER.len()];
    let (mut len, mut counts_len) = (HEADER_BYTES, run.blocks());
    for number in failed_too(rng, &ORDER, first) {
        match number {
            22 => break_list(rng, &run, &mut list),
            8 => counts_len = rng.pick(&[0, counts_len - 1, counts_len + 1, counts_len + 7]),
            1 if rng.below(2) == 0 => header.spare = 1 << rng.below(26),
            1 => len = rng.pick(&[0, 8, 9, 11]),
            _ => break_header(rng, &mut header, number),
        }
    }
    let mut packed = header.pack().to_vec();
    packed.resize(len, 0);
    put(tally, rng, &packed, &list, counts_len, &[first], &what);
}

// ---- edges

/// Three words, four lines, 7,568 symbols.
const THREE: Header = Header {
    rate: 1,
    bits: 8,
    rows: 6,
    step: 63,
    frame_bytes: 900,
    marker: 2,
    frames: 3,
    copies: 1,
    spare: 0,
};

/// The run with the most symbols.
const LONGEST: Header = Header {
    rate: 0,
    bits: 2,
    rows: 126,
    step: 252,
    frame_bytes: 2048,
    marker: 32,
    frames: 64,
    copies: 32,
    spare: 0,
};

/// Lists at the ends of what is allowed, and the run with the most symbols.
pub fn fade_edges(tally: &mut Tally, rng: &mut Rng) {
    const MOST: u32 = u32::MAX;
    let header = THREE.pack();
    let whole: &[&[u32]] = &[
        &[],
        &[0, 1],
        &[7567, 1],
        &[0, 7568],
        &[0, 7567, 7567, 1],
        &[3, 2, 5, 1],
        &[1892, 2],
        &[1000, 500, 2000, 300],
    ];
    let broken: &[&[u32]] = &[
        &[7567, 2],
        &[7568, 1],
        &[0, 7569],
        &[MOST, 1],
        &[MOST, MOST],
        &[1, MOST],
        &[5, 0],
        &[0, 0],
        &[3, 2, 4, 1],
        &[5, 1, 3, 1],
        &[5, 1, 5, 1],
        &[5],
        &[5, 1, 7],
    ];
    for (lists, number) in [(whole, 0), (broken, 22)] {
        for list in lists {
            put(tally, rng, &header, list, 3, &[number], "edge");
            for len in [0, 1, 2, 4] {
                put(tally, rng, &header, list, len, &[8], "edge");
            }
        }
    }
    for (copies, number) in [(32, 0), (5, 20), (0, 20)] {
        let header = Header { copies, ..THREE }.pack();
        put(tally, rng, &header, whole[7], 3, &[number], "factor");
    }
    let run = LONGEST.run().expect("a header that passes");
    assert_eq!((run.blocks(), run.symbols()), (210, 5_580_120));
    let symbols = run.symbols() as u32;
    let every_second: Vec<u32> = (0..symbols / 2).flat_map(|i| [2 * i, 1]).collect();
    let header = LONGEST.pack();
    for (list, number) in [
        (&[0, symbols][..], 0),
        (&[0, symbols + 1], 22),
        (&every_second, 0),
    ] {
        put(tally, rng, &header, list, 210, &[number], "longest");
    }
}
