//! Headers of the runs: those of the numbered cases, and those of any fields.

use crate::compare::Rng;
use crate::run::{Header, FACTORS};
use crate::word::{Rate, WORD_BITS};

/// All N and B in range whose unhit places are 1 to `most` codeblocks, by m.
fn rows_and_steps(most: u64) -> Vec<Vec<(u64, u64)>> {
    let fits = |bits: u64, rows: u64, step: u64| {
        let (unhit, symbols) = (rows * (rows - 1) * step, WORD_BITS as u64 / bits);
        unhit % symbols == 0 && unhit / symbols <= most
    };
    let of_bits = |bits: u64| {
        let all = (2..=128).flat_map(|rows| (1..=256).map(move |step| (rows, step)));
        all.filter(|&(rows, step)| fits(bits, rows, step)).collect()
    };
    (0..=8)
        .map(|bits| if bits < 2 { Vec::new() } else { of_bits(bits) })
        .collect()
}

/// N and B, by m, for runs of several sizes.
pub struct Sizes {
    small: Vec<Vec<(u64, u64)>>,
    middle: Vec<Vec<(u64, u64)>>,
    all: Vec<Vec<(u64, u64)>>,
}

impl Default for Sizes {
    fn default() -> Sizes {
        Sizes {
            small: rows_and_steps(4),
            middle: rows_and_steps(64),
            all: rows_and_steps(u64::MAX),
        }
    }
}

impl Sizes {
    /// N and B of lines of middle size.
    pub(super) fn of_bits(&self, bits: u64) -> &[(u64, u64)] {
        &self.middle[bits as usize]
    }
}

/// The most slot bytes of a run of several copies, so that a case takes no longer than a moment.
const REPEATED_MOST: usize = 1 << 20;

/// The header with a factor: no copies in half the cases, else as many as are not too large.
fn repeated(rng: &mut Rng, mut header: Header) -> Header {
    header.copies = rng.pick(&[1, 1, 1, 1, 1, 2, 3, 4, 32, 32]);
    header.copies = if header.copies == 32 {
        rng.pick(&[8, 16, 32])
    } else {
        header.copies
    };
    while header.copies > 1
        && header.run().expect("a header that passes").slots_len() > REPEATED_MOST
    {
        let at = FACTORS.iter().position(|&factor| factor == header.copies);
        header.copies = FACTORS[at.expect("a factor") - 1];
    }
    header
}

/// The next header. Each m in turn, each rate in turn, and of every four runs one with N = 1 and
/// one with C = 1; now and then the case with no fill, or a run of middle size.
pub(super) fn some_header(rng: &mut Rng, sizes: &Sizes, index: u64) -> Header {
    let (bits, turn) = (2 + index % 7, index / 7);
    let rate = turn % 3;
    let k = Rate::of(rate).expect("a rate below 3").block_bits as u64;
    let middle = index % 61 == 60;
    let (rows, step) = match turn % 4 {
        0 => (1, 1 + rng.next() % 256),
        _ if middle => rng.pick(&sizes.middle[bits as usize]),
        _ => rng.pick(&sizes.small[bits as usize]),
    };
    let blocks = match turn % 4 {
        _ if middle => 1 + rng.next() % 40,
        1 => 1,
        _ => 1 + rng.next() % 4,
    };
    let any = 1 + rng.next() % 64;
    let frames = rng.pick(&[1, 2, 3, 5, 64, any]);
    let bits_of_frames = (blocks - 1) * k + 1 + rng.next() % k;
    let frame_bytes = (bits_of_frames / frames / 8)
        .saturating_sub(4)
        .clamp(1, 2048);
    let any = 1 + rng.next() % 32;
    let marker = rng.pick(&[1, 2, 32, any]);
    let header = Header {
        rate,
        bits,
        rows,
        step,
        frame_bytes,
        marker,
        frames,
        copies: 1,
        spare: 0,
    };
    if index % 37 == 5 {
        let fours = 1 + rng.next() % 2;
        return repeated(rng, no_fill(header, fours));
    }
    repeated(rng, header)
}

/// The header with `fours` times four blocks and no fill bits.
fn no_fill(header: Header, fours: u64) -> Header {
    Header {
        rate: 1,
        frames: 53,
        frame_bytes: 71 * fours - 4,
        ..header
    }
}

/// A field of any value in its range, its ends more often; now and then of any value at all.
fn any_field(rng: &mut Rng, range: std::ops::RangeInclusive<u64>, bits: u32) -> u64 {
    let (first, last) = (*range.start(), *range.end());
    let inside = first + rng.next() % (last - first + 1);
    match rng.below(64) {
        0 => rng.next() >> (64 - bits),
        1..=8 => rng.pick(&[first, last]),
        _ => inside,
    }
}

/// A header of any fields; in most, N and B fit.
pub(super) fn any_header(rng: &mut Rng, sizes: &Sizes) -> Header {
    let bits = any_field(rng, 2..=8, 4);
    let (mut rows, mut step) = (any_field(rng, 1..=128, 8), any_field(rng, 1..=256, 9));
    match sizes.all.get(bits as usize) {
        Some(fits) if !fits.is_empty() && rng.below(4) > 0 => (rows, step) = rng.pick(fits),
        _ if rng.below(4) > 0 => rows = 1,
        _ => (),
    }
    Header {
        rate: any_field(rng, 0..=2, 2),
        bits,
        rows,
        step,
        frame_bytes: any_field(rng, 1..=2048, 12),
        marker: any_field(rng, 1..=32, 6),
        frames: any_field(rng, 1..=64, 7),
        copies: match rng.below(64) {
            0 => rng.next() >> 58,
            _ => rng.pick(&FACTORS),
        },
        spare: any_field(rng, 0..=0, 26),
    }
}
