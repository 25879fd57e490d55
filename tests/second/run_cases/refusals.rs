//! Calls with arguments that are wrong in one way or several.

use super::calls::{compare, Arguments};
use super::sample::Sample;
use crate::compare::{Rng, Tally, Way};
use crate::run::{Header, FACTORS, HEADER_BYTES, MARKER_MOST};
use crate::word::WORD_BITS;

/// The questions that such a call can fail, in the order in which they are put.
pub(super) const REFUSED_ORDER: [u8; 9] = [1, 2, 3, 4, 5, 6, 7, 20, 8];

/// A value that is wrong for its field: the one below the range, or one of those above it.
fn wrong_field(rng: &mut Rng, below: u64, above: std::ops::RangeInclusive<u64>) -> u64 {
    let (first, last) = (*above.start(), *above.end());
    let any = first + rng.next() % (last - first + 1);
    rng.pick(&[below, first, last, any])
}

/// Another length than the right one.
pub(super) fn wrong_len(rng: &mut Rng, right: usize) -> usize {
    let any = rng.below(right + 64);
    let len = rng.pick(&[0, 1, right - 1, right + 1, right / 2, any]);
    if len == right {
        right + 8
    } else {
        len
    }
}

/// Header and marker, and the lengths of frames and slots, with something wrong in them.
pub(super) struct Broken {
    pub(super) header: Vec<u8>,
    pub(super) marker: Vec<u8>,
    pub(super) frames_len: usize,
    pub(super) slots_len: usize,
}

/// A factor that there is not.
fn wrong_factor(rng: &mut Rng) -> u64 {
    let any = rng.next() >> 58;
    let factor = rng.pick(&[0, 5, 6, 7, 9, 12, 31, 33, 48, 63, any]);
    if FACTORS.contains(&factor) {
        5
    } else {
        factor
    }
}

/// Breaks a header of fields that are good, so that it fails this question; of 7 W's range alone.
pub(super) fn break_header(rng: &mut Rng, header: &mut Header, number: u8) {
    match number {
        20 => header.copies = wrong_factor(rng),
        7 => header.marker = wrong_field(rng, 0, MARKER_MOST as u64 + 1..=63),
        6 if rng.below(2) == 0 => header.frame_bytes = wrong_field(rng, 0, 2049..=4095),
        6 => header.frames = wrong_field(rng, 0, 65..=127),
        5 => {
            let symbols = WORD_BITS as u64 / header.bits;
            header.rows = 2 + rng.next() % 127;
            header.step = 1 + rng.next() % 256;
            if header.rows * (header.rows - 1) * header.step % symbols == 0 {
                header.rows = 2; // never passes
            }
        }
        4 if rng.below(2) == 0 => header.rows = wrong_field(rng, 0, 129..=255),
        4 => header.step = wrong_field(rng, 0, 257..=511),
        3 => header.bits = wrong_field(rng, 1, 9..=15),
        2 => header.rate = 3,
        _ => panic!("question {number} is about no field"),
    }
}

/// The questions after one that is failed first, some of which are failed too, from the last on:
/// so what an earlier one breaks stays broken. The first comes last.
pub(super) fn failed_too(rng: &mut Rng, order: &[u8], first: u8) -> Vec<u8> {
    let later = order.iter().rev().take_while(|&&number| number != first);
    let also = later.filter(|_| rng.below(3) == 0);
    also.chain([&first]).copied().collect()
}

/// What fails one of these questions first and, by chance, some of those after it. Question 7 is about
/// the symbols of the marker too where they are lent.
pub(super) fn broken(rng: &mut Rng, sample: &Sample, first: u8, marker_lent: bool) -> Broken {
    let mut header = sample.header;
    let mut marker = sample.marker.clone();
    let mut frames_len = sample.frames.len();
    let mut slots_len = sample.run.slots_len();
    let mut header_len = HEADER_BYTES;

    for number in failed_too(rng, &REFUSED_ORDER, first) {
        match number {
            8 => {
                let wrong = 1 + rng.below(7);
                if wrong & 1 != 0 {
                    // beyond the W-th, symbols are not looked at
                    marker.resize(wrong_len(rng, marker.len()), 0xFF);
                }
                if wrong & 2 != 0 {
                    frames_len = wrong_len(rng, frames_len);
                }
                if wrong & 4 != 0 {
                    slots_len = wrong_len(rng, slots_len);
                }
            }
            7 => {
                let looked_at = marker.len().min(header.marker as usize);
                let symbols = marker_lent && sample.run.order() < 256 && looked_at > 0;
                if rng.below(2) == 0 || !symbols {
                    break_header(rng, &mut header, 7);
                } else {
                    let any = sample.run.order() + rng.below(256 - sample.run.order());
                    let wrong = rng.pick(&[sample.run.order(), any, 255]);
                    marker[rng.below(looked_at)] = wrong as u8;
                }
            }
            1 if rng.below(2) == 0 => header.spare = 1 << rng.below(26),
            1 => header_len = rng.pick(&[0, 1, 7, 8, 9, 11, 16]),
            _ => break_header(rng, &mut header, number),
        }
    }

    let mut packed = header.pack().to_vec();
    packed.resize(header_len, 0);
    Broken {
        header: packed,
        marker,
        frames_len,
        slots_len,
    }
}

/// A call that fails this question first.
pub(super) fn refused_call(
    tally: &mut Tally,
    rng: &mut Rng,
    way: Way,
    sample: &Sample,
    slots: &[u8],
    first: u8,
    what: &str,
) {
    let broken = broken(rng, sample, first, true);
    let (input, len, output_len) = match way {
        Way::Write => (&sample.frames[..], broken.frames_len, broken.slots_len),
        Way::Read => (slots, broken.slots_len, broken.frames_len),
    };
    let mut input = input.to_vec();
    input.resize(len, 0);
    let arguments = Arguments {
        header: &broken.header,
        marker: &broken.marker,
        input: &input,
        output_len,
    };
    compare(tally, rng, way, arguments, &[first], what);
}
