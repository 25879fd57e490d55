//! Cases for the two pass calls.
//!
//! Every pass is written by both from the same blocks, then read by both, as it is or with a word
//! damaged, or two. Beside each goes a call with slices of wrong lengths or with no such rate.

use crate::compare::{Case, Rng, Tally, Way};
use crate::word::{self, WORD_BITS, WORD_BYTES};
use crate::word_cases::{rate_of, wrong_rate};
use crate::{library, pass};

/// One turn of every kind of damage and of wrong call at each rate, which meets every number.
pub const LEAST_PASSES: u64 = 3 * 36;

/// A word that is damaged in one of three ways, with the number that reading it gives.
fn damaged(rng: &mut Rng, rate: u64, block: &[u8], kind: u64) -> (Vec<u8>, u8) {
    let k = rate_of(rate).block_bits;
    let mut inputs = word::terminated(&word::unpack(block)[..k]);
    match kind {
        0 => {
            let mut word = word::word_of_inputs(rate_of(rate), &inputs);
            let wrong = rng.below(WORD_BITS); // one bit never comes as far as 14
            word[wrong / 8] ^= 0x80 >> (wrong % 8);
            (word, 13)
        }
        1 => {
            inputs[k + word::CHECK_BITS + rng.below(2)] = true;
            (word::word_of_inputs(rate_of(rate), &inputs), 14)
        }
        _ => {
            inputs[rng.below(k + word::CHECK_BITS)] ^= true;
            (word::word_of_inputs(rate_of(rate), &inputs), 15)
        }
    }
}

/// Puts one call to both.
fn compare(
    tally: &mut Tally,
    rng: &mut Rng,
    way: Way,
    rate: u64,
    input: &[u8],
    output_len: usize,
    expected: u64,
    what: &str,
) {
    let second = match way {
        Way::Write => pass::write(rate, input, output_len),
        Way::Read => pass::read(rate, input, output_len),
    };
    let code = second
        .as_ref()
        .map_or_else(|r| r.place as u64 * 256 + u64::from(r.number), |_| 0);
    assert_eq!(
        code, expected,
        "{what}: the second implementation and the maker of the case"
    );
    let case = Case {
        call: way.of_passes(),
        inputs: &[input],
        output_len,
        expected: second,
        place: 0,
        numbers: &[(expected % 256) as u8],
        what: &format!("{what}, rate {rate}, {} bytes", input.len()),
    };
    tally.compare(rng, case, |inputs, output| match way {
        Way::Write => library::pass_write(rate, inputs[0], output),
        Way::Read => library::pass_read(rate, inputs[0], output),
    });
}

/// The places of the damage, by its kind: word 0, one in the middle, the last, any two; or none.
fn places(rng: &mut Rng, kind: u64, count: usize) -> Vec<usize> {
    match kind {
        0 => vec![0],
        1 => vec![count / 2],
        2 => vec![count - 1],
        3 => vec![rng.below(count), rng.below(count)],
        4 => vec![count - 1, 0],
        _ => vec![],
    }
}

/// Writes a pass of so many blocks, and reads it with some of its words damaged.
fn compare_blocks(
    tally: &mut Tally,
    rng: &mut Rng,
    rate: u64,
    count: usize,
    kind: u64,
    what: &str,
) {
    let len = rate_of(rate).block_bytes();
    let blocks = rng.bytes(count * len); // the spare bits too
    let (read, written) = (blocks.len(), count * WORD_BYTES);
    compare(tally, rng, Way::Write, rate, &blocks, written, 0, what);
    let mut words = pass::write(rate, &blocks, written).expect("a pass");
    let mut expected = 0;
    for (turn, place) in places(rng, kind % 6, count).into_iter().enumerate() {
        let block = &blocks[place * len..(place + 1) * len];
        let (word, number) = damaged(rng, rate, block, (kind / 6 + turn as u64) % 3);
        words[place * WORD_BYTES..(place + 1) * WORD_BYTES].copy_from_slice(&word);
        // the lower counts, and of two at one place the later, which has taken the word's place
        if expected == 0 || place as u64 <= expected / 256 {
            expected = place as u64 * 256 + u64::from(number);
        }
    }
    compare(tally, rng, Way::Read, rate, &words, read, expected, what);
}

/// A call whose lengths make no pass, or with no such rate.
fn refused_call(tally: &mut Tally, rng: &mut Rng, rate: u64, wrong: u64, what: &str) {
    let len = rate_of(rate).block_bytes();
    let count = 1 + rng.below(3);
    let (blocks, words) = match wrong % 9 {
        0 => (0, 0),
        1 => (count * len + 1, count * WORD_BYTES),
        2 => (count * len - 1, count * WORD_BYTES),
        3 => (count * len, count * WORD_BYTES - 1 + 2 * rng.below(2)),
        4 => (count * len, (count - 1 + 2 * rng.below(2)) * WORD_BYTES),
        5 => ((count + 1) * len, count * WORD_BYTES),
        6 => (212 * len, 212 * WORD_BYTES),
        7 => (0, count * WORD_BYTES),
        _ => (count * len, count * WORD_BYTES),
    };
    // the last is right, and so are some others: they have no such rate instead
    let no_rate = wrong % 9 == 8 || wrong / 18 % 2 == 1;
    let (rate, number) = if no_rate {
        (wrong_rate(rng), 2)
    } else {
        (rate, 8)
    };
    let (way, input, output) = match wrong / 9 % 2 {
        0 => (Way::Write, blocks, words),
        _ => (Way::Read, words, blocks),
    };
    let input = rng.bytes(input);
    compare(tally, rng, way, rate, &input, output, number, what);
}

/// The pass of this index and the call beside it, put to both.
pub fn compare_pass(tally: &mut Tally, rng: &mut Rng, index: u64) {
    let (rate, turn) = (index % 3, index / 3);
    let count = 1 + rng.below(5);
    compare_blocks(tally, rng, rate, count, turn, &format!("pass {index}"));
    refused_call(tally, rng, rate, turn % 36, &format!("beside pass {index}"));
}

/// A pass of 211 at each rate, sound and with its last word damaged.
pub fn largest(tally: &mut Tally, rng: &mut Rng) {
    for rate in 0..3 {
        for kind in [5, 2] {
            compare_blocks(tally, rng, rate, pass::MOST, kind, "a pass of 211");
        }
    }
}
