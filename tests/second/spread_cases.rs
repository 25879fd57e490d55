//! Cases for `mahyrei_bit_spread`: every bit of every rate, blocks of any content, and refusals.

use crate::compare::{Call, Case, Rng, Tally};
use crate::library;
use crate::spread::{self, changes, coded, LIMITS};
use crate::word::{self, Refusal, WORD_BYTES};
use crate::word_cases::{rate_of, wrong_rate};

/// Puts one call to both.
fn compare(
    tally: &mut Tally,
    rng: &mut Rng,
    rate: u64,
    bit: u64,
    places_len: usize,
    expected: Result<Vec<u8>, Refusal>,
) {
    let number = expected
        .as_ref()
        .map_or_else(|refusal| refusal.number, |_| 0);
    let case = Case {
        call: Call::BitSpread,
        inputs: &[],
        output_len: places_len,
        expected,
        place: 0,
        numbers: &[number],
        what: &format!("bit_spread, rate {rate}, bit {bit}, {places_len} bytes"),
    };
    tally.compare(rng, case, |_, places| {
        library::bit_spread(rate, bit, places)
    });
}

/// How many places the bits of a rate change: the fewest and the most, each with the first bit that
/// does.
pub struct Counts {
    pub least: (usize, usize),
    pub most: (usize, usize),
}

/// Every bit of a block of zeros.
pub fn compare_every_bit(tally: &mut Tally, rng: &mut Rng, number: u64) -> Result<Counts, String> {
    let rate = rate_of(number);
    let zeros = vec![false; rate.block_bits];
    let before = coded(rate, &zeros);
    let (mut least, mut most) = ((usize::MAX, 0), (0, 0));
    for bit in 0..rate.block_bits {
        let changes = changes(rate, &zeros, &before, bit);
        let count = changes.iter().filter(|&&changes| changes).count();
        if count > LIMITS[number as usize] {
            return Err(format!(
                "bit {bit} at rate {number} changes {count} coded bits"
            ));
        }
        least = if count < least.0 { (count, bit) } else { least };
        most = if count > most.0 { (count, bit) } else { most };
        let expected = Ok(word::pack(&changes));
        compare(tally, rng, number, bit as u64, WORD_BYTES, expected);
    }
    Ok(Counts { least, most })
}

/// A bit of a block of any content: the same places as of any other.
pub fn compare_any_block(tally: &mut Tally, rng: &mut Rng, number: u64) {
    let rate = rate_of(number);
    let (block, near) = (rng.bits(rate.block_bits), rng.below(40));
    let any = rng.below(rate.block_bits);
    let bit = rng.pick(&[any, any, near, rate.block_bits - 1 - near]);
    let changes = changes(rate, &block, &coded(rate, &block), bit);
    let expected = Ok(word::pack(&changes));
    compare(tally, rng, number, bit as u64, WORD_BYTES, expected);
}

/// A call that is wrong in one way or several, one for each bit of `wrong`.
pub fn refused_call(tally: &mut Tally, rng: &mut Rng, number: u64, wrong: u64) {
    let k = rate_of(number).block_bits as u64;
    let rate = if wrong & 1 != 0 {
        wrong_rate(rng)
    } else {
        number
    };
    let any = rng.below(4000);
    let len = match wrong & 2 {
        0 => WORD_BYTES,
        _ => rng.pick(&[
            0,
            1,
            1889,
            1891,
            626,
            if any == WORD_BYTES { 0 } else { any },
        ]),
    };
    // `wide` is a bit of the block in its low 32 bits
    let wide = (1 << 32) + rng.next() % k;
    let bit = match wrong & 4 {
        0 => rng.next() % k,
        _ => rng.pick(&[k, k + 1, k + 2, 15120, 1 << 63, u64::MAX, wide]),
    };
    compare(tally, rng, rate, bit, len, spread::spread(rate, bit, len));
}

/// The case of this index: a block of any content, and a wrong call.
pub fn compare_spread(tally: &mut Tally, rng: &mut Rng, index: u64) {
    compare_any_block(tally, rng, index % 3);
    refused_call(tally, rng, index % 3, 1 + index / 3 % 7);
}
