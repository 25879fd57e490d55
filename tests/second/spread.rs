//! How far one bit spreads, a second time: the coded bits of a block and of the same block with the
//! bit changed, beside each other.

use crate::word::{self, refuse, Rate, Refusal, WORD_BYTES};

/// The most coded bits that may change with one block bit, by rate.
pub const LIMITS: [usize; 3] = [110, 73, 56];

/// Steps 2 to 4.
pub fn coded(rate: &Rate, block: &[bool]) -> Vec<bool> {
    word::encode(rate, &word::terminated(block))
}

/// Whether each coded bit changes with this bit of the block, whose coded bits are given too.
pub fn changes(rate: &Rate, block: &[bool], before: &[bool], bit: usize) -> Vec<bool> {
    let mut other = block.to_vec();
    other[bit] ^= true;
    let after = coded(rate, &other);
    after.iter().zip(before).map(|(a, b)| a ^ b).collect()
}

/// The call: the changed places of a block of zeros, or the first question whose answer is no.
pub fn spread(rate: u64, bit: u64, places_len: usize) -> Result<Vec<u8>, Refusal> {
    let Some(rate) = Rate::of(rate) else {
        return refuse(2, 0);
    };
    if places_len != WORD_BYTES {
        return refuse(8, 0);
    }
    match usize::try_from(bit) {
        Ok(bit) if bit < rate.block_bits => {
            let block = vec![false; rate.block_bits];
            let changes = changes(rate, &block, &coded(rate, &block), bit);
            Ok(word::pack(&changes))
        }
        _ => refuse(27, 0),
    }
}

#[cfg(test)]
mod tests {
    use super::*;

    fn places(rate: u64, bit: u64) -> Vec<usize> {
        let bits = word::unpack(&spread(rate, bit, WORD_BYTES).unwrap());
        (0..bits.len()).filter(|&j| bits[j]).collect()
    }

    /// The bit itself and the two steps after it, then the check's.
    #[test]
    fn first_places() {
        assert_eq!(places(0, 0)[..9], [0, 1, 2, 4, 5, 6, 7, 8, 15018]);
        assert_eq!(places(2, 1)[..3], [2, 4, 5]);
    }

    #[test]
    fn counts() {
        let known = [
            (0, 0, 52),
            (0, 2503, 58),
            (0, 4697, 84),
            (0, 4992, 34),
            (1, 14, 26),
            (1, 7217, 54),
            (2, 189, 14),
            (2, 1176, 42),
        ];
        for (rate, bit, count) in known {
            assert_eq!(places(rate, bit).len(), count);
        }
    }

    #[test]
    fn each_question_is_met_in_its_order() {
        assert_eq!(spread(3, u64::MAX, 0), refuse(2, 0));
        for (rate, bits) in [(0, 5006), (1, 7526), (2, 10046)] {
            assert_eq!(spread(rate, u64::MAX, 1889), refuse(8, 0));
            assert_eq!(spread(rate, bits, 1890), refuse(27, 0));
            assert!(spread(rate, bits - 1, 1890).is_ok());
        }
    }
}
