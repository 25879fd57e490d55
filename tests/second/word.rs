//! The word level a second time, to compare the library with.
//!
//! Written from the specification's steps and questions, and for step 4 from the draft book's
//! mother code with its puncture patterns; not from the library. One small function a step, in the
//! order of the signal; a bit is a `bool`, and a sum of bits is `^`.

/// Bits of a word, which are as many as coded bits.
pub const WORD_BITS: usize = 15120;
pub const WORD_BYTES: usize = WORD_BITS / 8;

pub const CHECK_BITS: usize = 32;
pub const TERMINATION_BITS: usize = 2;

/// D^29 + D^18 + D^14 + D^3 + 1, the check polynomial without its D^32.
const CHECK_POLYNOMIAL: u32 = 1 << 29 | 1 << 18 | 1 << 14 | 1 << 3 | 1;

/// What the code rate decides.
pub struct Rate {
    /// k, the information bits of a block.
    pub block_bits: usize,
    /// 1 where an output of the mother code is kept, over two input bits.
    puncture: [u8; 6],
}

const RATES: [Rate; 3] = [
    Rate {
        block_bits: 5006,
        puncture: [1, 1, 1, 1, 1, 1],
    },
    Rate {
        block_bits: 7526,
        puncture: [1, 1, 0, 1, 1, 0],
    },
    Rate {
        block_bits: 10046,
        puncture: [1, 1, 0, 0, 1, 0],
    },
];

impl Rate {
    /// The rate of this number, if there is one: 0 for 1/3, 1 for 1/2, 2 for 2/3.
    pub fn of(number: u64) -> Option<&'static Rate> {
        RATES.get(usize::try_from(number).ok()?)
    }

    pub fn block_bytes(&self) -> usize {
        self.block_bits.div_ceil(8)
    }

    /// The mother code's outputs (0, 1 or 2) that are kept, one for each coded bit, in order.
    pub fn kept(&self) -> impl Iterator<Item = usize> + '_ {
        (0..6)
            .cycle()
            .filter(|&p| self.puncture[p] == 1)
            .map(|p| p % 3)
    }
}

/// A refusal: the question's number, and the place where it fails.
#[derive(Clone, Copy, Debug, PartialEq, Eq)]
pub struct Refusal {
    pub number: u8,
    pub place: usize,
}

pub fn refuse<T>(number: u8, place: usize) -> Result<T, Refusal> {
    Err(Refusal { number, place })
}

/// The bits of packed bytes, most significant first.
pub fn unpack(bytes: &[u8]) -> Vec<bool> {
    bytes
        .iter()
        .flat_map(|byte| (0..8).rev().map(move |i| byte >> i & 1 == 1))
        .collect()
}

/// Bits packed into bytes, the last filled with zeros.
pub fn pack(bits: &[bool]) -> Vec<u8> {
    let byte = |eight: &[bool]| {
        let value = eight
            .iter()
            .fold(0, |value, &bit| value << 1 | u8::from(bit));
        value << (8 - eight.len())
    };
    bits.chunks(8).map(byte).collect()
}

/// Step 7's sequence. The register holds the next eight bits, the first highest; the bits 1, 3, 5
/// and 8 places before the one that comes in are its bits 0, 2, 4 and 7.
pub fn sequence() -> impl Iterator<Item = bool> {
    let shift = |register: &u8| {
        let sum = (register & 0b1001_0101).count_ones() % 2;
        Some(register << 1 | sum as u8)
    };
    std::iter::successors(Some(0xFF), shift).map(|register| register >> 7 == 1)
}

/// Step 7, which is its own inverse.
pub fn randomize(bits: &[bool]) -> Vec<bool> {
    bits.iter()
        .zip(sequence())
        .map(|(&bit, pn)| bit ^ pn)
        .collect()
}

/// Step 2: the check register after these bits.
pub fn check(bits: &[bool]) -> u32 {
    bits.iter().fold(u32::MAX, |register, &bit| {
        let feedback = (register >> 31 == 1) ^ bit;
        (register << 1) ^ if feedback { CHECK_POLYNOMIAL } else { 0 }
    })
}

/// The check as bits, top bit first.
pub fn check_bits(register: u32) -> Vec<bool> {
    unpack(&register.to_be_bytes())
}

/// Steps 2 and 3, of the bits that step 2 takes in: these, their check and the termination bits.
pub fn checked(taken: &[bool]) -> Vec<bool> {
    [taken, &check_bits(check(taken)), &[false; TERMINATION_BITS]].concat()
}

/// Steps 7, 2 and 3: the block, randomized, its check and the termination bits.
pub fn terminated(block: &[bool]) -> Vec<bool> {
    checked(&randomize(block))
}

/// Step 4: the mother code's three outputs from the zero state, punctured by rate.
pub fn encode(rate: &Rate, inputs: &[bool]) -> Vec<bool> {
    let padded = [&[false, false], inputs].concat();
    let mut coded = Vec::with_capacity(WORD_BITS);
    for (x, keep) in padded.windows(3).zip(rate.puncture.chunks(3).cycle()) {
        let (now, one_before, two_before) = (x[2], x[1], x[0]);
        let seven = now ^ one_before ^ two_before;
        let mother = [now ^ two_before, seven, seven];
        coded.extend((0..3).filter(|&i| keep[i] == 1).map(|i| mother[i]));
    }
    coded
}

/// Step 5: the coded bit that output place `j` takes.
pub fn coded_place(j: usize) -> usize {
    let j = j as u64;
    ((11 * j + 210 * j * j) % WORD_BITS as u64) as usize
}

pub fn interleave(coded: &[bool]) -> Vec<bool> {
    (0..WORD_BITS).map(|j| coded[coded_place(j)]).collect()
}

/// Step 6: each output is the input plus the output before it.
pub fn accumulate(bits: &[bool]) -> Vec<bool> {
    let running_sum = |sum: &mut bool, &bit: &bool| {
        *sum ^= bit;
        Some(*sum)
    };
    bits.iter().scan(false, running_sum).collect()
}

/// Steps 5 and 6: the packed word of 15,120 coded bits.
pub fn word_of_coded(coded: &[bool]) -> Vec<u8> {
    pack(&accumulate(&interleave(coded)))
}

/// Steps 4 to 6, for any input bits: with wrong ones, words that no block makes.
pub fn word_of_inputs(rate: &Rate, inputs: &[bool]) -> Vec<u8> {
    word_of_coded(&encode(rate, inputs))
}

/// Step 6 undone.
fn differences(bits: &[bool]) -> Vec<bool> {
    let before = std::iter::once(&false).chain(bits);
    bits.iter()
        .zip(before)
        .map(|(now, before)| now ^ before)
        .collect()
}

/// Step 5 undone.
fn deinterleave(bits: &[bool]) -> Vec<bool> {
    let mut coded = vec![false; bits.len()];
    for (j, &bit) in bits.iter().enumerate() {
        coded[coded_place(j)] = bit;
    }
    coded
}

/// Steps 6 and 5 undone, the last first.
pub fn coded_of_word(word: &[u8]) -> Vec<bool> {
    deinterleave(&differences(&unpack(word)))
}

/// The input bits, read from the code's second output alone.
pub fn decode(rate: &Rate, coded: &[bool]) -> Vec<bool> {
    let mut inputs = Vec::with_capacity(WORD_BITS);
    let (mut one_before, mut two_before) = (false, false);
    for (&bit, _) in coded
        .iter()
        .zip(rate.kept())
        .filter(|&(_, output)| output == 1)
    {
        let now = bit ^ one_before ^ two_before;
        (one_before, two_before) = (now, one_before);
        inputs.push(now);
    }
    inputs
}

/// The word writer: the word, or the first question whose answer is no.
pub fn write(rate: u64, block: &[u8], word_len: usize) -> Result<Vec<u8>, Refusal> {
    let Some(rate) = Rate::of(rate) else {
        return refuse(2, 0);
    };
    if block.len() != rate.block_bytes() || word_len != WORD_BYTES {
        return refuse(8, 0);
    }
    // the two bits after the block's are spare, and not looked at
    let block = &unpack(block)[..rate.block_bits];
    Ok(word_of_inputs(rate, &terminated(block)))
}

/// The word reader: the packed block, or the first question whose answer is no.
pub fn read(rate: u64, word: &[u8], block_len: usize) -> Result<Vec<u8>, Refusal> {
    let Some(rate) = Rate::of(rate) else {
        return refuse(2, 0);
    };
    if word.len() != WORD_BYTES || block_len != rate.block_bytes() {
        return refuse(8, 0);
    }
    let coded = coded_of_word(word);
    let inputs = decode(rate, &coded);
    if let Some(place) = encode(rate, &inputs)
        .iter()
        .zip(&coded)
        .position(|(a, b)| a != b)
    {
        return refuse(13, place);
    }
    let (taken, rest) = inputs.split_at(rate.block_bits);
    let (check_field, termination) = rest.split_at(CHECK_BITS);
    if termination.contains(&true) {
        return refuse(14, 0);
    }
    if check_field != check_bits(check(taken)) {
        return refuse(15, 0);
    }
    Ok(pack(&randomize(taken)))
}

#[cfg(test)]
mod tests {
    use super::*;

    fn bits(text: &str) -> Vec<bool> {
        text.chars()
            .filter(|c| !c.is_whitespace())
            .map(|c| c == '1')
            .collect()
    }

    fn rates() -> impl Iterator<Item = (u64, &'static Rate)> {
        (0..3).map(|number| (number, Rate::of(number).unwrap()))
    }

    /// A block with no pattern to speak of.
    fn sample(rate: &Rate) -> Vec<u8> {
        let mut block: Vec<u8> = (0..rate.block_bytes())
            .map(|i| (i * i / 3 + 7 * i) as u8)
            .collect();
        *block.last_mut().unwrap() &= 0xFC;
        block
    }

    // The rows of the bench table on steps 2 to 7.

    #[test]
    fn randomizer_start() {
        let start = bits("1111 1111 0100 1000 0000 1110 1100 0000 1001 1010");
        assert_eq!(sequence().take(40).collect::<Vec<_>>(), start);
    }

    #[test]
    fn randomizer_bit_255() {
        assert_eq!(sequence().nth(255), Some(true));
    }

    #[test]
    fn interleaver_places() {
        assert_eq!([1, 2, 36, 15119].map(coded_place), [221, 862, 396, 199]);
    }

    /// The square term of a place repeats after 36 places, and after no fewer.
    #[test]
    fn square_term_has_period_36() {
        let square = |j: usize| 210 * j * j % WORD_BITS;
        assert!((0..WORD_BITS).all(|j| square(j) == square(j % 36)));
        assert!((0..WORD_BITS).all(|j| coded_place(j) == (11 * j + square(j % 36)) % WORD_BITS));
        assert!((1..36).all(|period| (0..36).any(|j| square(j) != square(j + period))));
    }

    #[test]
    fn check_of_one_bit() {
        assert_eq!(check(&[false]), 0xDFFBBFF7);
        assert_eq!(check(&[true]), 0xFFFFFFFE);
    }

    #[test]
    fn code_of_one_zero_zero() {
        let expected = ["111011111", "110111", "11111"];
        for ((_, rate), expected) in rates().zip(expected) {
            assert_eq!(encode(rate, &bits("100")), bits(expected));
        }
    }

    #[test]
    fn accumulator_of_1101() {
        assert_eq!(accumulate(&bits("1101")), bits("1001"));
    }

    // Facts of the draft book that the bench table does not have.

    #[test]
    fn check_polynomial_is_the_papers() {
        assert_eq!(CHECK_POLYNOMIAL, 0x20044009);
    }

    /// The draft book's check is a long division; a register that starts as all ones is the same
    /// division with the first 32 bits inverted.
    #[test]
    fn check_is_the_remainder() {
        for (_, rate) in rates() {
            let block = &unpack(&sample(rate))[..rate.block_bits];
            let mut dividend = [block, &[false; CHECK_BITS]].concat();
            dividend[..32].iter_mut().for_each(|bit| *bit = !*bit);
            for i in 0..block.len() {
                if dividend[i] {
                    for power in [32, 29, 18, 14, 3, 0] {
                        dividend[i + 32 - power] ^= true;
                    }
                }
            }
            assert_eq!(dividend[block.len()..], check_bits(check(block)));
        }
    }

    /// Blocks that differ within 32 consecutive bits have different checks; those that differ by the
    /// polynomial itself, 33 bits, have the same.
    #[test]
    fn check_of_blocks_that_differ_in_a_window() {
        let mut state = 1u64;
        let mut below = |limit: usize| {
            state = state
                .wrapping_mul(6364136223846793005)
                .wrapping_add(1442695040888963407);
            (state >> 33) as usize % limit
        };
        for (_, rate) in rates() {
            let block = unpack(&sample(rate))[..rate.block_bits].to_vec();
            for _ in 0..10_000 {
                let mut other = block.clone();
                let start = below(block.len());
                let width = (1 + below(32)).min(block.len() - start);
                other[start] ^= true;
                (start + 1..start + width).for_each(|i| other[i] ^= below(2) == 1);
                assert_ne!(check(&other), check(&block));
            }
            let mut other = block.clone();
            for i in [0, 3, 14, 18, 29, 32] {
                other[777 + i] ^= true;
            }
            assert_eq!(check(&other), check(&block));
        }
    }

    #[test]
    fn sequence_is_the_recurrence_of_period_255() {
        let s: Vec<bool> = sequence().take(WORD_BITS).collect();
        assert!(s[..8].iter().all(|&bit| bit));
        assert!((8..WORD_BITS).all(|i| s[i] == s[i - 1] ^ s[i - 3] ^ s[i - 5] ^ s[i - 8]));
        assert!((255..WORD_BITS).all(|i| s[i] == s[i - 255]));
        assert!((1..255).all(|period| (period..WORD_BITS).any(|i| s[i] != s[i - period])));
    }

    #[test]
    fn interleaver_is_a_permutation() {
        let mut places: Vec<usize> = (0..WORD_BITS).map(coded_place).collect();
        places.sort_unstable();
        assert!(places.into_iter().eq(0..WORD_BITS));
    }

    #[test]
    fn sizes() {
        let blocks = [(5006, 626), (7526, 941), (10046, 1256)];
        for ((_, rate), (bits, bytes)) in rates().zip(blocks) {
            assert_eq!((rate.block_bits, rate.block_bytes()), (bits, bytes));
            let inputs = terminated(&vec![false; bits]);
            assert_eq!(inputs.len(), bits + 34);
            assert_eq!(encode(rate, &inputs).len(), WORD_BITS);
        }
    }

    /// The sequence is on the block that the check is taken of, and nowhere else.
    #[test]
    fn order() {
        for (number, rate) in rates() {
            let block = pack(&sequence().take(rate.block_bits).collect::<Vec<_>>());
            let word = write(number, &block, WORD_BYTES).unwrap();
            let zeros = vec![false; rate.block_bits];
            assert_eq!(word, word_of_inputs(rate, &checked(&zeros)));
            assert_eq!(decode(rate, &coded_of_word(&word)), checked(&zeros));
        }
    }

    #[test]
    fn written_words_are_read() {
        for (number, rate) in rates() {
            let block = sample(rate);
            let word = write(number, &block, WORD_BYTES).unwrap();
            assert_eq!(word.len(), WORD_BYTES);
            assert_eq!(read(number, &word, block.len()), Ok(block));
        }
    }

    #[test]
    fn spare_bits_do_not_matter() {
        for (number, rate) in rates() {
            let block = sample(rate);
            let word = write(number, &block, WORD_BYTES);
            for spare in 1..4 {
                let mut other = block.clone();
                *other.last_mut().unwrap() |= spare;
                assert_eq!(write(number, &other, WORD_BYTES), word);
            }
        }
    }

    #[test]
    fn each_question_is_met_in_its_order() {
        for (number, rate) in rates() {
            let block = sample(rate);
            let (len, k) = (block.len(), rate.block_bits);
            assert_eq!(write(3, &[], 0), refuse(2, 0));
            assert_eq!(read(u64::MAX, &[], 0), refuse(2, 0));
            assert_eq!(write(number, &block, WORD_BYTES - 1), refuse(8, 0));
            assert_eq!(write(number, &block[1..], WORD_BYTES), refuse(8, 0));

            let word = write(number, &block, WORD_BYTES).unwrap();
            assert_eq!(read(number, &word, len - 1), refuse(8, 0));
            let mut inputs = terminated(&unpack(&block)[..k]);
            inputs[k] ^= true; // the check's first bit
            assert_eq!(
                read(number, &word_of_inputs(rate, &inputs), len),
                refuse(15, 0)
            );
            inputs[k + CHECK_BITS] ^= true; // the first termination bit
            let word = word_of_inputs(rate, &inputs);
            assert_eq!(read(number, &word, len), refuse(14, 0));
            let mut coded = coded_of_word(&word);
            coded[3] ^= true; // a first output at 1/3 and 2/3; at 1/2 the second of step 1
            let place = if number == 1 { 2 } else { 3 };
            assert_eq!(read(number, &word_of_coded(&coded), len), refuse(13, place));
        }
    }
}
