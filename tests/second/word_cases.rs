//! Cases for the two word calls.
//!
//! Every word is written by both from the same block, then read by both, as it is or damaged.
//! Beside each word goes a call with arguments that are wrong in one way or several. Each answer's
//! number must be one that the kind of word or call allows, so the two cannot merely agree on
//! nonsense.

use crate::compare::{Case, Rng, Tally, Way};
use crate::library;
use crate::word::{self, Rate, WORD_BITS, WORD_BYTES};

/// One turn of every kind of word and of wrong call at each rate, which meets every number.
pub const LEAST_WORDS: u64 = 3 * 32;

/// Information bits of the next block: mostly random, else of a pattern that is easy to get wrong.
fn some_block(rng: &mut Rng, rate: &Rate) -> Vec<bool> {
    let k = rate.block_bits;
    let place = match rng.below(4) {
        0 => rng.below(40),
        1 => k - 1 - rng.below(40),
        _ => rng.below(k),
    };
    match rng.below(16) {
        0 => vec![false; k],
        1 => vec![true; k],
        2 => (0..k).map(|i| i == place).collect(),
        3 => (0..k).map(|i| i != place).collect(),
        4 => (0..k).map(|i| i < place).collect(),
        5 => (0..k).map(|i| i % (1 + place % 24) == 0).collect(),
        6 => (0..k).map(|i| (i / 8) >> (7 - i % 8) & 1 == 1).collect(),
        7 => (0..k).map(|_| rng.below(200) == 0).collect(),
        _ => rng.bits(k),
    }
}

/// A kind of damage that is done to a written word before it is read.
struct Damage {
    name: &'static str,
    /// The numbers that reading it may give.
    numbers: &'static [u8],
    /// The damaged word, from the rate's number and the block.
    word: fn(&mut Rng, u64, &[bool]) -> Vec<u8>,
}

const NONE: Damage = Damage {
    name: "sound",
    numbers: &[0],
    word: |_, rate, block| sound(rate, block),
};

const DAMAGES: [Damage; 19] = [
    Damage {
        name: "one bit",
        numbers: &[13, 14],
        word: |rng, rate, block| flipped(sound(rate, block), &[rng.below(WORD_BITS)]),
    },
    Damage {
        name: "one bit near an end",
        numbers: &[13, 14],
        word: |rng, rate, block| {
            let near = rng.below(32);
            let place = rng.pick(&[near, WORD_BITS - 1 - near]);
            flipped(sound(rate, block), &[place])
        },
    },
    Damage {
        name: "burst of 2 to 18 bits",
        numbers: &[13, 14],
        word: |rng, rate, block| {
            let last = 1 + rng.below(17);
            let start = rng.below(WORD_BITS - last);
            let mut places = vec![start, start + last];
            places.extend((1..last).filter(|_| rng.below(2) == 1).map(|i| start + i));
            flipped(sound(rate, block), &places)
        },
    },
    Damage {
        name: "bits anywhere",
        numbers: &[13, 14, 15],
        word: |rng, rate, block| {
            let mut bits = word::unpack(&sound(rate, block));
            bits[rng.below(WORD_BITS)] ^= true;
            let chance = 1 + rng.below(5000);
            for bit in &mut bits {
                *bit ^= rng.below(chance) == 0;
            }
            word::pack(&bits)
        },
    },
    Damage {
        name: "random word",
        numbers: &[13],
        word: |rng, _, _| rng.bytes(WORD_BYTES),
    },
    Damage {
        name: "one coded bit",
        numbers: &[13, 14],
        word: |rng, rate, block| {
            let (any, near) = (rng.below(WORD_BITS), rng.below(12));
            let place = rng.pick(&[any, near, WORD_BITS - 1 - near]);
            let mut coded = word::coded_of_word(&sound(rate, block));
            coded[place] ^= true;
            word::word_of_coded(&coded)
        },
    },
    Damage {
        name: "last coded bits",
        numbers: &[0, 13, 14, 15],
        word: |rng, rate, block| {
            let mut coded = word::coded_of_word(&sound(rate, block));
            for bit in &mut coded[WORD_BITS - 6..] {
                *bit = rng.below(2) == 1;
            }
            word::word_of_coded(&coded)
        },
    },
    Damage {
        name: "termination",
        numbers: &[14],
        word: |rng, rate, block| with_inputs(rate, block, |inputs, at| wrong_end(rng, inputs, at)),
    },
    Damage {
        name: "termination and check",
        numbers: &[14],
        word: |rng, rate, block| {
            with_inputs(rate, block, |inputs, at| {
                inputs[at + rng.below(word::CHECK_BITS)] ^= true;
                wrong_end(rng, inputs, at);
            })
        },
    },
    Damage {
        name: "one check bit",
        numbers: &[15],
        word: |rng, rate, block| {
            with_inputs(rate, block, |inputs, at| {
                inputs[at + rng.below(word::CHECK_BITS)] ^= true;
            })
        },
    },
    Damage {
        name: "one block bit under the old check",
        numbers: &[15],
        word: |rng, rate, block| {
            with_inputs(rate, block, |inputs, at| inputs[rng.below(at)] ^= true)
        },
    },
    Damage {
        name: "inverted check",
        numbers: &[15],
        word: |_, rate, block| {
            with_inputs(rate, block, |inputs, at| {
                for bit in &mut inputs[at..at + word::CHECK_BITS] {
                    *bit = !*bit;
                }
            })
        },
    },
    Damage {
        name: "32 consecutive bits of block and check",
        numbers: &[15],
        word: |rng, rate, block| {
            with_inputs(rate, block, |inputs, at| {
                let start = rng.below(at + word::CHECK_BITS);
                flip_window(rng, &mut inputs[..at + word::CHECK_BITS], start, 32);
            })
        },
    },
    Damage {
        name: "randomizer left running over the block before", // a word of other bits
        numbers: &[0],
        word: |_, rate, block| {
            let late = word::sequence().skip(block.len());
            let bits: Vec<bool> = block.iter().zip(late).map(|(bit, pn)| bit ^ pn).collect();
            word::word_of_inputs(rate_of(rate), &word::checked(&bits))
        },
    },
    Damage {
        name: "randomizer on the word too",
        numbers: &[13],
        word: |_, rate, block| {
            let bits = word::unpack(&sound(rate, block));
            word::pack(&word::randomize(&bits))
        },
    },
    Damage {
        name: "check of the block before the randomizer",
        numbers: &[15],
        word: |_, rate, block| {
            with_inputs(rate, block, |inputs, at| {
                let check = word::check_bits(word::check(block));
                inputs[at..at + word::CHECK_BITS].copy_from_slice(&check);
            })
        },
    },
    Damage {
        name: "interleaver run backwards",
        numbers: &[13],
        word: |_, rate, block| {
            let coded = word::coded_of_word(&sound(rate, block));
            let mut bits = vec![false; WORD_BITS];
            for (place, bit) in coded.into_iter().enumerate() {
                bits[word::coded_place(place)] = bit;
            }
            word::pack(&word::accumulate(&bits))
        },
    },
    Damage {
        name: "word of a random block at another rate",
        numbers: &[13],
        word: |rng, rate, _| {
            let other = (rate + 1 + rng.next() % 2) % 3;
            let block = rng.bits(rate_of(other).block_bits);
            sound(other, &block)
        },
    },
    Damage {
        name: "sum of two words and the word of zeros",
        numbers: &[0],
        word: |rng, rate, block| {
            let other = rng.bits(block.len());
            let words = [block, &other, &vec![false; block.len()]].map(|b| sound(rate, b));
            let sum = |i: usize| words.iter().fold(0, |sum, word| sum ^ word[i]);
            (0..WORD_BYTES).map(sum).collect()
        },
    },
];

pub(crate) fn rate_of(number: u64) -> &'static Rate {
    Rate::of(number).expect("a rate below 3")
}

fn sound(rate: u64, block: &[bool]) -> Vec<u8> {
    word::word_of_inputs(rate_of(rate), &word::terminated(block))
}

fn flipped(mut word: Vec<u8>, places: &[usize]) -> Vec<u8> {
    for place in places {
        word[place / 8] ^= 0x80 >> (place % 8);
    }
    word
}

/// The word of the block's inputs after a change to them, which is told where the check starts.
fn with_inputs(rate: u64, block: &[bool], change: impl FnOnce(&mut [bool], usize)) -> Vec<u8> {
    let mut inputs = word::terminated(block);
    change(&mut inputs, block.len());
    word::word_of_inputs(rate_of(rate), &inputs)
}

/// Flips the first and the last bit of a window, and any of those between. One that hangs over the
/// end is cut there.
fn flip_window(rng: &mut Rng, bits: &mut [bool], start: usize, width: usize) {
    let last = (start + width).min(bits.len()) - 1;
    bits[start] ^= true;
    if last > start {
        bits[last] ^= true;
        bits[start + 1..last]
            .iter_mut()
            .for_each(|bit| *bit ^= rng.below(2) == 1);
    }
}

/// Flips the places of the check's polynomial, from its highest term on: 33 bits, and the narrowest
/// that the check does not find.
fn flip_polynomial(bits: &mut [bool], start: usize) {
    for i in [0, 3, 14, 18, 29, 32] {
        bits[start + i] ^= true;
    }
}

/// What the check finds and what it does not: flips of block and check before step 3. Within 32
/// consecutive bits, wherever these begin, each gets 15; the polynomial's 33 make the word of
/// another block.
pub fn compare_windows(tally: &mut Tally, rng: &mut Rng) {
    for number in 0..3 {
        let rate = rate_of(number);
        let (k, len) = (rate.block_bits, rate.block_bytes());
        let block = rng.bits(k);
        let starts = [
            0,
            1,
            k - 33,
            k - 32,
            k - 31,
            k - 16,
            k - 2,
            k - 1,
            k,
            k + 1,
            k + 16,
            k + 31,
        ];
        for (start, width) in starts.iter().flat_map(|&s| [1, 2, 32].map(|w| (s, w))) {
            let word = with_inputs(number, &block, |inputs, check| {
                flip_window(rng, &mut inputs[..check + word::CHECK_BITS], start, width);
            });
            let what = format!("{width} bits from bit {start} of block and check");
            compare(tally, rng, Way::Read, number, &word, len, &[15], &what);
        }
        for start in [0, k - 1] {
            let word = with_inputs(number, &block, |inputs, _| {
                flip_polynomial(inputs, start);
            });
            let what = format!("the polynomial from bit {start} of block and check");
            compare(tally, rng, Way::Read, number, &word, len, &[0], &what);
            let other = word::read(number, &word, len).expect("a word");
            assert_ne!(other, word::pack(&block));
        }
        compare_check_fields(number, rng);
    }
}

/// The check field in a word that the library writes.
fn check_field(number: u64, block: &[bool]) -> Vec<bool> {
    let (rate, mut word) = (rate_of(number), vec![0; WORD_BYTES]);
    assert_eq!(
        library::word_write(number, &word::pack(block), &mut word),
        0
    );
    let inputs = word::decode(rate, &word::coded_of_word(&word));
    inputs[rate.block_bits..][..word::CHECK_BITS].to_vec()
}

/// Two blocks that differ, and only within 32 consecutive bits, have different check fields.
fn compare_check_fields(number: u64, rng: &mut Rng) {
    let k = rate_of(number).block_bits;
    for _ in 0..300 {
        let block = rng.bits(k);
        let (mut other, start, width) = (block.clone(), rng.below(k), 1 + rng.below(32));
        flip_window(rng, &mut other, start, width);
        assert_ne!(check_field(number, &block), check_field(number, &other));
    }
    let block = rng.bits(k);
    let mut other = block.clone();
    flip_polynomial(&mut other, 100);
    assert_eq!(check_field(number, &block), check_field(number, &other));
}

/// Sets one of the termination bits or both.
fn wrong_end(rng: &mut Rng, inputs: &mut [bool], check: usize) {
    let wrong = 1 + rng.below(3);
    inputs[check + word::CHECK_BITS] = wrong & 1 == 1;
    inputs[check + word::CHECK_BITS + 1] = wrong & 2 == 2;
}

/// Puts one call to both.
fn compare(
    tally: &mut Tally,
    rng: &mut Rng,
    way: Way,
    rate: u64,
    input: &[u8],
    output_len: usize,
    numbers: &[u8],
    what: &str,
) {
    let expected = match way {
        Way::Write => word::write(rate, input, output_len),
        Way::Read => word::read(rate, input, output_len),
    };
    let case = Case {
        call: way.of_words(),
        inputs: &[input],
        output_len,
        expected,
        place: 0,
        numbers,
        what: &format!("{what}, rate {rate}"),
    };
    tally.compare(rng, case, |inputs, output| match way {
        Way::Write => library::word_write(rate, inputs[0], output),
        Way::Read => library::word_read(rate, inputs[0], output),
    });
}

/// A rate that there is not; one of them is a rate in its low 32 bits.
pub(crate) fn wrong_rate(rng: &mut Rng) -> u64 {
    let (wide, any) = ((1 << 32) + rng.next() % 3, rng.next() | 4);
    rng.pick(&[3, 4, 255, 256, 258, 1 << 63, u64::MAX, wide, any])
}

/// A call with wrong arguments, one way of being wrong for each bit of `wrong`.
fn refused_call(tally: &mut Tally, rng: &mut Rng, rate: u64, wrong: u64, what: &str) {
    let no_rate = wrong & 1 != 0;
    let wrong_input = wrong & 2 != 0;
    let wrong_output = wrong & 4 != 0;
    let way = if wrong & 8 != 0 {
        Way::Write
    } else {
        Way::Read
    };

    let block_len = rate_of(rate).block_bytes();
    let (mut input_len, mut output_len) = match way {
        Way::Write => (block_len, WORD_BYTES),
        Way::Read => (WORD_BYTES, block_len),
    };
    for (len, is_wrong) in [
        (&mut input_len, wrong_input),
        (&mut output_len, wrong_output),
    ] {
        let right = *len;
        while is_wrong && *len == right {
            let any = rng.below(4000);
            *len = rng.pick(&[0, 1, right - 1, right + 1, 626, 941, 1256, 1890, any]);
        }
    }
    let rate = if no_rate { wrong_rate(rng) } else { rate };

    let input = rng.bytes(input_len);
    let number = match way {
        _ if no_rate => 2,
        _ if wrong_input || wrong_output => 8,
        Way::Write => 0,
        Way::Read => 13,
    };
    compare(tally, rng, way, rate, &input, output_len, &[number], what);
}

/// The word of this index and the call beside it, put to both.
pub fn compare_word(tally: &mut Tally, rng: &mut Rng, index: u64) {
    let (rate, turn) = (index % 3, index / 3);
    // a quarter of the words stay sound
    let damage = match turn % 4 {
        0 => &NONE,
        _ => &DAMAGES[(turn * 3 / 4) as usize % DAMAGES.len()],
    };
    let what = format!("word {index} ({})", damage.name);

    let block = some_block(rng, rate_of(rate));
    let mut packed = word::pack(&block);
    *packed.last_mut().expect("a byte") |= rng.below(4) as u8; // the spare bits are free
    let write = Way::Write;
    compare(tally, rng, write, rate, &packed, WORD_BYTES, &[0], &what);
    let word = (damage.word)(rng, rate, &block);
    let (read, block_len, numbers) = (Way::Read, packed.len(), damage.numbers);
    compare(tally, rng, read, rate, &word, block_len, numbers, &what);
    let beside = format!("beside word {index}");
    refused_call(tally, rng, rate, turn % 16, &beside);
}
