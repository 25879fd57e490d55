//! The uplink a second time, to compare the library with. The code is taken from the printed check
//! matrix, four rows of eight circulants, and parity bits are found by Gaussian elimination: the
//! rows of the library's table are not used.

use crate::word::{pack, randomize, refuse, unpack, Refusal};
use std::sync::OnceLock;

/// The most frames, and codeblocks, of a call.
pub const MOST: usize = 64;
pub const FRAME_BYTES: usize = 8;
pub const CODEBLOCK_BYTES: usize = 64;
pub const FRAME_BITS: usize = 64;
pub const CODEBLOCK_BITS: usize = 128;

const CHECKS: usize = 64;
const SIDE: usize = 16;

/// The check matrix as it is printed: the shifts whose sum a circulant is, none where it is 0. The
/// circulant of shift i has the 1 of row r in column r + i; 0 is the identity.
const CIRCULANTS: [[&[usize]; 8]; 4] = [
    [&[0, 7], &[2], &[14], &[6], &[], &[0], &[13], &[0]],
    [&[6], &[0, 15], &[0], &[1], &[0], &[], &[0], &[7]],
    [&[4], &[1], &[0, 15], &[14], &[11], &[0], &[], &[3]],
    [&[0], &[1], &[9], &[0, 13], &[14], &[1], &[0], &[]],
];

/// A check as the set of the bits that it adds: bit j of a codeblock is bit j of the number.
type Check = u128;

/// Check `16 a + r` is row r of the circulants of row a.
fn check_matrix() -> [Check; CHECKS] {
    std::array::from_fn(|check| {
        let (row, turn) = (check / SIDE, check % SIDE);
        let mut bits = 0;
        for (block, shifts) in CIRCULANTS[row].iter().enumerate() {
            for shift in shifts.iter() {
                bits ^= 1 << (block * SIDE + (turn + shift) % SIDE);
            }
        }
        bits
    })
}

/// Sums of the checks such that each has one parity bit: check t has the one of number t. Panics
/// where some frame would have no parity bits, or several.
fn solved() -> [Check; CHECKS] {
    let mut checks = check_matrix();
    for t in 0..CHECKS {
        let parity = 1 << (FRAME_BITS + t);
        let pivot = (t..CHECKS).find(|&at| checks[at] & parity != 0);
        checks.swap(t, pivot.expect("the parity half of the matrix has rank 64"));
        for other in 0..CHECKS {
            if other != t && checks[other] & parity != 0 {
                checks[other] ^= checks[t];
            }
        }
    }
    checks
}

/// The set of the bits that are 1.
fn ones(bits: &[bool]) -> u128 {
    let bits = bits.iter().enumerate();
    bits.fold(0, |set, (j, &bit)| set | u128::from(bit) << j)
}

fn is_odd(set: u128) -> bool {
    set.count_ones() % 2 == 1
}

/// The codeword of a frame's bits: the bits, and those that make each check right.
pub fn codeword(frame: &[bool]) -> Vec<bool> {
    static SOLVED: OnceLock<[Check; CHECKS]> = OnceLock::new();
    let set = ones(frame);
    let parity = SOLVED.get_or_init(solved).map(|check| is_odd(check & set));
    [frame, &parity[..]].concat()
}

/// Whether all checks of the matrix, as it is printed, are right.
pub fn is_codeword(bits: &[bool]) -> bool {
    static CHECK_MATRIX: OnceLock<[Check; CHECKS]> = OnceLock::new();
    let (checks, set) = (CHECK_MATRIX.get_or_init(check_matrix), ones(bits));
    checks.iter().all(|check| !is_odd(check & set))
}

/// The four slots of a bit.
pub fn group(bit: bool) -> [bool; 4] {
    [!bit, bit, false, false]
}

/// The slots of the codeblock whose bits these are, before the randomizer's sequence.
pub fn codeblock(bits: &[bool]) -> Vec<u8> {
    let slots: Vec<bool> = randomize(bits).into_iter().flat_map(group).collect();
    pack(&slots)
}

/// Question 8: whether as many frames as codeblocks are lent, 1 to 64, and nothing besides.
fn accept(frames_len: usize, slots_len: usize) -> Result<(), Refusal> {
    let is_uplink =
        |count| [frames_len, slots_len] == [count * FRAME_BYTES, count * CODEBLOCK_BYTES];
    match (1..=MOST).any(is_uplink) {
        true => Ok(()),
        false => refuse(8, 0),
    }
}

/// The uplink writer: the slots, or the first question whose answer is no.
pub fn write(frames: &[u8], slots_len: usize) -> Result<Vec<u8>, Refusal> {
    accept(frames.len(), slots_len)?;
    let frames = frames.chunks(FRAME_BYTES);
    Ok(frames
        .flat_map(|frame| codeblock(&codeword(&unpack(frame))))
        .collect())
}

/// The uplink reader: the frames, or the first question whose answer is no.
pub fn read(slots: &[u8], frames_len: usize) -> Result<Vec<u8>, Refusal> {
    accept(frames_len, slots.len())?;
    let mut bits = Vec::new();
    for (at, four) in unpack(slots).chunks(4).enumerate() {
        match [false, true].into_iter().find(|&bit| group(bit) == four) {
            Some(bit) => bits.push(bit),
            None => return refuse(28, at),
        }
    }
    let mut frames = Vec::new();
    for (at, codeblock) in bits.chunks(CODEBLOCK_BITS).enumerate() {
        let received = randomize(codeblock);
        if !is_codeword(&received) {
            return refuse(29, at);
        }
        frames.extend(pack(&received[..FRAME_BITS]));
    }
    Ok(frames)
}

#[cfg(test)]
mod tests {
    use super::*;

    fn number(bits: &[bool]) -> u64 {
        bits.iter().fold(0, |sum, &bit| sum << 1 | u64::from(bit))
    }

    fn parity(frame: u64) -> u64 {
        number(&codeword(&unpack(&frame.to_be_bytes()))[FRAME_BITS..])
    }

    /// The first and the last eight slot bytes of a frame.
    fn ends(frame: u64) -> [u64; 2] {
        let slots = write(&frame.to_be_bytes(), CODEBLOCK_BYTES).unwrap();
        [0, 56].map(|at| u64::from_be_bytes(slots[at..at + 8].try_into().unwrap()))
    }

    #[test]
    fn known_parity() {
        assert_eq!(parity(0), 0);
        assert_eq!(parity(1), 0x9D54_45F4_8CBC_D423);
        assert_eq!(parity(1 << 62), 0x8734_8B35_77A6_05E1);
        assert_eq!(parity(u64::MAX), u64::MAX);
        assert_eq!(parity(0x0123_4567_89AB_CDEF), 0x57B9_3EE3_C084_BA54);
    }

    /// The published rows of frame bits 0, 16, 32 and 48; those between turn each piece of 16 bits
    /// right by one.
    #[test]
    fn published_rows() {
        let rows = [
            0x0E69_166B_EF4C_0BC2,
            0x7766_137E_BB24_8418,
            0xC480_FEB9_CD53_A713,
            0x4EAA_22FA_465E_EA11_u64,
        ];
        for bit in 0..FRAME_BITS {
            let turned = (0..4).fold(0, |sum, piece| {
                let of_row = (rows[bit / SIDE] >> (48 - 16 * piece)) as u16;
                sum << 16 | u64::from(of_row.rotate_right((bit % SIDE) as u32))
            });
            assert_eq!(parity(1 << (63 - bit)), turned, "bit {bit}");
        }
    }

    #[test]
    fn known_slots() {
        let known = [
            (0, 0x4444_4444_8488_4888, 0x8488_8448_4488_4448),
            (1, 0x4444_4444_8488_4888, 0x4884_8848_4448_4484),
            (1 << 63, 0x8444_4444_8488_4888, 0x8488_4484_8888_4488),
            (u64::MAX, 0x8888_8888_4844_8444, 0x4844_4884_8844_8884),
            (
                0x0123_4567_89AB_CDEF,
                0x4444_4448_8448_4844,
                0x4444_4488_4884_4848_u64,
            ),
        ];
        for (frame, first, last) in known {
            assert_eq!(ends(frame), [first, last], "{frame:016X}");
        }
    }

    #[test]
    fn the_sequence_starts_again() {
        let one = write(&[0; 8], 64).unwrap();
        assert_eq!(
            write(&[0; 24], 192),
            Ok([&one[..], &one, &one].concat().to_vec())
        );
    }

    /// Either half of a codeword has the other: both halves of the matrix have rank 64.
    #[test]
    fn both_halves_have_rank_64() {
        solved();
        let mut rows: Vec<u64> = check_matrix().map(|check| check as u64).to_vec();
        for bit in 0..FRAME_BITS {
            let pivot = (bit..CHECKS).find(|&at| rows[at] >> bit & 1 == 1);
            rows.swap(bit, pivot.unwrap());
            for other in (0..CHECKS).filter(|&other| other != bit) {
                if rows[other] >> bit & 1 == 1 {
                    rows[other] ^= rows[bit];
                }
            }
        }
    }

    #[test]
    fn weights_of_the_matrix() {
        let checks = check_matrix();
        assert!(checks.iter().all(|check| check.count_ones() == 8));
        for j in 0..CODEBLOCK_BITS {
            let weight = checks.iter().filter(|&check| check >> j & 1 == 1).count();
            assert_eq!(weight, if j < FRAME_BITS { 5 } else { 3 });
        }
    }

    #[test]
    fn no_one_or_two_wrong_bits_make_a_codeword() {
        let sound = codeword(&unpack(&0x0123_4567_89AB_CDEF_u64.to_be_bytes()));
        assert!(is_codeword(&sound));
        for a in 0..CODEBLOCK_BITS {
            for b in a..CODEBLOCK_BITS {
                let mut wrong = sound.clone();
                wrong[a] ^= true;
                wrong[b] ^= a != b;
                assert!(!is_codeword(&wrong), "bits {a} and {b}");
            }
        }
    }

    #[test]
    fn there_and_back() {
        let frames: Vec<u8> = (0..512_usize).map(|i| (i * i / 7 + 3 * i) as u8).collect();
        let mut slots = write(&frames, 4096).unwrap();
        assert_eq!(read(&slots, 512), Ok(frames));
        slots[4095] ^= 1;
        assert_eq!(read(&slots, 512), refuse(28, 8191));
        slots[0] ^= 0xC0; // another bit, so that codeblock 0 fails too
        assert_eq!(read(&slots, 512), refuse(28, 8191));
        slots[4095] ^= 1;
        assert_eq!(read(&slots, 512), refuse(29, 0));
        slots[0] ^= 0xC0;
        slots[4095] ^= 0x0C;
        assert_eq!(read(&slots, 512), refuse(29, 63));
    }

    #[test]
    fn groups_and_codeblocks() {
        assert_eq!(read(&[0; 64], 8), refuse(28, 0));
        assert_eq!(read(&[0xFF; 64], 8), refuse(28, 0));
        assert_eq!(read(&[0x88; 64], 8), refuse(29, 0));
        assert_eq!(read(&[0x44; 64], 8), refuse(29, 0));
        for four in 0..16 {
            let mut slots = write(&[0; 8], 64).unwrap();
            slots[5] = slots[5] & 0xF0 | four;
            let number = read(&slots, 8).map_or_else(|r| r.number, |_| 0);
            let should = if four == 8 {
                0
            } else if four == 4 {
                29
            } else {
                28
            };
            assert_eq!(number, should, "{four}");
        }
    }

    #[test]
    fn lengths() {
        let number = |frames, slots| accept(frames, slots).map_or_else(|r| r.number, |_| 0);
        for (frames, slots) in [(0, 0), (7, 64), (9, 64), (8, 63), (8, 65), (520, 4160)] {
            assert_eq!(number(frames, slots), 8);
        }
        for count in 1..=64 {
            assert_eq!(number(8 * count, 64 * count), 0);
            assert_eq!(number(8 * count, 64 * (count - 1)), 8);
            assert_eq!(number(8 * (count - 1), 64 * count), 8);
        }
    }
}
