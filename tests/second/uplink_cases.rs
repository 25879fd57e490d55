//! Cases for the two uplink calls.
//!
//! Every set of frames is written by both, then its slots are read by both, as they are or damaged:
//! slots, groups, bits, parity, codeblocks. Beside each goes a call with slices of wrong lengths.

use crate::compare::{Case, Rng, Tally, Way};
use crate::library;
use crate::uplink::{self, CODEBLOCK_BITS, CODEBLOCK_BYTES, FRAME_BITS, FRAME_BYTES, MOST};
use crate::word::{randomize, unpack};

/// One turn of every kind of damage and of wrong call, which meets every number.
pub const LEAST_UPLINKS: u64 = 5 * 12;

/// Puts one call to both. The maker of the case knows the answer, or else only that it is among
/// these numbers.
fn compare(
    tally: &mut Tally,
    rng: &mut Rng,
    way: Way,
    input: &[u8],
    output_len: usize,
    known: Option<u64>,
    numbers: &[u8],
    what: &str,
) {
    let second = match way {
        Way::Write => uplink::write(input, output_len),
        Way::Read => uplink::read(input, output_len),
    };
    let code = second
        .as_ref()
        .map_or_else(|r| r.place as u64 * 256 + u64::from(r.number), |_| 0);
    assert_eq!(
        code,
        known.unwrap_or(code),
        "{what}: the second implementation and the maker of the case"
    );
    let case = Case {
        call: way.of_uplinks(),
        inputs: &[input],
        output_len,
        expected: second,
        place: 0,
        numbers,
        what: &format!("{what}, {} bytes", input.len()),
    };
    tally.compare(rng, case, |inputs, output| match way {
        Way::Write => library::uplink_write(inputs[0], output),
        Way::Read => library::uplink_read(inputs[0], output),
    });
}

/// Puts these four slots at a group.
fn put_group(slots: &mut [u8], group: usize, four: u8) {
    let shift = if group % 2 == 0 { 4 } else { 0 };
    slots[group / 2] = slots[group / 2] & !(15 << shift) | four << shift;
}

/// The bit turned, so that a pulse stands in the other slot of the two.
fn turn_bit(slots: &mut [u8], group: usize) {
    slots[group / 2] ^= if group % 2 == 0 { 0xC0 } else { 0x0C };
}

/// Damages slots in one of these ways, and says the answer where it is known beforehand.
fn damage(rng: &mut Rng, slots: &mut [u8], frames: &[u8], kind: u64) -> Option<u64> {
    let count = slots.len() / CODEBLOCK_BYTES;
    let groups = count * CODEBLOCK_BITS;
    let group = rng.below(groups);
    let bad_group = |at: usize| Some(at as u64 * 256 + 28);
    let bad_block = |at: usize| Some((at / CODEBLOCK_BITS) as u64 * 256 + 29);
    match kind {
        0 => Some(0),
        1 => {
            slots[group / 2] ^= 0x80 >> rng.below(8); // one slot: in either of the two groups there
            None
        }
        2 => {
            let fours = (0..16).filter(|four| ![4, 8].contains(four));
            put_group(slots, group, rng.pick(&fours.collect::<Vec<u8>>()));
            bad_group(group)
        }
        3 => {
            put_group(slots, groups - 1, rng.pick(&[0, 1, 2, 12]));
            bad_group(groups - 1)
        }
        4 => {
            turn_bit(slots, group);
            bad_block(group)
        }
        5 => {
            let in_block = group / CODEBLOCK_BITS * CODEBLOCK_BITS;
            let other = in_block + (group + 1 + rng.below(CODEBLOCK_BITS - 1)) % CODEBLOCK_BITS;
            turn_bit(slots, group);
            turn_bit(slots, other);
            bad_block(group)
        }
        6 => {
            let other = rng.below(groups);
            turn_bit(slots, group);
            put_group(slots, other, 0); // asked of the whole buffer before any parity
            bad_group(other)
        }
        7 => {
            let other = rng.below(groups);
            put_group(slots, group, 12);
            put_group(slots, other, 6);
            bad_group(group.min(other))
        }
        8 => {
            let block = group / CODEBLOCK_BITS;
            let frame = &frames[block * FRAME_BYTES..][..FRAME_BYTES];
            let mut bits = uplink::codeword(&unpack(frame));
            bits[FRAME_BITS..].copy_from_slice(&uplink::codeword(&rng.bits(64))[FRAME_BITS..]);
            let wrong = uplink::codeblock(&bits);
            slots[block * CODEBLOCK_BYTES..][..CODEBLOCK_BYTES].copy_from_slice(&wrong);
            bad_block(group) // two random frames with one parity are not met in a lifetime
        }
        9 => {
            // a sequence that runs on from codeblock to codeblock
            let bits: Vec<bool> = frames
                .chunks(FRAME_BYTES)
                .flat_map(|frame| uplink::codeword(&unpack(frame)))
                .collect();
            for (g, bit) in randomize(&bits).into_iter().enumerate() {
                put_group(slots, g, if bit { 4 } else { 8 });
            }
            Some(if count == 1 { 0 } else { 256 + 29 })
        }
        10 => {
            // one codeblock in the place of another, which is a codeword too
            let (from, to) = (rng.below(count), rng.below(count));
            let block = slots[from * CODEBLOCK_BYTES..][..CODEBLOCK_BYTES].to_vec();
            slots[to * CODEBLOCK_BYTES..][..CODEBLOCK_BYTES].copy_from_slice(&block);
            Some(0)
        }
        _ => {
            // any bits at all
            for g in 0..groups {
                put_group(slots, g, rng.pick(&[4, 8]));
            }
            None
        }
    }
}

/// Frames as stations send them, and those that are all alike.
fn make_frames(rng: &mut Rng, count: usize) -> Vec<u8> {
    match rng.below(8) {
        0 => vec![rng.pick(&[0, 0xFF, 0x55]); count * FRAME_BYTES],
        1 => rng.bytes(FRAME_BYTES).repeat(count),
        _ => rng.bytes(count * FRAME_BYTES),
    }
}

/// Writes so many frames, and reads them with this kind of damage.
fn compare_frames(tally: &mut Tally, rng: &mut Rng, count: usize, kind: u64, what: &str) {
    let frames = make_frames(rng, count);
    let (read, written) = (frames.len(), count * CODEBLOCK_BYTES);
    let what = &format!("{what}, kind {kind}");
    compare(
        tally,
        rng,
        Way::Write,
        &frames,
        written,
        Some(0),
        &[0],
        what,
    );
    let mut slots = uplink::write(&frames, written).expect("frames");
    let known = damage(rng, &mut slots, &frames, kind);
    compare(
        tally,
        rng,
        Way::Read,
        &slots,
        read,
        known,
        &[0, 28, 29],
        what,
    );
}

/// A call whose lengths make no uplink.
fn refused_call(tally: &mut Tally, rng: &mut Rng, wrong: u64, what: &str) {
    let count = 1 + rng.below(MOST);
    let (frame, block) = (FRAME_BYTES, CODEBLOCK_BYTES);
    let (frames, slots) = match wrong % 10 {
        0 => (0, 0),
        1 => (count * frame + 1 + rng.below(7), count * block),
        2 => (count * frame - 1, count * block),
        3 => (count * frame, count * block - 1 + 2 * rng.below(2)),
        4 => (count * frame, (count - 1 + 2 * rng.below(2)) * block),
        5 => ((count - 1 + 2 * rng.below(2)) * frame, count * block),
        6 => (65 * frame, 65 * block),
        7 => (0, count * block),
        8 => (count * frame, 0),
        _ => ((65 + count) * frame, (65 + count) * block),
    };
    let (way, input, output) = match wrong / 10 % 2 {
        0 => (Way::Write, frames, slots),
        _ => (Way::Read, slots, frames),
    };
    let input = rng.bytes(input);
    compare(tally, rng, way, &input, output, Some(8), &[8], what);
}

/// The frames of this index and the call beside them, put to both.
pub fn compare_uplink(tally: &mut Tally, rng: &mut Rng, index: u64) {
    let count = match rng.below(16) {
        0 => MOST - rng.below(2),
        _ => 1 + rng.below(6),
    };
    let kind = index % 12;
    compare_frames(tally, rng, count, kind, &format!("uplink {index}"));
    refused_call(tally, rng, index % 20, &format!("beside uplink {index}"));
}

/// The 64 frames with one bit, each alone and all in a call; each single bit of a codeblock turned,
/// and each pair; each of 16 values at a group.
pub fn every(tally: &mut Tally, rng: &mut Rng) {
    let unit = |bit: usize| (1_u64 << (63 - bit)).to_be_bytes();
    let all: Vec<u8> = (0..FRAME_BITS).flat_map(unit).collect();
    compare(
        tally,
        rng,
        Way::Write,
        &all,
        4096,
        Some(0),
        &[0],
        "all unit frames",
    );
    for bit in 0..FRAME_BITS {
        let what = &format!("unit frame {bit}");
        compare(tally, rng, Way::Write, &unit(bit), 64, Some(0), &[0], what);
        let slots = uplink::write(&unit(bit), 64).expect("a frame");
        compare(tally, rng, Way::Read, &slots, 8, Some(0), &[0], what);
    }
    let frames = rng.bytes(FRAME_BYTES);
    let sound = uplink::write(&frames, 64).expect("a frame");
    for a in 0..CODEBLOCK_BITS {
        for b in a..CODEBLOCK_BITS {
            let mut slots = sound.clone();
            turn_bit(&mut slots, a);
            if a != b {
                turn_bit(&mut slots, b);
            }
            let what = &format!("bits {a} and {b} turned");
            compare(tally, rng, Way::Read, &slots, 8, Some(29), &[29], what);
        }
        for four in 0..16 {
            let mut slots = sound.clone();
            put_group(&mut slots, a, four);
            let known = match four {
                4 | 8 if slots == sound => 0,
                4 | 8 => 29,
                _ => a as u64 * 256 + 28,
            };
            let what = &format!("slots {four} at group {a}");
            let numbers = &[(known % 256) as u8];
            compare(tally, rng, Way::Read, &slots, 8, Some(known), numbers, what);
        }
    }
    for kind in 0..12 {
        compare_frames(tally, rng, MOST, kind, "64 frames");
    }
}
