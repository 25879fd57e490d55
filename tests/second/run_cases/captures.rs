//! Cases for `mahyrei_run_find`, `mahyrei_run_find_from` and `mahyrei_run_cut`: markers among slots
//! of several kinds, whole, cut off or with one slot turned over, and runs at any slot of a
//! capture. Each search of a whole capture is put from some slot on too.
//!
//! Whoever makes a capture knows where its marker stands, or that there is none, and the second
//! implementation is held to that too.

use super::calls::compare_read;
use super::headers::{some_header, Sizes};
use super::refusals::{broken, wrong_len, REFUSED_ORDER};
use super::sample::Sample;
use crate::compare::{Call, Case, Rng, Tally};
use crate::find::{self, marker_len, marker_slots};
use crate::run::Header;
use crate::{library, word};

/// What is known of the earliest slot that fits.
#[derive(Clone, Copy)]
enum Known {
    Nowhere,
    At(usize),
    /// There, unless an earlier one fits by chance.
    NotBehind(usize),
    Anything,
}

impl Known {
    fn numbers(self) -> &'static [u8] {
        match self {
            Known::Nowhere => &[19],
            Known::At(_) | Known::NotBehind(_) => &[0],
            Known::Anything => &[0, 19],
        }
    }

    fn allows(self, found: Option<usize>) -> bool {
        match (self, found) {
            (Known::Nowhere, found) => found.is_none(),
            (Known::At(slot), Some(found)) => found == slot,
            (Known::NotBehind(slot), Some(found)) => found <= slot,
            (Known::Anything, _) => true,
            (_, None) => false,
        }
    }
}

/// Slots to search, a `bool` each; they are whole bytes.
struct Slots {
    bits: Vec<bool>,
    known: Known,
}

// ---- slots around a marker

fn zeros(_: &mut Rng, _: &Sample, len: usize) -> Vec<bool> {
    vec![false; len]
}

fn ones(_: &mut Rng, _: &Sample, len: usize) -> Vec<bool> {
    vec![true; len]
}

fn random(rng: &mut Rng, _: &Sample, len: usize) -> Vec<bool> {
    rng.bits(len)
}

/// A pulse in some eight slots.
fn sparse(rng: &mut Rng, _: &Sample, len: usize) -> Vec<bool> {
    let three = [rng.bits(len), rng.bits(len), rng.bits(len)];
    (0..len).map(|x| three.iter().all(|bits| bits[x])).collect()
}

/// Symbols, one of them cut off at the start. Few values make many that look like the marker.
fn run_like(rng: &mut Rng, sample: &Sample, len: usize) -> Vec<bool> {
    let (group, order) = (sample.run.group(), sample.run.order());
    let values = rng.pick(&[1, 2, order]);
    let mut bits = vec![false; len + 2 * group];
    for at in (0..=len).step_by(group) {
        let any = rng.below(values) as u8;
        let symbol = rng.pick(&[any, any, sample.marker[0]]);
        bits[at + usize::from(symbol)] = true;
    }
    let phase = rng.below(group);
    bits.drain(..phase);
    bits.truncate(len);
    bits
}

type Around = fn(&mut Rng, &Sample, usize) -> Vec<bool>;

/// Puts slots over others, as far as there is room.
fn put(bits: &mut [bool], at: usize, over: &[bool]) {
    for (bit, &new) in bits.iter_mut().skip(at).zip(over) {
        *bit = new;
    }
}

/// How many slots to search: whole bytes, with room for a marker, now and then for hardly more.
fn some_len(rng: &mut Rng, sample: &Sample) -> usize {
    let marker = marker_len(&sample.run);
    let any = marker + rng.below(2 * marker + 400);
    8 * rng.pick(&[any, any, any, marker, marker + 8]).div_ceil(8)
}

/// A whole marker at any slot that has room for it.
fn planted(rng: &mut Rng, sample: &Sample, around: Around) -> (Vec<bool>, usize) {
    let len = some_len(rng, sample);
    let mut bits = around(rng, sample, len);
    let last = len - marker_len(&sample.run);
    let any = rng.below(last + 1);
    let at = rng.pick(&[any, any, 0, last]);
    put(&mut bits, at, &marker_slots(&sample.run, &sample.marker));
    (bits, at)
}

/// The slots of a marker symbol without its pulse.
fn lost(rng: &mut Rng, sample: &Sample) -> Vec<bool> {
    let mut marker = marker_slots(&sample.run, &sample.marker);
    let symbol = rng.below(sample.marker.len());
    let (from, group) = (symbol * sample.run.group(), sample.run.group());
    marker[from..from + group].fill(false);
    marker
}

struct Kind {
    name: &'static str,
    slots: fn(&mut Rng, &Sample) -> Slots,
}

/// None of these has a whole marker, or it is known where it stands.
const KINDS: [Kind; 16] = [
    Kind {
        name: "no pulse",
        slots: |rng, sample| Slots {
            bits: vec![false; some_len(rng, sample)],
            known: Known::Nowhere,
        },
    },
    Kind {
        name: "pulses alone",
        slots: |rng, sample| Slots {
            bits: vec![true; some_len(rng, sample)],
            known: Known::Nowhere,
        },
    },
    Kind {
        name: "any slots",
        slots: |rng, sample| {
            let len = some_len(rng, sample);
            let around = rng.pick(&[random as Around, sparse, run_like]);
            Slots {
                bits: around(rng, sample, len),
                known: Known::Anything,
            }
        },
    },
    Kind {
        name: "fewer slots than the marker has",
        slots: |rng, sample| {
            let len = (marker_len(&sample.run) - 1) / 8 * 8;
            let mut bits = vec![false; rng.pick(&[len, len, 0])];
            let from = rng.below(8);
            let marker = marker_slots(&sample.run, &sample.marker);
            put(&mut bits, 0, &marker[from.min(marker.len())..]);
            Slots {
                bits,
                known: Known::Nowhere,
            }
        },
    },
    Kind {
        name: "a marker among empty slots",
        slots: |rng, sample| {
            let (bits, at) = planted(rng, sample, zeros);
            Slots {
                bits,
                known: Known::At(at),
            }
        },
    },
    Kind {
        name: "a marker among pulses",
        slots: |rng, sample| {
            let (bits, at) = planted(rng, sample, ones);
            Slots {
                bits,
                known: Known::At(at),
            }
        },
    },
    Kind {
        name: "a marker among any slots",
        slots: |rng, sample| {
            let around = rng.pick(&[random as Around, sparse]);
            let (bits, at) = planted(rng, sample, around);
            Slots {
                bits,
                known: Known::NotBehind(at),
            }
        },
    },
    Kind {
        name: "a marker among symbols",
        slots: |rng, sample| {
            let (bits, at) = planted(rng, sample, run_like);
            Slots {
                bits,
                known: Known::NotBehind(at),
            }
        },
    },
    Kind {
        name: "a marker without its last slot",
        slots: |rng, sample| {
            let len = some_len(rng, sample) + 8;
            let mut bits = vec![false; len];
            let marker = marker_slots(&sample.run, &sample.marker);
            put(&mut bits, len - marker.len() + 1, &marker);
            Slots {
                bits,
                known: Known::Nowhere,
            }
        },
    },
    Kind {
        name: "a marker without its first slot",
        slots: |rng, sample| {
            let len = some_len(rng, sample);
            let mut bits = vec![false; len];
            let marker = marker_slots(&sample.run, &sample.marker);
            put(&mut bits, 0, &marker[1..]);
            // the pulse of symbol 0 is lost with it, and without that a start is missing
            Slots {
                bits,
                known: Known::Nowhere,
            }
        },
    },
    Kind {
        name: "a marker with a pulse lost",
        slots: |rng, sample| {
            let (mut bits, at) = planted(rng, sample, zeros);
            put(&mut bits, at, &lost(rng, sample));
            Slots {
                bits,
                known: Known::Nowhere,
            }
        },
    },
    Kind {
        name: "a marker with a pulse more",
        slots: |rng, sample| {
            let (mut bits, at) = planted(rng, sample, zeros);
            let marker = marker_slots(&sample.run, &sample.marker);
            let last = marker.len() - 1;
            let any = rng.below(marker.len());
            let more = rng.pick(&[any, any, last, last - sample.run.order() / 4 + 1]);
            bits[at + more] = true;
            let known = if marker[more] {
                Known::At(at)
            } else {
                Known::Anything // after the pulse that is one too many
            };
            Slots { bits, known }
        },
    },
    Kind {
        name: "a marker without a pulse before a whole one",
        slots: |rng, sample| {
            let (mut bits, at) = planted(rng, sample, zeros);
            let near = lost(rng, sample);
            let moved = 8 * (near.len() + rng.below(20)).div_ceil(8);
            bits.splice(0..0, vec![false; moved]);
            let before = rng.below(moved - near.len() + 1);
            put(&mut bits, before, &near);
            Slots {
                bits,
                known: Known::NotBehind(moved + at),
            }
        },
    },
    Kind {
        name: "two markers",
        slots: |rng, sample| {
            let (mut bits, at) = planted(rng, sample, zeros);
            let (more, _) = planted(rng, sample, zeros);
            bits.extend(more);
            Slots {
                bits,
                known: Known::At(at),
            }
        },
    },
    Kind {
        name: "the marker's first symbol again and again, then a marker",
        slots: |rng, sample| {
            let mut again = sample.marker.clone();
            again.fill(sample.marker[0]);
            let times = 1 + rng.below(3);
            let mut bits: Vec<bool> = vec![false; rng.below(40)];
            for _ in 0..times {
                bits.extend(marker_slots(&sample.run, &again));
            }
            let at = bits.len();
            bits.extend(marker_slots(&sample.run, &sample.marker));
            bits.resize(bits.len().div_ceil(8) * 8, false);
            Slots {
                bits,
                known: Known::NotBehind(at),
            }
        },
    },
    Kind {
        name: "a marker one slot apart",
        slots: |rng, sample| {
            let marker = marker_slots(&sample.run, &sample.marker);
            let split = 1 + rng.below(marker.len() - 1);
            let mut bits = vec![false; rng.below(9)];
            bits.extend(&marker[..split]);
            bits.push(false);
            bits.extend(&marker[split..]);
            bits.resize(bits.len().div_ceil(8) * 8, false);
            // whole again where the slot came before its first pulse or after its last
            Slots {
                bits,
                known: Known::Anything,
            }
        },
    },
];

/// One turn of every kind at each m.
pub const LEAST_CAPTURES: u64 = 7 * KINDS.len() as u64;

// ---- the calls

/// Searches with both.
fn compare_find(
    tally: &mut Tally,
    rng: &mut Rng,
    sample: &Sample,
    capture: &[u8],
    known: Known,
    what: &str,
) -> Option<usize> {
    let header = sample.header.pack();
    let found = find::find(&header, &sample.marker, capture).ok();
    assert!(
        known.allows(found),
        "{what}: the second implementation finds {found:?}, unlike the maker of the case"
    );
    put_find(
        tally,
        rng,
        [&header, &sample.marker, capture],
        known.numbers(),
        what,
    );
    compare_find_from(tally, rng, [&header, &sample.marker, capture], found, what);
    found
}

/// Searches with both from the slot that was found, from one before it and from the next; or, where
/// none was, from any.
fn compare_find_from(
    tally: &mut Tally,
    rng: &mut Rng,
    lent: [&[u8]; 3],
    found: Option<usize>,
    what: &str,
) {
    let Some(found) = found else {
        let from = rng.below(8 * lent[2].len() + 1) as u64;
        put_find_from(tally, rng, lent, from, &[19], what);
        return;
    };
    for from in [found, rng.below(found + 1)] {
        let again = put_find_from(tally, rng, lent, from as u64, &[0], what);
        assert_eq!(again, Some(found), "{what}: from slot {from}");
    }
    let next = put_find_from(tally, rng, lent, found as u64 + 1, &[0, 19], what);
    assert!(next.is_none_or(|next| next > found), "{what}: the next");
}

pub(super) fn put_find(
    tally: &mut Tally,
    rng: &mut Rng,
    lent: [&[u8]; 3],
    numbers: &[u8],
    what: &str,
) {
    let [header, marker, capture] = lent;
    let found = find::find(header, marker, capture);
    let case = Case {
        call: Call::RunFind,
        inputs: &lent,
        output_len: 0,
        place: *found.as_ref().unwrap_or(&0),
        expected: found.map(|_| Vec::new()),
        numbers,
        what: &format!("run_find, {what}, header {header:02X?}"),
    };
    tally.compare(rng, case, |inputs, _| {
        library::run_find(inputs[0], inputs[1], inputs[2])
    });
    // beyond the capture there is none; whatever else is refused is refused from any slot
    let end = 8 * capture.len() as u64;
    let far = rng.next() | 1 << 60;
    let from = rng.pick(&[end, end + 1, far, 1 << 61, u64::MAX - 9, u64::MAX]);
    let number = if numbers == [0] || numbers == [0, 19] {
        &[19]
    } else {
        numbers
    };
    put_find_from(tally, rng, lent, from, number, what);
}

/// Searches with both from a slot on.
fn put_find_from(
    tally: &mut Tally,
    rng: &mut Rng,
    lent: [&[u8]; 3],
    from: u64,
    numbers: &[u8],
    what: &str,
) -> Option<usize> {
    let [header, marker, capture] = lent;
    let found = find::find_from(header, marker, capture, from);
    let case = Case {
        call: Call::RunFindFrom,
        inputs: &lent,
        output_len: 0,
        place: *found.as_ref().unwrap_or(&0),
        expected: found.as_ref().map(|_| Vec::new()).map_err(|no| *no),
        numbers,
        what: &format!("run_find_from, {what}, slot {from}, header {header:02X?}"),
    };
    tally.compare(rng, case, |inputs, _| {
        library::run_find_from(inputs[0], inputs[1], inputs[2], from)
    });
    found.ok()
}

/// Cuts with both.
pub(super) fn put_cut(
    tally: &mut Tally,
    rng: &mut Rng,
    lent: [&[u8]; 2],
    slot: u64,
    slots_len: usize,
    numbers: &[u8],
    what: &str,
) {
    let [header, capture] = lent;
    let case = Case {
        call: Call::RunCut,
        inputs: &lent,
        output_len: slots_len,
        place: 0,
        expected: find::cut(header, capture, slot, slots_len),
        numbers,
        what: &format!("run_cut, {what}, slot {slot}, header {header:02X?}"),
    };
    tally.compare(rng, case, |inputs, slots| {
        library::run_cut(inputs[0], inputs[1], slot, slots)
    });
}

// ---- runs in captures

/// The run at some slot of a capture: found, cut out and read. And without its end: found alone.
fn compare_run_in(tally: &mut Tally, rng: &mut Rng, sample: &Sample, what: &str) {
    let run = &sample.run;
    let slots = sample.slots();
    let (any, behind) = (rng.below(3000), rng.below(3000));
    let at = rng.pick(&[0, 1, 7, 8, 13, any]);
    let len = (at + run.slots() + rng.pick(&[0, 1, behind])).div_ceil(8) * 8;
    let (around, known) = rng.pick(&[
        (zeros as Around, Known::At(at)),
        (ones, Known::At(at)),
        (random, Known::NotBehind(at)),
        (run_like, Known::NotBehind(at)),
    ]);
    // the search looks for symbols that are sent once
    let known = match run.copies() {
        1 => known,
        _ => Known::Anything,
    };
    let mut bits = around(rng, sample, len);
    put(&mut bits, at, &word::unpack(&slots)[..run.slots()]);
    let what = format!("{what}, the run at slot {at}");
    let (header, capture) = (sample.header.pack(), word::pack(&bits));
    let found = compare_find(tally, rng, sample, &capture, known, &what);
    let again = find::cut(&header, &capture, at as u64, slots.len());
    assert_eq!(again.as_ref(), Ok(&slots), "{what}: cut out");
    let lent = [&header[..], &capture];
    put_cut(tally, rng, lent, at as u64, slots.len(), &[0], &what);
    compare_read(tally, rng, sample, &slots, &[0], &what);
    if let Some(decoy) = found.filter(|&found| found < at) {
        put_cut(tally, rng, lent, decoy as u64, slots.len(), &[0], &what);
    }
    let short = &capture[..(at + run.slots() - 1) / 8];
    compare_find(tally, rng, sample, short, known, &what);
    let lent = [&header[..], short];
    put_cut(tally, rng, lent, at as u64, slots.len(), &[8], &what);
}

/// Slots of any content, cut at the ends of what there is room for.
fn compare_cut(tally: &mut Tally, rng: &mut Rng, sample: &Sample, what: &str) {
    let (slots, slots_len) = (sample.run.slots() as u64, sample.run.slots_len());
    let more = rng.pick(&[0, 0, 1, 2, 9]);
    let capture = rng.bytes(slots_len + more);
    let last = 8 * capture.len() as u64 - slots;
    let any = rng.next() % (last + 1);
    let (far, near) = (rng.next() | 1 << 40, last + 1 + rng.next() % 9);
    let header = sample.header.pack();
    let lent = [&header[..], &capture];
    for slot in [0, last, any] {
        put_cut(tally, rng, lent, slot, slots_len, &[0], what);
    }
    let too_far = rng.pick(&[near, far, u64::MAX, u64::MAX - slots + 1, 1 << 61, 1 << 53]);
    for slot in [last + 1, too_far] {
        put_cut(tally, rng, lent, slot, slots_len, &[8], what);
    }
    let wrong = wrong_len(rng, slots_len);
    put_cut(tally, rng, lent, any, wrong, &[8], what);
}

/// Calls that fail this question first.
fn refused_calls(
    tally: &mut Tally,
    rng: &mut Rng,
    sample: &Sample,
    capture: &[u8],
    first: u8,
    what: &str,
) {
    if first != 8 {
        let wrong = broken(rng, sample, first, true);
        let lent = [&wrong.header[..], &wrong.marker, capture];
        put_find(tally, rng, lent, &[first], what);
        let wrong = broken(rng, sample, first, false);
        let slot = rng.pick(&[0, 0, u64::MAX]);
        let (lent, len) = ([&wrong.header[..], capture], wrong.slots_len);
        put_cut(tally, rng, lent, slot, len, &[first], what);
    } else {
        let mut marker = sample.marker.clone();
        marker.resize(wrong_len(rng, marker.len()), 0xFF); // not looked at after the W-th
        let header = sample.header.pack();
        put_find(tally, rng, [&header, &marker, capture], &[8], what);
    }
}

/// The most slots of a run that is put into a capture.
const MOST_SLOTS: usize = 1 << 22;

/// The capture of this index, the calls beside it, and in turn a run at some slot or a cut.
pub fn compare_capture(tally: &mut Tally, rng: &mut Rng, sizes: &Sizes, index: u64) {
    let header = some_header(rng, sizes, index);
    let mut sample = Sample::new(rng, header);
    if sample.run.slots() > MOST_SLOTS {
        let small = Header {
            rows: 1,
            frames: 1,
            copies: 1,
            ..header
        };
        sample = Sample::new(rng, small);
    }
    let turn = index / 7;
    let kind = &KINDS[(turn % KINDS.len() as u64) as usize];
    let what = format!("capture {index} ({})", kind.name);
    let slots = (kind.slots)(rng, &sample);
    let capture = word::pack(&slots.bits);
    compare_find(tally, rng, &sample, &capture, slots.known, &what);
    let first = REFUSED_ORDER[index as usize % REFUSED_ORDER.len()];
    refused_calls(tally, rng, &sample, &capture, first, &what);
    match turn % 4 {
        0 => compare_run_in(tally, rng, &sample, &what),
        1 => compare_cut(tally, rng, &sample, &what),
        _ => (),
    }
}

/// The specification's example.
const EXAMPLE: Header = Header {
    rate: 1,
    bits: 6,
    rows: 84,
    step: 120,
    frame_bytes: 223,
    marker: 16,
    frames: 2,
    copies: 1,
    spare: 0,
};

/// The example after some empty slots, found and cut out.
pub fn example_capture(tally: &mut Tally, rng: &mut Rng) {
    let sample = &Sample::new(rng, EXAMPLE);
    let at = (1 << 20) + 5;
    let slots = sample.slots();
    let mut capture = vec![0; at / 8 + 1 + slots.len()];
    for (i, byte) in slots.iter().enumerate() {
        capture[at / 8 + i] |= byte >> (at % 8);
        capture[at / 8 + i + 1] |= byte << (8 - at % 8);
    }
    let what = "the example in a capture";
    compare_find(tally, rng, sample, &capture, Known::At(at), what);
    let lent = [&sample.header.pack()[..], &capture];
    put_cut(tally, rng, lent, at as u64, slots.len(), &[0], what);
}
