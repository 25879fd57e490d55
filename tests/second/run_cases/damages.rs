//! What is done to a written run before it is read, and the numbers that reading it may give.

use super::copies::POOLED;
use super::sample::{some_frames, Sample};
use crate::compare::Rng;
use crate::run::{self, FRAME_MARKER_BITS};
use crate::word::{self, WORD_BITS, WORD_BYTES};
use std::collections::BTreeSet;

/// A kind of damage that is done to a written run before it is read.
pub(super) struct Damage {
    pub(super) name: &'static str,
    /// The numbers that reading it may give.
    pub(super) numbers: &'static [u8],
    /// The damaged slots, where the run can be damaged in this way.
    pub(super) slots: fn(&mut Rng, &Sample) -> Option<Vec<u8>>,
}

pub(super) const NONE: Damage = Damage {
    name: "sound",
    numbers: &[0],
    slots: |_, sample| Some(sample.slots()),
};

const DAMAGES: [Damage; 33] = [
    Damage {
        name: "spare bits",
        numbers: &[9],
        slots: |rng, sample| set_spare(rng, sample, sample.slots()),
    },
    Damage {
        name: "spare bits and a lost pulse",
        numbers: &[9],
        slots: |rng, sample| {
            let mut slots = sample.slots();
            *slots.first_mut()? = 0;
            set_spare(rng, sample, slots)
        },
    },
    Damage {
        name: "one slot",
        numbers: &[10],
        slots: |rng, sample| {
            sample.once()?;
            let mut slots = sample.slots();
            flip(&mut slots, rng.below(sample.run.slots()));
            Some(slots)
        },
    },
    Damage {
        name: "one slot of the first or last group",
        numbers: &[10],
        slots: |rng, sample| {
            sample.once()?;
            let mut slots = sample.slots();
            let near = rng.below(sample.run.group());
            let last = sample.run.slots() - 1 - near;
            flip(&mut slots, rng.pick(&[near, last]));
            Some(slots)
        },
    },
    Damage {
        name: "lost pulse",
        numbers: &[10],
        slots: |rng, sample| {
            let symbols = sample.symbols();
            let mut slots = sample.slots_of_symbols(&symbols);
            let at = rng.below(symbols.len());
            flip_copies(sample, &mut slots, at, symbols[at].into());
            Some(slots)
        },
    },
    Damage {
        name: "lone guard pulse",
        numbers: &[10],
        slots: |rng, sample| {
            let symbols = sample.symbols();
            let mut slots = sample.slots_of_symbols(&symbols);
            let at = rng.below(symbols.len());
            flip_copies(sample, &mut slots, at, symbols[at].into());
            flip_copies(sample, &mut slots, at, guard(rng, sample));
            Some(slots)
        },
    },
    Damage {
        name: "guard pulse beside the pulse",
        numbers: &[10],
        slots: |rng, sample| {
            let mut slots = sample.slots();
            let at = rng.below(sample.run.symbols());
            flip_copies(sample, &mut slots, at, guard(rng, sample));
            Some(slots)
        },
    },
    Damage {
        name: "pulse moved into the next group",
        numbers: &[10],
        slots: |rng, sample| {
            sample.once()?;
            let symbols = sample.symbols();
            let mut slots = sample.slots_of_symbols(&symbols);
            let at = rng.below(symbols.len() - 1);
            flip_copies(sample, &mut slots, at, symbols[at].into());
            let next = usize::from(symbols[at + 1] == 0);
            flip_copies(sample, &mut slots, at + 1, next);
            Some(slots)
        },
    },
    Damage {
        name: "no pulse at all",
        numbers: &[10],
        slots: |_, sample| Some(vec![0; sample.run.slots_len()]),
    },
    Damage {
        name: "random slots",
        numbers: &[9, 10],
        slots: |rng, sample| Some(rng.bytes(sample.run.slots_len())),
    },
    Damage {
        name: "lost pulse at the end, wrong marker at the start",
        numbers: &[10],
        slots: |rng, sample| {
            let mut symbols = sample.symbols();
            sample.change(rng, &mut symbols, 0);
            let mut slots = sample.slots_of_symbols(&symbols);
            let last = symbols.len() - 1;
            flip_copies(sample, &mut slots, last, symbols[last].into());
            Some(slots)
        },
    },
    Damage {
        name: "slots anywhere, spare bits too",
        numbers: &[9, 10],
        slots: |rng, sample| {
            sample.once()?;
            let mut slots = sample.slots();
            // an odd number of flips never undoes itself
            for _ in 0..1 + 2 * rng.below(10) {
                let slot = rng.below(8 * slots.len());
                flip(&mut slots, slot);
            }
            Some(slots)
        },
    },
    Damage {
        name: "symbols anywhere",
        numbers: &[11, 12, 13, 14, 15],
        slots: |rng, sample| {
            let mut symbols = sample.symbols();
            let mut changed = BTreeSet::new();
            for _ in 0..2 + rng.below(10) {
                let at = rng.below(symbols.len());
                if changed.insert(at) {
                    sample.change(rng, &mut symbols, at);
                }
            }
            Some(sample.slots_of_symbols(&symbols))
        },
    },
    Damage {
        name: "marker symbol",
        numbers: &[11],
        slots: |rng, sample| {
            let mut symbols = sample.symbols();
            let at = marker_symbol(rng, sample);
            sample.change(rng, &mut symbols, at);
            Some(sample.slots_of_symbols(&symbols))
        },
    },
    Damage {
        name: "last marker symbol, and everything after the first",
        numbers: &[11],
        slots: |rng, sample| {
            let mut symbols = sample.symbols();
            let last = symbols.len() - sample.run.word_symbols() - 1;
            for at in 0..symbols.len() {
                if at % sample.run.period() >= sample.run.marker_len() || at == last {
                    sample.change(rng, &mut symbols, at);
                }
            }
            Some(sample.slots_of_symbols(&symbols))
        },
    },
    Damage {
        name: "unhit place",
        numbers: &[12],
        slots: |rng, sample| {
            let at = sample.run.symbol_of_place(sample.unhit(rng)?);
            let mut symbols = sample.symbols();
            sample.change(rng, &mut symbols, at);
            Some(sample.slots_of_symbols(&symbols))
        },
    },
    Damage {
        name: "unhit place and a word",
        numbers: &[12],
        slots: |rng, sample| {
            let unhit = sample.run.symbol_of_place(sample.unhit(rng)?);
            let mut symbols = sample.symbols();
            sample.change(rng, &mut symbols, unhit);
            sample.change(rng, &mut symbols, sample.stand(0));
            Some(sample.slots_of_symbols(&symbols))
        },
    },
    Damage {
        name: "no marker, no zeros, no word",
        numbers: &[11, 12, 13],
        slots: |rng, sample| {
            let mut symbols = rng.bytes(sample.run.symbols());
            let most = (sample.run.order() - 1) as u8;
            symbols.iter_mut().for_each(|symbol| *symbol &= most);
            Some(sample.slots_of_symbols(&symbols))
        },
    },
    Damage {
        name: "one symbol of a word",
        numbers: &[13, 14],
        slots: |rng, sample| {
            let mut symbols = sample.symbols();
            let at = sample.stand(rng.below(sample.word_symbols_in_all()));
            sample.change(rng, &mut symbols, at);
            Some(sample.slots_of_symbols(&symbols))
        },
    },
    Damage {
        name: "random word",
        numbers: &[13],
        slots: |rng, sample| {
            let mut words = sample.words();
            let at = rng.below(words.len());
            words[at] = rng.bytes(WORD_BYTES);
            Some(sample.slots_of_words(&words))
        },
    },
    Damage {
        name: "channel interleaver with the step alone",
        numbers: &[11, 12, 13, 14],
        slots: |_, sample| {
            if sample.header.rows == 1 {
                return None;
            }
            let (rows, step) = (sample.header.rows as usize, sample.header.step as usize);
            let mut places = vec![0; sample.run.places()];
            let bits: Vec<bool> = sample
                .words()
                .iter()
                .flat_map(|w| word::unpack(w))
                .collect();
            let symbols = run::symbols_of_bits(sample.header.bits as usize, &bits);
            for (t, symbol) in symbols.into_iter().enumerate() {
                places[t + t % rows * step] = symbol;
            }
            let symbols = run::mark(&sample.run, &places, &sample.marker);
            Some(sample.slots_of_symbols(&symbols))
        },
    },
    Damage {
        name: "first bit lowest in every symbol",
        numbers: &[13],
        slots: |_, sample| {
            let m = sample.header.bits as usize;
            let turned = |word: Vec<u8>| {
                let mut bits = word::unpack(&word);
                bits.chunks_mut(m).for_each(|symbol| symbol.reverse());
                word::pack(&bits)
            };
            let words: Vec<Vec<u8>> = sample.words().into_iter().map(turned).collect();
            Some(sample.slots_of_words(&words))
        },
    },
    Damage {
        name: "termination",
        numbers: &[14],
        slots: |rng, sample| {
            let (stream, mut words) = (sample.stream(), sample.words());
            let i = rng.below(words.len());
            words[i] = sample.word(&stream, i, |inputs, check| wrong_end(rng, inputs, check));
            Some(sample.slots_of_words(&words))
        },
    },
    Damage {
        name: "check",
        numbers: &[15],
        slots: |rng, sample| {
            let (stream, mut words) = (sample.stream(), sample.words());
            let i = rng.below(words.len());
            words[i] = sample.word(&stream, i, |inputs, check| {
                inputs[rng.below(check + word::CHECK_BITS)] ^= true;
            });
            Some(sample.slots_of_words(&words))
        },
    },
    Damage {
        name: "check of a word, coded bits of a later one",
        numbers: &[15],
        slots: |rng, sample| {
            let (stream, mut words) = (sample.stream(), sample.words());
            if words.len() == 1 {
                return None;
            }
            let i = rng.below(words.len() - 1);
            words[i] = sample.word(&stream, i, |inputs, check| inputs[check] ^= true);
            flip(&mut words[i + 1], rng.below(WORD_BITS));
            Some(sample.slots_of_words(&words))
        },
    },
    Damage {
        name: "check of a block before the randomizer",
        numbers: &[15],
        slots: |rng, sample| {
            let (stream, mut words) = (sample.stream(), sample.words());
            let (i, k) = (rng.below(words.len()), sample.run.block_bits());
            words[i] = sample.word(&stream, i, |inputs, at| {
                let check = word::check_bits(word::check(&stream[i * k..(i + 1) * k]));
                inputs[at..at + word::CHECK_BITS].copy_from_slice(&check);
            });
            Some(sample.slots_of_words(&words))
        },
    },
    Damage {
        name: "frame marker, check of the last word",
        numbers: &[15],
        slots: |_, sample| {
            let mut stream = sample.stream();
            stream[0] ^= true;
            let mut words = run::words(&sample.run, &stream);
            let last = words.len() - 1;
            words[last] = sample.word(&stream, last, |inputs, check| inputs[check] ^= true);
            Some(sample.slots_of_words(&words))
        },
    },
    Damage {
        name: "frame marker",
        numbers: &[16],
        slots: |rng, sample| {
            let mut stream = sample.stream();
            let frame = rng.below(sample.header.frames as usize);
            let bit = rng.below(FRAME_MARKER_BITS);
            stream[frame * sample.run.marked_bits() + bit] ^= true;
            Some(sample.slots_of_stream(&stream))
        },
    },
    Damage {
        name: "last frame marker and fill",
        numbers: &[16],
        slots: |_, sample| {
            let mut stream = sample.stream();
            let end = sample.run.frame_stream_bits();
            stream[end - sample.run.marked_bits() + FRAME_MARKER_BITS - 1] ^= true;
            stream[end..].fill(true);
            Some(sample.slots_of_stream(&stream))
        },
    },
    Damage {
        name: "one fill bit",
        numbers: &[18],
        slots: |rng, sample| {
            let mut stream = sample.stream();
            let first = sample.run.frame_stream_bits();
            let fill = stream.len() - first;
            let any = first + rng.below(fill.max(1));
            let at = rng.pick(&[first, stream.len() - 1, any]);
            if fill == 0 {
                return None;
            }
            stream[at] = true;
            Some(sample.slots_of_stream(&stream))
        },
    },
    Damage {
        name: "randomizer left running over the blocks", // words of other bits
        numbers: &[0, 16, 18],
        slots: |_, sample| {
            let (stream, k) = (sample.stream(), sample.run.block_bits());
            if stream.len() == k {
                return None;
            }
            let running = word::randomize(&stream);
            let read = running.chunks(k).flat_map(word::randomize);
            Some(sample.slots_of_stream(&read.collect::<Vec<bool>>()))
        },
    },
    Damage {
        name: "word 0 sent for each",
        numbers: &[0, 16, 18],
        slots: |_, sample| {
            let words = sample.words();
            Some(sample.slots_of_words(&vec![words[0].clone(); words.len()]))
        },
    },
    Damage {
        name: "run of other frames",
        numbers: &[0],
        slots: |rng, sample| {
            let other = Sample {
                header: sample.header,
                run: sample.header.run().ok()?,
                marker: sample.marker.clone(),
                frames: some_frames(rng, &sample.run),
            };
            Some(other.slots())
        },
    },
];

pub(super) fn flip(bytes: &mut [u8], bit: usize) {
    bytes[bit / 8] ^= 0x80 >> (bit % 8);
}

/// Sets one of the spare bits after the slots or more, if there are any.
fn set_spare(rng: &mut Rng, sample: &Sample, mut slots: Vec<u8>) -> Option<Vec<u8>> {
    let spare = 8 * slots.len() - sample.run.slots();
    if spare == 0 {
        return None;
    }
    *slots.last_mut()? |= 1 + rng.below((1 << spare) - 1) as u8;
    Some(slots)
}

/// Flips this slot in every copy of a symbol.
pub(super) fn flip_copies(sample: &Sample, slots: &mut [u8], at: usize, slot: usize) {
    for copy in 0..sample.run.copies() {
        flip(slots, sample.run.copy_start(at, copy) + slot);
    }
}

/// One of a symbol's guard slots.
pub(super) fn guard(rng: &mut Rng, sample: &Sample) -> usize {
    let (order, group) = (sample.run.order(), sample.run.group());
    order + rng.below(group - order)
}

/// Any symbol of any marker.
fn marker_symbol(rng: &mut Rng, sample: &Sample) -> usize {
    let markers = sample.run.symbols() / sample.run.period();
    rng.below(markers) * sample.run.period() + rng.below(sample.run.marker_len())
}

/// Sets one of the termination bits or both.
fn wrong_end(rng: &mut Rng, inputs: &mut [bool], check: usize) {
    let wrong = 1 + rng.below(3);
    inputs[check + word::CHECK_BITS] = wrong & 1 == 1;
    inputs[check + word::CHECK_BITS + 1] = wrong & 2 == 2;
}

/// How many kinds of damage there are.
pub(super) const DAMAGE_COUNT: usize = DAMAGES.len() + POOLED.len();

/// The kinds of damage in turn, from this one on.
pub(super) fn damages_from(kind: u64) -> impl Iterator<Item = &'static Damage> {
    let all = DAMAGES.iter().chain(&POOLED);
    all.cycle().skip(kind as usize % DAMAGE_COUNT)
}
