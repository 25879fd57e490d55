//! Damage to runs whose symbols are sent several times: to some of the copies, or to the order of all.

use super::damages::{flip, guard, Damage};
use super::sample::Sample;
use crate::compare::Rng;
use std::ops::Range;

/// Kinds of damage that only such a run can have.
pub(super) const POOLED: [Damage; 14] = [
    Damage {
        name: "one slot of one copy",
        numbers: &[0],
        slots: |rng, sample| {
            sample.repeated()?;
            let mut slots = sample.slots();
            flip(&mut slots, rng.below(sample.run.slots()));
            Some(slots)
        },
    },
    Damage {
        name: "one copy emptied",
        numbers: &[0],
        slots: |rng, sample| {
            let copy = rng.below(sample.repeated()?);
            Some(Copies::of(sample).lose(some_symbol(rng, sample), copy..copy + 1))
        },
    },
    Damage {
        name: "all copies but one emptied, of each symbol",
        numbers: &[0],
        slots: |rng, sample| {
            let kept = rng.below(sample.repeated()?);
            let mut copies = Copies::of(sample);
            for at in 0..copies.symbols.len() {
                copies.flip_own(at, 0..kept);
                copies.flip_own(at, kept + 1..sample.run.copies());
            }
            Some(copies.slots)
        },
    },
    Damage {
        name: "one copy of three or more moved",
        numbers: &[0],
        slots: |rng, sample| {
            let copy = rng.below(sample.repeated().filter(|&copies| copies > 2)?);
            let (at, to) = (some_symbol(rng, sample), rng.below(sample.run.group()));
            Some(Copies::of(sample).moved(at, copy..copy + 1, to))
        },
    },
    Damage {
        name: "fewer than half of the copies moved, of each symbol",
        numbers: &[0],
        slots: |rng, sample| {
            let few = (sample.repeated()? - 1) / 2;
            let mut copies = Copies::of(sample);
            for at in 0..copies.symbols.len() {
                let (count, to) = (rng.below(few + 1), rng.below(sample.run.group()));
                copies.move_to(at, 0..count, to);
            }
            Some(copies.slots)
        },
    },
    Damage {
        name: "guard pulse in one copy",
        numbers: &[0],
        slots: |rng, sample| {
            let copy = rng.below(sample.repeated()?);
            let slot = sample.run.copy_start(some_symbol(rng, sample), copy) + guard(rng, sample);
            let mut slots = sample.slots();
            flip(&mut slots, slot);
            Some(slots)
        },
    },
    Damage {
        name: "pulses in all slots of all copies but one, of each symbol",
        numbers: &[0],
        slots: |rng, sample| {
            let clean = rng.below(sample.repeated()?);
            let mut copies = Copies::of(sample);
            for at in 0..copies.symbols.len() {
                copies.flip_others(at, 0..clean);
                copies.flip_others(at, clean + 1..sample.run.copies());
            }
            Some(copies.slots)
        },
    },
    Damage {
        name: "pulses in all slots of all copies",
        numbers: &[10],
        slots: |rng, sample| {
            let all = sample.repeated()?;
            let mut copies = Copies::of(sample);
            copies.flip_others(some_symbol(rng, sample), 0..all);
            Some(copies.slots)
        },
    },
    Damage {
        name: "half of the copies moved to one slot",
        numbers: &[10],
        slots: |rng, sample| {
            let half = sample.repeated().filter(|copies| copies % 2 == 0)? / 2;
            let copies = Copies::of(sample);
            let (at, from) = (some_symbol(rng, sample), rng.below(half + 1));
            let other = copies.other(rng, at, sample.run.group());
            Some(copies.moved(at, from..from + half, other))
        },
    },
    Damage {
        name: "most of the copies moved to one guard slot",
        numbers: &[10],
        slots: |rng, sample| {
            let most = sample.repeated()? / 2 + 1;
            let (at, to) = (some_symbol(rng, sample), guard(rng, sample));
            Some(Copies::of(sample).moved(at, 0..most, to))
        },
    },
    Damage {
        name: "most of the copies moved to one data slot",
        numbers: &[11, 12, 13, 14],
        slots: |rng, sample| {
            let most = sample.repeated()? / 2 + 1;
            let (copies, at) = (Copies::of(sample), some_symbol(rng, sample));
            let other = copies.other(rng, at, sample.run.order());
            Some(copies.moved(at, 0..most, other))
        },
    },
    Damage {
        name: "two symbols that cannot be told",
        numbers: &[10],
        slots: |rng, sample| {
            let all = sample.repeated()?;
            let mut copies = Copies::of(sample);
            let (at, last) = (some_symbol(rng, sample), copies.symbols.len() - 1);
            if at < last {
                copies.flip_own(last, 0..all);
            }
            Some(copies.lose(at, 0..all))
        },
    },
    Damage {
        name: "slots anywhere in the copies, spare bits too",
        numbers: &[0, 9, 10, 11, 12, 13, 14],
        slots: |rng, sample| {
            sample.repeated()?;
            let mut slots = sample.slots();
            for _ in 0..1 << rng.below(12) {
                let slot = rng.below(8 * slots.len());
                flip(&mut slots, slot);
            }
            Some(slots)
        },
    },
    // 15 where a word has nothing but zeros, which are coded bits of zeros.
    Damage {
        name: "the run sent several times in place of each symbol",
        numbers: &[10, 11, 12, 13, 14, 15],
        slots: |_, sample| {
            let all = sample.repeated()?;
            let symbols = sample.symbols().repeat(all);
            let mut slots = vec![0; sample.run.slots_len()];
            for (i, &symbol) in symbols.iter().enumerate() {
                flip(&mut slots, i * sample.run.group() + usize::from(symbol));
            }
            Some(slots)
        },
    },
];

/// Any symbol, the first and the last more often.
fn some_symbol(rng: &mut Rng, sample: &Sample) -> usize {
    let last = sample.run.symbols() - 1;
    let any = rng.below(last + 1);
    rng.pick(&[0, last, any, any, any])
}

/// A written run to be damaged copy by copy.
struct Copies<'a> {
    sample: &'a Sample,
    symbols: Vec<u8>,
    slots: Vec<u8>,
}

impl Copies<'_> {
    fn of(sample: &Sample) -> Copies<'_> {
        let symbols = sample.symbols();
        let slots = sample.slots_of_symbols(&symbols);
        Copies {
            sample,
            symbols,
            slots,
        }
    }

    fn own(&self, at: usize) -> usize {
        self.symbols[at].into()
    }

    /// Another slot than the symbol's own, below the limit.
    fn other(&self, rng: &mut Rng, at: usize, limit: usize) -> usize {
        (self.own(at) + 1 + rng.below(limit - 1)) % limit
    }

    fn flip(&mut self, at: usize, copies: Range<usize>, slot: usize) {
        for copy in copies {
            flip(&mut self.slots, self.sample.run.copy_start(at, copy) + slot);
        }
    }

    fn flip_own(&mut self, at: usize, copies: Range<usize>) {
        self.flip(at, copies, self.own(at));
    }

    /// All slots of these copies but the symbol's own.
    fn flip_others(&mut self, at: usize, copies: Range<usize>) {
        let own = self.own(at);
        for slot in (0..self.sample.run.group()).filter(|&slot| slot != own) {
            self.flip(at, copies.clone(), slot);
        }
    }

    fn move_to(&mut self, at: usize, copies: Range<usize>, slot: usize) {
        self.flip_own(at, copies.clone());
        self.flip(at, copies, slot);
    }

    fn lose(mut self, at: usize, copies: Range<usize>) -> Vec<u8> {
        self.flip_own(at, copies);
        self.slots
    }

    fn moved(mut self, at: usize, copies: Range<usize>, slot: usize) -> Vec<u8> {
        self.move_to(at, copies, slot);
        self.slots
    }
}
