//! The kinds of runs that a comparison has to meet.

use super::sample::Sample;
use crate::run::FACTORS;
use std::collections::BTreeSet;

/// Kinds of runs, each of which must be met.
const KINDS: [(&str, fn(&Sample) -> bool); 7] = [
    ("N = 1", |sample| sample.header.rows == 1),
    ("N > 1", |sample| sample.header.rows > 1),
    ("C = 1", |sample| sample.run.blocks() == 1),
    ("C > 1", |sample| sample.run.blocks() > 1),
    ("several copies", |sample| sample.run.copies() > 1),
    ("C*S no multiple of N", |sample| {
        sample.word_symbols_in_all() % sample.header.rows as usize != 0
    }),
    ("no fill", |sample| {
        sample.run.frame_stream_bits() == sample.run.blocks() * sample.run.block_bits()
    }),
];

/// The runs compared, by kind, the pairs of m and rate, and the factors.
#[derive(Default)]
pub struct Met {
    kinds: [u64; KINDS.len()],
    pairs: BTreeSet<(u64, u64)>,
    factors: BTreeSet<u64>,
}

impl Met {
    pub fn count(&mut self, sample: &Sample) {
        for (count, (_, is)) in self.kinds.iter_mut().zip(KINDS) {
            *count += u64::from(is(sample));
        }
        self.pairs.insert((sample.header.bits, sample.header.rate));
        self.factors.insert(sample.header.copies);
    }

    pub fn report(&self) -> Result<(), String> {
        let kinds = KINDS.iter().zip(self.kinds);
        let kinds: Vec<String> = kinds.map(|((name, _), n)| format!("{name}: {n}")).collect();
        println!("  runs with {}", kinds.join(", "));
        let all = self.pairs.len() == 7 * 3 && self.factors.iter().eq(&FACTORS);
        if !all || self.kinds.contains(&0) {
            return Err("a kind of run was never met".to_string());
        }
        Ok(())
    }
}
