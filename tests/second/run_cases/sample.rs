//! A run to be made, with its marker and frames, and its stages from frames to slots.

use crate::compare::Rng;
use crate::run::{self, Header, Run, FRAME_MARKER};
use crate::word::{self, Rate};

/// A run to be made, and its stages.
pub struct Sample {
    pub(super) header: Header,
    pub(super) run: Run,
    pub(super) marker: Vec<u8>,
    pub(super) frames: Vec<u8>,
}

impl Sample {
    pub(super) fn new(rng: &mut Rng, header: Header) -> Sample {
        let run = header.run().expect("a header that passes");
        let marker = some_marker(rng, &run);
        let frames = some_frames(rng, &run);
        Sample {
            header,
            run,
            marker,
            frames,
        }
    }

    fn rate(&self) -> &'static Rate {
        Rate::of(self.header.rate).expect("a rate below 3")
    }

    pub(super) fn stream(&self) -> Vec<bool> {
        run::stream(&self.run, &self.frames)
    }

    pub(super) fn words(&self) -> Vec<Vec<u8>> {
        run::words(&self.run, &self.stream())
    }

    pub(super) fn symbols(&self) -> Vec<u8> {
        self.symbols_of_words(&self.words())
    }

    pub(super) fn slots(&self) -> Vec<u8> {
        self.slots_of_symbols(&self.symbols())
    }

    fn symbols_of_words(&self, words: &[Vec<u8>]) -> Vec<u8> {
        let places = run::places(&self.run, words);
        run::mark(&self.run, &places, &self.marker)
    }

    pub(super) fn slots_of_symbols(&self, symbols: &[u8]) -> Vec<u8> {
        run::slots_of_symbols(&self.run, symbols)
    }

    pub(super) fn slots_of_words(&self, words: &[Vec<u8>]) -> Vec<u8> {
        self.slots_of_symbols(&self.symbols_of_words(words))
    }

    pub(super) fn slots_of_stream(&self, stream: &[bool]) -> Vec<u8> {
        self.slots_of_words(&run::words(&self.run, stream))
    }

    /// The symbol, markers counted, of one of the symbols of the words.
    pub(super) fn stand(&self, t: usize) -> usize {
        self.run.symbol_of_place(self.run.place(t))
    }

    pub(super) fn word_symbols_in_all(&self) -> usize {
        self.run.blocks() * self.run.word_symbols()
    }

    /// Any place of step 9 that no symbol goes to.
    pub(super) fn unhit(&self, rng: &mut Rng) -> Option<usize> {
        let mut hit = vec![false; self.run.places()];
        (0..self.word_symbols_in_all()).for_each(|t| hit[self.run.place(t)] = true);
        let unhit: Vec<usize> = (0..hit.len()).filter(|&place| !hit[place]).collect();
        let (first, last) = (*unhit.first()?, *unhit.last()?);
        let any = rng.pick(&unhit);
        Some(rng.pick(&[first, last, any, any]))
    }

    /// Whether each symbol is sent once; there is nothing to pool.
    pub(super) fn once(&self) -> Option<()> {
        (self.run.copies() == 1).then_some(())
    }

    /// How often each symbol is sent, where it is more often.
    pub(super) fn repeated(&self) -> Option<usize> {
        Some(self.run.copies()).filter(|&copies| copies > 1)
    }

    /// Changes a symbol to another one.
    pub(super) fn change(&self, rng: &mut Rng, symbols: &mut [u8], at: usize) {
        symbols[at] ^= 1 + rng.below(self.run.order() - 1) as u8;
    }

    /// A word made from the inputs of block `i` of the stream after a change to them, which is
    /// told where the check starts.
    pub(super) fn word(
        &self,
        stream: &[bool],
        i: usize,
        change: impl FnOnce(&mut [bool], usize),
    ) -> Vec<u8> {
        let k = self.run.block_bits();
        let mut inputs = word::terminated(&stream[i * k..(i + 1) * k]);
        change(&mut inputs, k);
        word::word_of_inputs(self.rate(), &inputs)
    }
}

fn some_marker(rng: &mut Rng, run: &Run) -> Vec<u8> {
    let most = (run.order() - 1) as u8;
    let mut marker = rng.bytes(run.marker_len());
    match rng.below(8) {
        0 => marker.fill(0),
        1 => marker.fill(most),
        _ => marker.iter_mut().for_each(|symbol| *symbol &= most),
    }
    marker
}

/// Frames: mostly random, else of a pattern that is easy to get wrong.
pub(super) fn some_frames(rng: &mut Rng, run: &Run) -> Vec<u8> {
    let len = run.frames_len();
    let mut frames = rng.bytes(len);
    match rng.below(12) {
        0 => frames.fill(0),
        1 => frames.fill(0xFF),
        2 => frames
            .iter_mut()
            .enumerate()
            .for_each(|(i, b)| *b = i as u8),
        3 => {
            let marker = FRAME_MARKER.to_be_bytes().into_iter().cycle();
            frames = marker.take(len).collect();
        }
        4 => {
            frames.fill(0);
            frames[rng.below(len)] = 1 << rng.below(8);
        }
        5 => *frames.last_mut().expect("a frame byte") = 1,
        _ => (),
    }
    frames
}
