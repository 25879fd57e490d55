//! Fades over a run, a second time: a `bool` for each symbol of the run, and step 9's rule forward
//! from each symbol of the words.

use crate::run::{accept_header, Run};
use crate::word::{refuse, Refusal};

/// Question 22: pairs of first symbol and length, and where they end.
fn list_good(run: &Run, fades: &[u32]) -> bool {
    let pairs = fades.chunks(2);
    let mut free = 0; // the first symbol that no fade before has
    for pair in pairs {
        let &[first, length] = pair else {
            return false;
        };
        let (first, length) = (u64::from(first), u64::from(length));
        if first < free || length == 0 {
            return false;
        }
        free = first + length;
    }
    free <= run.symbols() as u64
}

/// Which symbols of the run, markers counted, the fades cover.
pub fn covered(run: &Run, fades: &[u32]) -> Vec<bool> {
    let mut covered = vec![false; run.symbols()];
    for pair in fades.chunks(2) {
        let (first, length) = (pair[0] as usize, pair[1] as usize);
        covered[first..first + length].fill(true);
    }
    covered
}

/// How many symbols of each word are covered, or the first question whose answer is no.
pub fn count(header: &[u8], fades: &[u32], counts_len: usize) -> Result<Vec<u32>, Refusal> {
    let run = accept_header(header)?;
    if counts_len != run.blocks() {
        return refuse(8, 0);
    }
    if !list_good(&run, fades) {
        return refuse(22, 0);
    }
    let covered = covered(&run, fades);
    let mut counts = vec![0; run.blocks()];
    for t in 0..run.blocks() * run.word_symbols() {
        let symbol = run.symbol_of_place(run.place(t));
        counts[t / run.word_symbols()] += u32::from(covered[symbol]);
    }
    Ok(counts)
}

/// The covered symbols that are neither marker nor filler, symbol by symbol of the run: a place of
/// step 9 is hit if the symbol that its row would have put there is one of the words'.
pub fn covered_in_words(run: &Run, fades: &[u32]) -> u32 {
    let mut hit = vec![false; run.places()];
    let all = run.blocks() * run.word_symbols();
    (0..all).for_each(|t| hit[run.place(t)] = true);
    let mut place = 0;
    let mut sum = 0;
    for (symbol, &covered) in covered(run, fades).iter().enumerate() {
        if symbol % run.period() < run.marker_len() {
            continue;
        }
        sum += u32::from(covered && hit[place]);
        place += 1;
    }
    assert_eq!(place, run.places());
    sum
}

#[cfg(test)]
mod tests {
    use super::*;
    use crate::run::{place, Header};

    /// Three words, four lines.
    const THREE: Header = Header {
        rate: 1,
        bits: 8,
        rows: 6,
        step: 63,
        frame_bytes: 900,
        marker: 2,
        frames: 3,
        copies: 1,
        spare: 0,
    };

    fn counted(fades: &[u32]) -> Result<Vec<u32>, Refusal> {
        count(&THREE.pack(), fades, 3)
    }

    #[test]
    fn values_by_hand() {
        assert_eq!(
            THREE.pack(),
            [0x60, 0x18, 0x7E, 0x70, 0x81, 0x03, 0x04, 0x00, 0x00, 0x00]
        );
        let run = THREE.run().unwrap();
        assert_eq!((run.blocks(), run.word_symbols()), (3, 1890));
        assert_eq!((run.period(), run.symbols()), (1892, 7568));
        for (fades, counts) in [
            (&[][..], [0, 0, 0]),
            (&[0, 2], [0, 0, 0]),
            (&[1892, 2], [0, 0, 0]),
            (&[2, 1], [1, 0, 0]),
            (&[3, 1], [0, 0, 0]),
            (&[0, 1892], [945, 0, 0]),
            (&[1000, 500, 2000, 300], [556, 55, 0]),
            (&[7567, 1], [0, 0, 1]),
            (&[0, 7568], [1890, 1890, 1890]),
            (&[3, 2, 5, 1], [0, 0, 0]),
        ] {
            assert_eq!(counted(fades), Ok(counts.to_vec()), "{fades:?}");
            assert_eq!(covered_in_words(&run, fades), counts.iter().sum());
        }
    }

    #[test]
    fn lists_that_break_the_rules() {
        const MOST: u32 = u32::MAX;
        for fades in [
            &[7567, 2][..],
            &[7568, 1],
            &[MOST, 1],
            &[MOST, MOST],
            &[5, 0],
            &[3, 2, 4, 1],
            &[5, 1, 3, 1],
            &[5, 1, 5, 1],
            &[5],
            &[5, 1, 7],
            &[0, 7568, 7568, 1],
            &[1, MOST, 0, 1],
        ] {
            assert_eq!(counted(fades), refuse(22, 0), "{fades:?}");
            for len in [0, 2, 4] {
                assert_eq!(count(&THREE.pack(), fades, len), refuse(8, 0));
            }
        }
    }

    /// The reckoning disregards the factor, which has to be one all the same.
    #[test]
    fn any_factor() {
        let often = Header {
            copies: 32,
            ..THREE
        };
        let none = Header { copies: 5, ..THREE };
        let fades = [1000, 500, 2000, 300];
        assert_eq!(count(&often.pack(), &fades, 3), counted(&fades));
        assert_eq!(count(&none.pack(), &fades, 3), refuse(20, 0));
        assert_eq!(count(&none.pack(), &[5], 0), refuse(20, 0));
    }

    #[test]
    fn the_example() {
        let header = [0x59, 0x50, 0xF0, 0x1B, 0xE8, 0x02, 0x04, 0x00, 0x00, 0x00];
        assert_eq!(count(&header, &[0, 844_488], 1), Ok(vec![2520]));
        assert_eq!(count(&header, &[400_000, 5_000], 1), Ok(vec![0]));
    }

    /// The planner's question of README.
    #[test]
    fn a_campaign() {
        let fade = [5_000, 1_500];
        for (rows, step, first) in [(1, 1, [0, 1500]), (21, 36, [355, 223]), (36, 180, [1, 42])] {
            let header = Header {
                rate: 1,
                bits: 4,
                rows,
                step,
                frame_bytes: 2000,
                marker: 4,
                frames: 6,
                copies: 1,
                spare: 0,
            };
            let blocks = header.run().unwrap().blocks();
            let counts = count(&header.pack(), &fade, blocks).unwrap();
            assert_eq!(counts.len(), 13);
            assert_eq!(counts[..2], first);
            assert!(counts[2..].iter().all(|&hit| hit == 0));
        }
    }

    /// Any two places that come from symbols, in a stretch of N, come from symbols at least B*N - 1
    /// apart; and for N > 1 two are no further.
    #[test]
    fn stretches_of_n_places() {
        for (rows, step) in [
            (1, 5),
            (2, 3),
            (3, 1),
            (6, 63),
            (21, 36),
            (84, 120),
            (127, 255),
        ] {
            let symbols = 3 * rows * rows * step;
            let mut from = vec![None; place(rows, step, symbols) + rows * rows * step];
            (0..symbols).for_each(|t| from[place(rows, step, t)] = Some(t));
            let mut least = usize::MAX;
            for x in 0..from.len() {
                let Some(t) = from[x] else { continue };
                for u in from[x + 1..].iter().take(rows - 1).flatten() {
                    least = least.min(t.abs_diff(*u));
                }
            }
            if rows > 1 {
                assert_eq!(least, step * rows - 1, "N {rows}, B {step}");
            }
        }
    }
}
