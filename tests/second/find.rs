//! Finding a start in a capture, and cutting the run out of it, a second time: one loop over the
//! starting slots, one over the marker's slots.

use crate::run::{accept, accept_header, Run};
use crate::word::{self, refuse, Refusal};

/// The most bytes of a capture.
pub const CAPTURE_MOST: u64 = 1 << 53;

/// Slot `x` of packed slots.
pub fn slot(slots: &[u8], x: usize) -> bool {
    slots[x / 8] << (x % 8) & 0x80 != 0
}

/// How many slots the marker takes.
pub fn marker_len(run: &Run) -> usize {
    run.marker_len() * run.group()
}

/// Step 10 for the marker alone, each symbol once.
pub fn marker_slots(run: &Run, marker: &[u8]) -> Vec<bool> {
    let mut slots = vec![false; marker_len(run)];
    for (i, &symbol) in marker.iter().enumerate() {
        slots[i * run.group() + usize::from(symbol)] = true;
    }
    slots
}

/// Question 19: the earliest slot, not below a given one, at which the whole marker stands, or the
/// first question whose answer is no.
pub fn find_from(
    header: &[u8],
    marker: &[u8],
    capture: &[u8],
    from: u64,
) -> Result<usize, Refusal> {
    let run = accept(header, marker)?;
    if marker.len() != run.marker_len() || capture.len() as u64 > CAPTURE_MOST {
        return refuse(8, 0);
    }
    let wanted = marker_slots(&run, marker);
    let starts = (8 * capture.len() + 1).saturating_sub(wanted.len());
    let fits = |x: &usize| (0..wanted.len()).all(|i| slot(capture, x + i) == wanted[i]);
    match (0..starts).skip(from as usize).find(fits) {
        Some(x) => Ok(x),
        None => refuse(19, 0),
    }
}

pub fn find(header: &[u8], marker: &[u8], capture: &[u8]) -> Result<usize, Refusal> {
    find_from(header, marker, capture, 0)
}

/// The slots of the run that begins at this slot of the capture, packed anew, or the first question
/// whose answer is no.
pub fn cut(header: &[u8], capture: &[u8], from: u64, slots_len: usize) -> Result<Vec<u8>, Refusal> {
    let run = accept_header(header)?;
    let end = u128::from(from) + run.slots() as u128;
    let lengths_right = capture.len() as u64 <= CAPTURE_MOST && slots_len == run.slots_len();
    if !lengths_right || end > 8 * capture.len() as u128 {
        return refuse(8, 0);
    }
    let slots: Vec<bool> = (0..run.slots())
        .map(|x| slot(capture, from as usize + x))
        .collect();
    Ok(word::pack(&slots))
}

#[cfg(test)]
mod tests {
    use super::*;
    use crate::run::{self, Header};

    /// m = 2, one marker symbol: five slots.
    const SHORT: Header = Header {
        rate: 0,
        bits: 2,
        rows: 1,
        step: 1,
        frame_bytes: 40,
        marker: 1,
        frames: 2,
        copies: 1,
        spare: 0,
    };

    /// m = 4, one marker symbol, one word: 75,620 slots, and four spare bits.
    const ONE_WORD: Header = Header {
        rate: 1,
        bits: 4,
        frame_bytes: 223,
        frames: 1,
        ..SHORT
    };

    #[test]
    fn symbol_2_of_4() {
        let header = SHORT.pack();
        for (capture, slot) in [(0x10, 1), (0x20, 0), (0x04, 3)] {
            assert_eq!(find(&header, &[2], &[capture]), Ok(slot));
        }
        // the last guard slot is missing; a pulse stands in it; two pulses
        for capture in [0x02, 0x28, 0x30] {
            assert_eq!(find(&header, &[2], &[capture]), refuse(19, 0));
        }
        assert_eq!(find(&header, &[2], &[]), refuse(19, 0));
        assert_eq!(find(&header, &[2], &[0xFF; 9]), refuse(19, 0));
        assert_eq!(find(&header, &[2], &[0x02, 0x00]), Ok(4));
    }

    #[test]
    fn symbol_2_of_4_from_a_slot() {
        let header = SHORT.pack();
        // 0010 0001 0000 0100
        let capture = [0x21, 0x04];
        for (from, slot) in [(0, 0), (1, 5), (5, 5), (6, 11), (11, 11)] {
            assert_eq!(find_from(&header, &[2], &capture, from), Ok(slot));
        }
        for from in [12, 15, 16, 17, 1 << 61, u64::MAX] {
            assert_eq!(find_from(&header, &[2], &capture, from), refuse(19, 0));
            assert_eq!(find_from(&header, &[4], &capture, from), refuse(7, 0));
            assert_eq!(find_from(&header, &[], &capture, from), refuse(8, 0));
        }
    }

    #[test]
    fn questions_in_their_order() {
        let header = SHORT.pack();
        assert_eq!(find(&header, &[4], &[0x20]), refuse(7, 0));
        assert_eq!(find(&header, &[2, 9], &[0x20]), refuse(8, 0));
        assert_eq!(find(&header, &[], &[0x20]), refuse(8, 0));
        assert_eq!(find(&header[1..], &[2], &[0x20]), refuse(1, 0));
        let none = Header { marker: 0, ..SHORT }.pack();
        assert_eq!(find(&none, &[], &[]), refuse(7, 0));
        assert_eq!(cut(&none, &[], 0, 0), refuse(7, 0));
        assert_eq!(cut(&header, &[], 0, 0), refuse(8, 0));
    }

    #[test]
    fn run_at_any_slot() {
        let header = ONE_WORD.pack();
        let run = Run::of(&header).unwrap();
        assert_eq!((run.slots(), run.slots_len()), (75_620, 9_453));
        let frames: Vec<u8> = (0..223).map(|i| (i * i / 3) as u8).collect();
        let slots = run::write(&header, &[5], &frames, run.slots_len()).unwrap();
        for at in [0, 1, 7, 8, 13] {
            for around in [false, true] {
                let mut bits = vec![around; at];
                bits.extend(&word::unpack(&slots)[..run.slots()]);
                bits.extend(vec![around; 40 + (8 - bits.len() % 8) % 8]);
                let capture = word::pack(&bits);
                assert_eq!(find(&header, &[5], &capture), Ok(at));
                let again = cut(&header, &capture, at as u64, run.slots_len());
                assert_eq!(again.as_ref(), Ok(&slots));
                assert_eq!(
                    run::read(&header, &[5], &slots, frames.len()).as_ref(),
                    Ok(&frames)
                );
                let last = (8 * capture.len() - run.slots()) as u64;
                assert!(cut(&header, &capture, last, run.slots_len()).is_ok());
                for far in [last + 1, u64::MAX, u64::MAX - 75_619, 1 << 61] {
                    assert_eq!(cut(&header, &capture, far, 9_453), refuse(8, 0));
                }
                assert_eq!(cut(&header, &capture, 0, 9_452), refuse(8, 0));
            }
        }
    }
}
