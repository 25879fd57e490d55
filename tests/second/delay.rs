//! Step 9 a symbol at a time, a second time, in two ways that have nothing in common: a queue for
//! each row, which is told nothing, and one step by its number, on bytes of any content.

use crate::run::{accept_header, Header};
use crate::word::{refuse, Refusal};
use std::collections::VecDeque;

/// The two sides of a line.
#[derive(Clone, Copy, Debug, PartialEq, Eq)]
pub enum Side {
    Writing,
    Reading,
}

impl Side {
    pub const BOTH: [Side; 2] = [Side::Writing, Side::Reading];

    /// The turns by which each row delays its symbols, and so its bytes.
    pub fn delays(self, rows: usize, step: usize) -> Vec<usize> {
        let delay = |row| match self {
            Side::Writing => row * step,
            Side::Reading => (rows - 1 - row) * step,
        };
        (0..rows).map(delay).collect()
    }

    pub fn area_len(self, header: &Header) -> usize {
        let delays = self.delays(header.rows as usize, header.step as usize);
        delays.into_iter().sum()
    }
}

/// A line as queues, full of zeros at the start.
pub struct Line {
    queues: Vec<VecDeque<u8>>,
    taken: usize,
}

impl Line {
    pub fn new(side: Side, header: &Header) -> Line {
        let delays = side.delays(header.rows as usize, header.step as usize);
        let queue = |delay| VecDeque::from(vec![0; delay]);
        Line {
            queues: delays.into_iter().map(queue).collect(),
            taken: 0,
        }
    }

    /// The next row takes a symbol and gives its oldest.
    pub fn step(&mut self, symbol: u8) -> u8 {
        let row = self.taken % self.queues.len();
        self.taken += 1;
        self.queues[row].push_back(symbol);
        self.queues[row].pop_front().expect("what was pushed")
    }

    /// The bytes that the library keeps of it: row after row, the symbol of turn t at t mod the
    /// row's length.
    pub fn area(&self) -> Vec<u8> {
        let mut area = Vec::new();
        for (row, queue) in self.queues.iter().enumerate() {
            let next_turn = (self.taken + self.queues.len() - 1 - row) / self.queues.len();
            let mut bytes = queue.iter().copied().collect::<Vec<u8>>();
            if !bytes.is_empty() {
                let oldest = next_turn % bytes.len();
                bytes.rotate_right(oldest);
            }
            area.extend(bytes);
        }
        area
    }
}

/// The questions that a header alone can be asked.
fn fields(header: &[u8]) -> Result<Header, Refusal> {
    accept_header(header)?;
    Header::of(header)
}

/// One step by its number: the symbol given and the area after it, or the first question whose
/// answer is no.
pub fn step(
    side: Side,
    header: &[u8],
    number: u64,
    symbol: u64,
    area: &[u8],
) -> Result<(u8, Vec<u8>), Refusal> {
    let header = fields(header)?;
    let delays = side.delays(header.rows as usize, header.step as usize);
    if area.len() != delays.iter().sum::<usize>() {
        return refuse(8, 0);
    }
    if symbol >= 1 << header.bits {
        return refuse(26, 0);
    }
    let (turn, row) = (number / header.rows, (number % header.rows) as usize);
    let mut area = area.to_vec();
    let given = match delays[row] as u64 {
        0 => symbol as u8,
        len => {
            let begin: usize = delays[..row].iter().sum();
            let oldest = &mut area[begin + (turn % len) as usize];
            std::mem::replace(oldest, symbol as u8)
        }
    };
    Ok((given, area))
}

#[cfg(test)]
mod tests {
    use super::*;
    use crate::run::place;

    /// m 8, N 6, B 63.
    const SMALL: [u8; 10] = [0x60, 0x18, 0x7E, 0x70, 0x81, 0x03, 0x04, 0, 0, 0];
    /// m 8, N 127, B 255.
    const LARGE: [u8; 10] = [0x61, 0xFD, 0xFE, 0x70, 0x81, 0x03, 0x04, 0, 0, 0];

    fn header(bytes: &[u8; 10]) -> Header {
        fields(bytes).unwrap()
    }

    #[test]
    fn areas() {
        for side in Side::BOTH {
            assert_eq!(side.area_len(&header(&SMALL)), 945);
            assert_eq!(side.area_len(&header(&LARGE)), 2_040_255);
        }
        let one_row = Header {
            rows: 1,
            ..header(&SMALL)
        };
        for side in Side::BOTH {
            assert_eq!(side.area_len(&one_row), 0);
            assert_eq!(
                step(side, &one_row.pack(), u64::MAX, 200, &[]),
                Ok((200, Vec::new()))
            );
            assert_eq!(step(side, &one_row.pack(), 0, 200, &[0]), refuse(8, 0));
        }
    }

    /// The symbols given, with the symbols n + 1 put in.
    #[test]
    fn first_symbols() {
        let header = header(&SMALL);
        let mut writer = Line::new(Side::Writing, &header);
        let mut reader = Line::new(Side::Reading, &header);
        let given: Vec<u8> = (0..2500).map(|n| writer.step((n + 1) as u8)).collect();
        assert_eq!(given[..8], [1, 0, 0, 0, 0, 0, 7, 0]);
        assert_eq!((given[378], given[379]), (123, 2));
        let back: Vec<u8> = given
            .into_iter()
            .map(|symbol| reader.step(symbol))
            .collect();
        assert!(back[..1890].iter().all(|&symbol| symbol == 0));
        assert!((0..610).all(|n| back[1890 + n] == (n + 1) as u8));
    }

    /// The queues and the numbered steps give the same symbols and keep the same bytes.
    #[test]
    fn two_ways() {
        for side in Side::BOTH {
            for packed in [&SMALL, &LARGE] {
                let mut line = Line::new(side, &header(packed));
                let mut area = line.area();
                assert!(area.iter().all(|&byte| byte == 0));
                let steps = if packed == &SMALL { 3000 } else { 60 };
                for n in 0..steps {
                    let symbol = n * n / 7 % 256;
                    let (given, after) = step(side, packed, n, symbol, &area).unwrap();
                    assert_eq!(given, line.step(symbol as u8));
                    area = after;
                }
                assert_eq!(area, line.area());
            }
        }
    }

    /// What the writer gives is step 9's sequence, which runs on: symbol t at its place, else 0.
    #[test]
    fn step_9() {
        let header = header(&SMALL);
        let mut line = Line::new(Side::Writing, &header);
        let symbol = |t: usize| (t * 31 + 5) as u8;
        let given: Vec<u8> = (0..9000).map(|n| line.step(symbol(n))).collect();
        let mut places = vec![0; 9000];
        for t in 0..9000 {
            if let Some(at) = places.get_mut(place(6, 63, t)) {
                *at = symbol(t);
            }
        }
        assert_eq!(given, places);
    }

    /// The byte that the last step number changes: row 3 of 6, row 1 of 127.
    #[test]
    fn last_step() {
        for (side, packed, at) in [
            (Side::Writing, &SMALL, 359),
            (Side::Reading, &SMALL, 800),
            (Side::Writing, &LARGE, 2),
            (Side::Reading, &LARGE, 54_062),
        ] {
            let mut area = vec![7; side.area_len(&header(packed))];
            area[at] = 99;
            let (given, after) = step(side, packed, u64::MAX, 200, &area).unwrap();
            area[at] = 200;
            assert_eq!((given, after), (99, area));
        }
    }

    #[test]
    fn each_question_is_met_in_its_order() {
        for side in Side::BOTH {
            let call = |header: &[u8], symbol, len| step(side, header, 0, symbol, &vec![1; len]);
            assert_eq!(call(&SMALL[..9], 256, 0), refuse(1, 0));
            let factor = |byte| [&SMALL[..6], &[byte], &SMALL[7..]].concat();
            assert_eq!(call(&factor(5 << 2), 256, 0), refuse(20, 0));
            assert!(call(&factor(32 << 2), 255, 945).is_ok());
            for len in [0, 944, 946] {
                assert_eq!(call(&SMALL, 256, len), refuse(8, 0));
                assert_eq!(call(&SMALL, 0, len), refuse(8, 0));
            }
            for symbol in [256, 512, 1 << 32, u64::MAX] {
                assert_eq!(call(&SMALL, symbol, 945), refuse(26, 0));
            }
        }
    }
}
