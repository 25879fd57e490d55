//! Cases for the two delay calls: whole runs through both sides, step after step, and single steps
//! of any number on areas of any content.

use super::headers::{any_header, some_header, Sizes};
use super::refusals::{broken, wrong_len};
use super::sample::Sample;
use crate::compare::{Call, Case, Rng, Tally};
use crate::delay::{self, Line, Side};
use crate::run::{self, Header};
use crate::{library, word};

/// One turn of every m and of every question, which meets every number.
pub const LEAST_DELAYS: u64 = 7 * 10;

fn call_of(side: Side) -> Call {
    match side {
        Side::Writing => Call::DelayWrite,
        Side::Reading => Call::DelayRead,
    }
}

fn library_step(side: Side, header: &[u8], number: u64, symbol: u64, area: &mut [u8]) -> u64 {
    match side {
        Side::Writing => library::delay_write(header, number, symbol, area),
        Side::Reading => library::delay_read(header, number, symbol, area),
    }
}

// ---- single steps

/// One step, put to both.
fn compare_step(
    tally: &mut Tally,
    rng: &mut Rng,
    side: Side,
    header: &[u8],
    [number, symbol]: [u64; 2],
    area: Vec<u8>,
    numbers: &[u8],
) {
    let second = delay::step(side, header, number, symbol, &area);
    let call = call_of(side);
    let case = Case {
        call,
        inputs: &[header],
        output_len: area.len(),
        place: second.as_ref().map_or(0, |(given, _)| (*given).into()),
        expected: second.map(|(_, after)| after),
        numbers,
        what: &format!(
            "{}, step {number}, symbol {symbol}, {} bytes, header {header:02X?}",
            call.name(),
            area.len()
        ),
    };
    tally.compare_over(rng, case, area, |inputs, area| {
        library_step(side, inputs[0], number, symbol, area)
    });
}

/// Any number of 64 bits; the first and the last, and those about a row's begin, more often.
fn some_number(rng: &mut Rng, rows: u64) -> u64 {
    let (near, any) = (rng.next() % (4 * rows), rng.next());
    let smaller = any >> rng.below(64);
    let turn = any / rows * rows;
    rng.pick(&[
        near,
        u64::MAX - near,
        smaller,
        any,
        turn,
        turn.wrapping_sub(1),
        1 << 63,
        u64::MAX,
    ])
}

/// The most bytes of an area, but for one case of a few.
const AREA_MOST: usize = 1 << 14;

/// A header with an area that is not too large, in most cases.
fn small_area(rng: &mut Rng, header: Header) -> Header {
    match Side::Writing.area_len(&header) {
        len if len > AREA_MOST && rng.below(16) > 0 => Header { rows: 1, ..header },
        _ => header,
    }
}

/// A symbol that is too large.
fn wrong_symbol(rng: &mut Rng, order: u64) -> u64 {
    let any = rng.next() >> rng.below(64);
    rng.pick(&[order, order + 1, 256, 1 << 32, u64::MAX, any.max(order)])
}

/// The step of this index and, beside it, one that fails a question first.
pub fn compare_delay(tally: &mut Tally, rng: &mut Rng, sizes: &Sizes, index: u64) {
    const FIRST: [u8; 10] = [1, 2, 3, 4, 5, 6, 7, 20, 8, 26];
    let header = some_header(rng, sizes, index);
    let header = small_area(rng, header);
    let sample = Sample::new(rng, header);
    let side = rng.pick(&Side::BOTH);
    let (header, order) = (sample.header.pack(), sample.run.order() as u64);
    let len = side.area_len(&sample.header);
    let area = match rng.below(8) {
        0 => vec![0; len],
        _ => rng.bytes(len),
    };
    let number = some_number(rng, sample.header.rows);
    let any = rng.next() % order;
    let symbol = rng.pick(&[any, any, 0, order - 1]);
    let told = [number, symbol];
    compare_step(tally, rng, side, &header, told, area.clone(), &[0]);

    let first = FIRST[(index % 10) as usize];
    let wrong = wrong_symbol(rng, order);
    let symbol = rng.pick(&[symbol, wrong]);
    match first {
        26 => compare_step(tally, rng, side, &header, [number, wrong], area, &[26]),
        8 => {
            let len = wrong_len(rng, len.max(1));
            let area = rng.bytes(if len == area.len() { len + 1 } else { len });
            compare_step(tally, rng, side, &header, [number, symbol], area, &[8]);
        }
        _ => {
            let header = broken(rng, &sample, first, false).header;
            let told = [number, symbol];
            compare_step(tally, rng, side, &header, told, area, &[first]);
        }
    }
}

/// A step under a header of any fields.
pub fn compare_any_delay(tally: &mut Tally, rng: &mut Rng, sizes: &Sizes) {
    let header = any_header(rng, sizes);
    let side = rng.pick(&Side::BOTH);
    let len = match header.rows {
        0 => 0,
        _ => side.area_len(&header),
    };
    let area_len = rng.pick(&[len, len, len, len, len + 1, len / 2]);
    let area = rng.bytes(area_len);
    let told = [
        some_number(rng, header.rows.max(1)),
        rng.next() >> rng.below(64),
    ];
    let numbers = call_of(side).numbers();
    compare_step(tally, rng, side, &header.pack(), told, area, numbers);
}

// ---- whole runs

/// The library's side of a line, which the queues go beside.
struct Beside {
    side: Side,
    header: Vec<u8>,
    area: Vec<u8>,
    line: Line,
    number: u64,
}

impl Beside {
    fn new(side: Side, header: &Header) -> Beside {
        Beside {
            side,
            header: header.pack().to_vec(),
            area: vec![0; side.area_len(header)],
            line: Line::new(side, header),
            number: 0,
        }
    }

    /// One step more. The queues' symbol is given back, so that a fault stays where it is.
    fn step(&mut self, tally: &mut Tally, symbol: u8) -> u8 {
        let (number, header) = (self.number, &self.header);
        self.number += 1;
        let answer = library_step(self.side, header, number, symbol.into(), &mut self.area);
        let given = self.line.step(symbol);
        let answers = [answer, u64::from(given) * 256];
        tally.judge(call_of(self.side), answers, &[], || {
            format!("a line, step {number}, header {header:02X?}")
        });
        given
    }

    /// The bytes that both have kept.
    fn compare_area(&self, tally: &mut Tally) {
        if self.area != self.line.area() {
            let (number, header) = (self.number, &self.header);
            let problem = format!("a line, the area before step {number}, header {header:02X?}");
            tally.differ(call_of(self.side), &problem);
        }
    }
}

/// A run's symbols through the writer, zeros after them until all its places are there, and what
/// comes out through the reader: step 9's places, and the symbols again.
fn compare_line(tally: &mut Tally, rng: &mut Rng, header: Header) {
    let sample = Sample::new(rng, header);
    let (words, late) = (sample.words(), sample.run.unhit());
    let bits = words.iter().flat_map(|word| word::unpack(word));
    let symbols = run::symbols_of_bits(header.bits as usize, &bits.collect::<Vec<bool>>());
    let places = run::places(&sample.run, &words);
    let mut writer = Beside::new(Side::Writing, &header);
    let mut reader = Beside::new(Side::Reading, &header);
    let some_step = rng.below(places.len());
    for (n, &place) in places.iter().enumerate() {
        let given = writer.step(tally, symbols.get(n).copied().unwrap_or(0));
        let back = reader.step(tally, given);
        let was = n.checked_sub(late).map_or(0, |n| symbols[n]);
        assert_eq!((given, back), (place, was), "step {n}, {header:?}");
        if n == some_step {
            writer.compare_area(tally);
            reader.compare_area(tally);
        }
    }
    writer.compare_area(tally);
    reader.compare_area(tally);
}

/// Runs of this m: one row, several, and where they fit 127, whose number does not divide the
/// symbols; for m = 8 as many bytes as a line can have.
pub fn compare_lines(tally: &mut Tally, rng: &mut Rng, sizes: &Sizes, bits: u64) {
    let header = |rng: &mut Rng, rows, step| Header {
        rows,
        step,
        ..some_header(rng, sizes, bits - 2)
    };
    let one_row = header(rng, 1, 256);
    compare_line(tally, rng, one_row);
    for _ in 0..3 {
        let (rows, step) = rng.pick(sizes.of_bits(bits));
        let header = header(rng, rows, step);
        compare_line(tally, rng, header);
    }
    let symbols = word::WORD_BITS as u64 / bits;
    let mut steps = (1..=256).filter(|step| 127 * 126 * step % symbols == 0);
    let step = if bits == 8 {
        steps.next_back()
    } else {
        steps.next()
    };
    if let Some(step) = step {
        let header = header(rng, 127, step);
        assert!(header.run().expect("a header").places() % 127 != 0);
        compare_line(tally, rng, header);
    }
}
