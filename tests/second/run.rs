//! The run level a second time, to compare the library with; it stands on the word level of
//! word.rs.
//!
//! Written from the specification: the header, steps 1, 8, 9 and 10, and the questions with their
//! places. One small function a step, in the order of the signal. The reader undoes the steps, and
//! holds the symbols of a whole run at once.

use crate::word::{self, refuse, Rate, Refusal, WORD_BITS};

pub const HEADER_BYTES: usize = 10;
/// Of a header without a factor.
pub const OLD_HEADER_BYTES: usize = 8;
pub const FRAME_MARKER: u32 = 0x1ACF_FC1D;
pub const FRAME_MARKER_BITS: usize = 32;
/// The most marker symbols.
pub const MARKER_MOST: usize = 32;
/// How often each symbol can be sent in a row.
pub const FACTORS: [u64; 7] = [1, 2, 3, 4, 8, 16, 32];

/// The fields of a header, each of any value that its bits can hold.
#[derive(Clone, Copy, Debug, PartialEq, Eq)]
pub struct Header {
    pub rate: u64,
    /// m, the bits of a symbol.
    pub bits: u64,
    /// N.
    pub rows: u64,
    /// B.
    pub step: u64,
    /// F.
    pub frame_bytes: u64,
    /// W.
    pub marker: u64,
    /// A.
    pub frames: u64,
    /// How often each symbol is sent.
    pub copies: u64,
    /// The last bits, which are zero.
    pub spare: u64,
}

/// Bits of the fields, in order: rate, m, N, B, F, W, A, factor, zeros.
pub const FIELD_BITS: [u32; 9] = [2, 4, 8, 9, 12, 6, 7, 6, 26];
/// The same in a header without a factor.
pub const OLD_FIELD_BITS: [u32; 8] = [2, 4, 8, 9, 12, 6, 7, 16];

/// Fields one after another, first bit highest, as a number.
fn join(fields: &[u64], widths: &[u32]) -> u128 {
    let both = fields.iter().zip(widths);
    both.fold(0, |joined, (&field, &width)| {
        joined << width | u128::from(field)
    })
}

/// The fields of so many bits that a number is joined of.
fn split<const COUNT: usize>(joined: u128, widths: [u32; COUNT]) -> [u64; COUNT] {
    let mut left = widths.iter().sum::<u32>();
    widths.map(|width| {
        left -= width;
        (joined >> left & ((1 << width) - 1)) as u64
    })
}

/// The bytes as a number, first byte highest.
fn big_endian(bytes: &[u8]) -> u128 {
    bytes
        .iter()
        .fold(0, |high, &byte| high << 8 | u128::from(byte))
}

impl Header {
    /// The fields up to A.
    fn seven(&self) -> [u64; 7] {
        [
            self.rate,
            self.bits,
            self.rows,
            self.step,
            self.frame_bytes,
            self.marker,
            self.frames,
        ]
    }

    fn of_seven([rate, bits, rows, step, frame_bytes, marker, frames]: [u64; 7]) -> Header {
        Header {
            rate,
            bits,
            rows,
            step,
            frame_bytes,
            marker,
            frames,
            copies: 1,
            spare: 0,
        }
    }

    pub fn pack(&self) -> [u8; HEADER_BYTES] {
        let fields = [&self.seven()[..], &[self.copies, self.spare]].concat();
        let bytes = join(&fields, &FIELD_BITS).to_be_bytes();
        std::array::from_fn(|i| bytes[16 - HEADER_BYTES + i])
    }

    pub fn unpack(bytes: &[u8; HEADER_BYTES]) -> Header {
        let [rate, bits, rows, step, frame_bytes, marker, frames, copies, spare] =
            split(big_endian(bytes), FIELD_BITS);
        Header {
            copies,
            spare,
            ..Header::of_seven([rate, bits, rows, step, frame_bytes, marker, frames])
        }
    }

    /// The eight bytes that have no factor.
    pub fn pack_old(&self) -> [u8; OLD_HEADER_BYTES] {
        let fields = [&self.seven()[..], &[self.spare]].concat();
        let bytes = join(&fields, &OLD_FIELD_BITS).to_be_bytes();
        std::array::from_fn(|i| bytes[16 - OLD_HEADER_BYTES + i])
    }

    /// Each symbol is sent once.
    pub fn unpack_old(bytes: &[u8; OLD_HEADER_BYTES]) -> Header {
        let [rate, bits, rows, step, frame_bytes, marker, frames, spare] =
            split(big_endian(bytes), OLD_FIELD_BITS);
        Header {
            spare,
            ..Header::of_seven([rate, bits, rows, step, frame_bytes, marker, frames])
        }
    }

    /// Question 1.
    pub fn of(bytes: &[u8]) -> Result<Header, Refusal> {
        whole(bytes.try_into().ok().map(Header::unpack))
    }

    /// The old question 1.
    pub fn of_old(bytes: &[u8]) -> Result<Header, Refusal> {
        whole(bytes.try_into().ok().map(Header::unpack_old))
    }

    /// Questions 2 to 6, and W's range of 7.
    pub fn run(&self) -> Result<Run, Refusal> {
        Run::of_fields(self)
    }
}

/// A header of the right length, whose last bits are zero.
fn whole(header: Option<Header>) -> Result<Header, Refusal> {
    match header {
        Some(header) if header.spare == 0 => Ok(header),
        _ => refuse(1, 0),
    }
}

/// What a header that passes questions 1 to 6, and W's range of 7, decides. The factor may be one
/// that there is not.
pub struct Run {
    rate_number: u64,
    rate: &'static Rate,
    bits: usize,
    rows: usize,
    step: usize,
    frame_bytes: usize,
    marker: usize,
    frames: usize,
    copies: u64,
}

impl Run {
    /// Questions 1 to 6, and W's range of 7.
    pub fn of(header: &[u8]) -> Result<Run, Refusal> {
        Header::of(header)?.run()
    }

    /// Questions 2 to 6, and W's range of 7.
    fn of_fields(header: &Header) -> Result<Run, Refusal> {
        let Some(rate) = Rate::of(header.rate) else {
            return refuse(2, 0);
        };
        if !(2..=8).contains(&header.bits) {
            return refuse(3, 0);
        }
        if !(1..=128).contains(&header.rows) || !(1..=256).contains(&header.step) {
            return refuse(4, 0);
        }
        let run = Run {
            rate_number: header.rate,
            rate,
            bits: header.bits as usize,
            rows: header.rows as usize,
            step: header.step as usize,
            frame_bytes: header.frame_bytes as usize,
            marker: header.marker as usize,
            frames: header.frames as usize,
            copies: header.copies,
        };
        if run.unhit() % run.word_symbols() != 0 {
            return refuse(5, 0);
        }
        if !(1..=2048).contains(&run.frame_bytes) || !(1..=64).contains(&run.frames) {
            return refuse(6, 0);
        }
        if !(1..=MARKER_MOST).contains(&run.marker) {
            return refuse(7, 0);
        }
        Ok(run)
    }

    /// M, the values of a symbol and the slots that can hold its pulse.
    pub fn order(&self) -> usize {
        1 << self.bits
    }

    /// The slots of a symbol: M, and M/4 guard slots.
    pub fn group(&self) -> usize {
        self.order() + self.order() / 4
    }

    /// W.
    pub fn marker_len(&self) -> usize {
        self.marker
    }

    pub fn frames_len(&self) -> usize {
        self.frames * self.frame_bytes
    }

    /// The bits of a frame and the marker before it.
    pub fn marked_bits(&self) -> usize {
        FRAME_MARKER_BITS + 8 * self.frame_bytes
    }

    /// Frame bits and frame markers, without fill.
    pub fn frame_stream_bits(&self) -> usize {
        self.frames * self.marked_bits()
    }

    /// k.
    pub fn block_bits(&self) -> usize {
        self.rate.block_bits
    }

    /// C.
    pub fn blocks(&self) -> usize {
        self.frame_stream_bits().div_ceil(self.block_bits())
    }

    /// S.
    pub fn word_symbols(&self) -> usize {
        WORD_BITS / self.bits
    }

    /// The places of step 9 that no symbol goes to.
    pub fn unhit(&self) -> usize {
        self.rows * (self.rows - 1) * self.step
    }

    /// The places of step 9.
    pub fn places(&self) -> usize {
        self.blocks() * self.word_symbols() + self.unhit()
    }

    /// Step 9: the place that symbol `t` goes to.
    pub fn place(&self, t: usize) -> usize {
        place(self.rows, self.step, t)
    }

    /// The symbols between the starts of two markers.
    pub fn period(&self) -> usize {
        self.marker + self.word_symbols()
    }

    /// Step 10: the symbol, markers counted, of a place of step 9.
    pub fn symbol_of_place(&self, place: usize) -> usize {
        let (before, rest) = (place / self.word_symbols(), place % self.word_symbols());
        before * self.period() + self.marker + rest
    }

    /// Symbols with markers; copies are not counted.
    pub fn symbols(&self) -> usize {
        self.places() / self.word_symbols() * self.period()
    }

    /// Question 20.
    pub fn is_factor(&self) -> bool {
        FACTORS.contains(&self.copies)
    }

    /// How often each symbol is sent.
    pub fn copies(&self) -> usize {
        self.copies as usize
    }

    /// The first slot of a copy of a symbol.
    pub fn copy_start(&self, symbol: usize, copy: usize) -> usize {
        (symbol * self.copies() + copy) * self.group()
    }

    pub fn slots(&self) -> usize {
        self.copy_start(self.symbols(), 0)
    }

    pub fn slots_len(&self) -> usize {
        self.slots().div_ceil(8)
    }
}

/// Question 20.
fn accept_factor(run: Run) -> Result<Run, Refusal> {
    if !run.is_factor() {
        return refuse(20, 0);
    }
    Ok(run)
}

/// The questions that a header alone can be asked: 1 to 6, W's range of 7, and 20.
pub fn accept_header(header: &[u8]) -> Result<Run, Refusal> {
    accept_factor(Run::of(header)?)
}

/// Questions 1 to 7, and 20.
pub fn accept(header: &[u8], marker: &[u8]) -> Result<Run, Refusal> {
    let run = Run::of(header)?;
    let too_high = |&symbol: &u8| usize::from(symbol) >= run.order();
    if marker.iter().take(run.marker).any(too_high) {
        return refuse(7, 0);
    }
    accept_factor(run)
}

/// Questions 1 to 7, 20 and 8.
fn accept_slices(
    header: &[u8],
    marker: &[u8],
    frames_len: usize,
    slots_len: usize,
) -> Result<Run, Refusal> {
    let run = accept(header, marker)?;
    let lent = [marker.len(), frames_len, slots_len];
    if lent != [run.marker, run.frames_len(), run.slots_len()] {
        return refuse(8, 0);
    }
    Ok(run)
}

/// Step 1: the frames with their markers, and the fill.
pub fn stream(run: &Run, frames: &[u8]) -> Vec<bool> {
    let mut bytes = Vec::with_capacity(run.frame_stream_bits() / 8);
    for frame in frames.chunks(run.frame_bytes) {
        bytes.extend(FRAME_MARKER.to_be_bytes());
        bytes.extend(frame);
    }
    let mut bits = word::unpack(&bytes);
    bits.resize(run.blocks() * run.block_bits(), false);
    bits
}

/// Steps 7 and 2 to 6: the words of the stream's blocks.
pub fn words(run: &Run, stream: &[bool]) -> Vec<Vec<u8>> {
    stream
        .chunks(run.block_bits())
        .map(|block| word::word_of_inputs(run.rate, &word::terminated(block)))
        .collect()
}

/// Step 8: the symbols of these bits, `m` bits a symbol, the first bit highest.
pub fn symbols_of_bits(m: usize, bits: &[bool]) -> Vec<u8> {
    let symbol = |bits: &[bool]| bits.iter().fold(0, |high, &bit| high << 1 | u8::from(bit));
    bits.chunks(m).map(symbol).collect()
}

/// Step 8 undone.
pub fn bits_of_symbols(m: usize, symbols: &[u8]) -> Vec<bool> {
    let bits = |&symbol: &u8| (0..m).rev().map(move |i| symbol >> i & 1 == 1);
    symbols.iter().flat_map(bits).collect()
}

/// Step 9's rule: the place of symbol `t` with this many rows and this step.
pub fn place(rows: usize, step: usize, t: usize) -> usize {
    t + t % rows * step * rows
}

/// Steps 8 and 9: the places, from the words.
pub fn places(run: &Run, words: &[Vec<u8>]) -> Vec<u8> {
    let mut places = vec![0; run.places()];
    let symbols = words
        .iter()
        .flat_map(|word| symbols_of_bits(run.bits, &word::unpack(word)));
    for (t, symbol) in symbols.enumerate() {
        places[run.place(t)] = symbol;
    }
    places
}

/// Step 10: the markers.
pub fn mark(run: &Run, places: &[u8], marker: &[u8]) -> Vec<u8> {
    places
        .chunks(run.word_symbols())
        .flat_map(|word| [marker, word].concat())
        .collect()
}

/// Step 10: the slots, each symbol as often in a row as the factor says.
pub fn slots_of_symbols(run: &Run, symbols: &[u8]) -> Vec<u8> {
    let mut slots = vec![0; run.copy_start(symbols.len(), 0).div_ceil(8)];
    for (i, &symbol) in symbols.iter().enumerate() {
        for copy in 0..run.copies() {
            let pulse = run.copy_start(i, copy) + usize::from(symbol);
            slots[pulse / 8] |= 0x80 >> (pulse % 8);
        }
    }
    slots
}

/// The slots that hold a pulse, in order.
fn pulses(slots: &[u8]) -> impl Iterator<Item = usize> + '_ {
    slots.chunks(8).enumerate().flat_map(|(i, chunk)| {
        let mut bytes = [0; 8];
        bytes[..chunk.len()].copy_from_slice(chunk);
        let mut left = u64::from_be_bytes(bytes);
        std::iter::from_fn(move || {
            let bit = left.leading_zeros();
            left &= !(1 << 63u32.checked_sub(bit)?);
            Some(64 * i + bit as usize)
        })
    })
}

/// Question 9, for slots.
fn spare_slots_zero(run: &Run, slots: &[u8]) -> Result<(), Refusal> {
    let spare = 8 * slots.len() - run.slots();
    let last = slots.last().copied().unwrap_or(0);
    if last & ((1 << spare) - 1) as u8 != 0 {
        return refuse(9, 0);
    }
    Ok(())
}

/// Question 10, and the symbols: of each, the slot with more pulses over all copies than any other.
fn symbols_of_slots(run: &Run, slots: &[u8]) -> Result<Vec<u8>, Refusal> {
    let mut pulses = pulses(slots).peekable();
    let mut counts = vec![0; run.group()];
    let tell = |symbol: usize| {
        let end = run.copy_start(symbol + 1, 0);
        counts.fill(0);
        while let Some(pulse) = pulses.next_if(|&pulse| pulse < end) {
            counts[pulse % run.group()] += 1;
        }
        let most = counts.iter().max();
        let mut leaders = (0..run.group()).filter(|&slot| Some(&counts[slot]) == most);
        match (leaders.next(), leaders.next()) {
            (Some(slot), None) if slot < run.order() => Ok(slot as u8),
            _ => refuse(10, symbol),
        }
    };
    let told = (0..run.symbols()).map(tell).collect();
    if run.copies() == 1 {
        assert_eq!(told, lone_pulses(run, slots)); // with one copy it is the same test
    }
    told
}

/// Question 10 as it is without copies: exactly one pulse, and not in a guard slot.
fn lone_pulses(run: &Run, slots: &[u8]) -> Result<Vec<u8>, Refusal> {
    let mut symbols = Vec::with_capacity(run.symbols());
    for pulse in pulses(slots) {
        let (group, slot) = (pulse / run.group(), pulse % run.group());
        // a later group: the next one has no pulse; an earlier group: it has two
        if group != symbols.len() || slot >= run.order() {
            return refuse(10, group.min(symbols.len()));
        }
        symbols.push(slot as u8);
    }
    if symbols.len() < run.symbols() {
        return refuse(10, symbols.len());
    }
    Ok(symbols)
}

/// Question 11, and the places of step 9.
fn unmark(run: &Run, symbols: &[u8], marker: &[u8]) -> Result<Vec<u8>, Refusal> {
    let mut places = Vec::with_capacity(run.places());
    for (i, period) in symbols.chunks(run.period()).enumerate() {
        let (stands, word) = period.split_at(run.marker);
        if let Some(at) = (0..run.marker).find(|&at| stands[at] != marker[at]) {
            return refuse(11, i * run.period() + at);
        }
        places.extend(word);
    }
    Ok(places)
}

/// Question 12, and the symbols of the words.
fn deinterleave(run: &Run, mut places: Vec<u8>) -> Result<Vec<u8>, Refusal> {
    // each symbol is taken out, so what stays is what no symbol accounts for
    let symbols = (0..run.blocks() * run.word_symbols())
        .map(|t| std::mem::take(&mut places[run.place(t)]))
        .collect();
    if let Some(place) = places.iter().position(|&symbol| symbol != 0) {
        return refuse(12, run.symbol_of_place(place));
    }
    Ok(symbols)
}

/// Questions 13 to 15, word after word, and the stream of the blocks.
fn stream_of_symbols(run: &Run, symbols: &[u8]) -> Result<Vec<bool>, Refusal> {
    let mut stream = Vec::with_capacity(run.blocks() * run.block_bits());
    for (i, symbols) in symbols.chunks(run.word_symbols()).enumerate() {
        let word = word::pack(&bits_of_symbols(run.bits, symbols));
        match word::read(run.rate_number, &word, run.rate.block_bytes()) {
            Ok(block) => stream.extend(&word::unpack(&block)[..run.block_bits()]),
            Err(refusal) => return refuse(refusal.number, i),
        }
    }
    Ok(stream)
}

/// Questions 16 and 18, and the frames.
fn frames_of_stream(run: &Run, stream: &[bool]) -> Result<Vec<u8>, Refusal> {
    let marker = word::unpack(&FRAME_MARKER.to_be_bytes());
    let (marked, fill) = stream.split_at(run.frame_stream_bits());
    let mut frames = Vec::with_capacity(run.frames_len());
    for (i, bits) in marked.chunks(run.marked_bits()).enumerate() {
        let (stands, frame) = bits.split_at(FRAME_MARKER_BITS);
        if stands != marker {
            return refuse(16, i);
        }
        frames.extend(word::pack(frame));
    }
    assert!(fill.len() < run.block_bits()); // whatever was read: the header decides it
    if fill.contains(&true) {
        return refuse(18, 0);
    }
    Ok(frames)
}

/// The run writer: the slots, or the first question whose answer is no.
pub fn write(
    header: &[u8],
    marker: &[u8],
    frames: &[u8],
    slots_len: usize,
) -> Result<Vec<u8>, Refusal> {
    let run = accept_slices(header, marker, frames.len(), slots_len)?;
    let words = words(&run, &stream(&run, frames));
    let symbols = mark(&run, &places(&run, &words), marker);
    Ok(slots_of_symbols(&run, &symbols))
}

/// The run reader: the frames, or the first question whose answer is no.
pub fn read(
    header: &[u8],
    marker: &[u8],
    slots: &[u8],
    frames_len: usize,
) -> Result<Vec<u8>, Refusal> {
    let run = accept_slices(header, marker, frames_len, slots.len())?;
    spare_slots_zero(&run, slots)?;
    let symbols = symbols_of_slots(&run, slots)?;
    let places = unmark(&run, &symbols, marker)?;
    let symbols = deinterleave(&run, places)?;
    let stream = stream_of_symbols(&run, &symbols)?;
    frames_of_stream(&run, &stream)
}

#[cfg(test)]
mod tests {
    use super::*;

    /// A small header, m = 2 and no rows to speak of.
    const SMALL: Header = Header {
        rate: 0,
        bits: 2,
        rows: 1,
        step: 1,
        frame_bytes: 40,
        marker: 3,
        frames: 2,
        copies: 1,
        spare: 0,
    };

    /// Two words and two rounds of six rows.
    const TWO_WORDS: Header = Header {
        rate: 1,
        bits: 2,
        rows: 6,
        step: 252,
        frame_bytes: 500,
        marker: 2,
        frames: 3,
        copies: 1,
        spare: 0,
    };

    const EXAMPLE: [u8; 10] = [0x59, 0x50, 0xF0, 0x1B, 0xE8, 0x02, 0x04, 0x00, 0x00, 0x00];

    fn bits(text: &str) -> Vec<bool> {
        let digits = text.chars().filter(|c| !c.is_whitespace());
        digits.map(|c| c == '1').collect()
    }

    fn run(header: Header) -> Run {
        header.run().unwrap()
    }

    fn sample(len: usize) -> Vec<u8> {
        (0..len).map(|i| (i * i / 5 + 11 * i + 3) as u8).collect()
    }

    /// The number that a header gets before any slice is looked at, 0 where it passes.
    fn number(header: Header) -> u8 {
        let accepted = accept_header(&header.pack());
        accepted.map_or_else(|refusal| refusal.number, |_| 0)
    }

    // The rows of the bench table on steps 8 and 10.

    #[test]
    fn symbol_of_1101() {
        assert_eq!(symbols_of_bits(4, &bits("1101")), [13]);
    }

    #[test]
    fn slots_of_symbol_2() {
        assert_eq!(
            slots_of_symbols(&run(SMALL), &[2]),
            word::pack(&bits("00100"))
        );
    }

    // The draft book's vectors.

    #[test]
    fn draft_randomizer_digits() {
        let digits = bits("1111 1111 0100 1000 0000 1110 1100 0000 1001 1010");
        assert_eq!(word::sequence().take(40).collect::<Vec<_>>(), digits);
    }

    #[test]
    fn draft_symbols() {
        assert_eq!(symbols_of_bits(4, &bits("1101 0101")), [13, 5]);
        assert_eq!(bits_of_symbols(4, &[13, 5]), bits("1101 0101"));
    }

    /// N = 4, B = 1: the outputs of symbols 0 to 10, where they are no first register contents.
    #[test]
    fn draft_interleaver() {
        const OUTPUT: [isize; 11] = [0, -3, -6, -9, 4, 1, -2, -5, 8, 5, 2];
        for (j, t) in OUTPUT.into_iter().enumerate() {
            if let Ok(t) = usize::try_from(t) {
                assert_eq!(place(4, 1, t), j);
            } else {
                assert!((0..100).all(|t| place(4, 1, t) != j));
            }
        }
    }

    /// The draft's recursion for the symbol that stands at place j.
    #[test]
    fn draft_interleaver_recursion() {
        for (rows, step) in [(1, 7), (4, 1), (6, 252), (84, 120), (127, 255)] {
            let mut source = 0;
            for j in 0..100_000 {
                source = match j % rows {
                    0 => j as isize,
                    _ => source - (rows * step) as isize + 1,
                };
                if let Ok(t) = usize::try_from(source) {
                    assert_eq!(place(rows, step, t), j);
                }
            }
        }
    }

    // The specification's examples and edges.

    #[test]
    fn example_sheet() {
        let run = Run::of(&EXAMPLE).unwrap();
        assert_eq!(
            (run.rate_number, run.order(), run.rows, run.step),
            (1, 64, 84, 120)
        );
        assert_eq!((run.frame_bytes, run.marker, run.frames), (223, 16, 2));
        assert_eq!(
            (run.blocks(), run.symbols(), run.slots()),
            (1, 844_488, 67_559_040)
        );
        assert_eq!(Header::unpack(&EXAMPLE).pack(), EXAMPLE);
    }

    #[test]
    fn largest_run() {
        let largest = Header {
            bits: 8,
            rows: 127,
            step: 255,
            frame_bytes: 2048,
            marker: 32,
            frames: 64,
            ..SMALL
        };
        let once = run(largest);
        assert_eq!((once.blocks(), once.symbols()), (210, 4_553_218));
        assert_eq!(
            (once.slots(), once.slots_len()),
            (1_457_029_760, 182_128_720)
        );
        let most = run(Header {
            copies: 32,
            ..largest
        });
        assert_eq!((most.blocks(), most.symbols()), (210, 4_553_218));
        assert_eq!(
            (most.slots(), most.slots_len()),
            (46_624_952_320, 5_828_119_040)
        );
    }

    #[test]
    fn edges() {
        let rows = |bits, rows, step| Header {
            bits,
            rows,
            step,
            ..SMALL
        };
        for m in 2..=8 {
            assert!((1..=256).all(|step| number(rows(m, 1, step)) == 0));
            assert!((1..=256).all(|step| number(rows(m, 2, step)) == 5));
        }
        assert_eq!(number(rows(8, 10, 21)), 0);
        assert_eq!(number(rows(8, 10, 20)), 5);
        assert_eq!(
            number(Header {
                marker: 32,
                ..SMALL
            }),
            0
        );
        assert_eq!(
            number(Header {
                marker: 33,
                ..SMALL
            }),
            7
        );
        assert_eq!(
            number(Header {
                frame_bytes: 0,
                ..SMALL
            }),
            6
        );
        assert_eq!(accept(&SMALL.pack(), &[3, 3, 3]).map(|_| ()), Ok(()));
        assert_eq!(accept(&SMALL.pack(), &[3, 3, 4]).map(|_| ()), refuse(7, 0));
        for len in [0, 7, 8, 9, 11] {
            assert_eq!(Run::of(&vec![0; len]).map(|_| ()), refuse(1, 0));
        }
    }

    /// Each value of the factor's six bits, after 7 and before 8, and of the two bits after it.
    #[test]
    fn factors() {
        for byte in 0..=255 {
            let mut header = SMALL.pack();
            header[6] = byte;
            let wanted = match byte {
                0x04 | 0x08 | 0x0C | 0x10 | 0x20 | 0x40 | 0x80 => refuse(8, 0),
                _ if byte % 4 == 0 => refuse(20, 0),
                _ => refuse(1, 0),
            };
            assert_eq!(write(&header, &[3, 3, 3], &[], 0), wanted);
            let wanted = if byte % 4 == 0 { 7 } else { 1 };
            assert_eq!(write(&header, &[4], &[], 0), refuse(wanted, 0));
        }
    }

    /// Each of the last 26 bits.
    #[test]
    fn zeros_at_the_end() {
        for bit in 54..80 {
            let mut header = EXAMPLE;
            header[bit / 8] |= 0x80 >> (bit % 8);
            assert_eq!(Run::of(&header).map(|_| ()), refuse(1, 0));
            assert_eq!(Header::unpack(&header).spare, 1 << (79 - bit));
        }
    }

    /// Question 7 looks at the first W symbols that are lent, whatever the length.
    #[test]
    fn marker_before_length() {
        let header = SMALL.pack();
        assert_eq!(write(&header, &[4], &[], 0), refuse(7, 0));
        assert_eq!(write(&header, &[3], &[], 0), refuse(8, 0));
        assert_eq!(write(&header, &[0, 1, 2, 4], &[], 0), refuse(8, 0));
        assert_eq!(write(&header, &[], &[], 0), refuse(8, 0));
    }

    /// The only runs with no fill.
    #[test]
    fn no_fill() {
        let mut found = 0;
        for (rate, k) in [5006, 7526, 10046].into_iter().enumerate() {
            for frames in 1..=64 {
                for frame_bytes in 1..=2048 {
                    if frames * (32 + 8 * frame_bytes) % k == 0 {
                        assert_eq!((rate, frames, (frame_bytes + 4) % 71), (1, 53, 0));
                        found += 1;
                    }
                }
            }
        }
        assert_eq!(found, 28);
        let header = Header {
            rate: 1,
            frame_bytes: 67,
            frames: 53,
            ..SMALL
        };
        assert_eq!(run(header).blocks(), 4);
        assert_eq!(run(header).frame_stream_bits(), 4 * 7526);
    }

    /// There are always fewer than k fill bits, and the most are k - 2, both being even.
    #[test]
    fn fewer_fill_bits_than_a_block() {
        let (mut least, mut most) = ([usize::MAX; 3], [0; 3]);
        for rate in 0..3 {
            for frames in 1..=64 {
                for frame_bytes in 1..=2048 {
                    let run = run(Header {
                        rate,
                        frames,
                        frame_bytes,
                        ..SMALL
                    });
                    let fill = run.blocks() * run.block_bits() - run.frame_stream_bits();
                    assert!(fill < run.block_bits());
                    least[rate as usize] = fill.min(least[rate as usize]);
                    most[rate as usize] = fill.max(most[rate as usize]);
                }
            }
        }
        assert_eq!((least, most), ([2, 0, 2], [5004, 7524, 10044]));
    }

    #[test]
    fn written_runs_are_read() {
        for (header, copies) in [SMALL, TWO_WORDS]
            .into_iter()
            .flat_map(|h| FACTORS.map(|k| (h, k)))
        {
            let header = Header { copies, ..header };
            let run = run(header);
            let (header, marker) = (header.pack(), &[3, 0, 1][..run.marker]);
            let frames = sample(run.frames_len());
            let slots = write(&header, marker, &frames, run.slots_len()).unwrap();
            assert_eq!(slots.len(), run.slots_len());
            assert_eq!(read(&header, marker, &slots, frames.len()), Ok(frames));
        }
    }

    /// Each symbol is sent k times in a row, not the run k times.
    #[test]
    fn copies_in_a_row() {
        let run = run(Header { copies: 3, ..SMALL });
        assert_eq!(
            slots_of_symbols(&run, &[2, 0]),
            word::pack(&bits("00100 00100 00100 10000 10000 10000"))
        );
    }

    /// The slots of the copies, and the symbol where there is one.
    #[test]
    fn pooled_by_hand() {
        for (slots, symbol) in [
            ("00100", Some(2)),
            ("00101", None),
            ("00100 00010", None),
            ("00100 00000", Some(2)),
            ("11111 00100", Some(2)),
            ("00100 00001", None),
            ("00000 00000", None),
            ("00100 00100 00010", Some(2)),
            ("00100 00001 00001", None),
            ("01100 00100 01000", None),
            ("10000 10000 01000 00100", Some(0)),
            ("10000 10000 01000 01000", None),
        ] {
            let copies = slots.split(' ').count() as u64;
            let run = run(Header { copies, ..SMALL });
            let mut all = bits(slots);
            all.resize(run.slots(), true); // each slot of the later symbols: none can be told
            let told = symbols_of_slots(&run, &word::pack(&all));
            assert_eq!(told, refuse(10, usize::from(symbol.is_some())));
            let marker = vec![symbol.unwrap_or(0); run.symbols()];
            let mut all = word::unpack(&slots_of_symbols(&run, &marker));
            all[..bits(slots).len()].copy_from_slice(&bits(slots));
            let told = symbols_of_slots(&run, &word::pack(&all));
            assert_eq!(told, symbol.map_or(refuse(10, 0), |_| Ok(marker)));
        }
    }

    /// One fault of each number from 18 down to 9 is added to the same run: each is met before
    /// those that were there.
    #[test]
    fn each_question_is_met_in_its_order() {
        let (header, marker) = (TWO_WORDS.pack(), &[3, 0]);
        let run = run(TWO_WORDS);
        let frames = sample(run.frames_len());
        assert_eq!((run.blocks(), run.marked_bits()), (2, 4032));
        let read = |slots: &[u8]| read(&header, marker, slots, frames.len());
        let read_symbols = |symbols: &[u8]| read(&slots_of_symbols(&run, symbols));
        let read_words =
            |words: &[Vec<u8>]| read_symbols(&mark(&run, &places(&run, words), marker));

        let mut stream = stream(&run, &frames);
        *stream.last_mut().unwrap() = true; // the last fill bit
        assert_eq!(read_words(&words(&run, &stream)), refuse(18, 0));
        stream[4032 + 31] ^= true; // the last bit of frame 1's marker
        assert_eq!(read_words(&words(&run, &stream)), refuse(16, 1));

        let k = run.block_bits();
        let mut words = words(&run, &stream);
        let mut inputs = word::terminated(&stream[k..]);
        inputs[k + 5] ^= true; // in the check of word 1
        words[1] = word::word_of_inputs(run.rate, &inputs);
        assert_eq!(read_words(&words), refuse(15, 1));
        inputs[k + 33] ^= true; // in its termination
        words[1] = word::word_of_inputs(run.rate, &inputs);
        assert_eq!(read_words(&words), refuse(14, 1));
        words[1][100] ^= 1;
        assert_eq!(read_words(&words), refuse(13, 1));
        let mut inputs = word::terminated(&stream[..k]);
        inputs[k] ^= true; // 15 of word 0 comes before 13 of word 1
        words[0] = word::word_of_inputs(run.rate, &inputs);
        assert_eq!(read_words(&words), refuse(15, 0));

        let mut symbols = mark(&run, &places(&run, &words), marker);
        let after = 2 + 1; // the place after the first is row 1's, and nothing has come so far
        symbols[after] = 1;
        assert_eq!(read_symbols(&symbols), refuse(12, after));
        symbols[run.period() + 1] ^= 1; // the second marker's second symbol
        assert_eq!(read_symbols(&symbols), refuse(11, run.period() + 1));

        let mut slots = slots_of_symbols(&run, &symbols);
        let last = run.symbols() - 1;
        for guard in [false, true] {
            // a second pulse in the last group: one that can be its pulse, or its guard slot
            let at = if guard {
                4
            } else {
                usize::from(symbols[last] == 0)
            };
            let pulse = last * run.group() + at;
            slots[pulse / 8] ^= 0x80 >> (pulse % 8);
            assert_eq!(read(&slots), refuse(10, last));
        }
        assert_eq!(8 * slots.len() - run.slots(), 2);
        *slots.last_mut().unwrap() |= 1;
        assert_eq!(read(&slots), refuse(9, 0));
    }

    #[test]
    fn groups_without_one_pulse() {
        let run = run(SMALL);
        let symbols = vec![1; run.symbols()];
        let mut slots = slots_of_symbols(&run, &symbols);
        assert_eq!(symbols_of_slots(&run, &slots), Ok(symbols));
        let put = |slots: &mut [u8], at: usize| slots[at / 8] ^= 0x80 >> (at % 8);
        put(&mut slots, 5 * 7 + 1); // none in group 7
        assert_eq!(symbols_of_slots(&run, &slots), refuse(10, 7));
        put(&mut slots, 5 * 7 + 4); // a lone guard pulse
        assert_eq!(symbols_of_slots(&run, &slots), refuse(10, 7));
        put(&mut slots, 5 * 6 + 4); // a guard pulse beside the pulse
        assert_eq!(symbols_of_slots(&run, &slots), refuse(10, 6));
        put(&mut slots, 5 * 5 + 0); // two pulses
        assert_eq!(symbols_of_slots(&run, &slots), refuse(10, 5));
        assert_eq!(symbols_of_slots(&run, &vec![0; slots.len()]), refuse(10, 0));
    }
}
