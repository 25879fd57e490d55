//! What the comparing programs share: random numbers, lent slices, and the tally of the answers.

use crate::word::{self, Refusal};
use std::process::ExitCode;
use std::time::Instant;

/// splitmix64.
pub struct Rng(u64);

impl Rng {
    /// A stream of its own for each index, so that a case does not depend on those before it.
    pub fn of_index(seed: u64, index: u64) -> Rng {
        let mut rng = Rng(seed);
        Rng(rng.next() ^ index.wrapping_mul(0xD134_2543_DE82_EF95))
    }

    #[allow(clippy::should_implement_trait)]
    pub fn next(&mut self) -> u64 {
        self.0 = self.0.wrapping_add(0x9E37_79B9_7F4A_7C15);
        let z = (self.0 ^ self.0 >> 30).wrapping_mul(0xBF58_476D_1CE4_E5B9);
        let z = (z ^ z >> 27).wrapping_mul(0x94D0_49BB_1331_11EB);
        z ^ z >> 31
    }

    pub fn below(&mut self, limit: usize) -> usize {
        (self.next() % limit as u64) as usize
    }

    pub fn pick<T: Copy>(&mut self, from: &[T]) -> T {
        from[self.below(from.len())]
    }

    pub fn bytes(&mut self, len: usize) -> Vec<u8> {
        let mut bytes = vec![0; len];
        for eight in bytes.chunks_mut(8) {
            eight.copy_from_slice(&self.next().to_le_bytes()[..eight.len()]);
        }
        bytes
    }

    pub fn bits(&mut self, len: usize) -> Vec<bool> {
        let mut bits = word::unpack(&self.bytes(len.div_ceil(8)));
        bits.truncate(len);
        bits
    }
}

const MARGIN: usize = 32;

/// A slice lent to the library, within a margin of random bytes.
pub struct Lent {
    area: Vec<u8>,
    margins: [Vec<u8>; 2],
}

impl Lent {
    pub fn new(rng: &mut Rng, slice: &[u8]) -> Lent {
        let margins = [rng.bytes(MARGIN), rng.bytes(MARGIN)];
        let area = [&margins[0], slice, &margins[1]].concat();
        Lent { area, margins }
    }

    pub fn slice(&mut self) -> &mut [u8] {
        let end = self.area.len() - MARGIN;
        &mut self.area[MARGIN..end]
    }

    /// How many bytes of the slice differ from those given.
    fn changed(&self, from: &[u8]) -> u64 {
        let slice = &self.area[MARGIN..MARGIN + from.len()];
        if slice == from {
            return 0; // the usual case, and the fast one
        }
        slice.iter().zip(from).filter(|(a, b)| a != b).count() as u64
    }

    /// The first byte that is not what it should be, counted from the start of the slice.
    fn wrong_byte(&self, should: &[u8]) -> Option<isize> {
        let (before, rest) = self.area.split_at(MARGIN);
        let (slice, after) = rest.split_at(should.len());
        if before == self.margins[0] && slice == should && after == self.margins[1] {
            return None;
        }
        let should = self.margins[0].iter().chain(should).chain(&self.margins[1]);
        let at = self.area.iter().zip(should).position(|(a, b)| a != b)?;
        Some(at as isize - MARGIN as isize)
    }
}

/// The calls.
#[derive(Clone, Copy)]
pub enum Call {
    WordWrite,
    WordRead,
    PassWrite,
    PassRead,
    BitSpread,
    RunWrite,
    RunRead,
    RunFind,
    RunFindFrom,
    RunCut,
    HeaderWiden,
    HeaderNarrow,
    FadesCount,
    DelayWrite,
    DelayRead,
    RackLoad,
    RackRead,
    RackDrop,
    RackLend,
    UplinkWrite,
    UplinkRead,
}

impl Call {
    pub const ALL: [Call; 21] = [
        Call::WordWrite,
        Call::WordRead,
        Call::PassWrite,
        Call::PassRead,
        Call::BitSpread,
        Call::RunWrite,
        Call::RunRead,
        Call::RunFind,
        Call::RunFindFrom,
        Call::RunCut,
        Call::HeaderWiden,
        Call::HeaderNarrow,
        Call::FadesCount,
        Call::DelayWrite,
        Call::DelayRead,
        Call::RackLoad,
        Call::RackRead,
        Call::RackDrop,
        Call::RackLend,
        Call::UplinkWrite,
        Call::UplinkRead,
    ];

    pub fn name(self) -> &'static str {
        match self {
            Call::WordWrite => "word_write",
            Call::WordRead => "word_read",
            Call::PassWrite => "pass_write",
            Call::PassRead => "pass_read",
            Call::BitSpread => "bit_spread",
            Call::RunWrite => "run_write",
            Call::RunRead => "run_read",
            Call::RunFind => "run_find",
            Call::RunFindFrom => "run_find_from",
            Call::RunCut => "run_cut",
            Call::HeaderWiden => "header_widen",
            Call::HeaderNarrow => "header_narrow",
            Call::FadesCount => "fades_count",
            Call::DelayWrite => "delay_write",
            Call::DelayRead => "delay_read",
            Call::RackLoad => "rack_load",
            Call::RackRead => "rack_read",
            Call::RackDrop => "rack_drop",
            Call::RackLend => "rack_lend",
            Call::UplinkWrite => "uplink_write",
            Call::UplinkRead => "uplink_read",
        }
    }

    /// The numbers that the call can answer.
    pub fn numbers(self) -> &'static [u8] {
        match self {
            Call::WordWrite | Call::PassWrite => &[0, 2, 8],
            Call::WordRead | Call::PassRead => &[0, 2, 8, 13, 14, 15],
            Call::BitSpread => &[0, 2, 8, 27],
            Call::RunWrite => &[0, 1, 2, 3, 4, 5, 6, 7, 8, 20],
            Call::RunRead => &[
                0, 1, 2, 3, 4, 5, 6, 7, 8, 9, 10, 11, 12, 13, 14, 15, 16, 18, 20,
            ],
            Call::RunFind | Call::RunFindFrom => &[0, 1, 2, 3, 4, 5, 6, 7, 8, 19, 20],
            Call::RunCut => &[0, 1, 2, 3, 4, 5, 6, 7, 8, 20],
            Call::HeaderWiden => &[0, 1, 2, 3, 4, 5, 6, 7, 8],
            Call::HeaderNarrow => &[0, 1, 2, 3, 4, 5, 6, 7, 8, 20, 21],
            Call::FadesCount => &[0, 1, 2, 3, 4, 5, 6, 7, 8, 20, 22],
            Call::DelayWrite | Call::DelayRead => &[0, 1, 2, 3, 4, 5, 6, 7, 8, 20, 26],
            Call::RackLoad => &[0, 1, 2, 3, 4, 5, 6, 7, 8, 20, 23, 24, 25],
            Call::RackRead | Call::RackDrop | Call::RackLend => &[0, 8, 23, 24, 25],
            Call::UplinkWrite => &[0, 8],
            Call::UplinkRead => &[0, 8, 28, 29],
        }
    }
}

/// Whether a call writes or reads.
#[derive(Clone, Copy)]
pub enum Way {
    Write,
    Read,
}

impl Way {
    pub fn of_words(self) -> Call {
        match self {
            Way::Write => Call::WordWrite,
            Way::Read => Call::WordRead,
        }
    }

    pub fn of_passes(self) -> Call {
        match self {
            Way::Write => Call::PassWrite,
            Way::Read => Call::PassRead,
        }
    }

    pub fn of_runs(self) -> Call {
        match self {
            Way::Write => Call::RunWrite,
            Way::Read => Call::RunRead,
        }
    }

    pub fn of_uplinks(self) -> Call {
        match self {
            Way::Write => Call::UplinkWrite,
            Way::Read => Call::UplinkRead,
        }
    }
}

/// What each number says. No call answers any other.
const NUMBERS: [(u8, &str); 29] = [
    (0, "accepted"),
    (1, "header"),
    (2, "rate"),
    (3, "pulse order"),
    (4, "rows and step"),
    (5, "whole codeblocks"),
    (6, "frame size or count"),
    (7, "marker"),
    (8, "length"),
    (9, "spare bits"),
    (10, "pulses"),
    (11, "marker symbols"),
    (12, "unhit places"),
    (13, "coded bits"),
    (14, "termination"),
    (15, "check"),
    (16, "frame marker"),
    (18, "fill bits"),
    (19, "whole marker"),
    (20, "factor"),
    (21, "no old form"),
    (22, "fades"),
    (23, "mission"),
    (24, "place"),
    (25, "closed place"),
    (26, "symbol"),
    (27, "block bit"),
    (28, "groups"),
    (29, "parity"),
];

/// One call to be put to the library, with what the second implementation says of it.
pub struct Case<'a> {
    pub call: Call,
    pub inputs: &'a [&'a [u8]],
    pub output_len: usize,
    pub expected: Result<Vec<u8>, Refusal>,
    /// The place of an accepted answer: the slot that was found, the symbol that was given, and
    /// otherwise 0.
    pub place: usize,
    /// The numbers that this kind of call may give.
    pub numbers: &'a [u8],
    /// What to say where something differs.
    pub what: &'a str,
}

/// More than these say nothing new; a program that finds so many stops.
pub const MANY_DIFFERENCES: u64 = 10;

/// What came of the cases of a call.
#[derive(Clone, Copy, Default)]
struct Counts {
    cases: u64,
    /// Answers by number.
    answers: [u64; 32],
    /// Bytes of the lent slices, and of the margins around them; all of them are compared.
    lent: u64,
    margins: u64,
    /// Lent bytes that a refused call changed.
    changed: u64,
    differences: u64,
}

impl Counts {
    fn add(&mut self, other: &Counts) {
        self.cases += other.cases;
        for (sum, more) in self.answers.iter_mut().zip(other.answers) {
            *sum += more;
        }
        self.lent += other.lent;
        self.margins += other.margins;
        self.changed += other.changed;
        self.differences += other.differences;
    }
}

/// What has been compared, and what came of it.
pub struct Tally {
    started: Instant,
    counts: [Counts; Call::ALL.len()],
}

impl Default for Tally {
    fn default() -> Tally {
        Tally {
            started: Instant::now(),
            counts: Default::default(),
        }
    }
}

impl Tally {
    /// Puts a case to the library and compares the answer and every lent byte. The slice to be
    /// written holds random bytes before.
    pub fn compare(
        &mut self,
        rng: &mut Rng,
        case: Case,
        library: impl FnOnce(&[&[u8]], &mut [u8]) -> u64,
    ) {
        let before = rng.bytes(case.output_len);
        self.compare_over(rng, case, before, library);
    }

    /// The same, with these bytes in the slice to be written.
    pub fn compare_over(
        &mut self,
        rng: &mut Rng,
        case: Case,
        before: Vec<u8>,
        library: impl FnOnce(&[&[u8]], &mut [u8]) -> u64,
    ) {
        let mut inputs: Vec<Lent> = case.inputs.iter().map(|i| Lent::new(rng, i)).collect();
        let mut output = Lent::new(rng, &before);

        let lent: Vec<&[u8]> = inputs.iter_mut().map(|input| &*input.slice()).collect();
        let answer = library(&lent, output.slice());

        let number = (answer % 256) as u8;
        let counts = &mut self.counts[case.call as usize];
        counts.cases += 1;
        if let Some(count) = counts.answers.get_mut(usize::from(number)) {
            *count += 1;
        }
        if number != 0 {
            let lent = inputs.iter().zip(case.inputs.iter().copied());
            let lent = lent.chain([(&output, &before[..])]);
            counts.changed += lent.map(|(lent, before)| lent.changed(before)).sum::<u64>();
        }
        let (expected, should) = match case.expected {
            Ok(bytes) => (case.place as u64 * 256, bytes),
            Err(Refusal { number, place }) => (place as u64 * 256 + u64::from(number), before),
        };
        let mut differ = |problem: String| {
            counts.differences += 1;
            println!("{}: {problem}", case.what);
        };
        if answer != expected {
            let parts = |answer: u64| format!("number {} place {}", answer % 256, answer / 256);
            let (library, second) = (parts(answer), parts(expected));
            differ(format!("library {library}, second {second}"));
        }
        if !case.numbers.contains(&number) {
            let numbers = case.numbers;
            differ(format!("number {number}, where only {numbers:?} can be"));
        }
        let read = inputs.iter().zip(case.inputs.iter().copied());
        for (i, (lent, should)) in read.chain([(&output, &should[..])]).enumerate() {
            counts.lent += should.len() as u64;
            counts.margins += 2 * MARGIN as u64;
            if let Some(at) = lent.wrong_byte(should) {
                differ(format!("byte {at} of slice {i} is wrong"));
            }
        }
    }

    /// A difference that a maker of cases has found by itself.
    pub fn differ(&mut self, call: Call, problem: &str) {
        self.counts[call as usize].differences += 1;
        println!("{problem}");
    }

    /// Judges a call that a maker of cases has put by itself: its answer, and lent slices beside what
    /// they should hold.
    pub fn judge(
        &mut self,
        call: Call,
        [answer, expected]: [u64; 2],
        lent: &[(&Lent, &[u8])],
        what: impl Fn() -> String,
    ) {
        let number = (answer % 256) as usize;
        let counts = &mut self.counts[call as usize];
        counts.cases += 1;
        if let Some(count) = counts.answers.get_mut(number) {
            *count += 1;
        }
        let mut problems = Vec::new();
        if answer != expected {
            problems.push(format!("library {answer}, second {expected}"));
        }
        for (i, (lent, should)) in lent.iter().enumerate() {
            counts.lent += should.len() as u64;
            counts.margins += 2 * MARGIN as u64;
            if let Some(at) = lent.wrong_byte(should) {
                counts.changed += if number == 0 { 0 } else { lent.changed(should) };
                problems.push(format!("byte {at} of slice {i} is wrong"));
            }
        }
        for problem in problems {
            self.differ(call, &format!("{}: {problem}", what()));
        }
    }

    pub fn differences(&self) -> u64 {
        self.counts.iter().map(|counts| counts.differences).sum()
    }

    /// Adds what another tally has.
    pub fn add(&mut self, other: &Tally) {
        for (sum, more) in self.counts.iter_mut().zip(&other.counts) {
            sum.add(more);
        }
    }

    /// One table of these calls: what was put to each and what it answered.
    pub fn table(&self, calls: &[Call]) {
        print!("  {:<29}", "");
        calls.iter().for_each(|call| print!(" {:>13}", call.name()));
        println!(" {:>13}", "all");
        let any = |_| true;
        self.row(calls, "cases", |of| of.cases, any);
        for (number, name) in NUMBERS {
            let count = |of: &Counts| of.answers[usize::from(number)];
            let can = |call: Call| call.numbers().contains(&number);
            self.row(calls, &format!("answer {number:>2} {name}"), count, can);
        }
        self.row(calls, "lent bytes checked", |of| of.lent, any);
        self.row(calls, "bytes around them checked", |of| of.margins, any);
        self.row(calls, "lent bytes changed on refusal", |of| of.changed, any);
        self.row(calls, "differences", |of| of.differences, any);
    }

    /// A row of the table. A dash stands where a call cannot have such a count, unless it has.
    fn row(
        &self,
        calls: &[Call],
        name: &str,
        count: impl Fn(&Counts) -> u64,
        can: impl Fn(Call) -> bool,
    ) {
        let count = |call: Call| count(&self.counts[call as usize]);
        print!("  {name:<29}");
        for &call in calls {
            match count(call) {
                0 if !can(call) => print!(" {:>13}", "-"),
                count => print!(" {count:>13}"),
            }
        }
        let all: u64 = calls.iter().map(|&call| count(call)).sum();
        println!(" {all:>13}");
    }

    /// Prints the table. Fails where something differs, or where a number that one of these calls
    /// can answer was never answered by it.
    pub fn report(&self, calls: &[Call], seed: u64) -> Result<(), String> {
        self.table(calls);
        println!("  in {:.1} s", self.started.elapsed().as_secs_f64());
        if self.differences() > 0 {
            return Err(format!(
                "library and second implementation differ; SEED={seed} shows it again"
            ));
        }
        for &call in calls {
            let answers = &self.counts[call as usize].answers;
            let unmet = |number: &&u8| answers[usize::from(**number)] == 0;
            if let Some(number) = call.numbers().iter().find(unmet) {
                return Err(format!("{} never answered {number}", call.name()));
            }
        }
        Ok(())
    }
}

/// A number from the command line or the environment, if it is given.
pub fn optional_argument(index: usize, name: &str) -> Result<Option<u64>, String> {
    let text = std::env::args()
        .nth(index)
        .or_else(|| std::env::var(name).ok());
    match text.as_deref() {
        None | Some("") => Ok(None),
        Some(text) => match text.parse() {
            Ok(number) => Ok(Some(number)),
            Err(_) => Err(format!("{name} is a number, not '{text}'")),
        },
    }
}

/// The same, with a default.
pub fn argument(index: usize, name: &str, default: u64) -> Result<u64, String> {
    Ok(optional_argument(index, name)?.unwrap_or(default))
}

/// Ends a comparing program.
pub fn verdict(result: Result<(), String>) -> ExitCode {
    match result {
        Ok(()) => ExitCode::SUCCESS,
        Err(problem) => {
            println!("FAILED: {problem}");
            ExitCode::FAILURE
        }
    }
}
