//! Cases for the four rack calls: traces of calls of all missions, on areas of any content; and
//! pairs of traces that must be alike to one mission.

use super::headers::{some_header, Sizes};
use crate::compare::{Call as Kind, Lent, Rng, Tally};
use crate::library;
use crate::rack::{Call, Rack, Request, Told, MISSIONS, PLACES, RACK_BYTES};

/// The calls of a trace.
const CALLS: usize = 60;

fn kind(call: &Call) -> Kind {
    match call.request {
        Request::Load { .. } => Kind::RackLoad,
        Request::Read { .. } => Kind::RackRead,
        Request::Drop => Kind::RackDrop,
        Request::Lend { .. } => Kind::RackLend,
    }
}

/// The library's call on these slices; `slice` is the header of a load or of a read.
fn put(call: &Call, area: &mut [u8], slice: &mut [u8]) -> u64 {
    let (caller, owner, place) = (call.caller, call.owner, call.place);
    match call.request {
        Request::Load { .. } => library::rack_load(area, caller, owner, place, slice),
        Request::Read { .. } => library::rack_read(area, caller, owner, place, slice),
        Request::Drop => library::rack_drop(area, caller, owner, place),
        Request::Lend { to } => library::rack_lend(area, caller, owner, place, to),
    }
}

// ---- calls

/// A mission or a place; now and then one that there is not.
fn some_number(rng: &mut Rng) -> u64 {
    let below = rng.next() % 4;
    match rng.below(32) {
        0 => rng.pick(&[4, 5, 255, 256 + below, 1 << 32, 1 << 32 | below, 1 << 63]),
        1 => rng.pick(&[4, 4 + below, u64::MAX, u64::MAX - below, 1 << 62 | below]),
        _ => below,
    }
}

/// Headers to be loaded: three good ones, and some with a bit turned over or of another length.
struct Headers([Vec<u8>; 3]);

impl Headers {
    fn new(rng: &mut Rng, sizes: &Sizes) -> Headers {
        let good = |rng: &mut Rng| {
            let index = rng.next() % (7 * 3 * 4);
            some_header(rng, sizes, index).pack().to_vec()
        };
        Headers([good(rng), good(rng), good(rng)])
    }

    fn some(&self, rng: &mut Rng) -> Vec<u8> {
        let mut header = self.0[rng.below(3)].clone();
        match rng.below(8) {
            0 => header.resize(rng.pick(&[0, 8, 9, 11, 12]), 0),
            1 | 2 => {
                let bit = rng.below(80);
                header[bit / 8] ^= 0x80 >> (bit % 8);
            }
            _ => (),
        }
        header
    }
}

fn some_request(rng: &mut Rng, headers: &Headers) -> Request {
    match rng.below(16) {
        0..=5 => Request::Load {
            header: headers.some(rng),
        },
        6..=10 => {
            let len = rng.pick(&[10, 10, 10, 10, 10, 10, 0, 9, 11, 176]);
            Request::Read {
                slice: rng.bytes(len),
            }
        }
        11 | 12 => Request::Drop,
        _ => Request::Lend {
            to: some_number(rng),
        },
    }
}

/// A call; in most the caller is the owner, and the first places are met more often.
fn some_call(rng: &mut Rng, headers: &Headers) -> Call {
    let (caller, other, place) = (some_number(rng), some_number(rng), some_number(rng));
    Call {
        caller,
        owner: rng.pick(&[caller, caller, other]),
        place: if rng.below(3) == 0 { place / 2 } else { place },
        request: some_request(rng, headers),
    }
}

fn some_trace(rng: &mut Rng, sizes: &Sizes) -> Vec<Call> {
    let headers = Headers::new(rng, sizes);
    (0..CALLS).map(|_| some_call(rng, &headers)).collect()
}

/// An empty rack in half of the cases, or any bytes, as a rack or of another length.
fn some_area(rng: &mut Rng) -> Vec<u8> {
    let len = match rng.below(8) {
        0 => rng.pick(&[0, 11, 165, 166, 175, 177, 400]),
        _ => RACK_BYTES,
    };
    let mut area = rng.bytes(len);
    match rng.below(8) {
        0..=3 => area.fill(0),
        4 => area.iter_mut().for_each(|byte| *byte %= 7), // all that the first byte of a place says
        _ => (),
    }
    area
}

// ---- traces

/// Puts a call to both and compares the answer and every byte.
fn compare_call(
    tally: &mut Tally,
    rng: &mut Rng,
    rack: &mut Rack,
    area: &mut Lent,
    call: &Call,
    what: &str,
) {
    let slice = match &call.request {
        Request::Load { header } => &header[..],
        Request::Read { slice } => slice,
        _ => &[],
    };
    let mut lent = Lent::new(rng, slice);
    let told = rack.told(call);
    let area_should = match told.answer {
        0 => rack.pack(),
        _ => area.slice().to_vec(),
    };
    let slice_should = match call.request {
        Request::Read { .. } => &told.slice,
        _ => slice,
    };
    let answer = put(call, area.slice(), lent.slice());
    let slices = [(&*area, &area_should[..]), (&lent, slice_should)];
    tally.judge(kind(call), [answer, told.answer], &slices, || {
        format!("{what}, {call:?}")
    });
    area.slice().copy_from_slice(&area_should); // a fault stays where it is
}

/// The trace of this index, put to both.
pub fn compare_trace(tally: &mut Tally, rng: &mut Rng, sizes: &Sizes, index: u64) {
    let start = some_area(rng);
    let trace = some_trace(rng, sizes);
    let mut rack = Rack::unpack(&start);
    let mut area = Lent::new(rng, &start);
    for (i, call) in trace.iter().enumerate() {
        let what = format!("trace {index}, call {i}");
        compare_call(tally, rng, &mut rack, &mut area, call, &what);
    }
}

// ---- pairs of traces

/// Whatever takes calls as a rack does.
pub trait Takes {
    fn told(&mut self, call: &Call) -> Told;
    /// Whether a place is now lent to a mission.
    fn lent(&self, owner: usize, place: usize, mission: u64) -> bool;
}

impl Takes for Rack {
    fn told(&mut self, call: &Call) -> Told {
        Rack::told(self, call)
    }

    fn lent(&self, owner: usize, place: usize, mission: u64) -> bool {
        self.is_lent(owner, place, mission)
    }
}

/// The library, on its area.
pub struct Library(Vec<u8>);

impl Takes for Library {
    fn told(&mut self, call: &Call) -> Told {
        let mut slice = match &call.request {
            Request::Load { header } => header.clone(),
            Request::Read { slice } => slice.clone(),
            _ => Vec::new(),
        };
        let answer = put(call, &mut self.0, &mut slice);
        let read = matches!(call.request, Request::Read { .. });
        Told {
            answer,
            slice: if read { slice } else { Vec::new() },
        }
    }

    fn lent(&self, owner: usize, place: usize, mission: u64) -> bool {
        Rack::unpack(&self.0).is_lent(owner, place, mission)
    }
}

/// The places of a rack for which something holds.
type Places = [[bool; PLACES]; MISSIONS];

fn places(of: impl Fn(usize, usize) -> bool) -> Places {
    std::array::from_fn(|owner| std::array::from_fn(|place| of(owner, place)))
}

/// What a mission is told in a trace, and the places that were at some time lent to it.
fn heard(rack: &mut dyn Takes, mission: u64, trace: &[Call]) -> (Vec<Told>, Places) {
    let mut told = Vec::new();
    let mut ever = places(|owner, place| rack.lent(owner, place, mission));
    for call in trace {
        let answer = rack.told(call);
        if call.caller == mission {
            told.push(answer);
        }
        ever = places(|owner, place| ever[owner][place] || rack.lent(owner, place, mission));
    }
    (told, ever)
}

/// Whether what a mission is told may depend on a call: its own, and those of an owner to a place
/// that was at some time lent to it.
fn keeps(mission: u64, ever: &Places, call: &Call) -> bool {
    let of = |number: u64| usize::try_from(number).unwrap_or(usize::MAX);
    let row = ever.get(of(call.owner));
    let lent = row.and_then(|row| row.get(of(call.place))).copied();
    call.caller == mission || call.caller == call.owner && lent.unwrap_or(false)
}

/// The trace with the other calls changed: some are left out, and any others come in between, but
/// none that could lend the mission a place.
fn changed(rng: &mut Rng, sizes: &Sizes, mission: u64, ever: &Places, trace: &[Call]) -> Vec<Call> {
    let headers = Headers::new(rng, sizes);
    let (leave_out, bring_in) = (rng.below(4), rng.below(4));
    let may_be_there = |call: &Call| {
        let lends = call.request == Request::Lend { to: mission };
        !keeps(mission, ever, call) && !(lends && call.caller == call.owner)
    };
    let mut other = Vec::new();
    for call in trace {
        let more = (0..bring_in).map(|_| some_call(rng, &headers));
        other.extend(more.filter(may_be_there));
        let stays = may_be_there(call) && rng.below(4) >= leave_out;
        if stays || keeps(mission, ever, call) {
            other.push(call.clone());
        }
    }
    other
}

/// One pair of traces that are alike but for calls that may not matter to a mission: whether it is
/// told the same in both.
pub fn same_told(
    rng: &mut Rng,
    sizes: &Sizes,
    make: &dyn Fn(&[u8]) -> Box<dyn Takes>,
) -> Result<(), String> {
    let start = match rng.below(2) {
        0 => vec![0; RACK_BYTES],
        _ => some_area(rng),
    };
    let mission = rng.next() % 4;
    let trace = some_trace(rng, sizes);
    let (told, ever) = heard(&mut *make(&start), mission, &trace);
    let other = changed(rng, sizes, mission, &ever, &trace);
    let kept = |trace: &[Call]| -> Vec<Call> {
        let kept = trace.iter().filter(|call| keeps(mission, &ever, call));
        kept.cloned().collect()
    };
    assert_eq!(kept(&trace), kept(&other), "the maker of the pair");
    let (told_other, ever_other) = heard(&mut *make(&start), mission, &other);
    let more = places(|owner, place| ever_other[owner][place] && !ever[owner][place]);
    if more != places(|_, _| false) {
        return Err(format!("mission {mission} was lent a place by nobody"));
    }
    let differs = told.iter().zip(&told_other).position(|(a, b)| a != b);
    match differs {
        Some(i) => Err(format!(
            "mission {mission} is told {:02X?} and {:02X?} in its call {i}",
            told[i], told_other[i]
        )),
        None => Ok(()),
    }
}

/// One pair of traces, of the library.
pub fn compare_pair(tally: &mut Tally, rng: &mut Rng, sizes: &Sizes, index: u64) {
    let library = |area: &[u8]| Box::new(Library(area.to_vec())) as Box<dyn Takes>;
    if let Err(problem) = same_told(rng, sizes, &library) {
        tally.differ(Kind::RackRead, &format!("pair {index}: {problem}"));
    }
}

// ---- racks that leak, to see that such pairs find them out

/// A rack with room for so many headers in all: who meets its end learns of the others'.
struct Counting(Rack);

impl Takes for Counting {
    fn told(&mut self, call: &Call) -> Told {
        let before = self.0.clone();
        let told = self.0.told(call);
        if self.0.loaded() > before.loaded().max(6) {
            self.0 = before;
            return Told { answer: 8, ..told };
        }
        told
    }

    fn lent(&self, owner: usize, place: usize, mission: u64) -> bool {
        self.0.is_lent(owner, place, mission)
    }
}

/// All missions have the same four places.
struct Shared(Rack);

impl Takes for Shared {
    fn told(&mut self, call: &Call) -> Told {
        let (mut call, own) = (call.clone(), call.caller == call.owner);
        if call.owner < MISSIONS as u64 && call.caller < MISSIONS as u64 {
            call.owner = 0;
            call.caller = if own { 0 } else { call.caller.max(1) };
        }
        self.0.told(&call)
    }

    fn lent(&self, _: usize, place: usize, mission: u64) -> bool {
        self.0.is_lent(0, place, mission)
    }
}

/// Tells a place that is empty from one that is not lent.
struct EmptyToldApart(Rack);

impl Takes for EmptyToldApart {
    fn told(&mut self, call: &Call) -> Told {
        let loaded = self.0.is_loaded_at(call);
        let told = self.0.told(call);
        match call.request {
            Request::Read { .. } if told.answer == 25 && !loaded => Told { answer: 24, ..told },
            _ => told,
        }
    }

    fn lent(&self, owner: usize, place: usize, mission: u64) -> bool {
        self.0.is_lent(owner, place, mission)
    }
}

/// A place that is lent to one mission can be read by all.
struct LentToAll(Rack);

impl Takes for LentToAll {
    fn told(&mut self, call: &Call) -> Told {
        let told = self.0.told(call);
        let borrowers = (0..MISSIONS as u64).map(|caller| Call {
            caller,
            ..call.clone()
        });
        let others = borrowers.filter(|other| other.caller != call.owner);
        match call.request {
            Request::Read { .. } if told.answer == 25 => {
                let read = others.map(|other| self.0.told(&other));
                read.into_iter()
                    .find(|told| told.answer == 0)
                    .unwrap_or(told)
            }
            _ => told,
        }
    }

    fn lent(&self, owner: usize, place: usize, mission: u64) -> bool {
        self.0.is_lent(owner, place, mission)
    }
}

/// Makes a rack of the area that it starts from.
pub type MakeRack = fn(&[u8]) -> Box<dyn Takes>;

/// The racks that leak, by name.
pub const LEAKY: [(&str, MakeRack); 4] = [
    ("counts its loaded places", |area| {
        Box::new(Counting(Rack::unpack(area)))
    }),
    ("shares places among owners", |area| {
        Box::new(Shared(Rack::unpack(area)))
    }),
    ("tells empty apart", |area| {
        Box::new(EmptyToldApart(Rack::unpack(area)))
    }),
    ("lends to all", |area| {
        Box::new(LentToAll(Rack::unpack(area)))
    }),
];
