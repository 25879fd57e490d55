//! The rack a second time: who may do what with which place. Its state is structs, and bytes only
//! where it is packed.

use crate::run::{accept_header, HEADER_BYTES};
use crate::word::{refuse, Refusal};

pub const MISSIONS: usize = 4;
/// Of each mission.
pub const PLACES: usize = 4;
/// A place in the area: one byte that says what it is, and the header.
pub const ENTRY_BYTES: usize = 1 + HEADER_BYTES;
pub const RACK_BYTES: usize = MISSIONS * PLACES * ENTRY_BYTES;

/// To whom a place is lent. Many bytes say nobody, and the one that stands there stays.
#[derive(Clone, Copy, Debug, PartialEq, Eq)]
enum Loan {
    Nobody { said_by: u8 },
    To(u64),
}

#[derive(Clone, Copy, Debug, PartialEq, Eq)]
enum Place {
    /// What the ten bytes of it hold means nothing.
    Empty { left: [u8; HEADER_BYTES] },
    Loaded {
        header: [u8; HEADER_BYTES],
        loan: Loan,
    },
}

impl Place {
    fn is_loaded(&self) -> bool {
        matches!(self, Place::Loaded { .. })
    }

    fn is_lent_to(&self, mission: u64) -> bool {
        matches!(self, Place::Loaded { loan, .. } if *loan == Loan::To(mission))
    }

    fn unpack(entry: [u8; ENTRY_BYTES]) -> Place {
        let [status, header @ ..] = entry;
        let loan = match status {
            0 => return Place::Empty { left: header },
            2..=5 => Loan::To(u64::from(status) - 2),
            _ => Loan::Nobody { said_by: status },
        };
        Place::Loaded { header, loan }
    }

    fn pack(&self) -> Vec<u8> {
        let (status, header) = match self {
            Place::Empty { left } => (0, left),
            Place::Loaded { header, loan } => match loan {
                Loan::Nobody { said_by } => (*said_by, header),
                Loan::To(mission) => (2 + *mission as u8, header),
            },
        };
        [&[status], &header[..]].concat()
    }
}

/// What a mission asks for.
#[derive(Clone, Debug, PartialEq, Eq)]
pub enum Request {
    Load {
        header: Vec<u8>,
    },
    /// With the slice that is lent for the header.
    Read {
        slice: Vec<u8>,
    },
    Drop,
    Lend {
        to: u64,
    },
}

/// One call, of any numbers.
#[derive(Clone, Debug, PartialEq, Eq)]
pub struct Call {
    pub caller: u64,
    pub owner: u64,
    pub place: u64,
    pub request: Request,
}

/// What the caller is told: the answer as C gets it, and of a read what its slice holds afterwards.
#[derive(Clone, Debug, PartialEq, Eq)]
pub struct Told {
    pub answer: u64,
    pub slice: Vec<u8>,
}

#[derive(Clone, Debug, PartialEq, Eq)]
pub struct Rack {
    places: [[Place; PLACES]; MISSIONS],
    /// The bytes of the area that it is kept in.
    area_len: usize,
}

impl Rack {
    /// The rack that an area holds. Where the area does not reach there are zeros.
    pub fn unpack(area: &[u8]) -> Rack {
        let byte = |at: usize| area.get(at).copied().unwrap_or(0);
        let place = |owner: usize, place: usize| {
            let first = (owner * PLACES + place) * ENTRY_BYTES;
            Place::unpack(std::array::from_fn(|i| byte(first + i)))
        };
        Rack {
            places: std::array::from_fn(|owner| std::array::from_fn(|at| place(owner, at))),
            area_len: area.len(),
        }
    }

    /// Its bytes, for an area that has them all.
    pub fn pack(&self) -> Vec<u8> {
        let places = self.places.iter().flatten();
        places.flat_map(|place| place.pack()).collect()
    }

    fn entry(&mut self, call: &Call) -> &mut Place {
        &mut self.places[call.owner as usize][call.place as usize]
    }

    /// Whether reading this place is now lent to a mission.
    pub fn is_lent(&self, owner: usize, place: usize, mission: u64) -> bool {
        self.places[owner][place].is_lent_to(mission)
    }

    /// Whether the place of a call, if there is such a place, is loaded now.
    pub fn is_loaded_at(&self, call: &Call) -> bool {
        let of = |number: u64| usize::try_from(number).unwrap_or(usize::MAX);
        let row = self.places.get(of(call.owner));
        let place = row.and_then(|row| row.get(of(call.place)));
        place.is_some_and(|place| place.is_loaded())
    }

    /// The places that are loaded now.
    pub fn loaded(&self) -> usize {
        let places = self.places.iter().flatten();
        places.filter(|place| place.is_loaded()).count()
    }

    /// The first question whose answer is no: 23, 24, 25, those of a header that is loaded, 8.
    fn ask(&mut self, call: &Call) -> Result<(), Refusal> {
        let mission = |number: u64| number < MISSIONS as u64;
        let lent_well = match call.request {
            Request::Lend { to } => mission(to) && to != call.caller,
            _ => true,
        };
        if !mission(call.caller) || !mission(call.owner) || !lent_well {
            return refuse(23, 0);
        }
        if call.place >= PLACES as u64 {
            return refuse(24, 0);
        }
        let own = call.caller == call.owner;
        let entry = self.entry(call);
        let open = match call.request {
            Request::Load { .. } => own,
            Request::Read { .. } => entry.is_loaded() && (own || entry.is_lent_to(call.caller)),
            Request::Drop | Request::Lend { .. } => own && entry.is_loaded(),
        };
        if !open {
            return refuse(25, 0);
        }
        let slice_len = match &call.request {
            Request::Load { header } => {
                accept_header(header)?;
                HEADER_BYTES
            }
            Request::Read { slice } => slice.len(),
            _ => HEADER_BYTES,
        };
        if self.area_len != RACK_BYTES || slice_len != HEADER_BYTES {
            return refuse(8, 0);
        }
        Ok(())
    }

    /// Takes a call. A read that is accepted gives the header.
    pub fn take(&mut self, call: &Call) -> Result<Option<[u8; HEADER_BYTES]>, Refusal> {
        self.ask(call)?;
        let entry = self.entry(call);
        match (&call.request, *entry) {
            (Request::Read { .. }, Place::Loaded { header, .. }) => return Ok(Some(header)),
            (Request::Load { header }, before) => {
                *entry = Place::Loaded {
                    header: header[..].try_into().expect("ten bytes"),
                    loan: match before {
                        Place::Loaded { loan, .. } => loan,
                        Place::Empty { .. } => Loan::Nobody { said_by: 1 },
                    },
                };
            }
            (Request::Lend { to }, Place::Loaded { header, .. }) => {
                let loan = Loan::To(*to);
                *entry = Place::Loaded { header, loan };
            }
            _ => {
                *entry = Place::Empty {
                    left: [0; HEADER_BYTES],
                }
            }
        }
        Ok(None)
    }

    pub fn told(&mut self, call: &Call) -> Told {
        let taken = self.take(call);
        let code = |refusal: &Refusal| refusal.place as u64 * 256 + u64::from(refusal.number);
        let answer = taken.as_ref().map_or_else(code, |_| 0);
        let slice = match (taken, &call.request) {
            (Ok(Some(header)), _) => header.to_vec(),
            (_, Request::Read { slice }) => slice.clone(),
            _ => Vec::new(),
        };
        Told { answer, slice }
    }
}

#[cfg(test)]
mod tests {
    use super::*;

    const FIRST: [u8; 10] = [0x59, 0x50, 0xF0, 0x1B, 0xE8, 0x02, 0x04, 0, 0, 0];
    const SECOND: [u8; 10] = [0x50, 0x04, 0x02, 0x1B, 0xE1, 0x01, 0x04, 0, 0, 0];

    fn load(header: &[u8]) -> Request {
        Request::Load {
            header: header.to_vec(),
        }
    }

    fn read() -> Request {
        Request::Read { slice: vec![0; 10] }
    }

    fn put(rack: &mut Rack, numbers: [u64; 3], request: Request) -> Result<Vec<u8>, u8> {
        let [caller, owner, place] = numbers;
        let call = Call {
            caller,
            owner,
            place,
            request,
        };
        let answer = rack.take(&call);
        let header = answer.map_err(|refusal| refusal.number)?;
        Ok(header.map_or_else(Vec::new, |header| header.to_vec()))
    }

    /// Loading, reading, lending, dropping, and each refusal.
    #[test]
    fn a_trace() {
        let rack = &mut Rack::unpack(&[0; RACK_BYTES]);
        let (yes, first, second) = (Ok(vec![]), Ok(FIRST.to_vec()), Ok(SECOND.to_vec()));
        let nine = || load(&FIRST[..9]);
        for (numbers, request, answer) in [
            ([0, 0, 0], read(), Err(25)),
            ([0, 0, 1], load(&FIRST), yes.clone()),
            ([2, 0, 1], read(), Err(25)),
            ([0, 0, 1], Request::Lend { to: 0 }, Err(23)),
            ([0, 0, 2], Request::Lend { to: 2 }, Err(25)),
            ([1, 0, 1], Request::Lend { to: 1 }, Err(23)),
            ([1, 0, 1], Request::Lend { to: 2 }, Err(25)),
            ([0, 0, 1], Request::Lend { to: 2 }, yes.clone()),
            ([2, 0, 1], read(), first.clone()),
            ([0, 0, 1], load(&SECOND), yes.clone()),
            ([2, 0, 1], read(), second),
            ([0, 0, 1], Request::Lend { to: 3 }, yes.clone()),
            ([2, 0, 1], read(), Err(25)),
            ([3, 0, 1], Request::Drop, Err(25)),
            ([0, 0, 1], Request::Drop, yes.clone()),
            ([3, 0, 1], read(), Err(25)),
            ([0, 0, 1], load(&FIRST), yes),
            ([3, 0, 1], read(), Err(25)),
            ([4, 9, 9], read(), Err(23)),
            ([1, 1, 4], read(), Err(24)),
            ([1, 1, 0], nine(), Err(1)),
            ([1, 2, 0], nine(), Err(25)),
        ] {
            let what = format!("{numbers:?} {request:?}");
            assert_eq!(put(rack, numbers, request), answer, "{what}");
        }
        let mut area = vec![0; RACK_BYTES];
        area[11] = 1;
        area[12..22].copy_from_slice(&FIRST);
        assert_eq!(rack.pack(), area);
    }

    /// Every content is a rack, and packed it is that content again.
    #[test]
    fn every_content() {
        for seed in 0..256 {
            let area: Vec<u8> = (0..RACK_BYTES)
                .map(|i| (i * i * 7 + i + seed) as u8)
                .collect();
            assert_eq!(Rack::unpack(&area).pack(), area);
        }
        let mut area = vec![0; RACK_BYTES];
        for status in 0..=255 {
            area[0] = status;
            let rack = &mut Rack::unpack(&area);
            assert_eq!(rack.loaded(), usize::from(status != 0));
            for mission in 1..4 {
                let lent = u64::from(status) == 2 + mission;
                assert_eq!(put(rack, [mission, 0, 0], read()).is_ok(), lent);
            }
            assert_eq!(put(rack, [0, 0, 0], load(&FIRST)), Ok(vec![]));
            assert_eq!(rack.pack()[0], if status == 0 { 1 } else { status });
        }
    }

    /// 8 comes last, and an area that does not reach is empty there.
    #[test]
    fn lengths_last() {
        for len in [0, 11, 175, 177] {
            let mut area = vec![1; len];
            let rack = &mut Rack::unpack(&area);
            assert_eq!(put(rack, [4, 0, 0], read()), Err(23));
            assert_eq!(put(rack, [0, 0, 4], read()), Err(24));
            let reached = if len > 165 { 8 } else { 25 };
            assert_eq!(put(rack, [3, 3, 3], read()), Err(reached));
            assert_eq!(put(rack, [3, 3, 3], Request::Drop), Err(reached));
            assert_eq!(put(rack, [3, 3, 3], load(&FIRST[1..])), Err(1));
            assert_eq!(put(rack, [3, 3, 3], load(&FIRST)), Err(8));
            area.truncate(RACK_BYTES);
            assert!(rack.pack().starts_with(&area));
        }
        let rack = &mut Rack::unpack(&[1; RACK_BYTES]);
        for len in [0, 9, 11] {
            let slice = vec![7; len];
            let told = rack.told(&Call {
                caller: 0,
                owner: 0,
                place: 0,
                request: Request::Read {
                    slice: slice.clone(),
                },
            });
            assert_eq!(told, Told { answer: 8, slice });
        }
    }
}
