//! Cases for `mahyrei_header_widen` and `mahyrei_header_narrow`, there and back, and the edges of
//! the factor and of the zeros after it, for every call that is lent a header.

use super::calls::{compare, Arguments};
use super::captures::{put_cut, put_find};
use super::headers::{any_header, Sizes};
use super::refusals::{break_header, failed_too};
use crate::compare::{Call, Case, Rng, Tally, Way};
use crate::run::{self, Header, FACTORS, HEADER_BYTES, OLD_HEADER_BYTES};
use crate::{convert, library};

/// The questions that each call puts, in their order.
const WIDEN_ORDER: [u8; 8] = [1, 2, 3, 4, 5, 6, 7, 8];
const NARROW_ORDER: [u8; 10] = [1, 2, 3, 4, 5, 6, 7, 20, 8, 21];

/// One turn of every question and of a header of any fields.
pub const LEAST_HEADERS: u64 = 40 * (NARROW_ORDER.len() as u64 + 2);

/// One of the two forms of a header.
#[derive(Clone, Copy)]
enum Form {
    Eight,
    Ten,
}

impl Form {
    fn other(self) -> Form {
        match self {
            Form::Eight => Form::Ten,
            Form::Ten => Form::Eight,
        }
    }

    fn bytes(self) -> usize {
        match self {
            Form::Eight => OLD_HEADER_BYTES,
            Form::Ten => HEADER_BYTES,
        }
    }

    fn spare_bits(self) -> usize {
        match self {
            Form::Eight => 16,
            Form::Ten => 26,
        }
    }

    fn pack(self, header: &Header) -> Vec<u8> {
        match self {
            Form::Eight => header.pack_old().to_vec(),
            Form::Ten => header.pack().to_vec(),
        }
    }

    /// The call that takes this form.
    fn call(self) -> Call {
        match self {
            Form::Eight => Call::HeaderWiden,
            Form::Ten => Call::HeaderNarrow,
        }
    }

    fn order(self) -> &'static [u8] {
        match self {
            Form::Eight => &WIDEN_ORDER,
            Form::Ten => &NARROW_ORDER,
        }
    }
}

/// Puts a trip from this form to both, and gives what comes of it.
fn put_trip(
    tally: &mut Tally,
    rng: &mut Rng,
    form: Form,
    from: &[u8],
    to_len: usize,
    numbers: &[u8],
    what: &str,
) -> Option<Vec<u8>> {
    let expected = match form {
        Form::Eight => convert::widen(from, to_len),
        Form::Ten => convert::narrow(from, to_len),
    };
    let made = expected.clone().ok();
    let case = Case {
        call: form.call(),
        inputs: &[from],
        output_len: to_len,
        expected,
        place: 0,
        numbers,
        what: &format!("{}, {what}, {from:02X?}", form.call().name()),
    };
    tally.compare(rng, case, |inputs, to| match form {
        Form::Eight => library::header_widen(inputs[0], to),
        Form::Ten => library::header_narrow(inputs[0], to),
    });
    made
}

/// A trip that is accepted, and the way back, which ends in the same bytes and never in other
/// fields.
fn there_and_back(tally: &mut Tally, rng: &mut Rng, form: Form, header: &Header, what: &str) {
    let (from, other) = (form.pack(header), form.other());
    let to = put_trip(tally, rng, form, &from, other.bytes(), &[0], what).expect("accepted");
    let back = put_trip(tally, rng, other, &to, form.bytes(), &[0], what);
    assert_eq!(back.as_ref(), Some(&from), "{what}: there and back");
    let (eight, ten) = match form {
        Form::Eight => (from, to),
        Form::Ten => (to, from),
    };
    let (eight, ten) = (Header::of_old(&eight), Header::of(&ten));
    assert_eq!(eight, ten, "{what}: the fields");
    assert_eq!(ten.map(|header| header.copies), Ok(1), "{what}: the factor");
}

/// A header of this form that fails these questions, the last of them first, and the length of the
/// slice that it should go to.
fn broken(rng: &mut Rng, form: Form, mut header: Header, failed: &[u8]) -> (Vec<u8>, usize) {
    let (mut len, mut to_len) = (form.bytes(), form.other().bytes());
    for &number in failed {
        match number {
            21 => header.copies = rng.pick(&FACTORS[1..]),
            8 => to_len = rng.pick(&[0, 1, 7, 9, 11, 16, form.bytes()]),
            1 if rng.below(2) == 0 => header.spare = 1 << rng.below(form.spare_bits()),
            1 => len = rng.pick(&[0, 1, 7, 9, 11, 16, form.other().bytes()]),
            _ => break_header(rng, &mut header, number),
        }
    }
    let mut from = form.pack(&header);
    if len != form.bytes() {
        from.resize(len, 0);
    }
    (from, to_len)
}

/// A header that passes, and whose factor is 1.
fn sound_header(rng: &mut Rng, sizes: &Sizes) -> Header {
    loop {
        let header = Header {
            copies: 1,
            ..any_header(rng, sizes)
        };
        if run::accept_header(&header.pack()).is_ok() {
            return header;
        }
    }
}

/// The header of this index, from either form: sound, there and back; or one that fails the next
/// question first and, by chance, some of those after it; or one of any fields.
pub fn compare_header(tally: &mut Tally, rng: &mut Rng, sizes: &Sizes, index: u64) {
    let what = format!("header {index}");
    for form in [Form::Eight, Form::Ten] {
        let header = sound_header(rng, sizes);
        match (index % (NARROW_ORDER.len() as u64 + 2)) as usize {
            0 => there_and_back(tally, rng, form, &header, &what),
            1 => {
                let from = match form {
                    Form::Eight => any_old(rng, sizes),
                    Form::Ten => any_header(rng, sizes).pack().to_vec(),
                };
                let numbers = form.call().numbers();
                put_trip(
                    tally,
                    rng,
                    form,
                    &from,
                    form.other().bytes(),
                    numbers,
                    &what,
                );
            }
            turn => {
                let first = form.order()[turn % form.order().len()];
                let failed = failed_too(rng, form.order(), first);
                let (from, to_len) = broken(rng, form, header, &failed);
                put_trip(tally, rng, form, &from, to_len, &[first], &what);
            }
        }
    }
}

/// Any fields, and now and then any zeros.
fn any_old(rng: &mut Rng, sizes: &Sizes) -> Vec<u8> {
    let spare = match rng.below(64) {
        0 => rng.next() >> 48,
        _ => 0,
    };
    let header = Header {
        spare,
        ..any_header(rng, sizes)
    };
    header.pack_old().to_vec()
}

/// The specification's example.
const EXAMPLE: Header = Header {
    rate: 1,
    bits: 6,
    rows: 84,
    step: 120,
    frame_bytes: 223,
    marker: 16,
    frames: 2,
    copies: 1,
    spare: 0,
};

/// Every call that is lent a ten-byte header, with nothing else but a marker, and the number that
/// it gives where the header is good: 8, or 19 where an empty capture is searched. With a marker
/// symbol that is too high, 7 comes before all but 1.
fn put_all(tally: &mut Tally, rng: &mut Rng, header: &[u8], number: u8, what: &str) {
    for (symbol, number) in [(63, number), (64, if number == 1 { 1 } else { 7 })] {
        let marker = vec![symbol; 16];
        for way in [Way::Write, Way::Read] {
            let arguments = Arguments {
                header,
                marker: &marker,
                input: &[],
                output_len: 0,
            };
            compare(tally, rng, way, arguments, &[number], what);
        }
        let number = if number == 8 { 19 } else { number };
        put_find(tally, rng, [header, &marker, &[]], &[number], what);
    }
    put_cut(tally, rng, [header, &[]], 0, 0, &[number], what);
    put_trip(tally, rng, Form::Ten, header, 0, &[number], what);
}

/// All values of the byte that has the factor, each single bit after it, and old headers.
pub fn header_edges(tally: &mut Tally, rng: &mut Rng) {
    let ten = EXAMPLE.pack();
    for byte in 0..=255 {
        let mut header = ten;
        header[6] = byte;
        let number = match byte {
            _ if byte % 4 != 0 => 1,
            _ if FACTORS.contains(&u64::from(byte / 4)) => 8,
            _ => 20,
        };
        let what = format!("byte 6 is {byte:02X}");
        put_all(tally, rng, &header, number, &what);
        let number = match (number, byte) {
            (8, 4) => 0,
            (8, _) => 21,
            _ => number,
        };
        put_trip(tally, rng, Form::Ten, &header, 8, &[number], &what);
    }
    for bit in 54..80 {
        let mut header = ten;
        header[bit / 8] |= 0x80 >> (bit % 8);
        let what = format!("bit {bit} set");
        put_all(tally, rng, &header, 1, &what);
        put_trip(tally, rng, Form::Ten, &header, 8, &[1], &what);
    }
    let eight = EXAMPLE.pack_old();
    put_all(tally, rng, &eight, 1, "eight bytes");
    for bit in 48..64 {
        let mut header = eight;
        header[bit / 8] |= 0x80 >> (bit % 8);
        let what = format!("bit {bit} of eight bytes set");
        put_trip(tally, rng, Form::Eight, &header, 10, &[1], &what);
    }
    for form in [Form::Eight, Form::Ten] {
        there_and_back(tally, rng, form, &EXAMPLE, "the example");
        for len in 0..20 {
            let from = form.pack(&EXAMPLE);
            let numbers = if len == form.other().bytes() {
                [0]
            } else {
                [8]
            };
            put_trip(tally, rng, form, &from, len, &numbers, "target");
            let mut from = [&from[..], &[0; 10]].concat();
            from.truncate(len);
            let numbers = if len == form.bytes() { [0] } else { [1] };
            let to_len = form.other().bytes();
            put_trip(tally, rng, form, &from, to_len, &numbers, "length");
        }
    }
}
