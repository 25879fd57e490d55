//! One call, put to both.

use super::sample::Sample;
use crate::compare::{Case, Rng, Tally, Way};
use crate::{library, run};

/// Arguments of a call; the slice to be written is a length alone.
pub(super) struct Arguments<'a> {
    pub(super) header: &'a [u8],
    pub(super) marker: &'a [u8],
    pub(super) input: &'a [u8],
    pub(super) output_len: usize,
}

/// Puts one call to both.
pub(super) fn compare(
    tally: &mut Tally,
    rng: &mut Rng,
    way: Way,
    arguments: Arguments,
    numbers: &[u8],
    what: &str,
) {
    let Arguments {
        header,
        marker,
        input,
        output_len,
    } = arguments;
    let expected = match way {
        Way::Write => run::write(header, marker, input, output_len),
        Way::Read => run::read(header, marker, input, output_len),
    };
    let call = way.of_runs();
    let case = Case {
        call,
        inputs: &[header, marker, input],
        output_len,
        expected,
        place: 0,
        numbers,
        what: &format!("{}, {what}, header {header:02X?}", call.name()),
    };
    tally.compare(rng, case, |inputs, output| match way {
        Way::Write => library::run_write(inputs[0], inputs[1], inputs[2], output),
        Way::Read => library::run_read(inputs[0], inputs[1], inputs[2], output),
    });
}

/// Writes the sample, which both accept.
pub(super) fn compare_write(tally: &mut Tally, rng: &mut Rng, sample: &Sample, what: &str) {
    let arguments = Arguments {
        header: &sample.header.pack(),
        marker: &sample.marker,
        input: &sample.frames,
        output_len: sample.run.slots_len(),
    };
    compare(tally, rng, Way::Write, arguments, &[0], what);
}

/// Reads slots with the sample's header and marker.
pub(super) fn compare_read(
    tally: &mut Tally,
    rng: &mut Rng,
    sample: &Sample,
    slots: &[u8],
    numbers: &[u8],
    what: &str,
) {
    let arguments = Arguments {
        header: &sample.header.pack(),
        marker: &sample.marker,
        input: slots,
        output_len: sample.frames.len(),
    };
    compare(tally, rng, Way::Read, arguments, numbers, what);
}
