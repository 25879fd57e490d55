//! Cases for the run calls, and for those that change a header's form.
//!
//! Every run is written by both from the same frames, then read by both, as it is or damaged.
//! Beside each run goes a call with arguments that are wrong in one way or several. Each answer's
//! number must be one that the kind of run or call allows, so the two cannot merely agree on
//! nonsense.

mod calls;
mod captures;
mod convert;
mod copies;
mod damages;
mod delays;
mod edges;
mod fades;
mod headers;
mod kinds;
mod racks;
mod refusals;
mod sample;

pub use captures::{compare_capture, example_capture, LEAST_CAPTURES};
pub use convert::{compare_header, header_edges, LEAST_HEADERS};
pub use delays::{compare_any_delay, compare_delay, compare_lines, LEAST_DELAYS};
pub use edges::{edges, largest};
pub use fades::{compare_fades, fade_edges, LEAST_FADES};
pub use headers::Sizes;
pub use kinds::Met;
pub use racks::{compare_pair, compare_trace, same_told, MakeRack, Takes, LEAKY};
pub use sample::Sample;

use crate::compare::{Rng, Tally, Way};
use crate::run::Header;
use calls::{compare, compare_read, compare_write, Arguments};
use damages::{damages_from, Damage, DAMAGE_COUNT, NONE};
use headers::{any_header, some_header};
use refusals::{refused_call, REFUSED_ORDER};

/// One turn of every kind of damage at each m, which meets every number.
pub const LEAST_RUNS: u64 = 7 * 4 * DAMAGE_COUNT as u64;

/// Writes the sample, reads it with the first of the damages that it can have, and puts a call that
/// fails question `first` beside.
fn compare_sample(
    tally: &mut Tally,
    rng: &mut Rng,
    sample: &Sample,
    damages: impl Iterator<Item = &'static Damage>,
    first: u8,
    what: &str,
) {
    let try_damage = |damage: &'static Damage| Some((damage, (damage.slots)(rng, sample)?));
    let (damage, slots) = damages.filter_map(try_damage).next().expect("a damage");
    let what = format!("{what} ({})", damage.name);
    compare_write(tally, rng, sample, &what);
    compare_read(tally, rng, sample, &slots, damage.numbers, &what);
    let way = rng.pick(&[Way::Write, Way::Read]);
    let beside = format!("beside {what}");
    refused_call(tally, rng, way, sample, &slots, first, &beside);
}

/// The run of this index, which is given back, and the call beside it, put to both.
pub fn compare_run(tally: &mut Tally, rng: &mut Rng, sizes: &Sizes, index: u64) -> Sample {
    let header = some_header(rng, sizes, index);
    let sample = Sample::new(rng, header);
    // a quarter of the runs stay sound
    let sound = (index / 7 % 4 == 0).then_some(&NONE);
    let damages = sound.into_iter().chain(damages_from(index));
    let first = REFUSED_ORDER[index as usize % REFUSED_ORDER.len()];
    let what = format!("run {index}");
    compare_sample(tally, rng, &sample, damages, first, &what);
    sample
}

/// The most slot bytes of a run with any header, so that a case takes no longer than a moment.
const ANY_MOST: usize = 16 << 20;

/// Both calls with a header of any fields: on a whole run, where the header has one that is not
/// too large, else on slices of any length and content.
pub fn compare_any(tally: &mut Tally, rng: &mut Rng, sizes: &Sizes, index: u64) {
    let what = format!("any header {index}");
    let header = any_header(rng, sizes);
    match header.run() {
        Ok(run) if header.spare == 0 && run.is_factor() && run.slots_len() <= ANY_MOST => {
            let sample = Sample::new(rng, header);
            let sound = (rng.below(4) == 0).then_some(&NONE);
            let damages = sound.into_iter().chain(damages_from(rng.next()));
            let first = rng.pick(&REFUSED_ORDER);
            compare_sample(tally, rng, &sample, damages, first, &what);
        }
        _ => compare_slices(tally, rng, header, &what),
    }
}

/// Both calls with this header and with slices of any length and content.
fn compare_slices(tally: &mut Tally, rng: &mut Rng, header: Header, what: &str) {
    let mut packed = header.pack().to_vec();
    packed.resize(rng.pick(&[10, 10, 10, 10, 10, 10, 10, 0, 8, 11]), 0);
    for way in [Way::Write, Way::Read] {
        let len = rng.pick(&[header.marker as usize, header.marker as usize, 0, 40]);
        let marker: Vec<u8> = match rng.below(2) {
            0 => vec![rng.below(4) as u8; len],
            _ => rng.bytes(len),
        };
        let (input_len, output_len) = (rng.below(4096), rng.below(4096));
        let arguments = Arguments {
            header: &packed,
            marker: &marker,
            input: &rng.bytes(input_len),
            output_len,
        };
        compare(tally, rng, way, arguments, way.of_runs().numbers(), what);
    }
}
