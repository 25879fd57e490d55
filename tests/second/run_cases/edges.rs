//! The edges that the specification names, and the largest run.

use super::calls::{compare, compare_read, compare_write, Arguments};
use super::damages::flip;
use super::sample::Sample;
use crate::compare::{Rng, Tally, Way};
use crate::run::Header;

/// Headers and markers at the edges that the specification names, with the number that they get
/// when the other slices are empty: 8 where the header and the marker pass.
pub fn edges(tally: &mut Tally, rng: &mut Rng) {
    let header = Header {
        rate: 1,
        bits: 8,
        rows: 10,
        step: 21,
        frame_bytes: 223,
        marker: 4,
        frames: 2,
        copies: 1,
        spare: 0,
    };
    let m6 = Header {
        bits: 6,
        ..no_rows(header)
    };
    let cases: Vec<(Header, Vec<u8>, u8)> = vec![
        (header, vec![255; 4], 8),
        (Header { step: 20, ..header }, vec![0; 4], 5),
        (
            Header {
                rows: 2,
                step: 256,
                ..header
            },
            vec![0; 4],
            5,
        ),
        (
            Header {
                rows: 1,
                step: 1,
                ..header
            },
            vec![0; 4],
            8,
        ),
        (
            Header {
                rows: 1,
                step: 256,
                ..header
            },
            vec![0; 4],
            8,
        ),
        (
            Header {
                rows: 1,
                step: 257,
                ..header
            },
            vec![0; 4],
            4,
        ),
        (
            Header {
                rows: 1,
                step: 0,
                ..header
            },
            vec![0; 4],
            4,
        ),
        (Header { rows: 0, ..header }, vec![0; 4], 4),
        (
            Header {
                rows: 128,
                step: 256,
                ..header
            },
            vec![0; 4],
            5,
        ),
        (
            Header {
                rows: 127,
                step: 255,
                ..header
            },
            vec![0; 4],
            8,
        ),
        (
            Header {
                rows: 129,
                step: 0,
                ..header
            },
            vec![0; 4],
            4,
        ),
        (
            Header {
                marker: 32,
                ..header
            },
            vec![0; 32],
            8,
        ),
        (
            Header {
                marker: 33,
                ..header
            },
            vec![0; 33],
            7,
        ),
        (
            Header {
                marker: 0,
                ..header
            },
            vec![],
            7,
        ),
        (m6, vec![63; 4], 8),
        (m6, vec![63, 63, 63, 64], 7),
        (m6, vec![64], 7),
        (m6, vec![63, 63, 63, 63, 64], 8),
        (m6, vec![], 8),
        (
            Header {
                frame_bytes: 0,
                ..header
            },
            vec![0; 4],
            6,
        ),
        (
            Header {
                frame_bytes: 2048,
                ..header
            },
            vec![0; 4],
            8,
        ),
        (
            Header {
                frame_bytes: 2049,
                ..header
            },
            vec![0; 4],
            6,
        ),
        (
            Header {
                frames: 0,
                ..header
            },
            vec![0; 4],
            6,
        ),
        (
            Header {
                frames: 64,
                ..header
            },
            vec![0; 4],
            8,
        ),
        (
            Header {
                frames: 65,
                ..header
            },
            vec![0; 4],
            6,
        ),
        (Header { bits: 1, ..header }, vec![0; 4], 3),
        (Header { bits: 9, ..header }, vec![0; 4], 3),
        (Header { rate: 3, ..header }, vec![0; 4], 2),
        (
            Header {
                copies: 32,
                ..header
            },
            vec![0; 4],
            8,
        ),
        (
            Header {
                copies: 33,
                ..header
            },
            vec![0; 4],
            20,
        ),
        (
            Header {
                copies: 0,
                ..header
            },
            vec![],
            20,
        ),
        (Header { copies: 5, ..m6 }, vec![64], 7),
        (
            Header {
                copies: 5,
                marker: 33,
                ..header
            },
            vec![],
            7,
        ),
        (Header { spare: 1, ..header }, vec![0; 4], 1),
        (
            Header {
                spare: 1 << 25,
                ..header
            },
            vec![0; 4],
            1,
        ),
    ];
    for (header, marker, number) in cases {
        for way in [Way::Write, Way::Read] {
            let arguments = Arguments {
                header: &header.pack(),
                marker: &marker,
                input: &[],
                output_len: 0,
            };
            compare(tally, rng, way, arguments, &[number], "edge");
        }
    }
}

fn no_rows(header: Header) -> Header {
    Header { rows: 1, ..header }
}

/// The run with the most slots, written, read back, and read with its last symbol damaged.
pub fn largest(tally: &mut Tally, rng: &mut Rng) {
    let header = Header {
        rate: 0,
        bits: 8,
        rows: 127,
        step: 255,
        frame_bytes: 2048,
        marker: 32,
        frames: 64,
        copies: 1,
        spare: 0,
    };
    let sample = Sample::new(rng, header);
    compare_write(tally, rng, &sample, "largest run");
    let mut slots = sample.slots();
    compare_read(tally, rng, &sample, &slots, &[0], "largest run");
    let last = sample.run.slots() - sample.run.group();
    // the last place is unhit: its pulse goes from slot 0 to slot 1
    flip(&mut slots, last);
    flip(&mut slots, last + 1);
    let what = "largest run, its last symbol changed";
    compare_read(tally, rng, &sample, &slots, &[12], what);
}
