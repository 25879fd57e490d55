//! Archived headers of eight bytes, and those of ten, a second time: by their fields, not by their
//! bits.

use crate::run::{accept_header, Header, HEADER_BYTES, OLD_HEADER_BYTES};
use crate::word::{refuse, Refusal};

/// From eight bytes to ten, or the first question whose answer is no.
pub fn widen(eight: &[u8], ten_len: usize) -> Result<Vec<u8>, Refusal> {
    let header = Header::of_old(eight)?;
    header.run()?;
    if ten_len != HEADER_BYTES {
        return refuse(8, 0);
    }
    let once = Header {
        copies: 1,
        ..header
    };
    Ok(once.pack().to_vec())
}

/// From ten bytes to eight, or the first question whose answer is no.
pub fn narrow(ten: &[u8], eight_len: usize) -> Result<Vec<u8>, Refusal> {
    let header = Header::of(ten)?;
    accept_header(ten)?;
    if eight_len != OLD_HEADER_BYTES {
        return refuse(8, 0);
    }
    if header.copies != 1 {
        return refuse(21, 0);
    }
    Ok(header.pack_old().to_vec())
}

#[cfg(test)]
mod tests {
    use super::*;

    const OLD: [u8; 8] = [0x59, 0x50, 0xF0, 0x1B, 0xE8, 0x02, 0x00, 0x00];
    const NEW: [u8; 10] = [0x59, 0x50, 0xF0, 0x1B, 0xE8, 0x02, 0x04, 0x00, 0x00, 0x00];

    fn factor(byte: u8) -> [u8; 10] {
        let mut header = NEW;
        header[6] = byte;
        header
    }

    #[test]
    fn the_example_both_ways() {
        assert_eq!(widen(&OLD, 10), Ok(NEW.to_vec()));
        assert_eq!(narrow(&NEW, 8), Ok(OLD.to_vec()));
        let (old, new) = (Header::unpack_old(&OLD), Header::unpack(&NEW));
        assert_eq!(old, new);
        assert_eq!((old.rate, old.bits, old.rows, old.step), (1, 6, 84, 120));
        assert_eq!((old.frame_bytes, old.marker, old.frames), (223, 16, 2));
    }

    #[test]
    fn questions_in_their_order() {
        assert_eq!(narrow(&factor(0x08), 8), refuse(21, 0));
        for byte in [0x00, 0x14, 0x84, 0xFC] {
            assert_eq!(narrow(&factor(byte), 8), refuse(20, 0));
        }
        assert_eq!(narrow(&factor(0x05), 8), refuse(1, 0));
        for len in [0, 7, 9, 10] {
            assert_eq!(narrow(&NEW, len), refuse(8, 0));
            assert_eq!(narrow(&factor(0x08), len), refuse(8, 0));
            assert_eq!(narrow(&factor(0x14), len), refuse(20, 0));
        }
        for len in [0, 8, 9, 11] {
            assert_eq!(widen(&OLD, len), refuse(8, 0));
        }
        for last in [1, 0x80] {
            let mut old = OLD;
            old[7] = last;
            assert_eq!(widen(&old, 10), refuse(1, 0));
        }
        assert_eq!(widen(&NEW, 10), refuse(1, 0));
        assert_eq!(narrow(&OLD, 8), refuse(1, 0));
        assert_eq!(
            widen(&[OLD[0] | 0xC0, 0, 0, 0, 0, 0, 0, 0], 10),
            refuse(2, 0)
        );
        assert_eq!(narrow(&[0xC0, 0, 0, 0, 0, 0, 0, 0, 0, 0], 0), refuse(2, 0));
    }
}
