//! Passes a second time, to compare the library with: the words of word.rs, one after another.

use crate::word::{self, refuse, Rate, Refusal, WORD_BYTES};

/// The most blocks of a pass.
pub const MOST: usize = 211;

/// Questions 2 and 8: whether as many blocks as words are lent, 1 to 211, and nothing besides.
fn accept(rate: u64, blocks_len: usize, words_len: usize) -> Result<&'static Rate, Refusal> {
    let Some(rate) = Rate::of(rate) else {
        return refuse(2, 0);
    };
    let is_pass =
        |count| [blocks_len, words_len] == [count * rate.block_bytes(), count * WORD_BYTES];
    if !(1..=MOST).any(is_pass) {
        return refuse(8, 0);
    }
    Ok(rate)
}

/// Pieces joined, or the refusal of the first that is refused, with its index as the place.
fn join(pieces: impl Iterator<Item = Result<Vec<u8>, Refusal>>) -> Result<Vec<u8>, Refusal> {
    let mut joined = Vec::new();
    for (index, piece) in pieces.enumerate() {
        match piece {
            Ok(piece) => joined.extend(piece),
            Err(refusal) => return refuse(refusal.number, index),
        }
    }
    Ok(joined)
}

/// The pass writer: the words, or the first question whose answer is no.
pub fn write(number: u64, blocks: &[u8], words_len: usize) -> Result<Vec<u8>, Refusal> {
    let rate = accept(number, blocks.len(), words_len)?;
    let blocks = blocks.chunks(rate.block_bytes());
    join(blocks.map(|block| word::write(number, block, WORD_BYTES)))
}

/// The pass reader: the packed blocks, or the first question whose answer is no.
pub fn read(number: u64, words: &[u8], blocks_len: usize) -> Result<Vec<u8>, Refusal> {
    let rate = accept(number, blocks_len, words.len())?;
    let words = words.chunks(WORD_BYTES);
    join(words.map(|word| word::read(number, word, rate.block_bytes())))
}

#[cfg(test)]
mod tests {
    use super::*;

    fn rates() -> impl Iterator<Item = (u64, usize)> {
        (0..3).map(|number| (number, Rate::of(number).unwrap().block_bytes()))
    }

    fn blocks(count: usize, len: usize) -> Vec<u8> {
        let mut blocks: Vec<u8> = (0..count * len)
            .map(|i| (i * i / 7 + 3 * i) as u8)
            .collect();
        blocks
            .chunks_mut(len)
            .for_each(|block| block[len - 1] &= 0xFC);
        blocks
    }

    #[test]
    fn a_pass_is_its_words() {
        for (rate, len) in rates() {
            let blocks = blocks(3, len);
            let words = write(rate, &blocks, 3 * WORD_BYTES).unwrap();
            for (block, word) in blocks.chunks(len).zip(words.chunks(WORD_BYTES)) {
                assert_eq!(word::write(rate, block, WORD_BYTES), Ok(word.to_vec()));
            }
            assert_eq!(read(rate, &words, blocks.len()), Ok(blocks));
        }
    }

    #[test]
    fn the_first_wrong_word_is_the_answer() {
        for (rate, len) in rates() {
            let mut words = write(rate, &blocks(5, len), 5 * WORD_BYTES).unwrap();
            words[4 * WORD_BYTES] ^= 1;
            assert_eq!(read(rate, &words, 5 * len), refuse(13, 4));
            words[2 * WORD_BYTES + 9] ^= 1;
            assert_eq!(read(rate, &words, 5 * len), refuse(13, 2));
        }
    }

    #[test]
    fn lengths() {
        let number =
            |rate, blocks, words| accept(rate, blocks, words).map_or_else(|r| r.number, |_| 0);
        assert_eq!(number(3, 0, 0), 2);
        for (rate, len) in rates() {
            assert_eq!(number(rate, 0, 0), 8);
            for count in [1, 2, 210, 211] {
                assert_eq!(number(rate, count * len, count * WORD_BYTES), 0);
                assert_eq!(number(rate, count * len - 1, count * WORD_BYTES), 8);
                assert_eq!(number(rate, count * len, count * WORD_BYTES + 1), 8);
                assert_eq!(number(rate, count * len, (count + 1) * WORD_BYTES), 8);
            }
            assert_eq!(number(rate, 212 * len, 212 * WORD_BYTES), 8);
        }
    }
}
