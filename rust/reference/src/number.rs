//! The number, least significant byte first. The highest byte is not zero, so each number has one
//! spelling; zero has no bytes.

use crate::limits::{NUMBER_BYTES, NUMBER_WORDS};
use crate::refusal::{HIGHEST_BYTE_IS_ZERO, NUMBER_IS_ZERO, NUMBER_TOO_LONG};
use crate::{words, Refusal};

#[derive(Clone, Copy, PartialEq, Eq, Debug)]
pub(crate) struct Number {
    words: [u64; NUMBER_WORDS],
}

impl Number {
    /// Refusal 1: too many bytes, even if the high ones are zero. Refusal 13: the highest byte is zero.
    pub(crate) fn read(bytes: &[u8]) -> Result<Number, Refusal> {
        if bytes.len() > NUMBER_BYTES {
            return Err(Refusal::new(NUMBER_TOO_LONG, 0));
        }
        if bytes.last() == Some(&0) {
            return Err(Refusal::new(HIGHEST_BYTE_IS_ZERO, 0));
        }
        Ok(Number {
            words: words::from_bytes(bytes),
        })
    }

    /// Refusals 1 and 13, then refusal 2: the number is zero.
    pub(crate) fn read_nonzero(bytes: &[u8]) -> Result<Number, Refusal> {
        let number = Number::read(bytes)?;
        // No other number is zero: its highest byte would be.
        if bytes.is_empty() {
            return Err(Refusal::new(NUMBER_IS_ZERO, 0));
        }
        Ok(number)
    }

    pub(crate) fn words(&self) -> [u64; NUMBER_WORDS] {
        self.words
    }

    /// The same value in more words.
    pub(crate) fn widened<const N: usize>(&self) -> [u64; N] {
        let mut words = [0; N];
        words[..NUMBER_WORDS].copy_from_slice(&self.words);
        words
    }

    pub(crate) fn bit_length(&self) -> usize {
        words::bit_length(&self.words)
    }

    pub(crate) fn count_ones(&self) -> usize {
        words::count_ones(&self.words)
    }

    /// The bit at a place within the words.
    pub(crate) fn bit(&self, place: usize) -> bool {
        self.words[place / 64] >> (place % 64) & 1 == 1
    }

    /// The value of `width` bits, at most a window's, from place `low` upwards;
    /// bits past the end are zero.
    pub(crate) fn window(&self, low: usize, width: usize) -> usize {
        let (index, shift) = (low / 64, low % 64);
        let mut value = self.words[index] >> shift;
        if shift + width > 64 && index + 1 < self.words.len() {
            value |= self.words[index + 1] << (64 - shift);
        }
        value as usize & ((1 << width) - 1)
    }

    /// The 64 bits from a place within the words down, the bit at the place on
    /// top; bits past the end are zero.
    pub(crate) fn bits_down(&self, place: usize) -> u64 {
        let (index, shift) = (place / 64, 63 - place % 64);
        let mut bits = self.words[index] << shift;
        if shift > 0 && index > 0 {
            bits |= self.words[index - 1] >> (64 - shift);
        }
        bits
    }
}
