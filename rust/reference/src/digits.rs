//! Digit strings: one byte for each digit, 00 for 0, 01 for 1, FF for minus 1.

use std::cmp::Ordering;

use crate::limits::{CLEAN_WORDS, STRING_DIGITS};
use crate::refusal::{NOT_A_DIGIT, STRING_TOO_LONG};
use crate::{output, words, Refusal};

/// The value of a digit string.
pub(crate) struct DigitValue {
    pub(crate) negative: bool,
    pub(crate) size: [u64; CLEAN_WORDS],
}

impl DigitValue {
    /// Refusal 5: too long. Refusal 4: not a digit, at the lowest such place.
    pub(crate) fn read(digits: &[u8]) -> Result<DigitValue, Refusal> {
        if digits.len() > STRING_DIGITS {
            return Err(Refusal::new(STRING_TOO_LONG, 0));
        }
        if let Some(place) = digits.iter().position(|d| !matches!(d, 0x00 | 0x01 | 0xFF)) {
            return Err(Refusal::new(NOT_A_DIGIT, place));
        }

        // The value is the number of the 1 digits less that of the minus 1 digits.
        let mut ones = [0; CLEAN_WORDS];
        let mut minus_ones = [0; CLEAN_WORDS];
        for (index, chunk) in digits.chunks(64).enumerate() {
            let (mut one, mut minus_one) = (0, 0);
            for &digit in chunk.iter().rev() {
                one = one << 1 | u64::from(digit == 0x01);
                minus_one = minus_one << 1 | u64::from(digit == 0xFF);
            }
            ones[index] = one;
            minus_ones[index] = minus_one;
        }

        let negative = words::compare(&ones, &minus_ones) == Ordering::Less;
        let size = if negative {
            words::subtract(&minus_ones, &ones)
        } else {
            words::subtract(&ones, &minus_ones)
        };
        Ok(DigitValue { negative, size })
    }
}

/// Reads a digit string back: the size goes into `out` without a high zero
/// byte. Answers the sign, 1 below zero, and the number of bytes written.
///
/// Refusals in order: 5, 4, 6.
pub fn read_back(digits: &[u8], out: &mut [u8]) -> Result<(u8, usize), Refusal> {
    let value = DigitValue::read(digits)?;
    let length = (words::bit_length(&value.size) + 7) / 8;
    words::to_bytes(&value.size, output(out, length)?);
    Ok((u8::from(value.negative), length))
}
