//! The wide form: the width-w NAF, whose nonzero digits are odd with size below 2^(w-1), any two of them at
//! least w places apart. A digit's byte is the signed digit in two's complement.

use std::cmp::Ordering;

use crate::limits::{CLEAN_WIDE_ROOM, NAF_WIDTHS, RECODE_WORDS, STRING_DIGITS, WIDE_WORDS};
use crate::number::Number;
use crate::refusal::{METHOD_OR_WIDTH, NOT_A_DIGIT, STRING_TOO_LONG};
use crate::{output, words, Refusal};

/// Refusal 3: no width of a NAF.
fn check_width(width: u32) -> Result<(), Refusal> {
    match NAF_WIDTHS.contains(&width) {
        true => Ok(()),
        false => Err(Refusal::new(METHOD_OR_WIDTH, 0)),
    }
}

/// A digit of a width that is one: 0, or odd with size below 2^(w-1).
pub(crate) fn is_digit(byte: u8, width: u32) -> bool {
    let digit = i32::from(byte as i8);
    digit == 0 || (digit % 2 != 0 && digit.abs() < 1 << (width - 1))
}

/// The width-w NAF of a value.
pub(crate) struct WideNaf {
    /// Lowest first; those from the length on do not count.
    digits: [i8; CLEAN_WIDE_ROOM],
    length: usize,
}

impl WideNaf {
    /// The value must leave the top bit of its words free.
    ///
    /// The textbooks' way: while something is left, the lowest digit is taken off, and the rest halved.
    pub(crate) fn of<const N: usize>(value: &[u64; N], width: u32) -> WideNaf {
        let mut naf = WideNaf {
            digits: [0; CLEAN_WIDE_ROOM],
            length: 0,
        };
        let mut rest = *value;
        while rest != [0; N] {
            let digit = lowest_digit(rest[0], width);
            let size = words::from_bytes(&[digit.unsigned_abs()]);
            match digit {
                0 => {}
                _ if digit > 0 => rest = words::subtract(&rest, &size),
                _ => rest = words::add(&rest, &size),
            }
            rest = words::halve(&rest);
            naf.digits[naf.length] = digit;
            naf.length += 1;
        }
        naf
    }

    /// The digits, lowest first; the top one is not 0.
    pub(crate) fn digits(&self) -> &[i8] {
        &self.digits[..self.length]
    }

    /// Writes the digits, or their opposites; refusal 6 if they do not fit.
    fn write(&self, is_negated: bool, out: &mut [u8]) -> Result<usize, Refusal> {
        let out = output(out, self.length)?;
        for (byte, &digit) in out.iter_mut().zip(self.digits()) {
            *byte = if is_negated { -digit } else { digit } as u8;
        }
        Ok(self.length)
    }
}

/// 0 for an even number. For an odd one, the digit that leaves a multiple of 2^w: the number mod 2^w, or
/// that less 2^w where it is more than half of 2^w.
fn lowest_digit(low: u64, width: u32) -> i8 {
    let all = 1i16 << width;
    let residue = (low % all as u64) as i16;
    let digit = match residue {
        _ if residue % 2 == 0 => 0,
        _ if residue < all / 2 => residue,
        _ => residue - all,
    };
    digit as i8
}

/// The value of a wide digit string.
struct WideValue {
    negative: bool,
    size: [u64; WIDE_WORDS],
}

impl WideValue {
    /// Refusals in order: 3, 5, then 4 at the lowest place whose byte is no digit of the width.
    fn read(digits: &[u8], width: u32) -> Result<WideValue, Refusal> {
        check_width(width)?;
        if digits.len() > STRING_DIGITS {
            return Err(Refusal::new(STRING_TOO_LONG, 0));
        }
        if let Some(place) = digits.iter().position(|&byte| !is_digit(byte, width)) {
            return Err(Refusal::new(NOT_A_DIGIT, place));
        }

        // The digits above zero and those below, summed apart. The sign is not that of the top digit.
        let mut above = [0; WIDE_WORDS];
        let mut below = [0; WIDE_WORDS];
        for (place, &byte) in digits.iter().enumerate() {
            let digit = byte as i8;
            let sum = if digit < 0 { &mut below } else { &mut above };
            words::add_at(sum, digit.unsigned_abs(), place);
        }
        let negative = words::compare(&above, &below) == Ordering::Less;
        let size = match negative {
            true => words::subtract(&below, &above),
            false => words::subtract(&above, &below),
        };
        Ok(WideValue { negative, size })
    }
}

/// Recodes a number into its width-w NAF; answers the length.
///
/// Refusals in order: 1, 13, 3, 6.
pub fn recode_wide(number: &[u8], width: u32, out: &mut [u8]) -> Result<usize, Refusal> {
    let number = Number::read(number)?;
    check_width(width)?;
    WideNaf::of(&number.widened::<RECODE_WORDS>(), width).write(false, out)
}

/// Cleans a wide digit string into the width-w NAF of the same value; answers the length, which may be w
/// more than the longest string's.
///
/// Refusals in order: 3, 5, 4, 6.
pub fn clean_wide(digits: &[u8], width: u32, out: &mut [u8]) -> Result<usize, Refusal> {
    let value = WideValue::read(digits, width)?;
    WideNaf::of(&value.size, width).write(value.negative, out)
}

/// Reads a wide digit string back: the size goes into `out` without a high zero byte. Answers the sign,
/// 1 below zero, and the number of bytes written.
///
/// Refusals in order: 3, 5, 4, 6.
pub fn read_back_wide(digits: &[u8], width: u32, out: &mut [u8]) -> Result<(u8, usize), Refusal> {
    let value = WideValue::read(digits, width)?;
    let length = (words::bit_length(&value.size) + 7) / 8;
    words::to_bytes(&value.size, output(out, length)?);
    Ok((u8::from(value.negative), length))
}
