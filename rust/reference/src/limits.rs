//! The limits, each beside its sentence in document 01, or in document 02 where that changes it, and
//! what follows from them. No other file of this crate writes one as a number.

use std::ops::RangeInclusive;

/// T-06: "Numbers up to 48 bytes, digit strings up to 768, plans up to 960 steps (4,800 bytes),
/// values below 2^392, work records of 50 bytes."
pub const NUMBER_BYTES: usize = 48;
pub const STRING_DIGITS: usize = 768;
pub const PLAN_STEPS: usize = 960;
pub const VALUE_BITS: usize = 392;
pub const RECORD_BYTES: usize = 50;
/// "Plan: r steps of 5 bytes."
pub const STEP_BYTES: usize = 5;
/// "Record i of the space is .. a sign byte (0, or 1 below zero), then .. bytes of size."
pub const VALUE_BYTES: usize = RECORD_BYTES - 1;
/// "Width is 0 for methods 1 and 4, and 1 to 6 for methods 2 and 3." T-07: "method 6, width 0".
pub const WINDOW_WIDTHS: RangeInclusive<u32> = 1..=6;
/// T-01: "the width-w NAF for w from 2 to 8".
pub const NAF_WIDTHS: RangeInclusive<u32> = 2..=8;

pub const NUMBER_BITS: usize = 8 * NUMBER_BYTES;

/// Room for every answer of `recode`, `recode_wide` and `recode_modified`, and of `clean`, `read_back` and `plan`.
pub const RECODE_ROOM: usize = NUMBER_BITS + 1;
pub const CLEAN_ROOM: usize = STRING_DIGITS + 1;
pub const READ_BACK_ROOM: usize = (STRING_DIGITS + 7) / 8;
pub const PLAN_ROOM: usize = STEP_BYTES * PLAN_STEPS;

/// The bits of the largest size of a wide digit string's value: each digit has a size below 2^(w-1).
pub(crate) const WIDE_BITS: usize = STRING_DIGITS + *NAF_WIDTHS.end() as usize - 1;
/// Room for every answer of `clean_wide` and `read_back_wide`.
pub const CLEAN_WIDE_ROOM: usize = WIDE_BITS + 1;
pub const READ_BACK_WIDE_ROOM: usize = (WIDE_BITS + 7) / 8;

/// The work space that the check of a plan of this many steps takes.
pub const fn work_space(steps: usize) -> usize {
    RECORD_BYTES * (steps + 1)
}

/// Words of 64 bits for a number.
pub(crate) const NUMBER_WORDS: usize = (NUMBER_BITS + 63) / 64;
/// Words for three times a number, and for three times the size of a digit string's value: two bits
/// more, of which the top one stays 0.
pub(crate) const RECODE_WORDS: usize = (NUMBER_BITS + 2) / 64 + 1;
pub(crate) const CLEAN_WORDS: usize = (STRING_DIGITS + 2) / 64 + 1;
/// Words for the size of a wide digit string's value, and for a digit that is taken off it: one bit more.
pub(crate) const WIDE_WORDS: usize = (WIDE_BITS + 1) / 64 + 1;
/// Words for the size of a sum of two values: one bit more.
pub(crate) const VALUE_WORDS: usize = VALUE_BITS / 64 + 1;
