//! Plans for multiplying a curve point by a public number, and their check: safe calls over the
//! proved library.
//!
//! Every buffer is least significant first. A number is at most [`NUMBER_BYTES`] bytes, the highest
//! of which is not zero, so each number has one spelling; zero has no bytes. A digit is 0, 1 or -1; in
//! the wide form, of width w, it is 0 or odd with a size below 2^(w - 1). A plan is steps of
//! [`STEP_BYTES`] bytes. The calls write into buffers that they are lent, never
//! allocate, and hand back the part that they wrote; the rest of a buffer stays as it was. A refusal
//! changes nothing, but for the records that [`check`] has filled by then.
//!
//! ```
//! use lesmutka::{check, plan, work_space, Method, PLAN_ROOM};
//!
//! let number = [43];
//! let mut room = [0; PLAN_ROOM];
//! let plan = plan(&number, Method::Naf, &mut room)?;
//! assert_eq!(plan.counts.total(), 9);
//!
//! let mut space = [0; work_space(9)];
//! let accepted = check(&number, plan.bytes, &mut space)?;
//! assert_eq!(accepted.counts, plan.counts);
//! assert_eq!(accepted.largest_bits, 6);
//! # Ok::<(), lesmutka::Refusal>(())
//! ```
//!
//! To link, set `LESMUTKA_LIB_DIR` to the folder that holds liblesmutka.a, which is for x86-64 Linux.
//! In the library's own repository it is found where `./lesmutka --build` writes it.
#![cfg_attr(not(feature = "std"), no_std)]
#![deny(missing_docs)]

mod digits;
// Before Rust 1.81 only std has the trait `Error`.
#[cfg(any(lesmutka_core_error, feature = "std"))]
mod error;
mod method;
mod plans;
mod refusal;
pub mod sys;
mod values;

pub use digits::{digits, Digits};
pub use method::{Method, ParseMethodError};
pub use plans::{Accepted, Counts, ParseStepError, Plan, Step, Steps};
pub use refusal::Refusal;
pub use values::{records, Records, Value};

use core::fmt;
use core::slice;

/// The version of the library that this crate is written for: 10000 times the major, 100 times the
/// minor, and the patch.
pub const VERSION: u32 = 10000 * number(env!("CARGO_PKG_VERSION_MAJOR"))
    + 100 * number(env!("CARGO_PKG_VERSION_MINOR"))
    + number(env!("CARGO_PKG_VERSION_PATCH"));

/// The number of a few digits.
const fn number(digits: &str) -> u32 {
    let mut number = 0;
    let mut i = 0;
    while i < digits.len() {
        number = 10 * number + (digits.as_bytes()[i] - b'0') as u32;
        i += 1;
    }
    number
}

/// The most bytes of a number.
pub const NUMBER_BYTES: usize = 48;
/// The most digits of a digit string that is handed in.
pub const STRING_DIGITS: usize = 768;
/// The bytes of a step of a plan.
pub const STEP_BYTES: usize = 5;
/// The most steps of a plan.
pub const PLAN_STEPS: usize = 960;
/// The most bytes of the size of a plan's value.
pub const VALUE_BYTES: usize = 49;
/// The bytes of a record of the work space: a sign, then a size.
pub const RECORD_BYTES: usize = 1 + VALUE_BYTES;
/// The most bits of a fixed window.
pub const FIXED_WINDOW_BITS: u32 = 6;
/// The most bits of a sliding window.
pub const SLIDING_WINDOW_BITS: u32 = 6;
/// The least width of a NAF.
pub const LEAST_WIDTH: u32 = 2;
/// The largest width of a NAF.
pub const LARGEST_WIDTH: u32 = 8;

/// Room for every answer of [`recode`], [`recode_words`], [`recode_wide`] and [`recode_modified`].
pub const RECODE_ROOM: usize = 8 * NUMBER_BYTES + 1;
/// Room for every answer of [`clean`].
pub const CLEAN_ROOM: usize = STRING_DIGITS + 1;
/// Room for every answer of [`read_back`].
pub const READ_BACK_ROOM: usize = STRING_DIGITS / 8;
/// Room for every answer of [`clean_wide`].
pub const CLEAN_WIDE_ROOM: usize = STRING_DIGITS + LARGEST_WIDTH as usize;
/// Room for every answer of [`read_back_wide`].
pub const READ_BACK_WIDE_ROOM: usize = STRING_DIGITS / 8 + 1;
/// Room for every plan.
pub const PLAN_ROOM: usize = STEP_BYTES * PLAN_STEPS;

/// The work space that [`check`] takes for a plan of this many steps. Where that is more than a
/// `usize` holds, `usize::MAX`, which is longer than any slice.
pub const fn work_space(steps: usize) -> usize {
    RECORD_BYTES.saturating_mul(steps.saturating_add(1))
}

/// Room for every answer of [`hexadecimal`], [`decimal`] and [`read_digits`] to a text of this length:
/// half of it, rounded up.
pub const fn text_room(length: usize) -> usize {
    length / 2 + length % 2
}

/// Digits as the library reads them: a digit's byte is that of the same i8.
fn bytes_of(digits: &[i8]) -> &[u8] {
    // SAFETY: u8 has the size and alignment of i8, and every byte is a valid u8.
    unsafe { slice::from_raw_parts(digits.as_ptr().cast(), digits.len()) }
}

/// Digits as the library writes them.
fn bytes_of_mut(digits: &mut [i8]) -> &mut [u8] {
    // SAFETY: as in `bytes_of`, and every byte is a valid i8.
    unsafe { slice::from_raw_parts_mut(digits.as_mut_ptr().cast(), digits.len()) }
}

fn written(answer: sys::Length) -> Result<usize, Refusal> {
    Refusal::of(answer.refusal, answer.place)?;
    Ok(answer.length)
}

/// Writes the canonical string of a number, its non-adjacent form, and hands it back.
///
/// # Errors
///
/// Refusals 1, 13, 6. [`RECODE_ROOM`] is always enough.
///
/// ```
/// let mut room = [0; lesmutka::RECODE_ROOM];
/// assert_eq!(lesmutka::recode(&[3], &mut room)?, [-1, 0, 1]);
/// // A number has one spelling.
/// assert_eq!(lesmutka::recode(&[3, 0], &mut room), Err(lesmutka::Refusal::HighestByteIsZero));
/// # Ok::<(), lesmutka::Refusal>(())
/// ```
pub fn recode<'a>(number: &[u8], out: &'a mut [i8]) -> Result<&'a [i8], Refusal> {
    let length = written(sys::recode(number, bytes_of_mut(out)))?;
    Ok(&out[..length])
}

/// Writes the canonical string of a number by words: the same as [`recode`] in every answer and every
/// byte.
///
/// # Errors
///
/// Refusals 1, 13, 6. [`RECODE_ROOM`] is always enough.
///
/// ```
/// let mut room = [0; lesmutka::RECODE_ROOM];
/// assert_eq!(lesmutka::recode_words(&[3], &mut room)?, [-1, 0, 1]);
/// # Ok::<(), lesmutka::Refusal>(())
/// ```
pub fn recode_words<'a>(number: &[u8], out: &'a mut [i8]) -> Result<&'a [i8], Refusal> {
    let length = written(sys::recode_words(number, bytes_of_mut(out)))?;
    Ok(&out[..length])
}

/// Writes the width-w NAF of a number, and hands it back: digits that are 0 or odd with a size below
/// 2^(w - 1), any two that are not 0 at least w places apart, and the top one not 0. With width 2 it is
/// the canonical string.
///
/// # Errors
///
/// Refusals 1, 13, 3 for a width that is not [`LEAST_WIDTH`] to [`LARGEST_WIDTH`], 6. [`RECODE_ROOM`] is
/// always enough.
///
/// ```
/// let mut room = [0; lesmutka::RECODE_ROOM];
/// // 3 * 16 - 5
/// assert_eq!(lesmutka::recode_wide(&[43], 4, &mut room)?, [-5, 0, 0, 0, 3]);
/// assert_eq!(lesmutka::recode_wide(&[43], 9, &mut room), Err(lesmutka::Refusal::MethodOrWidth));
/// # Ok::<(), lesmutka::Refusal>(())
/// ```
pub fn recode_wide<'a>(number: &[u8], width: u32, out: &'a mut [i8]) -> Result<&'a [i8], Refusal> {
    let length = written(sys::recode_wide(number, width, bytes_of_mut(out)))?;
    Ok(&out[..length])
}

/// Writes the modified NAF of a number, and hands it back: the canonical string, except that leading
/// digits 1 0 -1, most significant first, become 1 1. No digit string of the same value whose top digit is
/// 1 has a smaller sum of length and nonzero digits.
///
/// # Errors
///
/// Refusals 1, 13, 6. [`RECODE_ROOM`] is always enough.
///
/// ```
/// let mut room = [0; lesmutka::RECODE_ROOM];
/// // 16 + 8 + 1
/// assert_eq!(lesmutka::recode_modified(&[25], &mut room)?, [1, 0, 0, 1, 1]);
/// // 1 0 0 -1 0 -1, the canonical string
/// assert_eq!(lesmutka::recode_modified(&[27], &mut room)?, [-1, 0, -1, 0, 0, 1]);
/// # Ok::<(), lesmutka::Refusal>(())
/// ```
pub fn recode_modified<'a>(number: &[u8], out: &'a mut [i8]) -> Result<&'a [i8], Refusal> {
    let length = written(sys::recode_modified(number, bytes_of_mut(out)))?;
    Ok(&out[..length])
}

/// Writes the canonical string of a digit string's value and hands it back.
///
/// # Errors
///
/// Refusals 5, 4, 6. [`CLEAN_ROOM`] is always enough.
///
/// ```
/// let mut room = [0; lesmutka::CLEAN_ROOM];
/// assert_eq!(lesmutka::clean(&[1, 1, 1], &mut room)?, [-1, 0, 0, 1]);
/// # Ok::<(), lesmutka::Refusal>(())
/// ```
pub fn clean<'a>(digits: &[i8], out: &'a mut [i8]) -> Result<&'a [i8], Refusal> {
    let length = written(sys::clean(bytes_of(digits), bytes_of_mut(out)))?;
    Ok(&out[..length])
}

/// Writes the width-w NAF of a wide digit string's value and hands it back.
///
/// # Errors
///
/// Refusals 3 for a width that is not [`LEAST_WIDTH`] to [`LARGEST_WIDTH`], 5, 4 for a digit that is even
/// and not 0 or of size 2^(w - 1) or more, 6. [`CLEAN_WIDE_ROOM`] is always enough.
///
/// ```
/// let mut room = [0; lesmutka::CLEAN_WIDE_ROOM];
/// assert_eq!(lesmutka::clean_wide(&[1, 1, 1], 4, &mut room)?, [7]);
/// # Ok::<(), lesmutka::Refusal>(())
/// ```
pub fn clean_wide<'a>(digits: &[i8], width: u32, out: &'a mut [i8]) -> Result<&'a [i8], Refusal> {
    let length = written(sys::clean_wide(bytes_of(digits), width, bytes_of_mut(out)))?;
    Ok(&out[..length])
}

/// Reads a digit string back: writes the size of its value, and hands it back with the sign.
///
/// # Errors
///
/// Refusals 5, 4, 6. [`READ_BACK_ROOM`] is always enough.
///
/// ```
/// let mut room = [0; lesmutka::READ_BACK_ROOM];
/// let value = lesmutka::read_back(&[1, 0, 1, 0, 1, 0, -1], &mut room)?;
/// assert_eq!(value.to_string(), "-0x2b");
/// # Ok::<(), lesmutka::Refusal>(())
/// ```
pub fn read_back<'a>(digits: &[i8], out: &'a mut [u8]) -> Result<Value<'a>, Refusal> {
    value(sys::read_back(bytes_of(digits), out), out)
}

/// Reads a wide digit string back: writes the size of its value, and hands it back with the sign, which
/// need not be that of the top digit.
///
/// # Errors
///
/// Refusals 3, 5, 4, 6, as for [`clean_wide`]. [`READ_BACK_WIDE_ROOM`] is always enough.
///
/// ```
/// let mut room = [0; lesmutka::READ_BACK_WIDE_ROOM];
/// assert_eq!(lesmutka::read_back_wide(&[-5, 0, 0, 0, 3], 4, &mut room)?.to_string(), "0x2b");
/// // 1, -3 from the top
/// assert_eq!(lesmutka::read_back_wide(&[-3, 1], 3, &mut room)?.to_string(), "-0x01");
/// # Ok::<(), lesmutka::Refusal>(())
/// ```
pub fn read_back_wide<'a>(digits: &[i8], width: u32, out: &'a mut [u8]) -> Result<Value<'a>, Refusal> {
    value(sys::read_back_wide(bytes_of(digits), width, out), out)
}

/// The value that an answer says was written.
fn value(answer: sys::Value, out: &[u8]) -> Result<Value<'_>, Refusal> {
    Refusal::of(answer.refusal, answer.place)?;
    Ok(Value {
        is_negative: answer.sign != 0,
        size: &out[..answer.length],
    })
}

/// Writes the plan for a number by a method, and hands it back with the counts of its steps.
///
/// # Errors
///
/// Refusals 1, 13, 2, 3, 6. [`PLAN_ROOM`] is always enough.
pub fn plan<'a>(number: &[u8], method: Method, out: &'a mut [u8]) -> Result<Plan<'a>, Refusal> {
    let counts = Counts::try_from(sys::plan(number, method.number(), method.width(), out))?;
    Ok(Plan {
        bytes: &out[..STEP_BYTES * counts.total()],
        counts,
    })
}

/// The counts of the plan that [`plan`] gives for the same number and method, without the plan.
///
/// # Errors
///
/// Refusals 1, 13, 2, 3.
///
/// ```
/// use lesmutka::{forecast, Method};
///
/// // The method that takes the fewest steps.
/// let steps = |method: &Method| forecast(&[0xff; 32], *method).map_or(usize::MAX, |counts| counts.total());
/// assert_eq!(Method::ALL.iter().copied().min_by_key(steps), Some(Method::Naf));
/// ```
#[inline]
pub fn forecast(number: &[u8], method: Method) -> Result<Counts, Refusal> {
    Counts::try_from(sys::forecast(number, method.number(), method.width()))
}

/// Checks a plan for a number: each step is sound, and the last value is the number. Answers the
/// counts of its steps and the bits of the largest size among its values. The work space then holds a
/// record of [`RECORD_BYTES`] for each position, which [`records`] reads.
///
/// # Errors
///
/// Refusals 1, 13, 2, 7, 8, then 9, 10 or 11 at the first step that is not sound, then 12. At 9 to
/// 11 the records below that step are filled, at 12 all.
pub fn check(number: &[u8], plan: &[u8], space: &mut [u8]) -> Result<Accepted, Refusal> {
    Accepted::try_from(sys::check(number, plan, space))
}

/// Reads a hexadecimal number, with `0x` or `0X` in front or without: writes its bytes and hands
/// them back, one for two digits. Zeros in front count; a number with a leading zero byte is refused by
/// every call that takes a number: with 13, or with 1 if it is too long. None if there is no digit, if
/// there is anything else, or if the room is too small. [`text_room`] of the text's length is always
/// enough.
///
/// ```
/// use lesmutka::hexadecimal;
///
/// let mut room = [0; 2];
/// assert_eq!(hexadecimal(b"0x12b", &mut room), Some(&[0x2b, 0x01][..]));
/// assert_eq!(hexadecimal(b"002b", &mut room), Some(&[0x2b, 0x00][..]));
/// assert_eq!(hexadecimal(b"2g", &mut room), None);
/// ```
pub fn hexadecimal<'a>(text: &[u8], out: &'a mut [u8]) -> Option<&'a [u8]> {
    let answer = sys::hexadecimal(text, out);
    match answer.is_number {
        0 => None,
        _ => Some(&out[..answer.length]),
    }
}

/// Reads a decimal number: writes its bytes and hands them back without high zero bytes, as the calls
/// take them. The room has to be [`text_room`] of the text's length, and all of that is written.
///
/// # Errors
///
/// The text is empty, has a byte that is no digit, or the room is too small.
///
/// ```
/// use lesmutka::{decimal, text_room, NotDecimal};
///
/// let mut room = [0; text_room(3)];
/// assert_eq!(decimal(b"299", &mut room), Ok(&[0x2b, 0x01][..]));
/// assert_eq!(decimal(b"29x", &mut room), Err(NotDecimal { digits: 2 }));
/// ```
pub fn decimal<'a>(text: &[u8], out: &'a mut [u8]) -> Result<&'a [u8], NotDecimal> {
    let answer = sys::decimal(text, out);
    match answer.is_number {
        0 => Err(NotDecimal { digits: answer.place }),
        _ => Ok(&out[..answer.length]),
    }
}

/// The text is no decimal number, or the room for it is too small.
#[derive(Clone, Copy, Debug, PartialEq, Eq)]
pub struct NotDecimal {
    /// How many digits come before the first byte that is none: the text's length, if all are digits.
    pub digits: usize,
}

impl fmt::Display for NotDecimal {
    fn fmt(&self, f: &mut fmt::Formatter<'_>) -> fmt::Result {
        write!(
            f,
            "no decimal number, or too little room for it; {} digits come first",
            self.digits
        )
    }
}

/// Reads a digit string: words `0`, `1` and `-1`, most significant first, with blanks between them.
/// Writes the digits and hands them back, least significant first. Any other word becomes 2, which is
/// no digit, so that [`clean`] and [`read_back`] refuse it with its place.
///
/// # Errors
///
/// Refusal: 6. [`text_room`] of the text's length is always enough.
///
/// ```
/// use lesmutka::{read_digits, text_room};
///
/// let mut room = [0; text_room(6)];
/// assert_eq!(read_digits(b"1 0 -1", &mut room)?, [-1, 0, 1]);
/// # Ok::<(), lesmutka::Refusal>(())
/// ```
pub fn read_digits<'a>(text: &[u8], out: &'a mut [i8]) -> Result<&'a [i8], Refusal> {
    let length = written(sys::read_digits(text, bytes_of_mut(out)))?;
    Ok(&out[..length])
}

/// Reads a plan: words as [`Step`] prints them, the first step first, with blanks between them;
/// positions may have zeros in front. Writes the bytes of the steps and hands them back. Any other word
/// becomes a step of an unknown operation, so that [`check`] refuses it with its place.
///
/// # Errors
///
/// Refusals: 7 for more words than [`PLAN_STEPS`], then 6. [`PLAN_ROOM`] is always enough.
///
/// ```
/// use lesmutka::{read_steps, PLAN_ROOM};
///
/// let mut room = [0; PLAN_ROOM];
/// assert_eq!(read_steps(b"add(0,0) add(1,0)", &mut room)?, [0, 0, 0, 0, 0, 0, 1, 0, 0, 0]);
/// # Ok::<(), lesmutka::Refusal>(())
/// ```
pub fn read_steps<'a>(text: &[u8], out: &'a mut [u8]) -> Result<&'a [u8], Refusal> {
    let length = written(sys::read_steps(text, out))?;
    Ok(&out[..length])
}

/// A decimal number of at most 32 bits.
fn small(text: &str) -> Option<u32> {
    let mut room = [0; text_room(10)];
    // Zeros in front would take room.
    let digits = match text.trim_start_matches('0') {
        "" if !text.is_empty() => "0",
        digits => digits,
    };
    let bytes = decimal(digits.as_bytes(), &mut room).ok()?;
    let mut number = [0; 4];
    number.get_mut(..bytes.len())?.copy_from_slice(bytes);
    Some(u32::from_le_bytes(number))
}

/// What separates words, as the library's readers take it.
fn is_blank(byte: u8) -> bool {
    byte == b' ' || (b'\t'..=b'\r').contains(&byte)
}

/// The limits that the linked library keeps; they equal the constants of this crate.
pub fn limits() -> sys::Limits {
    sys::limits()
}

/// The version of the linked library, written as [`VERSION`] is.
pub fn version() -> u32 {
    sys::version()
}
