//! The functions of include/lesmutka.h as they are linked, and each over slices and references,
//! which keep the header's rule for pointers.
//!
//! [`crate`] has calls over all of them with idiomatic Rust answers.
//!
//! The rule for pointers: a pointer to bytes stands for as many bytes as the length after it says,
//! and may be null if that is 0; a pointer to a recoder is not null and is aligned; what is written
//! overlaps no other argument. The functions that begin with `lesmutka_` are unsafe because of it
//! alone.

/// What the start of taking answers.
#[repr(C)]
#[derive(Clone, Copy, Debug, PartialEq, Eq)]
pub struct Started {
    /// The number of the refusal, or 0.
    pub refusal: usize,
    /// Its place, or 0.
    pub place: usize,
}

/// How many bytes were written.
#[repr(C)]
#[derive(Clone, Copy, Debug, PartialEq, Eq)]
pub struct Length {
    /// The number of the refusal, or 0.
    pub refusal: usize,
    /// Its place, or 0.
    pub place: usize,
    /// The bytes written.
    pub length: usize,
}

/// The sign, and how many bytes of size were written.
#[repr(C)]
#[derive(Clone, Copy, Debug, PartialEq, Eq)]
pub struct Value {
    /// The number of the refusal, or 0.
    pub refusal: usize,
    /// Its place, or 0.
    pub place: usize,
    /// 1 below zero, else 0.
    pub sign: usize,
    /// The bytes of size written.
    pub length: usize,
}

/// How many steps of each kind.
#[repr(C)]
#[derive(Clone, Copy, Debug, PartialEq, Eq)]
pub struct Counts {
    /// The number of the refusal, or 0.
    pub refusal: usize,
    /// Its place, or 0.
    pub place: usize,
    /// Steps that add equal values or subtract opposite ones.
    pub doublings: usize,
    /// Other steps that add.
    pub additions: usize,
    /// Other steps that subtract.
    pub subtractions: usize,
}

/// How many steps of each kind an accepted plan has, and the bits of its largest size.
#[repr(C)]
#[derive(Clone, Copy, Debug, PartialEq, Eq)]
pub struct Accepted {
    /// The number of the refusal, or 0.
    pub refusal: usize,
    /// Its place, or 0.
    pub place: usize,
    /// Steps that add equal values or subtract opposite ones.
    pub doublings: usize,
    /// Other steps that add.
    pub additions: usize,
    /// Other steps that subtract.
    pub subtractions: usize,
    /// The bit length of the largest size among the values.
    pub largest_bits: usize,
}

/// What a reader of a number answers.
#[repr(C)]
#[derive(Clone, Copy, Debug, PartialEq, Eq)]
pub struct Parsed {
    /// 1 if the text is a number and there was room for it, else 0.
    pub is_number: usize,
    /// How many digits come first, where [`lesmutka_decimal`] reads no number; else 0.
    pub place: usize,
    /// The bytes of the number.
    pub length: usize,
}

/// The limits that the linked library keeps.
#[repr(C)]
#[derive(Clone, Copy, Debug, PartialEq, Eq)]
pub struct Limits {
    /// [`crate::NUMBER_BYTES`].
    pub number_bytes: usize,
    /// [`crate::STRING_DIGITS`].
    pub string_digits: usize,
    /// [`crate::STEP_BYTES`].
    pub step_bytes: usize,
    /// [`crate::PLAN_STEPS`].
    pub plan_steps: usize,
    /// [`crate::VALUE_BYTES`].
    pub value_bytes: usize,
    /// [`crate::RECORD_BYTES`].
    pub record_bytes: usize,
}

/// A recoder: it stands for the number of the first words, least significant first, plus one where
/// the last word is not 0.
#[repr(C)]
#[derive(Clone, Copy, Debug, PartialEq, Eq)]
pub struct Recoder {
    /// The words of the number, then the carry.
    pub words: [u64; crate::NUMBER_BYTES / 8 + 1],
}

/// What [`lesmutka_take`] answers where no digit is left.
pub const DONE: u32 = 0x100;

extern "C" {
    /// Writes the canonical string of a number. Refused: 1, 13, 6.
    pub fn lesmutka_recode(number: *const u8, number_length: usize, out: *mut u8, out_length: usize) -> Length;
    /// The same by words. Refused: 1, 13, 6.
    pub fn lesmutka_recode_words(number: *const u8, number_length: usize, out: *mut u8, out_length: usize) -> Length;
    /// Writes the width-w NAF of a number. Refused: 1, 13, 3, 6.
    pub fn lesmutka_recode_wide(
        number: *const u8,
        number_length: usize,
        width: u32,
        out: *mut u8,
        out_length: usize,
    ) -> Length;
    /// Writes the modified NAF of a number. Refused: 1, 13, 6.
    pub fn lesmutka_recode_modified(number: *const u8, number_length: usize, out: *mut u8, out_length: usize)
        -> Length;
    /// Starts taking the canonical digits of a number. Refused: 1, 13; the recoder is then that of zero.
    pub fn lesmutka_start(number: *const u8, number_length: usize, recoder: *mut Recoder) -> Started;
    /// Takes the lowest digit that is left: its byte, or [`DONE`].
    pub fn lesmutka_take(recoder: *mut Recoder) -> u32;
    /// Writes the canonical string of a digit string's value. Refused: 5, 4, 6.
    pub fn lesmutka_clean(digits: *const u8, digits_length: usize, out: *mut u8, out_length: usize) -> Length;
    /// Writes the width-w NAF of a wide digit string's value. Refused: 3, 5, 4, 6.
    pub fn lesmutka_clean_wide(
        digits: *const u8,
        digits_length: usize,
        width: u32,
        out: *mut u8,
        out_length: usize,
    ) -> Length;
    /// Writes the size of a digit string's value, and answers the sign. Refused: 5, 4, 6.
    pub fn lesmutka_read_back(digits: *const u8, digits_length: usize, out: *mut u8, out_length: usize) -> Value;
    /// Writes the size of a wide digit string's value, and answers the sign. Refused: 3, 5, 4, 6.
    pub fn lesmutka_read_back_wide(
        digits: *const u8,
        digits_length: usize,
        width: u32,
        out: *mut u8,
        out_length: usize,
    ) -> Value;
    /// Writes the plan for a number by a method. Refused: 1, 13, 2, 3, 6.
    pub fn lesmutka_plan(
        number: *const u8,
        number_length: usize,
        method: u32,
        width: u32,
        out: *mut u8,
        out_length: usize,
    ) -> Counts;
    /// The counts of that plan, without it. Refused: 1, 13, 2, 3.
    pub fn lesmutka_forecast(number: *const u8, number_length: usize, method: u32, width: u32) -> Counts;
    /// Checks a plan for a number. Refused: 1, 13, 2, 7, 8, then 9, 10 or 11, then 12.
    pub fn lesmutka_check(
        number: *const u8,
        number_length: usize,
        plan: *const u8,
        plan_length: usize,
        space: *mut u8,
        space_length: usize,
    ) -> Accepted;
    /// Reads a hexadecimal number. Nothing is written where the text is none.
    pub fn lesmutka_hexadecimal(text: *const u8, text_length: usize, out: *mut u8, out_length: usize) -> Parsed;
    /// Reads a decimal number. Nothing is written where the text is none.
    pub fn lesmutka_decimal(text: *const u8, text_length: usize, out: *mut u8, out_length: usize) -> Parsed;
    /// Reads a digit string from text. Refused: 6.
    pub fn lesmutka_read_digits(text: *const u8, text_length: usize, out: *mut u8, out_length: usize) -> Length;
    /// Reads the steps of a plan from text. Refused: 7, 6.
    pub fn lesmutka_read_steps(text: *const u8, text_length: usize, out: *mut u8, out_length: usize) -> Length;
    /// Writes a refusal in plain words. Refused: 6.
    pub fn lesmutka_write_words(refusal: usize, out: *mut u8, out_length: usize) -> Length;
    /// The limits that the library keeps.
    pub fn lesmutka_limits() -> Limits;
    /// The library's version: 10000 times the major, 100 times the minor, and the patch.
    pub fn lesmutka_version() -> u32;
}

// SAFETY of each call below: a slice's pointer stands for as many bytes as its length says, a `&mut`
// is not aliased, and a reference to a recoder is not null and is aligned.

/// [`lesmutka_recode`] over slices.
#[inline]
pub fn recode(number: &[u8], out: &mut [u8]) -> Length {
    unsafe { lesmutka_recode(number.as_ptr(), number.len(), out.as_mut_ptr(), out.len()) }
}

/// [`lesmutka_recode_words`] over slices.
#[inline]
pub fn recode_words(number: &[u8], out: &mut [u8]) -> Length {
    unsafe { lesmutka_recode_words(number.as_ptr(), number.len(), out.as_mut_ptr(), out.len()) }
}

/// [`lesmutka_recode_wide`] over slices.
#[inline]
pub fn recode_wide(number: &[u8], width: u32, out: &mut [u8]) -> Length {
    unsafe { lesmutka_recode_wide(number.as_ptr(), number.len(), width, out.as_mut_ptr(), out.len()) }
}

/// [`lesmutka_recode_modified`] over slices.
#[inline]
pub fn recode_modified(number: &[u8], out: &mut [u8]) -> Length {
    unsafe { lesmutka_recode_modified(number.as_ptr(), number.len(), out.as_mut_ptr(), out.len()) }
}

/// [`lesmutka_start`] over a slice and a reference.
#[inline]
pub fn start(number: &[u8], recoder: &mut Recoder) -> Started {
    unsafe { lesmutka_start(number.as_ptr(), number.len(), recoder) }
}

/// [`lesmutka_take`] over a reference: the byte of a digit, or none where no digit is left.
#[inline]
pub fn take(recoder: &mut Recoder) -> Option<u8> {
    match unsafe { lesmutka_take(recoder) } {
        DONE => None,
        byte => Some(byte as u8),
    }
}

/// [`lesmutka_clean`] over slices.
#[inline]
pub fn clean(digits: &[u8], out: &mut [u8]) -> Length {
    unsafe { lesmutka_clean(digits.as_ptr(), digits.len(), out.as_mut_ptr(), out.len()) }
}

/// [`lesmutka_clean_wide`] over slices.
#[inline]
pub fn clean_wide(digits: &[u8], width: u32, out: &mut [u8]) -> Length {
    unsafe { lesmutka_clean_wide(digits.as_ptr(), digits.len(), width, out.as_mut_ptr(), out.len()) }
}

/// [`lesmutka_read_back`] over slices.
#[inline]
pub fn read_back(digits: &[u8], out: &mut [u8]) -> Value {
    unsafe { lesmutka_read_back(digits.as_ptr(), digits.len(), out.as_mut_ptr(), out.len()) }
}

/// [`lesmutka_read_back_wide`] over slices.
#[inline]
pub fn read_back_wide(digits: &[u8], width: u32, out: &mut [u8]) -> Value {
    unsafe { lesmutka_read_back_wide(digits.as_ptr(), digits.len(), width, out.as_mut_ptr(), out.len()) }
}

/// [`lesmutka_plan`] over slices.
#[inline]
pub fn plan(number: &[u8], method: u32, width: u32, out: &mut [u8]) -> Counts {
    let (bytes, room) = (number.len(), out.len());
    unsafe { lesmutka_plan(number.as_ptr(), bytes, method, width, out.as_mut_ptr(), room) }
}

/// [`lesmutka_forecast`] over a slice.
#[inline]
pub fn forecast(number: &[u8], method: u32, width: u32) -> Counts {
    unsafe { lesmutka_forecast(number.as_ptr(), number.len(), method, width) }
}

/// [`lesmutka_check`] over slices.
#[inline]
pub fn check(number: &[u8], plan: &[u8], space: &mut [u8]) -> Accepted {
    let (bytes, steps, room) = (number.len(), plan.len(), space.len());
    unsafe { lesmutka_check(number.as_ptr(), bytes, plan.as_ptr(), steps, space.as_mut_ptr(), room) }
}

/// [`lesmutka_hexadecimal`] over slices.
#[inline]
pub fn hexadecimal(text: &[u8], out: &mut [u8]) -> Parsed {
    unsafe { lesmutka_hexadecimal(text.as_ptr(), text.len(), out.as_mut_ptr(), out.len()) }
}

/// [`lesmutka_decimal`] over slices.
#[inline]
pub fn decimal(text: &[u8], out: &mut [u8]) -> Parsed {
    unsafe { lesmutka_decimal(text.as_ptr(), text.len(), out.as_mut_ptr(), out.len()) }
}

/// [`lesmutka_read_digits`] over slices.
#[inline]
pub fn read_digits(text: &[u8], out: &mut [u8]) -> Length {
    unsafe { lesmutka_read_digits(text.as_ptr(), text.len(), out.as_mut_ptr(), out.len()) }
}

/// [`lesmutka_read_steps`] over slices.
#[inline]
pub fn read_steps(text: &[u8], out: &mut [u8]) -> Length {
    unsafe { lesmutka_read_steps(text.as_ptr(), text.len(), out.as_mut_ptr(), out.len()) }
}

/// [`lesmutka_write_words`] over a slice.
#[inline]
pub fn write_words(refusal: usize, out: &mut [u8]) -> Length {
    unsafe { lesmutka_write_words(refusal, out.as_mut_ptr(), out.len()) }
}

/// [`lesmutka_limits`].
#[inline]
pub fn limits() -> Limits {
    unsafe { lesmutka_limits() }
}

/// [`lesmutka_version`].
#[inline]
pub fn version() -> u32 {
    unsafe { lesmutka_version() }
}
