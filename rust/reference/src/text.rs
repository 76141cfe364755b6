//! Numbers, digits and steps from text, and the words of refusals (docs/RULES.md, "Text").

use crate::limits::{PLAN_STEPS, STEP_BYTES};
use crate::refusal::PLAN_LENGTH;
use crate::{output, Refusal};

/// The number of a hexadecimal text, with 0x in front or without: as many bytes as its digits take,
/// two to a byte. None, and nothing written, where it has no digit, a byte that is none, or too
/// little room.
pub fn hexadecimal(text: &[u8], out: &mut [u8]) -> Option<usize> {
    let digits = match text {
        [b'0', b'x' | b'X', digits @ ..] => digits,
        _ => text,
    };
    let length = (digits.len() + 1) / 2;
    // Without an early end, so that the compiler can test several digits at a time.
    let is_digits = digits.iter().fold(true, |all, digit| all & digit.is_ascii_hexdigit());
    if digits.is_empty() || out.len() < length || !is_digits {
        return None;
    }
    for (byte, pair) in out.iter_mut().zip(digits.rchunks(2)) {
        *byte = pair
            .iter()
            .fold(0, |value, &digit| 16 * value + hexadecimal_digit(digit));
    }
    Some(length)
}

/// The low half of a letter's byte counts from 1.
fn hexadecimal_digit(digit: u8) -> u8 {
    digit % 16 + digit / 64 * 9
}

/// The number of a decimal text: how many bytes it has without high zero bytes. Half as many bytes as
/// there are digits, rounded up, are written. Where it is no number, how many digits come before the
/// first byte that is none.
pub fn decimal(text: &[u8], out: &mut [u8]) -> Result<usize, usize> {
    let digits = text
        .iter()
        .position(|byte| !byte.is_ascii_digit())
        .unwrap_or(text.len());
    let length = (text.len() + 1) / 2;
    if digits < text.len() || text.is_empty() || out.len() < length {
        return Err(digits);
    }
    let number = &mut out[..length];
    number.fill(0);
    // As many digits at a time as leave a byte's product and carry within a word.
    for digits in text.chunks(16) {
        let power = 10u64.pow(digits.len() as u32);
        let mut carry = digits
            .iter()
            .fold(0, |value, digit| 10 * value + u64::from(digit - b'0'));
        for byte in number.iter_mut() {
            carry += power * u64::from(*byte);
            *byte = carry as u8;
            carry >>= 8;
        }
    }
    Ok(number.iter().rposition(|&byte| byte != 0).map_or(0, |top| top + 1))
}

/// The words of a text: the longest runs of bytes that are no blanks, which are a space and the bytes
/// from tab to carriage return.
fn words_of(text: &[u8]) -> impl DoubleEndedIterator<Item = &[u8]> + Clone {
    let is_blank = |byte: &u8| *byte == b' ' || (9..=13).contains(byte);
    text.split(is_blank).filter(|word| !word.is_empty())
}

/// The digits of a text, least significant first; 2 for a word that is none.
pub fn read_digits(text: &[u8], out: &mut [u8]) -> Result<usize, Refusal> {
    let words = words_of(text);
    let out = output(out, words.clone().count())?;
    for (digit, word) in out.iter_mut().zip(words.rev()) {
        *digit = match word {
            b"0" => 0,
            b"1" => 1,
            b"-1" => 255,
            _ => 2,
        };
    }
    Ok(out.len())
}

/// The bytes of a text's steps; operation 2 for a word that is none. Refusal 7 if there are more words
/// than a plan has steps.
pub fn read_steps(text: &[u8], out: &mut [u8]) -> Result<usize, Refusal> {
    let words = words_of(text);
    if words.clone().count() > PLAN_STEPS {
        return Err(Refusal::new(PLAN_LENGTH, 0));
    }
    let out = output(out, STEP_BYTES * words.clone().count())?;
    for (bytes, word) in out.chunks_mut(STEP_BYTES).zip(words) {
        bytes.copy_from_slice(&step(word).unwrap_or([2, 0, 0, 0, 0]));
    }
    Ok(out.len())
}

fn step(word: &[u8]) -> Option<[u8; STEP_BYTES]> {
    let (operation, rest) = match (word.strip_prefix(b"add("), word.strip_prefix(b"subtract(")) {
        (Some(rest), _) => (0, rest),
        (_, Some(rest)) => (1, rest),
        _ => return None,
    };
    let mut parts = rest.strip_suffix(b")")?.split(|&byte| byte == b',');
    let (j, k) = (position(parts.next()?)?, position(parts.next()?)?);
    match parts.next() {
        None => Some([operation, j[0], j[1], k[0], k[1]]),
        Some(_) => None,
    }
}

fn position(digits: &[u8]) -> Option<[u8; 2]> {
    let mut value = 0;
    for digit in digits {
        if !digit.is_ascii_digit() {
            return None;
        }
        value = (10 * value + u32::from(digit - b'0')).min(1 << 16);
    }
    match digits.is_empty() || value >= 1 << 16 {
        true => None,
        false => Some((value as u16).to_le_bytes()),
    }
}

/// What each refusal says, by its number; 0 is none.
const WORDS: [&str; 14] = [
    "not refused",
    "the number is too long",
    "the number is zero",
    "no such method, or a width that it does not allow",
    "the byte at this place is no digit",
    "the digit string is too long",
    "the output needs this many bytes",
    "the plan is no whole number of steps, or has too many",
    "the work space is too short for the plan",
    "this step has an unknown operation, or a position that is not below its own",
    "the value at this step is zero",
    "the value at this step is too large",
    "the last value, at this position, is not the number",
    "the highest byte of the number is zero",
];

pub fn words(refusal: usize) -> &'static str {
    WORDS.get(refusal).copied().unwrap_or("no such refusal")
}

/// The words of a refusal, written.
pub fn write_words(refusal: usize, out: &mut [u8]) -> Result<usize, Refusal> {
    let words = words(refusal).as_bytes();
    output(out, words.len())?.copy_from_slice(words);
    Ok(words.len())
}
