//! The wide form: recodings beside `reference` and plain Rust that was written for this, and plain Rust
//! that cleans and reads back wide digit strings. All answer alike, refusals included.
use crate::recodings::{admitted, room, words_of};
use crate::ways::{self, Way};
use crate::Inputs;
use lesmutka::sys;
use reference::limits::{CLEAN_WIDE_ROOM, NAF_WIDTHS, NUMBER_BYTES, READ_BACK_WIDE_ROOM, RECODE_ROOM, STRING_DIGITS};
use reference::refusal::{METHOD_OR_WIDTH, NOT_A_DIGIT, STRING_TOO_LONG};
use reference::Refusal;

/// How often all numbers are recoded between two looks at the clock.
const PASSES: usize = 4;

/// Enough words for what stands at the places above a number's top bit.
const WORDS: usize = NUMBER_BYTES / 8 + 2;

/// Refusal 3.
fn check_width(width: u32) -> Result<(), Refusal> {
    match NAF_WIDTHS.contains(&width) {
        true => Ok(()),
        false => Err(Refusal {
            number: METHOD_OR_WIDTH,
            place: 0,
        }),
    }
}

/// The 64 bits from a place on.
#[inline(always)]
fn bits_from(words: &[u64; WORDS], place: usize) -> u64 {
    let (i, shift) = (place / 64, place % 64);
    words[i] >> shift | words[i + 1] << 1 << (63 - shift)
}

/// From one nonzero digit to the next by trailing zeros: without a carry it stands at the next 1, with one at
/// the next 0, since a carry runs through ones. The next bits are kept in a word, which is filled again where
/// a digit goes past them.
#[inline(never)]
fn by_trailing_zeros(number: &[u8], width: u32, out: &mut [u8]) -> Result<usize, Refusal> {
    admitted(number)?;
    check_width(width)?;
    let words = words_of(number);
    let mut digits = [0; RECODE_ROOM];
    let (mut place, mut carry, mut length) = (0, 0, 0);
    let (mut bits, mut left) = (words[0], 64);
    loop {
        let zeros = (bits ^ u64::wrapping_neg(carry)).trailing_zeros();
        let next = place + zeros.min(left) as usize;
        if next > 8 * number.len() {
            break;
        }
        if zeros + width > left {
            place = next;
            (bits, left) = (bits_from(&words, place), 64);
            continue;
        }
        let residue = (bits >> zeros & ((1 << width) - 1)) + carry;
        carry = residue >> (width - 1);
        digits[next] = residue.wrapping_sub(carry << width) as u8;
        length = next + 1;
        place = next + width as usize;
        bits = bits >> zeros >> width;
        left -= zeros + width;
    }
    room(out, length)?.copy_from_slice(&digits[..length]);
    Ok(length)
}

/// As libsecp256k1 publishes it (secp256k1_ecmult_wnaf): bit by bit to the next that is not the carry, then the
/// residue of w bits, and on by as many.
#[inline(never)]
fn bit_by_bit(number: &[u8], width: u32, out: &mut [u8]) -> Result<usize, Refusal> {
    admitted(number)?;
    check_width(width)?;
    let words = words_of(number);
    let all = 8 * number.len() + 1;
    let mut digits = [0; RECODE_ROOM];
    let (mut bit, mut carry, mut length) = (0, 0, 0);
    while bit < all {
        if bits_from(&words, bit) & 1 == carry {
            bit += 1;
            continue;
        }
        let now = (width as usize).min(all - bit);
        let word = (bits_from(&words, bit) & ((1 << now) - 1)) + carry;
        carry = word >> (width - 1) & 1;
        digits[bit] = word.wrapping_sub(carry << width) as u8;
        length = bit + 1;
        bit += now;
    }
    room(out, length)?.copy_from_slice(&digits[..length]);
    Ok(length)
}

/// Refusals 3, 5 and 4.
#[inline(always)]
fn admitted_string(digits: &[u8], width: u32) -> Result<(), Refusal> {
    check_width(width)?;
    let is_digit = |&byte: &u8| {
        let digit = byte as i8;
        (digit == 0) | ((digit & 1 == 1) & (digit.unsigned_abs() < 1 << (width - 1)))
    };
    if digits.len() > STRING_DIGITS {
        return Err(Refusal {
            number: STRING_TOO_LONG,
            place: 0,
        });
    }
    // Without an early end, so that the compiler can test several digits at a time.
    if digits.iter().fold(true, |all, byte| all & is_digit(byte)) {
        return Ok(());
    }
    Err(Refusal {
        number: NOT_A_DIGIT,
        place: digits.iter().position(|byte| !is_digit(byte)).unwrap_or(0),
    })
}

/// By the sum over the next w places, what the lower ones left included, which says the digit.
#[inline(never)]
pub fn cleaned_by_sums(digits: &[u8], width: u32, out: &mut [u8]) -> Result<usize, Refusal> {
    admitted_string(digits, width)?;
    let at = |place: usize| digits.get(place).map_or(0, |&byte| i32::from(byte as i8));
    let w = width as usize;
    let half = 1 << (w - 1);
    let mut cleaned = [0; CLEAN_WIDE_ROOM];
    let mut sum = (0..w).rev().fold(0, |sum, place| 2 * sum + at(place));
    let (mut place, mut length) = (0, 0);
    while place < digits.len() || sum != 0 {
        if sum & 1 == 1 {
            let digit = ((sum + half) & (2 * half - 1)) - half;
            cleaned[place] = digit as u8;
            length = place + 1;
            sum -= digit;
        }
        sum = (sum >> 1) + half * at(place + w);
        place += 1;
    }
    room(out, length)?.copy_from_slice(&cleaned[..length]);
    Ok(length)
}

/// Eight digits to a byte, with a carry that may be below zero; if it is at the end, the size is the opposite.
#[inline(never)]
pub fn read_by_bytes(digits: &[u8], width: u32, out: &mut [u8]) -> Result<(u8, usize), Refusal> {
    admitted_string(digits, width)?;
    let mut size = [0; READ_BACK_WIDE_ROOM];
    let mut carry = 0;
    let eights = digits.chunks(8);
    let bytes = eights.len() + 1;
    for (byte, eight) in size.iter_mut().zip(eights) {
        carry += eight
            .iter()
            .rev()
            .fold(0, |sum, &digit| 2 * sum + i32::from(digit as i8));
        *byte = carry as u8;
        carry >>= 8;
    }
    size[bytes - 1] = carry as u8;
    if carry < 0 {
        let mut more = true;
        for byte in &mut size[..bytes] {
            let (opposite, is_wrapped) = (!*byte).overflowing_add(u8::from(more));
            *byte = opposite;
            more = is_wrapped;
        }
    }
    let length = size.iter().rposition(|&byte| byte != 0).map_or(0, |top| top + 1);
    room(out, length)?.copy_from_slice(&size[..length]);
    Ok((u8::from(carry < 0), length))
}

type Recode = fn(&[u8], u32, &mut [u8]) -> Result<usize, Refusal>;

/// The plain recodings.
const PLAIN: [Recode; 2] = [by_trailing_zeros, bit_by_bit];

/// All ways of a width on these inputs: each answers the digits of all numbers together.
fn all<const WIDTH: u32>(inputs: &Inputs) -> Vec<Way<'_>> {
    fn each<'a>(name: &'static str, inputs: &'a Inputs, width: u32, recode: Recode) -> Way<'a> {
        let mut out = vec![0; RECODE_ROOM];
        Way::each(name, inputs, move |number| recode(number, width, &mut out).unwrap_or(0))
    }
    let mut proved = vec![0; RECODE_ROOM];
    vec![
        Way::each("proved, recode wide", inputs, move |number| {
            sys::recode_wide(number, WIDTH, &mut proved).length
        }),
        each("by trailing zeros", inputs, WIDTH, by_trailing_zeros),
        each("as libsecp256k1 does", inputs, WIDTH, bit_by_bit),
        each("rust/reference", inputs, WIDTH, reference::recode_wide),
    ]
}

/// What is timed is done: all ways answer as the reference does, and write the same.
fn agree<const WIDTH: u32>(inputs: &Inputs) {
    let mut digits = 0;
    for number in &inputs.numbers {
        let mut expected = [7; RECODE_ROOM];
        let answer = reference::recode_wide(number, WIDTH, &mut expected);
        digits += answer.unwrap_or(0);
        for recode in PLAIN {
            let mut out = [7; RECODE_ROOM];
            assert_eq!(recode(number, WIDTH, &mut out), answer);
            assert_eq!(out, expected);
        }
        let mut out = [7; RECODE_ROOM];
        assert_eq!(Ok(sys::recode_wide(number, WIDTH, &mut out).length), answer);
        assert_eq!(out, expected);
    }
    ways::agree(&mut all::<WIDTH>(inputs), digits);
}

pub fn print(sizes: &[Inputs]) {
    fn table<const WIDTH: u32>(sizes: &[Inputs]) {
        sizes.iter().for_each(agree::<WIDTH>);
        let title = format!("recodings of width {}", WIDTH);
        ways::print(&title, PASSES, sizes, all::<WIDTH>);
    }
    table::<4>(sizes);
    table::<5>(sizes);
    table::<6>(sizes);
}

#[cfg(test)]
mod tests {
    use super::*;
    use reference::generate::{corners, Generator, Rng};

    /// Every number by every width into just the room, a byte more and a byte less: the same answer, and the
    /// same bytes left.
    #[test]
    fn the_plain_recodings_answer_as_the_reference_does() {
        let rng = &mut Rng::new(6);
        for bytes in 0..=NUMBER_BYTES + 1 {
            let mut numbers = vec![vec![0; bytes], vec![0xff; bytes]];
            numbers.extend(corners(bytes));
            numbers.extend((0..20).map(|_| rng.bytes(bytes)));
            for number in numbers {
                for width in (0..=10).chain([258, u32::MAX]) {
                    let needed = reference::recode_wide(&number, width, &mut [0; RECODE_ROOM]).unwrap_or(0);
                    for room in [needed, needed + 1, needed.saturating_sub(1)] {
                        let mut expected = vec![7; room];
                        let answer = reference::recode_wide(&number, width, &mut expected);
                        for recode in PLAIN {
                            let mut out = vec![7; room];
                            assert_eq!(recode(&number, width, &mut out), answer, "{:x?} by {}", number, width);
                            assert_eq!(out, expected, "{:x?} by {}", number, width);
                        }
                    }
                }
            }
        }
    }

    #[test]
    fn the_plain_ways_with_strings_answer_as_the_reference_does() {
        let mut generator = Generator::new(7);
        for _ in 0..20_000 {
            let case = generator.clean_wide_case();
            let (mut out, mut expected) = (vec![7; case.room], vec![7; case.room]);
            let answer = reference::clean_wide(&case.digits, case.width, &mut expected);
            assert_eq!(
                cleaned_by_sums(&case.digits, case.width, &mut out),
                answer,
                "{:?}",
                case
            );
            assert_eq!(out, expected, "{:?}", case);
            let case = generator.read_back_wide_case();
            let (mut out, mut expected) = (vec![7; case.room], vec![7; case.room]);
            let answer = reference::read_back_wide(&case.digits, case.width, &mut expected);
            assert_eq!(read_by_bytes(&case.digits, case.width, &mut out), answer, "{:?}", case);
            assert_eq!(out, expected, "{:?}", case);
        }
    }

    #[test]
    fn all_ways_agree() {
        let rng = &mut Rng::new(8);
        for bytes in crate::SIZES {
            let inputs = Inputs::new(rng, bytes);
            agree::<2>(&inputs);
            agree::<5>(&inputs);
            agree::<8>(&inputs);
        }
    }
}
