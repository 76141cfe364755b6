//! Recodings: the library's two calls beside `reference` and plain Rust that was written for this. Some of
//! it goes by words, as the library does; the rest takes off one digit at a time and halves the whole
//! number. All answer alike, refusals included, but for the one that tests nothing.
use crate::ways::{self, Way};
use crate::{tuned, Inputs};
use lesmutka::sys;
use reference::generate::Rng;
use reference::limits::{NUMBER_BYTES, RECODE_ROOM};
use reference::refusal::{HIGHEST_BYTE_IS_ZERO, NUMBER_TOO_LONG, ROOM_TOO_SMALL};
use reference::Refusal;

/// How many bytes the numbers have, and how often all are recoded between two looks at the clock.
const SIZES: [usize; 4] = [8, 16, 32, NUMBER_BYTES];
const PASSES: usize = 4;

const NUMBER_WORDS: usize = NUMBER_BYTES / 8;

/// Refusals 1 and 13.
pub fn admitted(number: &[u8]) -> Result<(), Refusal> {
    let number = match number.last() {
        _ if number.len() > NUMBER_BYTES => NUMBER_TOO_LONG,
        Some(0) => HIGHEST_BYTE_IS_ZERO,
        _ => return Ok(()),
    };
    Err(Refusal { number, place: 0 })
}

/// The bytes to write, or refusal 6.
pub fn room(out: &mut [u8], needed: usize) -> Result<&mut [u8], Refusal> {
    out.get_mut(..needed).ok_or(Refusal {
        number: ROOM_TOO_SMALL,
        place: needed,
    })
}

/// The words of a number within the limit, and at least one that is 0 above them.
pub fn words_of<const N: usize>(number: &[u8]) -> [u64; N] {
    let mut words = [0; N];
    let eights = number.chunks_exact(8);
    let rest = eights.remainder().iter().rev();
    for (word, eight) in words.iter_mut().zip(eights) {
        *word = u64::from_le_bytes(eight.try_into().expect("eight bytes"));
    }
    words[number.len() / 8] |= rest.fold(0, |word, &byte| word << 8 | u64::from(byte));
    words
}

/// The digits of a number by words: they are not 0 where 3e and e differ, one place up, and minus 1 where
/// it is e that has the one.
pub struct ByWords {
    single: [u64; NUMBER_WORDS + 2],
    differ: [u64; NUMBER_WORDS + 2],
    pub length: usize,
}

impl ByWords {
    pub fn of(number: &[u8]) -> ByWords {
        let single = words_of(number);
        let mut differ = single;
        let (mut below, mut carry, mut length) = (0, 0, 0);
        for i in 0..=NUMBER_WORDS {
            let word: u64 = single[i];
            let (sum, is_wrapped) = word.overflowing_add(word << 1 | below >> 63);
            let (triple, is_wrapped_again) = sum.overflowing_add(carry);
            if triple != 0 {
                length = 64 * i + 63 - triple.leading_zeros() as usize;
            }
            differ[i] = word ^ triple;
            below = word;
            carry = u64::from(is_wrapped) + u64::from(is_wrapped_again);
        }
        ByWords { single, differ, length }
    }

    /// A bit for each of the digits from 64 times i on: which are not 0, and which are minus 1.
    fn nonzero_and_minus(&self, i: usize) -> (u64, u64) {
        let one_down = |words: &[u64]| words[i] >> 1 | words[i + 1] << 63;
        let nonzero = one_down(&self.differ);
        (nonzero, nonzero & one_down(&self.single))
    }

    pub fn is_minus_one(&self, place: usize) -> bool {
        let (_, minus) = self.nonzero_and_minus(place / 64);
        minus >> (place % 64) & 1 == 1
    }

    /// How many digits are not 0, and how many are minus 1.
    pub fn count(&self) -> (usize, usize) {
        let (mut nonzero, mut minus) = (0, 0);
        for i in 0..=NUMBER_WORDS {
            let (these, minus_these) = self.nonzero_and_minus(i);
            nonzero += these.count_ones() as usize;
            minus += minus_these.count_ones() as usize;
        }
        (nonzero, minus)
    }
}

/// Each digit from its two bits.
#[inline(never)]
fn digit_by_digit(number: &[u8], out: &mut [u8]) -> Result<usize, Refusal> {
    admitted(number)?;
    let by_words = ByWords::of(number);
    for (i, digits) in room(out, by_words.length)?.chunks_mut(64).enumerate() {
        let (nonzero, minus) = by_words.nonzero_and_minus(i);
        for (place, digit) in digits.iter_mut().enumerate() {
            let minus = (minus >> place & 1) as u8;
            *digit = (nonzero >> place & 1) as u8 | minus.wrapping_neg();
        }
    }
    Ok(by_words.length)
}

/// Zeros, then the digits that are not 0.
#[inline(never)]
fn nonzero_digits(number: &[u8], out: &mut [u8]) -> Result<usize, Refusal> {
    admitted(number)?;
    let by_words = ByWords::of(number);
    for (i, digits) in room(out, by_words.length)?.chunks_mut(64).enumerate() {
        let (mut nonzero, minus) = by_words.nonzero_and_minus(i);
        digits.fill(0x00);
        while nonzero != 0 {
            let place = nonzero.trailing_zeros() as usize;
            digits[place] = if minus >> place & 1 == 1 { 0xFF } else { 0x01 };
            nonzero &= nonzero - 1;
        }
    }
    Ok(by_words.length)
}

/// For each byte a word with a byte FF where the byte has a one.
static SPREAD: [u64; 256] = spread();

const fn spread() -> [u64; 256] {
    let mut table = [0; 256];
    let mut byte = 0;
    while byte < 256 {
        let mut place = 0;
        while place < 8 {
            if byte >> place & 1 == 1 {
                table[byte] |= 0xFF << (8 * place);
            }
            place += 1;
        }
        byte += 1;
    }
    table
}

/// Eight digits from a byte each of the two, by a table.
#[inline(never)]
fn eight_digits(number: &[u8], out: &mut [u8]) -> Result<usize, Refusal> {
    admitted(number)?;
    let by_words = ByWords::of(number);
    write_eight_at_once(&by_words, room(out, by_words.length)?);
    Ok(by_words.length)
}

/// The digits from the lowest on, as many as there is room for.
#[inline(always)]
pub fn write_eight_at_once(by_words: &ByWords, out: &mut [u8]) {
    const ONES: u64 = u64::MAX / 0xFF;
    for (i, digits) in out.chunks_mut(64).enumerate() {
        let (nonzero, minus) = by_words.nonzero_and_minus(i);
        let eight = |place: usize| {
            let spread = |word: u64| SPREAD[(word >> place & 0xFF) as usize];
            (spread(nonzero) & ONES | spread(minus)).to_le_bytes()
        };
        let mut eights = digits.chunks_exact_mut(8);
        let mut place = 0;
        for digits in eights.by_ref() {
            digits.copy_from_slice(&eight(place));
            place += 8;
        }
        let rest = eights.into_remainder();
        if !rest.is_empty() {
            rest.copy_from_slice(&eight(place)[..rest.len()]);
        }
    }
}

// One digit at a time is taken off a number within the limit, which is then halved. Each answers how many
// digits there are.

/// On all bytes.
#[inline(always)]
fn halved_bytes(number: &[u8], digits: &mut [u8]) -> usize {
    // One byte more, for a carry out of all of them.
    let mut rest = [0; NUMBER_BYTES + 1];
    rest[..number.len()].copy_from_slice(number);
    let mut length = 0;
    while rest.iter().any(|&byte| byte != 0) {
        digits[length] = match rest[0] & 3 {
            1 => {
                rest[0] -= 1;
                0x01
            }
            3 => {
                for byte in &mut rest {
                    *byte = byte.wrapping_add(1);
                    if *byte != 0 {
                        break;
                    }
                }
                0xFF
            }
            _ => 0x00,
        };
        length += 1;
        let mut above = 0;
        for byte in rest.iter_mut().rev() {
            let low = *byte & 1;
            *byte = *byte >> 1 | above << 7;
            above = low;
        }
    }
    length
}

/// On all words.
#[inline(always)]
fn halved_words(number: &[u8], digits: &mut [u8]) -> usize {
    let mut rest: [u64; NUMBER_WORDS + 1] = words_of(number);
    let mut length = 0;
    while rest.iter().any(|&word| word != 0) {
        digits[length] = match rest[0] & 3 {
            1 => {
                rest[0] -= 1;
                0x01
            }
            3 => {
                add_one(&mut rest);
                0xFF
            }
            _ => 0x00,
        };
        length += 1;
        halve(&mut rest);
    }
    length
}

/// On the words up to the highest that is not 0. The number is halved first; then half of e + 1 is one more.
#[inline(always)]
fn halved_words_in_use(number: &[u8], digits: &mut [u8]) -> usize {
    let mut words: [u64; NUMBER_WORDS + 1] = words_of(number);
    let (mut in_use, mut length) = (NUMBER_WORDS, 0);
    loop {
        while in_use > 0 && words[in_use - 1] == 0 {
            in_use -= 1;
        }
        if in_use == 0 {
            return length;
        }
        let rest = &mut words[..in_use];
        let low = rest[0] & 3;
        halve(rest);
        digits[length] = match low {
            1 => 0x01,
            3 => {
                add_one(rest);
                0xFF
            }
            _ => 0x00,
        };
        length += 1;
    }
}

/// On all words, without a branch on the digit: the recoder for takes.
#[inline(always)]
fn halved_without_branch(number: &[u8], digits: &mut [u8]) -> usize {
    let mut whole_words = [0; NUMBER_BYTES];
    whole_words[..number.len()].copy_from_slice(number);
    let mut recoder = tuned::Recoder::start(&whole_words);
    let mut length = 0;
    while let Some(digit) = recoder.take() {
        digits[length] = digit;
        length += 1;
    }
    length
}

fn add_one(words: &mut [u64]) {
    for word in words {
        *word = word.wrapping_add(1);
        if *word != 0 {
            break;
        }
    }
}

fn halve(words: &mut [u64]) {
    let mut above = 0;
    for word in words.iter_mut().rev() {
        let low = *word & 1;
        *word = *word >> 1 | above << 63;
        above = low;
    }
}

/// The digits are taken off into an array, since only then is it known how many there are.
#[inline(always)]
fn taken_off(number: &[u8], out: &mut [u8], take_off: impl Fn(&[u8], &mut [u8]) -> usize) -> Result<usize, Refusal> {
    admitted(number)?;
    let mut digits = [0; RECODE_ROOM];
    let length = take_off(number, &mut digits);
    room(out, length)?.copy_from_slice(&digits[..length]);
    Ok(length)
}

#[inline(never)]
fn by_bytes(number: &[u8], out: &mut [u8]) -> Result<usize, Refusal> {
    taken_off(number, out, halved_bytes)
}

#[inline(never)]
fn by_halved_words(number: &[u8], out: &mut [u8]) -> Result<usize, Refusal> {
    taken_off(number, out, halved_words)
}

#[inline(never)]
fn by_words_in_use(number: &[u8], out: &mut [u8]) -> Result<usize, Refusal> {
    taken_off(number, out, halved_words_in_use)
}

#[inline(never)]
fn without_branch(number: &[u8], out: &mut [u8]) -> Result<usize, Refusal> {
    taken_off(number, out, halved_without_branch)
}

/// A number within the limit, straight into enough room.
#[inline(never)]
fn untested(number: &[u8], out: &mut [u8]) -> usize {
    halved_words_in_use(number, out)
}

/// All ways on these inputs: each answers the digits of all numbers together.
fn all(inputs: &Inputs) -> Vec<Way<'_>> {
    fn each<'a>(
        name: &'static str,
        inputs: &'a Inputs,
        recode: impl Fn(&[u8], &mut [u8]) -> Result<usize, Refusal> + 'a,
    ) -> Way<'a> {
        let mut out = vec![0; RECODE_ROOM];
        Way::each(name, inputs, move |number| recode(number, &mut out).unwrap_or(0))
    }
    let [mut by_words, mut recoded, mut straight] = [(); 3].map(|()| vec![0; RECODE_ROOM]);
    vec![
        Way::each("proved, by words", inputs, move |number| {
            sys::recode_words(number, &mut by_words).length
        }),
        Way::each("proved, recode", inputs, move |number| {
            sys::recode(number, &mut recoded).length
        }),
        each("rust/reference", inputs, reference::recode),
        each("by words, each digit", inputs, digit_by_digit),
        each("by words, nonzero digits", inputs, nonzero_digits),
        each("by words, eight at once", inputs, eight_digits),
        each("halved bytes", inputs, by_bytes),
        each("halved words", inputs, by_halved_words),
        each("same, without branch", inputs, without_branch),
        each("halved words in use", inputs, by_words_in_use),
        Way::each("same, nothing tested", inputs, move |number| {
            untested(number, &mut straight)
        }),
    ]
}

type Recode = fn(&[u8], &mut [u8]) -> Result<usize, Refusal>;

/// The plain programs, but for the one that tests nothing.
const PLAIN: [Recode; 7] = [
    digit_by_digit,
    nonzero_digits,
    eight_digits,
    by_bytes,
    by_halved_words,
    without_branch,
    by_words_in_use,
];

/// What is timed is done: all ways answer as the reference does, and write the same.
fn agree(inputs: &Inputs) {
    ways::agree(&mut all(inputs), inputs.canonicals.iter().map(Vec::len).sum());
    for (number, canonical) in inputs.numbers.iter().zip(&inputs.canonicals) {
        for recode in PLAIN {
            let mut out = [7; RECODE_ROOM];
            assert_eq!(recode(number, &mut out), Ok(canonical.len()));
            assert_eq!(out[..canonical.len()], canonical[..]);
        }
        for recode in [sys::recode_words, sys::recode] {
            let mut out = [7; RECODE_ROOM];
            assert_eq!(recode(number, &mut out).length, canonical.len());
            assert_eq!(out[..canonical.len()], canonical[..]);
        }
        let mut out = [7; RECODE_ROOM];
        assert_eq!(untested(number, &mut out), canonical.len());
        assert_eq!(out[..canonical.len()], canonical[..]);
    }
}

pub fn print(rng: &mut Rng) {
    let sizes = SIZES.map(|bytes| Inputs::new(rng, bytes));
    sizes.iter().for_each(agree);
    ways::print("recodings", PASSES, &sizes, all);
}

#[cfg(test)]
mod tests {
    use super::*;
    use reference::generate::corners;

    /// Every number into just the room, a byte more and a byte less: the same answer, and the same bytes left.
    #[test]
    fn the_plain_recodings_answer_as_the_reference_does() {
        let rng = &mut Rng::new(4);
        for bytes in 0..=NUMBER_BYTES + 1 {
            let mut numbers = vec![vec![0; bytes], vec![0xff; bytes]];
            numbers.extend(corners(bytes));
            numbers.extend((0..50).map(|_| rng.bytes(bytes)));
            for number in numbers {
                let needed = reference::recode(&number, &mut [0; RECODE_ROOM]).unwrap_or(0);
                for room in [needed, needed + 1, needed.saturating_sub(1)] {
                    let mut expected = vec![7; room];
                    let answer = reference::recode(&number, &mut expected);
                    for recode in PLAIN {
                        let mut out = vec![7; room];
                        assert_eq!(recode(&number, &mut out), answer, "{:x?}", number);
                        assert_eq!(out, expected, "{:x?}", number);
                    }
                }
            }
        }
    }

    #[test]
    fn all_ways_agree() {
        let rng = &mut Rng::new(5);
        for bytes in SIZES {
            agree(&Inputs::new(rng, bytes));
        }
    }
}
