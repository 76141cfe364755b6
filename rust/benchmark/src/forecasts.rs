//! Forecasts by method 1: the library as C and as Rust call it, beside plain Rust by words and bit by
//! bit, which is written for this and knows no other method, and `reference`.
use crate::ways::{self, Way};
use crate::Inputs;
use lesmutka::{sys, Method};
use reference::limits::NUMBER_BYTES;
use reference::refusal::{HIGHEST_BYTE_IS_ZERO, NUMBER_IS_ZERO, NUMBER_TOO_LONG};
use reference::{Counts, Refusal};
use std::ops::AddAssign;

/// How often all numbers are forecast between two looks at the clock.
const PASSES: usize = 16;

extern "C" {
    fn forecasts_from_c(numbers: *const *const u8, count: usize, bytes: usize) -> usize;
    fn forecasts_kept_in_c(numbers: *const *const u8, count: usize, bytes: usize, kept: *mut sys::Counts) -> usize;
}

/// Refusals 1, 13 and 2.
fn admitted(number: &[u8]) -> Result<(), Refusal> {
    let number = match number.last() {
        _ if number.len() > NUMBER_BYTES => NUMBER_TOO_LONG,
        Some(0) => HIGHEST_BYTE_IS_ZERO,
        None => NUMBER_IS_ZERO,
        _ => return Ok(()),
    };
    Err(Refusal { number, place: 0 })
}

/// The answer of all plain programs for method 1: one doubling for each bit below the top one, one
/// addition for each 1 below it.
fn counted(top: usize, ones: usize) -> Result<Counts, Refusal> {
    Ok(Counts {
        doublings: top,
        additions: ones - 1,
        subtractions: 0,
    })
}

/// The place of the top bit of a number above zero, by its highest byte.
fn top(number: &[u8]) -> usize {
    8 * number.len() - 1 - number[number.len() - 1].leading_zeros() as usize
}

fn word(eight: &[u8]) -> u64 {
    u64::from_le_bytes(eight.try_into().expect("eight bytes"))
}

/// The ones of each word, and of the bytes above them.
#[inline(always)]
fn by_words(number: &[u8]) -> Result<Counts, Refusal> {
    admitted(number)?;
    let mut ones = 0;
    let mut words = number.chunks_exact(8);
    for eight in words.by_ref() {
        ones += word(eight).count_ones() as usize;
    }
    let rest = words.remainder().iter().rev();
    ones += rest.fold(0, |word, &byte| word << 8 | u64::from(byte)).count_ones() as usize;
    counted(top(number), ones)
}

/// The same as a call, which is what a linked library's is.
#[inline(never)]
fn by_words_called(number: &[u8]) -> Result<Counts, Refusal> {
    by_words(number)
}

/// The same by an index, which turns out quicker.
#[inline(never)]
fn by_indexed_words(number: &[u8]) -> Result<Counts, Refusal> {
    admitted(number)?;
    let (mut ones, mut i) = (0, 0);
    while i + 8 <= number.len() {
        ones += word(&number[i..i + 8]).count_ones() as usize;
        i += 8;
    }
    let mut rest: u64 = 0;
    while i < number.len() {
        rest = rest << 8 | u64::from(number[i]);
        i += 1;
    }
    counted(top(number), ones + rest.count_ones() as usize)
}

/// A test for each bit: is it a 1, and so the highest yet?
#[inline(never)]
fn by_bits(number: &[u8]) -> Result<Counts, Refusal> {
    admitted(number)?;
    let (mut top, mut ones) = (0, 0);
    for (i, byte) in number.iter().enumerate() {
        for bit in 0..8 {
            if byte >> bit & 1 == 1 {
                top = 8 * i + bit;
                ones += 1;
            }
        }
    }
    counted(top, ones)
}

/// The place of the top bit of a number above zero, by a test of each bit from above.
fn top_by_bits(number: &[u8]) -> usize {
    let mut top = 8 * number.len() - 1;
    while number[top / 8] >> (top % 8) & 1 == 0 {
        top -= 1;
    }
    top
}

/// The ones, by a test of each bit.
#[inline(always)]
fn ones_by_bits<T: Default + AddAssign + From<u8>>(number: &[u8]) -> T {
    let mut ones = T::default();
    for byte in number {
        for bit in 0..8 {
            if byte >> bit & 1 == 1 {
                ones += T::from(1);
            }
        }
    }
    ones
}

/// A test for each bit, the top one by itself: the compiler makes one of many tests.
#[inline(never)]
fn by_bits_top_apart(number: &[u8]) -> Result<Counts, Refusal> {
    admitted(number)?;
    counted(top_by_bits(number), ones_by_bits(number))
}

/// The same with a count of 32 bits, of which twice as many fit into a register.
#[inline(never)]
fn by_bits_in_32(number: &[u8]) -> Result<Counts, Refusal> {
    admitted(number)?;
    counted(top_by_bits(number), ones_by_bits::<u32>(number) as usize)
}

/// How many steps a plan has; none where it is refused.
fn steps(answer: Result<Counts, Refusal>) -> usize {
    answer.map_or(0, Counts::total)
}

/// All ways on these inputs: each answers the steps of all plans together.
fn all(inputs: &Inputs) -> Vec<Way<'_>> {
    let Inputs { bytes, numbers, .. } = inputs;
    let (bytes, count) = (*bytes, numbers.len());
    let pointers: Vec<*const u8> = numbers.iter().map(|number| number.as_ptr()).collect();
    let same_pointers = pointers.clone();
    let mut kept = vec![sys::forecast(&[], 1, 0); count];
    let mut kept_plain = vec![by_words(&[]); count];
    vec![
        // SAFETY: each pointer stands for that many bytes, which the inputs keep.
        Way::new("proved, from C", move || unsafe {
            forecasts_from_c(pointers.as_ptr(), count, bytes)
        }),
        Way::each("proved, from Rust", inputs, |number| {
            lesmutka::forecast(number, Method::Binary).map_or(0, lesmutka::Counts::total)
        }),
        Way::each("by words", inputs, |number| steps(by_words_called(number))),
        Way::each("by words, indexed", inputs, |number| steps(by_indexed_words(number))),
        Way::each("by words, inlined", inputs, |number| steps(by_words(number))),
        Way::each("rust/reference", inputs, |number| {
            steps(reference::forecast(number, 1, 0))
        }),
        Way::each("bit by bit", inputs, |number| steps(by_bits(number))),
        Way::each("bit by bit, top apart", inputs, |number| {
            steps(by_bits_top_apart(number))
        }),
        Way::each("same, count in 32 bits", inputs, |number| steps(by_bits_in_32(number))),
        // SAFETY: the same, and there is room for that many answers.
        Way::new("proved, from C, kept", move || unsafe {
            forecasts_kept_in_c(same_pointers.as_ptr(), count, bytes, kept.as_mut_ptr())
        }),
        Way::new("by words, kept", move || {
            for (answer, number) in kept_plain.iter_mut().zip(numbers) {
                *answer = by_words_called(number);
            }
            kept_plain.iter().map(|&answer| steps(answer)).sum()
        }),
    ]
}

/// What is timed is done: all ways answer the same.
pub fn agree(inputs: &Inputs) {
    let answer = inputs
        .numbers
        .iter()
        .map(|number| steps(reference::forecast(number, 1, 0)))
        .sum();
    ways::agree(&mut all(inputs), answer);
}

pub fn print(sizes: &[Inputs]) {
    ways::print("forecasts by method 1", PASSES, sizes, all);
}

#[cfg(test)]
mod tests {
    use super::*;
    use reference::generate::Rng;

    #[test]
    fn the_plain_forecasts_answer_as_the_reference_does() {
        let rng = &mut Rng::new(2);
        for bytes in 0..=NUMBER_BYTES + 1 {
            let mut numbers = vec![vec![0; bytes], vec![0xff; bytes]];
            numbers.extend((0..100).map(|_| rng.bytes(bytes)));
            for number in numbers {
                let answer = reference::forecast(&number, 1, 0);
                let plain = [by_words, by_indexed_words, by_bits, by_bits_top_apart, by_bits_in_32];
                for forecast in plain {
                    assert_eq!(forecast(&number), answer);
                }
            }
        }
    }

    #[test]
    fn all_ways_agree() {
        let rng = &mut Rng::new(3);
        for bytes in 1..=NUMBER_BYTES {
            agree(&Inputs::new(rng, bytes));
        }
    }
}
