//! Digits one by one.
use crate::{sys, Refusal, NUMBER_BYTES};
use core::iter::FusedIterator;

const NUMBER_WORDS: usize = NUMBER_BYTES / 8;

/// The canonical digits of a number one by one, lowest first.
///
/// # Errors
///
/// Refusals 1, 13.
///
/// ```
/// let digits = lesmutka::digits(&[43])?;
/// assert_eq!(digits.len(), 7);
/// assert!(digits.eq([-1, 0, -1, 0, -1, 0, 1]));
/// # Ok::<(), lesmutka::Refusal>(())
/// ```
pub fn digits(number: &[u8]) -> Result<Digits, Refusal> {
    let mut recoder = sys::Recoder {
        words: [0; NUMBER_WORDS + 1],
    };
    let answer = sys::start(number, &mut recoder);
    Refusal::of(answer.refusal, answer.place)?;
    Ok(Digits { recoder })
}

/// The canonical digits of a number that are left, lowest first. It keeps what it needs, so the
/// number may be gone; a clone goes on alone.
#[derive(Clone, Debug)]
pub struct Digits {
    recoder: sys::Recoder,
}

impl Digits {
    /// How many digits are left. The canonical string of n > 0 is as long as 3n has bits, less 1.
    fn left(&self) -> usize {
        let mut words = self.recoder.words;
        let mut carry = 3 * u128::from(words[NUMBER_WORDS] != 0);
        // Room for the top of 3n.
        words[NUMBER_WORDS] = 0;
        let mut bits = 0;
        for (i, &word) in words.iter().enumerate() {
            let sum = 3 * u128::from(word) + carry;
            let low = sum as u64;
            if low != 0 {
                bits = 64 * (i + 1) - low.leading_zeros() as usize;
            }
            carry = sum >> 64;
        }
        bits.saturating_sub(1)
    }
}

impl Iterator for Digits {
    type Item = i8;

    fn next(&mut self) -> Option<i8> {
        sys::take(&mut self.recoder).map(|byte| byte as i8)
    }

    fn size_hint(&self) -> (usize, Option<usize>) {
        let left = self.left();
        (left, Some(left))
    }
}

impl ExactSizeIterator for Digits {}
impl FusedIterator for Digits {}

#[cfg(test)]
mod tests {
    use super::*;

    const BITS: usize = 8 * NUMBER_BYTES;

    /// Takes all digits of a recoder put together by hand, of which this many are left.
    fn takes(low: &[u64], carry: u64, left: usize) {
        let mut words = [0; NUMBER_WORDS + 1];
        words[..low.len()].copy_from_slice(low);
        words[NUMBER_WORDS] = carry;
        let mut digits = Digits {
            recoder: sys::Recoder { words },
        };
        for left in (0..=left).rev() {
            assert_eq!(digits.size_hint(), (left, Some(left)), "{:x?}", words);
            assert_eq!(digits.next().is_some(), left > 0, "{:x?}", words);
        }
    }

    #[test]
    fn any_carry_counts_as_one() {
        const ONES: u64 = u64::MAX;
        takes(&[], 0, 0);
        takes(&[], 1, 1);
        takes(&[], ONES, 1);
        // 2, then 3
        takes(&[1], 7, 2);
        takes(&[2], 1 << 63, 3);
        // 2^64, 2^128, and one above the greatest number
        takes(&[ONES], 1, 65);
        takes(&[ONES; 2], 1, 129);
        for carry in [0, 1, ONES] {
            takes(&[ONES; NUMBER_WORDS], carry, BITS + 1);
        }
        // 2^BITS / 3 rounded down, and one more: 1 0 1 0 .., then 1 0 -1 0 -1 ..
        takes(&[ONES / 3; NUMBER_WORDS], 0, BITS - 1);
        takes(&[ONES / 3; NUMBER_WORDS], 1, BITS);
    }
}
