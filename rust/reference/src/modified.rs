//! The modified non-adjacent form of document 004: the non-adjacent form, except that leading digits 1 0 -1
//! become 1 1.

use crate::limits::{NUMBER_WORDS, RECODE_ROOM};
use crate::number::Number;
use crate::{output, words, Refusal};

/// The modified form of a number.
pub(crate) struct ModifiedNaf {
    /// Lowest first; those from the length on do not count.
    digits: [i8; RECODE_ROOM],
    length: usize,
}

impl ModifiedNaf {
    /// Document 004, section 2: from the low end by k mod 4, where a digit s other than 0 leaves (k - s)/4, "until
    /// k is less than or equal to 3"; then "11 in the case that k = 3".
    pub(crate) fn of(number: &Number) -> ModifiedNaf {
        let mut form = ModifiedNaf {
            digits: [0; RECODE_ROOM],
            length: 0,
        };
        let mut k = number.words();
        while !is_at_most_three(&k) {
            match k[0] % 4 {
                1 => {
                    form.push(&[1, 0]);
                    k = words::halve(&words::halve(&k));
                }
                3 => {
                    form.push(&[-1, 0]);
                    k = words::halve(&words::halve(&k));
                    words::add_at(&mut k, 1, 0);
                }
                _ => {
                    form.push(&[0]);
                    k = words::halve(&k);
                }
            }
        }
        form.push(match k[0] {
            0 => &[],
            1 => &[1],
            2 => &[0, 1],
            _ => &[1, 1],
        });
        form
    }

    /// Adds digits above those that are there, the lowest first.
    fn push(&mut self, digits: &[i8]) {
        for &digit in digits {
            self.digits[self.length] = digit;
            self.length += 1;
        }
    }

    /// The digits, lowest first; the top one is 1.
    pub(crate) fn digits(&self) -> &[i8] {
        &self.digits[..self.length]
    }
}

fn is_at_most_three(k: &[u64; NUMBER_WORDS]) -> bool {
    k[0] <= 3 && k[1..].iter().all(|&word| word == 0)
}

/// Recodes a number into its modified form; answers the length.
///
/// Refusals in order: 1, 13, 6.
pub fn recode_modified(number: &[u8], out: &mut [u8]) -> Result<usize, Refusal> {
    let form = ModifiedNaf::of(&Number::read(number)?);
    let digits = form.digits();
    for (byte, &digit) in output(out, digits.len())?.iter_mut().zip(digits) {
        *byte = digit as u8;
    }
    Ok(digits.len())
}
