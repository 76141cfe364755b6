//! The canonical string: the non-adjacent form of document 004.

use crate::digits::DigitValue;
use crate::limits::{NUMBER_WORDS, RECODE_WORDS};
use crate::number::Number;
use crate::{output, words, Refusal};

/// The places of the digits 1 and minus 1 in the non-adjacent form of a value.
pub(crate) struct Naf<const N: usize> {
    ones: [u64; N],
    minus_ones: [u64; N],
    /// Number of digits; the top one is not 0.
    pub(crate) length: usize,
}

impl<const N: usize> Naf<N> {
    /// The value must leave the top two bits of its words free.
    ///
    /// The non-adjacent form is the bitwise difference of three times the value
    /// and the value, one place down: places where only 3v has a bit hold 1,
    /// places where only v has one hold minus 1.
    pub(crate) fn of(value: &[u64; N]) -> Naf<N> {
        let triple = words::triple(value);
        let mut ones = [0; N];
        let mut minus_ones = [0; N];
        for i in 0..N {
            ones[i] = triple[i] & !value[i];
            minus_ones[i] = value[i] & !triple[i];
        }
        Naf {
            ones: words::halve(&ones),
            minus_ones: words::halve(&minus_ones),
            length: words::bit_length(&triple).saturating_sub(1),
        }
    }

    /// The non-adjacent form of minus the value.
    fn negated(self) -> Naf<N> {
        Naf {
            ones: self.minus_ones,
            minus_ones: self.ones,
            length: self.length,
        }
    }

    pub(crate) fn count_ones(&self) -> usize {
        words::count_ones(&self.ones)
    }

    pub(crate) fn count_minus_ones(&self) -> usize {
        words::count_ones(&self.minus_ones)
    }

    pub(crate) fn is_one(&self, place: usize) -> bool {
        self.ones[place / 64] >> (place % 64) & 1 == 1
    }

    pub(crate) fn is_minus_one(&self, place: usize) -> bool {
        self.minus_ones[place / 64] >> (place % 64) & 1 == 1
    }

    /// Writes the digits, lowest first; refusal 6 if they do not fit.
    fn write(&self, out: &mut [u8]) -> Result<usize, Refusal> {
        let out = output(out, self.length)?;
        for (index, chunk) in out.chunks_mut(64).enumerate() {
            for (place, digit) in chunk.iter_mut().enumerate() {
                let one = (self.ones[index] >> place & 1) as u8;
                let minus_one = (self.minus_ones[index] >> place & 1) as u8;
                *digit = one.wrapping_sub(minus_one);
            }
        }
        Ok(self.length)
    }
}

/// Recodes a number into its canonical string; answers the length.
///
/// Refusals in order: 1, 13, 6.
pub fn recode(number: &[u8], out: &mut [u8]) -> Result<usize, Refusal> {
    let number = Number::read(number)?;
    Naf::of(&number.widened::<RECODE_WORDS>()).write(out)
}

/// Cleans a digit string into the canonical string of the same value; answers
/// the length, which may be one more than the longest string's.
///
/// Refusals in order: 5, 4, 6.
pub fn clean(digits: &[u8], out: &mut [u8]) -> Result<usize, Refusal> {
    let value = DigitValue::read(digits)?;
    let naf = Naf::of(&value.size);
    if value.negative {
        naf.negated().write(out)
    } else {
        naf.write(out)
    }
}

/// Gives the canonical digits of a number one by one, lowest first.
#[derive(Clone, Copy, PartialEq, Eq, Debug)]
pub struct Recoder {
    /// The bits of the number from the present place upwards.
    rest: [u64; NUMBER_WORDS],
    /// Whether 1 is carried into the present place.
    carry: bool,
}

impl Recoder {
    const ZERO: Recoder = Recoder {
        rest: [0; NUMBER_WORDS],
        carry: false,
    };

    /// Refusals in order: 1, 13; the recoder is then that of zero.
    pub fn start(number: &[u8]) -> (Recoder, Result<(), Refusal>) {
        match Number::read(number) {
            Ok(number) => {
                let rest = number.words();
                (Recoder { rest, carry: false }, Ok(()))
            }
            Err(refusal) => (Recoder::ZERO, Err(refusal)),
        }
    }

    /// The digit at the present place, and the recoder goes one place on. `None`
    /// after the last digit, the recoder unchanged.
    pub fn take(&mut self) -> Option<u8> {
        if *self == Recoder::ZERO {
            return None;
        }
        // Bosma's rule modulo 4: an odd rest gives 1 or minus 1, whichever
        // makes the next digit 0.
        let odd = (self.rest[0] & 1 == 1) != self.carry;
        let upper = self.rest[0] & 2 != 0;
        let (digit, carry) = match (odd, upper) {
            (true, false) => (0x01, false),
            (true, true) => (0xFF, true),
            (false, _) => (0x00, self.carry),
        };
        self.rest = words::halve(&self.rest);
        self.carry = carry;
        Some(digit)
    }
}
