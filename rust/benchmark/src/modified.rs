//! The modified form in plain Rust that is tuned for speed: by words, as the non-adjacent form in `recodings`, and then
//! with 1 1 for a leading 1 0 -1. It answers as `reference` does, refusals included.
use crate::recodings::{admitted, room, write_eight_at_once, ByWords};
use reference::refusal::NUMBER_IS_ZERO;
use reference::{Counts, Refusal};

/// Whether the non-adjacent form leads with 1 0 -1. The digit below the top one is always 0.
fn is_replaced(naf: &ByWords) -> bool {
    naf.length >= 3 && naf.is_minus_one(naf.length - 3)
}

#[inline(never)]
pub fn recode(number: &[u8], out: &mut [u8]) -> Result<usize, Refusal> {
    admitted(number)?;
    let naf = ByWords::of(number);
    let is_replaced = is_replaced(&naf);
    let length = naf.length - usize::from(is_replaced);
    let digits = room(out, length)?;
    write_eight_at_once(&naf, digits);
    if is_replaced {
        digits[length - 2..].fill(0x01);
    }
    Ok(length)
}

/// By how many digits are 1 and how many are minus 1; none is written.
#[inline(never)]
pub fn forecast(number: &[u8]) -> Result<Counts, Refusal> {
    admitted(number)?;
    if number.is_empty() {
        return Err(Refusal {
            number: NUMBER_IS_ZERO,
            place: 0,
        });
    }
    let naf = ByWords::of(number);
    let (nonzero, minus) = naf.count();
    let replaced = usize::from(is_replaced(&naf));
    Ok(Counts {
        doublings: naf.length - 1 - replaced,
        additions: nonzero - minus - 1 + replaced,
        subtractions: minus - replaced,
    })
}

#[cfg(test)]
mod tests {
    use super::*;
    use reference::generate::{corners, modified_corners, Rng};
    use reference::limits::{NUMBER_BITS, NUMBER_BYTES, RECODE_ROOM};

    /// Every number into just the room, a byte more and a byte less: the same answer, and the same bytes left.
    #[test]
    fn the_plain_programs_answer_as_the_reference_does() {
        let rng = &mut Rng::new(6);
        let mut numbers: Vec<Vec<u8>> = (1..=NUMBER_BITS).flat_map(modified_corners).collect();
        for bytes in 0..=NUMBER_BYTES + 1 {
            numbers.extend([vec![0; bytes], vec![0xff; bytes]]);
            numbers.extend(corners(bytes));
            numbers.extend((0..50).map(|_| rng.bytes(bytes)));
        }
        for number in numbers {
            let needed = reference::recode_modified(&number, &mut [0; RECODE_ROOM]).unwrap_or(0);
            for room in [needed, needed + 1, needed.saturating_sub(1)] {
                let (mut out, mut expected) = (vec![7; room], vec![7; room]);
                let answer = reference::recode_modified(&number, &mut expected);
                assert_eq!(recode(&number, &mut out), answer, "{:x?}", number);
                assert_eq!(out, expected, "{:x?}", number);
            }
            assert_eq!(forecast(&number), reference::forecast(&number, 6, 0), "{:x?}", number);
        }
    }
}
