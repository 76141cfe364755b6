//! Checking a plan for a number.

use std::cmp::Ordering;

use crate::limits::{work_space, PLAN_ROOM, RECORD_BYTES, STEP_BYTES, VALUE_BITS, VALUE_WORDS};
use crate::number::Number;
use crate::plan::{ADD, SUBTRACT};
use crate::refusal::*;
use crate::{words, Accepted, Counts};

/// The value at a position of the chain.
#[derive(Clone, Copy)]
struct Value {
    negative: bool,
    size: [u64; VALUE_WORDS],
}

impl Value {
    fn one() -> Value {
        Value {
            negative: false,
            size: words::from_bytes(&[1]),
        }
    }

    fn load(space: &[u8], position: usize) -> Value {
        let start = RECORD_BYTES * position;
        Value {
            negative: space[start] == 1,
            size: words::from_bytes(&space[start + 1..start + RECORD_BYTES]),
        }
    }

    fn store(&self, space: &mut [u8], position: usize) {
        let start = RECORD_BYTES * position;
        space[start] = u8::from(self.negative);
        words::to_bytes(&self.size, &mut space[start + 1..start + RECORD_BYTES]);
    }

    /// Both sizes are within the limit, so the sum's size has at most one bit more and fits.
    fn plus(&self, other: &Value) -> Value {
        if self.negative == other.negative {
            return Value {
                negative: self.negative,
                size: words::add(&self.size, &other.size),
            };
        }
        match words::compare(&self.size, &other.size) {
            Ordering::Less => Value {
                negative: other.negative,
                size: words::subtract(&other.size, &self.size),
            },
            _ => Value {
                negative: self.negative,
                size: words::subtract(&self.size, &other.size),
            },
        }
    }

    /// Compares all words, without leaving early.
    fn is_same(&self, other: &Value) -> bool {
        let pairs = self.size.iter().zip(&other.size);
        let differing = pairs.fold(0, |bits, (a, b)| bits | (a ^ b));
        (self.negative == other.negative) & (differing == 0)
    }
}

/// Checks that a plan is sound and ends at the number; answers its counts and
/// the bits of its largest size. The value at each position goes into its record
/// in `space`.
///
/// Refusals in order: 1, 13, 2, 7, 8, then for each step 9, and 10 or 11, then 12.
pub fn check(number: &[u8], plan: &[u8], space: &mut [u8]) -> Result<Accepted, Refusal> {
    let number = Number::read_nonzero(number)?;
    if plan.len() % STEP_BYTES != 0 || plan.len() > PLAN_ROOM {
        return Err(Refusal::new(PLAN_LENGTH, 0));
    }
    let steps = plan.len() / STEP_BYTES;
    if space.len() < work_space(steps) {
        return Err(Refusal::new(WORK_SPACE_TOO_SHORT, 0));
    }

    let mut counts = Counts::NONE;
    // Position 0 holds 1.
    let mut largest_bits = 1;
    Value::one().store(space, 0);
    for (step, i) in plan.chunks_exact(STEP_BYTES).zip(1..) {
        let operation = step[0];
        let j = usize::from(u16::from_le_bytes([step[1], step[2]]));
        let k = usize::from(u16::from_le_bytes([step[3], step[4]]));
        if !matches!(operation, ADD | SUBTRACT) || j >= i || k >= i {
            return Err(Refusal::new(MALFORMED_STEP, i));
        }

        let left = Value::load(space, j);
        let mut right = Value::load(space, k);
        if operation == SUBTRACT {
            right.negative = !right.negative;
        }
        let value = left.plus(&right);
        let bits = words::bit_length(&value.size);
        if bits == 0 {
            return Err(Refusal::new(VALUE_IS_ZERO, i));
        }
        if bits > VALUE_BITS {
            return Err(Refusal::new(VALUE_TOO_LARGE, i));
        }
        largest_bits = largest_bits.max(bits);
        // Record i is filled only once step i is known to be sound.
        value.store(space, i);

        // With the second sign turned where it subtracts, a step of either operation doubles if its
        // values are equal. None is zero, so each has one sign. No branch: it could not be predicted.
        let is_doubling = left.is_same(&right);
        let is_addition = (operation == ADD) & !is_doubling;
        counts.doublings += usize::from(is_doubling);
        counts.additions += usize::from(is_addition);
        counts.subtractions += usize::from(!is_doubling & !is_addition);
    }

    // The sign counts too: minus the number is refused.
    let end = Value::load(space, steps);
    if end.negative || end.size != number.widened() {
        return Err(Refusal::new(WRONG_END, steps));
    }
    Ok(Accepted { counts, largest_bits })
}
