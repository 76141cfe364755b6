//! Values: what a digit string reads back to, and what a check leaves in its work space.
use crate::{work_space, RECORD_BYTES};
use core::fmt;
use core::iter::FusedIterator;
use core::slice::ChunksExact;

/// A value: its sign and its size. It prints in hexadecimal, whole bytes: `-0x2b`, `0x0100`; zero is `0`.
#[derive(Clone, Copy, Debug, PartialEq, Eq)]
pub struct Value<'a> {
    /// Whether it is below zero.
    pub is_negative: bool,
    /// The size, with no high zero byte.
    pub size: &'a [u8],
}

impl fmt::Display for Value<'_> {
    fn fmt(&self, f: &mut fmt::Formatter<'_>) -> fmt::Result {
        f.write_str(if self.is_negative { "-" } else { "" })?;
        if self.size.is_empty() {
            return f.write_str("0");
        }
        f.write_str("0x")?;
        self.size.iter().rev().try_for_each(|byte| write!(f, "{:02x}", byte))
    }
}

/// The values that [`check`](crate::check) left in a work space for a plan of this many steps: those
/// of positions 0 to `steps`, or as many as the space holds. After a refusal at a step only the
/// records below it are filled; the others are read as they stand.
///
/// ```
/// use lesmutka::{check, plan, records, work_space, Method, PLAN_ROOM};
///
/// let mut room = [0; PLAN_ROOM];
/// let plan = plan(&[3], Method::Naf, &mut room)?;
/// let mut space = [0; work_space(3)];
/// check(&[3], plan.bytes, &mut space)?;
/// let values: Vec<String> = records(&space, 3).map(|value| value.to_string()).collect();
/// assert_eq!(values, ["0x01", "0x02", "0x04", "0x03"]);
/// # Ok::<(), lesmutka::Refusal>(())
/// ```
pub fn records(space: &[u8], steps: usize) -> Records<'_> {
    let length = space.len().min(work_space(steps));
    Records {
        bytes: space[..length].chunks_exact(RECORD_BYTES),
    }
}

/// The values of a work space that are left, from position 0.
#[derive(Clone, Debug)]
pub struct Records<'a> {
    bytes: ChunksExact<'a, u8>,
}

fn value_of(record: &[u8]) -> Value<'_> {
    let (sign, size) = (record[0], &record[1..]);
    let length = size.iter().rposition(|&byte| byte != 0).map_or(0, |top| top + 1);
    Value {
        is_negative: sign != 0,
        size: &size[..length],
    }
}

impl<'a> Iterator for Records<'a> {
    type Item = Value<'a>;

    fn next(&mut self) -> Option<Value<'a>> {
        self.bytes.next().map(value_of)
    }

    fn size_hint(&self) -> (usize, Option<usize>) {
        self.bytes.size_hint()
    }
}

impl<'a> DoubleEndedIterator for Records<'a> {
    fn next_back(&mut self) -> Option<Value<'a>> {
        self.bytes.next_back().map(value_of)
    }
}

impl ExactSizeIterator for Records<'_> {}
impl FusedIterator for Records<'_> {}
