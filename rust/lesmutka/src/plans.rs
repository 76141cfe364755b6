//! A plan: its steps, their counts, and what its check answers.
use crate::{is_blank, sys, Refusal, Value, STEP_BYTES};
use core::fmt;
use core::iter::{FusedIterator, Sum};
use core::ops::{Add, AddAssign};
use core::slice::ChunksExact;
use core::str::FromStr;

/// How many steps a plan has of each kind. Values decide, not positions: if two points are equal, the
/// addition formula of the curve divides by zero, and the doubling formula has to be used.
///
/// ```
/// use lesmutka::{forecast, Counts, Method};
///
/// let both: Counts = [forecast(&[43], Method::Naf)?, forecast(&[3], Method::Naf)?].iter().sum();
/// assert_eq!(both.to_string(), "8 doublings, 0 additions, 4 subtractions");
/// # Ok::<(), lesmutka::Refusal>(())
/// ```
#[derive(Clone, Copy, Debug, Default, PartialEq, Eq, Hash)]
pub struct Counts {
    /// Steps that add equal values or subtract opposite ones.
    pub doublings: usize,
    /// Other steps that add.
    pub additions: usize,
    /// Other steps that subtract.
    pub subtractions: usize,
}

impl Counts {
    /// All steps.
    pub const fn total(self) -> usize {
        self.doublings + self.additions + self.subtractions
    }
}

/// The counts of an answer, unless it is a refusal.
impl TryFrom<sys::Counts> for Counts {
    type Error = Refusal;

    #[inline]
    fn try_from(answer: sys::Counts) -> Result<Counts, Refusal> {
        Refusal::of(answer.refusal, answer.place)?;
        Ok(Counts {
            doublings: answer.doublings,
            additions: answer.additions,
            subtractions: answer.subtractions,
        })
    }
}

impl Add for Counts {
    type Output = Counts;

    fn add(self, other: Counts) -> Counts {
        Counts {
            doublings: self.doublings + other.doublings,
            additions: self.additions + other.additions,
            subtractions: self.subtractions + other.subtractions,
        }
    }
}

impl AddAssign for Counts {
    fn add_assign(&mut self, other: Counts) {
        *self = *self + other;
    }
}

impl Sum for Counts {
    fn sum<I: Iterator<Item = Counts>>(all: I) -> Counts {
        all.fold(Counts::default(), Add::add)
    }
}

impl<'a> Sum<&'a Counts> for Counts {
    fn sum<I: Iterator<Item = &'a Counts>>(all: I) -> Counts {
        all.copied().sum()
    }
}

impl fmt::Display for Counts {
    fn fmt(&self, f: &mut fmt::Formatter<'_>) -> fmt::Result {
        write!(
            f,
            "{} doublings, {} additions, {} subtractions",
            self.doublings, self.additions, self.subtractions
        )
    }
}

/// An accepted plan: its counts, and the bits of the largest size among all its values, position 0
/// included and values below zero by their size. So registers of that many bits hold every size.
///
/// ```
/// use lesmutka::{check, plan, work_space, Method, PLAN_ROOM};
///
/// let mut room = [0; PLAN_ROOM];
/// let plan = plan(&[7], Method::Naf, &mut room)?;
/// // 1, 2, 4, 8, 7: 8 has one bit more than the number.
/// let accepted = check(&[7], plan.bytes, &mut [0; work_space(4)])?;
/// assert_eq!(accepted.counts, plan.counts);
/// assert_eq!(accepted.largest_bits, 4);
/// assert_eq!(accepted.to_string(), "3 doublings, 0 additions, 1 subtractions; at most 4 bits");
/// # Ok::<(), lesmutka::Refusal>(())
/// ```
#[derive(Clone, Copy, Debug, PartialEq, Eq, Hash)]
pub struct Accepted {
    /// How many steps of each kind.
    pub counts: Counts,
    /// The bit length of the largest size: 1 for the empty plan, at least that of the number, and at most
    /// 8 times [`VALUE_BYTES`](crate::VALUE_BYTES).
    pub largest_bits: usize,
}

/// What an accepted plan has, unless the answer is a refusal.
impl TryFrom<sys::Accepted> for Accepted {
    type Error = Refusal;

    fn try_from(answer: sys::Accepted) -> Result<Accepted, Refusal> {
        Refusal::of(answer.refusal, answer.place)?;
        Ok(Accepted {
            counts: Counts {
                doublings: answer.doublings,
                additions: answer.additions,
                subtractions: answer.subtractions,
            },
            largest_bits: answer.largest_bits,
        })
    }
}

impl fmt::Display for Accepted {
    fn fmt(&self, f: &mut fmt::Formatter<'_>) -> fmt::Result {
        write!(f, "{}; at most {} bits", self.counts, self.largest_bits)
    }
}

/// A step of a plan: the two positions whose values it adds or subtracts.
///
/// ```
/// use lesmutka::Step;
///
/// let step = Step::Subtract(2, 0);
/// assert_eq!(step.to_string(), "subtract(2,0)");
/// assert_eq!("subtract(2,0)".parse(), Ok(step));
/// assert_eq!(Step::from_bytes([1, 2, 0, 0, 0]), Some(step));
/// ```
#[derive(Clone, Copy, Debug, PartialEq, Eq, Hash)]
pub enum Step {
    /// The value at the first position plus that at the second.
    Add(u16, u16),
    /// The value at the first position less that at the second.
    Subtract(u16, u16),
}

const ADD: u8 = 0;
const SUBTRACT: u8 = 1;

impl Step {
    /// The step of these bytes of a plan; none if the operation is unknown.
    pub const fn from_bytes(bytes: [u8; STEP_BYTES]) -> Option<Step> {
        let j = u16::from_le_bytes([bytes[1], bytes[2]]);
        let k = u16::from_le_bytes([bytes[3], bytes[4]]);
        match bytes[0] {
            ADD => Some(Step::Add(j, k)),
            SUBTRACT => Some(Step::Subtract(j, k)),
            _ => None,
        }
    }

    /// The bytes of the step in a plan.
    pub const fn to_bytes(self) -> [u8; STEP_BYTES] {
        let (operation, j, k) = match self {
            Step::Add(j, k) => (ADD, j.to_le_bytes(), k.to_le_bytes()),
            Step::Subtract(j, k) => (SUBTRACT, j.to_le_bytes(), k.to_le_bytes()),
        };
        [operation, j[0], j[1], k[0], k[1]]
    }

    /// Whether it is a doubling, where these values stand at its two positions: it adds equal values or
    /// subtracts opposite ones. [`check`](crate::check) counts by the same rule.
    ///
    /// ```
    /// use lesmutka::{check, read_steps, records, Step, PLAN_ROOM};
    ///
    /// let (mut room, mut space) = ([0; PLAN_ROOM], [0; lesmutka::work_space(3)]);
    /// let plan = read_steps(b"add(0,0) add(0,0) add(1,2)", &mut room)?;
    /// assert_eq!(check(&[4], plan, &mut space)?.counts.doublings, 3);
    ///
    /// // 1, 2, 2, 4
    /// let values: Vec<_> = records(&space, 3).collect();
    /// assert!(Step::Add(1, 2).is_doubling(values[1], values[2]));
    /// # Ok::<(), lesmutka::Refusal>(())
    /// ```
    pub fn is_doubling(self, first: Value<'_>, second: Value<'_>) -> bool {
        // Zero, which no sound plan has, is its own opposite.
        let is_sign_right = (first.is_negative == second.is_negative) == matches!(self, Step::Add(..));
        first.size == second.size && (is_sign_right || first.size.is_empty())
    }
}

impl fmt::Display for Step {
    fn fmt(&self, f: &mut fmt::Formatter<'_>) -> fmt::Result {
        match self {
            Step::Add(j, k) => write!(f, "add({},{})", j, k),
            Step::Subtract(j, k) => write!(f, "subtract({},{})", j, k),
        }
    }
}

/// Reads what a step prints, by [`crate::read_steps`]; positions may have zeros in front.
impl FromStr for Step {
    type Err = ParseStepError;

    fn from_str(text: &str) -> Result<Step, ParseStepError> {
        let mut bytes = [0; STEP_BYTES];
        // Blanks around the one word would be passed over.
        let is_word = !text.bytes().any(is_blank);
        match sys::read_steps(text.as_bytes(), &mut bytes).length {
            STEP_BYTES if is_word => Step::from_bytes(bytes).ok_or(ParseStepError(())),
            _ => Err(ParseStepError(())),
        }
    }
}

/// The text is no step.
#[derive(Clone, Copy, Debug, PartialEq, Eq)]
pub struct ParseStepError(());

impl fmt::Display for ParseStepError {
    fn fmt(&self, f: &mut fmt::Formatter<'_>) -> fmt::Result {
        write!(f, "a step is add(j,k) or subtract(j,k), j and k from 0 to {}", u16::MAX)
    }
}

/// A plan that was written, and the counts of its steps.
#[derive(Clone, Copy, Debug, PartialEq, Eq)]
pub struct Plan<'a> {
    /// The steps.
    pub bytes: &'a [u8],
    /// How many of each kind.
    pub counts: Counts,
}

impl<'a> Plan<'a> {
    /// The steps one by one, from the first. In bytes that were put together by hand they end before
    /// the first that are no step.
    ///
    /// ```
    /// use lesmutka::{plan, Method, Step, PLAN_ROOM};
    ///
    /// let mut room = [0; PLAN_ROOM];
    /// let steps = plan(&[3], Method::Naf, &mut room)?.steps();
    /// assert!(steps.eq([Step::Add(0, 0), Step::Add(1, 1), Step::Subtract(2, 0)]));
    /// # Ok::<(), lesmutka::Refusal>(())
    /// ```
    pub fn steps(&self) -> Steps<'a> {
        // Counted first, so that the length is known from either end.
        let steps = self.bytes.chunks_exact(STEP_BYTES).map_while(step_of).count();
        Steps {
            bytes: self.bytes[..STEP_BYTES * steps].chunks_exact(STEP_BYTES),
        }
    }
}

/// The steps of a plan that are left, from the first.
#[derive(Clone, Debug)]
pub struct Steps<'a> {
    bytes: ChunksExact<'a, u8>,
}

fn step_of(bytes: &[u8]) -> Option<Step> {
    Step::from_bytes(bytes.try_into().ok()?)
}

impl Iterator for Steps<'_> {
    type Item = Step;

    fn next(&mut self) -> Option<Step> {
        self.bytes.next().and_then(step_of)
    }

    fn size_hint(&self) -> (usize, Option<usize>) {
        self.bytes.size_hint()
    }
}

impl DoubleEndedIterator for Steps<'_> {
    fn next_back(&mut self) -> Option<Step> {
        self.bytes.next_back().and_then(step_of)
    }
}

impl ExactSizeIterator for Steps<'_> {}
impl FusedIterator for Steps<'_> {}
