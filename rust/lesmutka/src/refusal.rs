//! Why a call refuses.
use core::fmt;

/// Why a call refuses. A case holds its place if that can be other than 0.
#[derive(Clone, Copy, Debug, PartialEq, Eq, Hash)]
#[non_exhaustive]
pub enum Refusal {
    /// 1: the number is longer than [`crate::NUMBER_BYTES`].
    NumberTooLong,
    /// 2: the number is zero.
    NumberIsZero,
    /// 3: no such method, or a width that it does not allow; in the wide form, no width of a NAF.
    MethodOrWidth,
    /// 4: a byte of the digit string is no digit.
    NotADigit {
        /// The lowest such place.
        place: usize,
    },
    /// 5: the digit string is longer than [`crate::STRING_DIGITS`].
    StringTooLong,
    /// 6: the output needs more bytes than lent.
    RoomTooSmall {
        /// The bytes needed.
        needed: usize,
    },
    /// 7: the plan is no whole number of steps, or has more than [`crate::PLAN_STEPS`].
    PlanLength,
    /// 8: the work space is shorter than [`crate::work_space`] of the plan's steps.
    WorkSpaceTooShort,
    /// 9: an unknown operation, or a position not below the step's own.
    MalformedStep {
        /// The step, counted from 1.
        step: usize,
    },
    /// 10: the value at the step is zero.
    ValueIsZero {
        /// The step, counted from 1.
        step: usize,
    },
    /// 11: the value at the step has a size of more than [`crate::VALUE_BYTES`] bytes.
    ValueTooLarge {
        /// The step, counted from 1.
        step: usize,
    },
    /// 12: all steps are sound, and the last value is not the number.
    WrongEnd {
        /// How many steps there are.
        steps: usize,
    },
    /// 13: the highest byte of the number is zero.
    HighestByteIsZero,
    /// Any other, of a library that is newer than this crate.
    Other {
        /// Its number.
        number: usize,
        /// Its place.
        place: usize,
    },
}

impl Refusal {
    /// The number of the refusal (docs/RULES.md, 6.1).
    pub const fn number(self) -> usize {
        match self {
            Refusal::NumberTooLong => 1,
            Refusal::NumberIsZero => 2,
            Refusal::MethodOrWidth => 3,
            Refusal::NotADigit { .. } => 4,
            Refusal::StringTooLong => 5,
            Refusal::RoomTooSmall { .. } => 6,
            Refusal::PlanLength => 7,
            Refusal::WorkSpaceTooShort => 8,
            Refusal::MalformedStep { .. } => 9,
            Refusal::ValueIsZero { .. } => 10,
            Refusal::ValueTooLarge { .. } => 11,
            Refusal::WrongEnd { .. } => 12,
            Refusal::HighestByteIsZero => 13,
            Refusal::Other { number, .. } => number,
        }
    }

    /// The place of the refusal: a digit's place, the bytes needed, a step, how many steps; else 0.
    pub const fn place(self) -> usize {
        match self {
            Refusal::NotADigit { place } | Refusal::Other { place, .. } => place,
            Refusal::RoomTooSmall { needed } => needed,
            Refusal::MalformedStep { step } | Refusal::ValueIsZero { step } | Refusal::ValueTooLarge { step } => step,
            Refusal::WrongEnd { steps } => steps,
            _ => 0,
        }
    }

    /// The refusal in plain words, without its number and place. They are those of
    /// [`crate::sys::write_words`].
    pub const fn message(self) -> &'static str {
        match self {
            Refusal::NumberTooLong => "the number is too long",
            Refusal::NumberIsZero => "the number is zero",
            Refusal::MethodOrWidth => "no such method, or a width that it does not allow",
            Refusal::NotADigit { .. } => "the byte at this place is no digit",
            Refusal::StringTooLong => "the digit string is too long",
            Refusal::RoomTooSmall { .. } => "the output needs this many bytes",
            Refusal::PlanLength => "the plan is no whole number of steps, or has too many",
            Refusal::WorkSpaceTooShort => "the work space is too short for the plan",
            Refusal::MalformedStep { .. } => {
                "this step has an unknown operation, or a position that is not below its own"
            }
            Refusal::ValueIsZero { .. } => "the value at this step is zero",
            Refusal::ValueTooLarge { .. } => "the value at this step is too large",
            Refusal::WrongEnd { .. } => "the last value, at this position, is not the number",
            Refusal::HighestByteIsZero => "the highest byte of the number is zero",
            Refusal::Other { .. } => "no such refusal",
        }
    }

    /// The refusal of an answer, if it has one.
    #[inline]
    pub(crate) fn of(refusal: usize, place: usize) -> Result<(), Refusal> {
        Err(match refusal {
            0 => return Ok(()),
            1 => Refusal::NumberTooLong,
            2 => Refusal::NumberIsZero,
            3 => Refusal::MethodOrWidth,
            4 => Refusal::NotADigit { place },
            5 => Refusal::StringTooLong,
            6 => Refusal::RoomTooSmall { needed: place },
            7 => Refusal::PlanLength,
            8 => Refusal::WorkSpaceTooShort,
            9 => Refusal::MalformedStep { step: place },
            10 => Refusal::ValueIsZero { step: place },
            11 => Refusal::ValueTooLarge { step: place },
            12 => Refusal::WrongEnd { steps: place },
            13 => Refusal::HighestByteIsZero,
            number => Refusal::Other { number, place },
        })
    }
}

impl fmt::Display for Refusal {
    fn fmt(&self, f: &mut fmt::Formatter<'_>) -> fmt::Result {
        write!(
            f,
            "refused {}, place {}: {}",
            self.number(),
            self.place(),
            self.message()
        )
    }
}
