//! Refusals by their numbers (docs/RULES.md, 6.1).

/// A refusal: its number, and its place.
#[derive(Clone, Copy, PartialEq, Eq, Debug)]
pub struct Refusal {
    pub number: u8,
    pub place: usize,
}

impl Refusal {
    pub(crate) fn new(number: u8, place: usize) -> Refusal {
        Refusal { number, place }
    }
}

pub const NUMBER_TOO_LONG: u8 = 1;
pub const NUMBER_IS_ZERO: u8 = 2;
pub const METHOD_OR_WIDTH: u8 = 3;
pub const NOT_A_DIGIT: u8 = 4;
pub const STRING_TOO_LONG: u8 = 5;
pub const ROOM_TOO_SMALL: u8 = 6;
pub const PLAN_LENGTH: u8 = 7;
pub const WORK_SPACE_TOO_SHORT: u8 = 8;
pub const MALFORMED_STEP: u8 = 9;
pub const VALUE_IS_ZERO: u8 = 10;
pub const VALUE_TOO_LARGE: u8 = 11;
pub const WRONG_END: u8 = 12;
pub const HIGHEST_BYTE_IS_ZERO: u8 = 13;

/// The highest number of a refusal.
pub const LAST: usize = 13;
