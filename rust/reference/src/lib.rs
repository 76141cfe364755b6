//! Signed digit recoding and addition-subtraction chains by the rules of
//! docs/RULES.md. No call allocates or panics.

#![forbid(unsafe_code)]

pub mod cases;
mod check;
mod digits;
pub mod generate;
pub mod limits;
mod modified;
mod naf;
mod number;
mod plan;
pub mod refusal;
pub mod text;
mod wide;
mod words;

pub use check::check;
pub use digits::read_back;
pub use modified::recode_modified;
pub use naf::{clean, recode, Recoder};
pub use plan::{forecast, plan};
pub use refusal::Refusal;
pub use wide::{clean_wide, read_back_wide, recode_wide};

/// How many steps of each kind a plan has.
///
/// An add step whose two values are equal and a subtract step whose two values
/// are opposite are doublings, whatever their positions are. Any other add step
/// is an addition, any other subtract step is a subtraction.
#[derive(Clone, Copy, PartialEq, Eq, Debug)]
pub struct Counts {
    pub doublings: usize,
    pub additions: usize,
    pub subtractions: usize,
}

impl Counts {
    pub(crate) const NONE: Counts = Counts {
        doublings: 0,
        additions: 0,
        subtractions: 0,
    };

    pub fn total(self) -> usize {
        self.doublings + self.additions + self.subtractions
    }
}

/// What an accepted plan has: its counts, and the bit length of the largest size
/// among the values at positions 0 to r, those below zero included.
#[derive(Clone, Copy, PartialEq, Eq, Debug)]
pub struct Accepted {
    pub counts: Counts,
    pub largest_bits: usize,
}

/// Refusal 6 if `out` has fewer than `needed` bytes, otherwise the first
/// `needed` bytes of it, the only ones a success may change.
pub(crate) fn output(out: &mut [u8], needed: usize) -> Result<&mut [u8], Refusal> {
    out.get_mut(..needed)
        .ok_or(Refusal::new(refusal::ROOM_TOO_SMALL, needed))
}
