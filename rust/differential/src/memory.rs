//! Buffers that are lent to the calls: noise inside, noise on both sides.
use reference::generate::Rng;
use std::ops::Range;

/// Bytes that no call was lent, on each side of a buffer.
const GUARD: usize = 64;

/// Memory full of noise, of which a part is lent. It begins at any alignment.
#[derive(Clone, PartialEq, Eq, Debug)]
pub struct Lent {
    memory: Vec<u8>,
    part: Range<usize>,
}

impl Lent {
    /// A part of this many bytes, noise inside too.
    pub fn noise(rng: &mut Rng, length: usize) -> Lent {
        let start = GUARD + rng.below(8);
        Lent {
            memory: rng.bytes(start + length + GUARD),
            part: start..start + length,
        }
    }

    /// A part that holds these bytes.
    pub fn holding(rng: &mut Rng, bytes: &[u8]) -> Lent {
        let mut lent = Lent::noise(rng, bytes.len());
        lent.part_mut().copy_from_slice(bytes);
        lent
    }

    pub fn part(&self) -> &[u8] {
        &self.memory[self.part.clone()]
    }

    pub fn part_mut(&mut self) -> &mut [u8] {
        &mut self.memory[self.part.clone()]
    }
}
