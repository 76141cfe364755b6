//! A recoder in plain Rust without a branch on the digit, changed in place.

/// The words of a number.
const WORDS: usize = lesmutka::NUMBER_BYTES / 8;

pub struct Recoder {
    rest: [u64; WORDS],
    carry: u64,
}

impl Recoder {
    /// For a number of whole words.
    pub fn start(number: &[u8]) -> Recoder {
        let mut rest = [0; WORDS];
        for (word, bytes) in rest.iter_mut().zip(number.chunks_exact(8)) {
            *word = bytes.iter().rev().fold(0, |word, &byte| word << 8 | u64::from(byte));
        }
        Recoder { rest, carry: 0 }
    }

    #[inline(always)]
    pub fn take(&mut self) -> Option<u8> {
        let low = self.rest[0];
        if low | self.carry == 0 && self.rest.iter().all(|&word| word == 0) {
            return None;
        }
        let carry = self.carry;
        self.carry = ((low & 1) + (low >> 1 & 1) + carry) / 2;
        // By a rotation, as the library does: a shift over two words is slow on some processors.
        for i in 0..WORDS - 1 {
            let word = self.rest[i];
            let top = word.wrapping_add(self.rest[i + 1]) << 63;
            self.rest[i] = word.rotate_right(1).wrapping_add(top);
        }
        self.rest[WORDS - 1] >>= 1;
        Some([0x00, 0x01, 0x00, 0xFF][((low & 3) + carry) as usize & 3])
    }
}

/// A take as a call, which is what a linked library's is.
#[inline(never)]
pub fn called(recoder: &mut Recoder) -> Option<u8> {
    recoder.take()
}
