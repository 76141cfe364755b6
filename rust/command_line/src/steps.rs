//! The steps of a plan as text. A plan has hundreds of them, so each part is copied whole, with what is
//! behind its end, and the next is put over that.
use lesmutka::{PLAN_STEPS, STEP_BYTES};

/// A text of at most N bytes; those above its length do not count.
#[derive(Clone, Copy)]
struct Part<const N: usize> {
    bytes: [u8; N],
    length: usize,
}

impl<const N: usize> Part<N> {
    const fn new(text: &[u8]) -> Part<N> {
        let mut bytes = [0; N];
        let mut i = 0;
        while i < text.len() {
            bytes[i] = text[i];
            i += 1;
        }
        Part {
            bytes,
            length: text.len(),
        }
    }

    /// Puts the text at a place and answers the place behind it.
    #[inline]
    fn put(&self, out: &mut [u8], at: usize) -> usize {
        out[at..at + N].copy_from_slice(&self.bytes);
        at + self.length
    }
}

const _: () = assert!(PLAN_STEPS < 10_000, "positions have more than four digits");

/// The positions of a plan in decimal.
static POSITIONS: [Part<4>; PLAN_STEPS + 1] = positions();

const fn positions() -> [Part<4>; PLAN_STEPS + 1] {
    let mut all = [Part::new(b""); PLAN_STEPS + 1];
    let mut position = 0;
    while position <= PLAN_STEPS {
        let digits = [
            b'0' + (position / 1000) as u8,
            b'0' + (position / 100 % 10) as u8,
            b'0' + (position / 10 % 10) as u8,
            b'0' + (position % 10) as u8,
        ];
        let mut part = Part {
            bytes: [0; 4],
            length: 0,
        };
        let mut i = 0;
        while i < 4 {
            if part.length > 0 || digits[i] != b'0' || i == 3 {
                part.bytes[part.length] = digits[i];
                part.length += 1;
            }
            i += 1;
        }
        all[position] = part;
        position += 1;
    }
    all
}

/// What stands in front of each step and behind it.
pub struct Frame {
    front: Part<2>,
    behind: Part<2>,
}

impl Frame {
    pub const fn new(front: &[u8], behind: &[u8]) -> Frame {
        Frame {
            front: Part::new(front),
            behind: Part::new(behind),
        }
    }
}

/// Puts the steps of a plan whose steps are sound.
pub fn put_steps(plan: &[u8], frame: &Frame, out: &mut Vec<u8>) {
    const ADD: Part<16> = Part::new(b"add(");
    const SUBTRACT: Part<16> = Part::new(b"subtract(");
    const COMMA: Part<1> = Part::new(b",");
    const END: Part<1> = Part::new(b")");
    // The longest step, and what its last part may be put over.
    const ROOM: usize = 32;
    let mut at = out.len();
    out.resize(at + ROOM * (plan.len() / STEP_BYTES + 1), 0);
    for step in plan.chunks_exact(STEP_BYTES) {
        let j = usize::from(u16::from_le_bytes([step[1], step[2]]));
        let k = usize::from(u16::from_le_bytes([step[3], step[4]]));
        let operation = if step[0] == 0 { &ADD } else { &SUBTRACT };
        at = frame.front.put(out, at);
        at = operation.put(out, at);
        at = POSITIONS[j].put(out, at);
        at = COMMA.put(out, at);
        at = POSITIONS[k].put(out, at);
        at = END.put(out, at);
        at = frame.behind.put(out, at);
    }
    out.truncate(at);
}
