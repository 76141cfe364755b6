//! Deterministic inputs for the calls, chosen so that each success and each
//! refusal comes up often. The same seed gives the same cases.

use crate::limits::*;
use crate::refusal::WRONG_END;
use crate::wide::is_digit;
use crate::{
    check, clean, clean_wide, forecast, plan, read_back, read_back_wide, recode, recode_modified, recode_wide,
};

/// SplitMix64.
#[derive(Clone, Debug)]
pub struct Rng {
    state: u64,
}

impl Rng {
    pub fn new(seed: u64) -> Rng {
        Rng { state: seed }
    }

    pub fn next_u64(&mut self) -> u64 {
        self.state = self.state.wrapping_add(0x9E37_79B9_7F4A_7C15);
        let mut z = self.state;
        z = (z ^ (z >> 30)).wrapping_mul(0xBF58_476D_1CE4_E5B9);
        z = (z ^ (z >> 27)).wrapping_mul(0x94D0_49BB_1331_11EB);
        z ^ (z >> 31)
    }

    pub fn next_byte(&mut self) -> u8 {
        self.next_u64() as u8
    }

    /// A number from 0 to `n - 1`; 0 if `n` is 0.
    pub fn below(&mut self, n: usize) -> usize {
        ((u128::from(self.next_u64()) * n as u128) >> 64) as usize
    }

    /// A number from `low` to `high`, both included.
    pub fn between(&mut self, low: usize, high: usize) -> usize {
        low + self.below(high - low + 1)
    }

    /// True once in `n` times on average.
    pub fn one_in(&mut self, n: usize) -> bool {
        self.below(n) == 0
    }

    pub fn pick<T: Copy>(&mut self, from: &[T]) -> T {
        from[self.below(from.len())]
    }

    pub fn bytes(&mut self, length: usize) -> Vec<u8> {
        (0..length).map(|_| self.next_byte()).collect()
    }
}

/// Input for `recode` and `recode_modified`; `room` is the length of the output buffer.
#[derive(Clone, PartialEq, Eq, Debug)]
pub struct RecodeCase {
    pub number: Vec<u8>,
    pub room: usize,
}

/// Input for a recoder; `takes` is how often to take, often past the end.
#[derive(Clone, PartialEq, Eq, Debug)]
pub struct TakeCase {
    pub number: Vec<u8>,
    pub takes: usize,
}

/// Input for `clean` and `read_back`.
#[derive(Clone, PartialEq, Eq, Debug)]
pub struct DigitsCase {
    pub digits: Vec<u8>,
    pub room: usize,
}

/// Input for `recode_wide`.
#[derive(Clone, PartialEq, Eq, Debug)]
pub struct RecodeWideCase {
    pub number: Vec<u8>,
    pub width: u32,
    pub room: usize,
}

/// Input for `clean_wide` and `read_back_wide`.
#[derive(Clone, PartialEq, Eq, Debug)]
pub struct WideDigitsCase {
    pub digits: Vec<u8>,
    pub width: u32,
    pub room: usize,
}

/// Input for `plan`.
#[derive(Clone, PartialEq, Eq, Debug)]
pub struct PlanCase {
    pub number: Vec<u8>,
    pub method: u32,
    pub width: u32,
    pub room: usize,
}

/// Input for `forecast`.
#[derive(Clone, PartialEq, Eq, Debug)]
pub struct ForecastCase {
    pub number: Vec<u8>,
    pub method: u32,
    pub width: u32,
}

/// Input for `check`; `room` is the length of the work space.
#[derive(Clone, PartialEq, Eq, Debug)]
pub struct CheckCase {
    pub number: Vec<u8>,
    pub plan: Vec<u8>,
    pub room: usize,
}

/// Every allowed pair of method and width.
pub fn methods() -> Vec<(u32, u32)> {
    let windows = |method| WINDOW_WIDTHS.map(move |width| (method, width));
    let mut methods = vec![(1, 0)];
    methods.extend(windows(2));
    methods.extend(windows(3));
    methods.push((4, 0));
    methods.extend(NAF_WIDTHS.map(|width| (5, width)));
    methods.push((6, 0));
    methods
}

const BAD_DIGITS: [u8; 8] = [2, 3, 16, 127, 128, 129, 253, 254];

/// Widths that no NAF has, those that one byte would show as one included.
pub const NO_NAF_WIDTHS: [u32; 16] = [
    0,
    1,
    *NAF_WIDTHS.end() + 1,
    *NAF_WIDTHS.end() + 2,
    16,
    32,
    64,
    255,
    256,
    257,
    258,
    264,
    1 << 31,
    (1 << 31) + 2,
    u32::MAX - 1,
    u32::MAX,
];

/// A source of cases for each call.
#[derive(Clone, Debug)]
pub struct Generator {
    rng: Rng,
}

impl Generator {
    pub fn new(seed: u64) -> Generator {
        Generator { rng: Rng::new(seed) }
    }

    pub fn rng(&mut self) -> &mut Rng {
        &mut self.rng
    }

    pub fn recode_case(&mut self) -> RecodeCase {
        let number = self.number();
        let needed = recode(trimmed(&number), &mut [0; RECODE_ROOM]).unwrap_or(RECODE_ROOM);
        let room = self.room(needed);
        RecodeCase { number, room }
    }

    pub fn recode_modified_case(&mut self) -> RecodeCase {
        let number = self.number();
        let needed = recode_modified(trimmed(&number), &mut [0; RECODE_ROOM]).unwrap_or(RECODE_ROOM);
        let room = self.room(needed);
        RecodeCase { number, room }
    }

    pub fn take_case(&mut self) -> TakeCase {
        let number = self.number();
        let digits = recode(trimmed(&number), &mut [0; RECODE_ROOM]).unwrap_or(0);
        let takes = match self.rng.below(4) {
            0 => self.rng.below(digits + 1),
            1 => digits,
            _ => digits + self.rng.between(1, 4),
        };
        TakeCase { number, takes }
    }

    pub fn clean_case(&mut self) -> DigitsCase {
        let digits = self.digit_string();
        let needed = clean(&digits, &mut [0; CLEAN_ROOM]).unwrap_or(CLEAN_ROOM);
        let room = self.room(needed);
        DigitsCase { digits, room }
    }

    pub fn read_back_case(&mut self) -> DigitsCase {
        let digits = self.digit_string();
        let needed = match read_back(&digits, &mut [0; READ_BACK_ROOM]) {
            Ok((_, bytes)) => bytes,
            Err(_) => READ_BACK_ROOM,
        };
        let room = self.room(needed);
        DigitsCase { digits, room }
    }

    pub fn recode_wide_case(&mut self) -> RecodeWideCase {
        let number = self.number();
        let width = self.naf_width();
        let needed = recode_wide(trimmed(&number), width, &mut [0; RECODE_ROOM]).unwrap_or(RECODE_ROOM);
        let room = self.room(needed);
        RecodeWideCase { number, width, room }
    }

    pub fn clean_wide_case(&mut self) -> WideDigitsCase {
        let width = self.naf_width();
        let digits = self.wide_digit_string(width);
        let needed = clean_wide(&digits, width, &mut [0; CLEAN_WIDE_ROOM]).unwrap_or(CLEAN_WIDE_ROOM);
        let room = self.room(needed);
        WideDigitsCase { digits, width, room }
    }

    pub fn read_back_wide_case(&mut self) -> WideDigitsCase {
        let width = self.naf_width();
        let digits = self.wide_digit_string(width);
        let needed = match read_back_wide(&digits, width, &mut [0; READ_BACK_WIDE_ROOM]) {
            Ok((_, bytes)) => bytes,
            Err(_) => READ_BACK_WIDE_ROOM,
        };
        let room = self.room(needed);
        WideDigitsCase { digits, width, room }
    }

    pub fn plan_case(&mut self) -> PlanCase {
        let number = self.number();
        let (method, width) = self.method_and_width();
        let needed = match forecast(trimmed(&number), method, width) {
            Ok(counts) => STEP_BYTES * counts.total(),
            Err(_) => PLAN_ROOM,
        };
        let room = self.room(needed);
        PlanCase {
            number,
            method,
            width,
            room,
        }
    }

    pub fn forecast_case(&mut self) -> ForecastCase {
        let number = self.number();
        let (method, width) = self.method_and_width();
        ForecastCase { number, method, width }
    }

    pub fn check_case(&mut self) -> CheckCase {
        let (number, plan) = self.number_and_plan();
        // Now and then the number does not belong to the plan at all, or is refused for itself alone.
        let number = match self.rng.below(16) {
            0 => self.number(),
            1 => Vec::new(),
            2 => self.too_long(),
            3 => self.padded_number(),
            4 => self.padded(number),
            _ => number,
        };
        let room = self.space(plan.len() / STEP_BYTES);
        CheckCase { number, plan, room }
    }

    // Numbers.

    /// A number, mostly within the limit and with a highest byte other than zero.
    pub fn number(&mut self) -> Vec<u8> {
        match self.rng.below(16) {
            0 => Vec::new(),
            1 => self.too_long(),
            2 | 3 => self.padded_number(),
            _ => self.nonzero_number(),
        }
    }

    /// A number within the limit whose highest byte is zero: zero itself, 1, any other, or all ones
    /// below the highest byte.
    fn padded_number(&mut self) -> Vec<u8> {
        let number = match self.rng.below(8) {
            0 => return vec![0],
            1 => Vec::new(),
            2 => vec![1],
            3 => vec![0xFF; NUMBER_BYTES - 1],
            _ => self.nonzero_number(),
        };
        self.padded(number)
    }

    /// A number with high zero bytes, within the limit: the longest loses its highest byte.
    fn padded(&mut self, mut number: Vec<u8>) -> Vec<u8> {
        number.truncate(NUMBER_BYTES - 1);
        let length = match self.rng.below(3) {
            0 => number.len() + 1,
            1 => NUMBER_BYTES,
            _ => self.rng.between(number.len() + 1, NUMBER_BYTES),
        };
        number.resize(length, 0);
        number
    }

    fn too_long(&mut self) -> Vec<u8> {
        let length = match self.rng.one_in(2) {
            true => NUMBER_BYTES + 1,
            false => self.rng.between(NUMBER_BYTES + 1, NUMBER_BYTES + 8),
        };
        match self.rng.below(4) {
            0 => vec![0; length],
            1 => vec![0xFF; length],
            2 => {
                let mut bytes = self.rng.bytes(NUMBER_BYTES);
                bytes.resize(length, 0);
                bytes
            }
            _ => self.rng.bytes(length),
        }
    }

    /// A number within the limit that is not zero; nor is its highest byte.
    fn nonzero_number(&mut self) -> Vec<u8> {
        let number = match self.rng.below(15) {
            0 | 1 => {
                let length = self.rng.between(1, NUMBER_BYTES);
                self.rng.bytes(length)
            }
            2 => self.rng.bytes(NUMBER_BYTES),
            3 => {
                let length = self.rng.between(1, NUMBER_BYTES);
                vec![0xFF; length]
            }
            4 => {
                let place = self.rng.below(NUMBER_BITS);
                power_of_two(place)
            }
            5 => {
                // 2^k - 1, 2^k + 1 and other runs of ones.
                let low = self.rng.below(NUMBER_BITS);
                let high = self.rng.below(NUMBER_BITS);
                run_of_ones(low.min(high), low.max(high))
            }
            6 => {
                let high = self.rng.below(NUMBER_BITS);
                run_of_ones(0, high)
            }
            7 => {
                let length = self.rng.between(1, NUMBER_BYTES);
                let byte = self.rng.pick(&[0x55, 0xAA, 0x33, 0xCC, 0x6D, 0xB6, 0xDB, 0x11]);
                vec![byte; length]
            }
            8 => self.runs(),
            9 | 10 => vec![self.rng.between(1, 130) as u8],
            11 => {
                let value = self.rng.between(1, 70_000) as u32;
                value.to_le_bytes().to_vec()
            }
            12 => self.sparse(),
            13 => {
                let all = modified_corners(self.rng.between(1, NUMBER_BITS));
                all[self.rng.below(all.len())].clone()
            }
            _ => {
                // Around a border between two words or bytes.
                let border = 64 * self.rng.between(1, NUMBER_BITS / 64 - 1);
                let place = self.rng.pick(&[7, 8, border - 1, border, border + 1, NUMBER_BITS - 1]);
                let mut bytes = power_of_two(place);
                bytes[0] |= self.rng.next_byte();
                bytes
            }
        };
        match trimmed(&number) {
            [] => vec![self.rng.between(1, 255) as u8],
            number => number.to_vec(),
        }
    }

    /// Long runs of ones and zeros in turn.
    fn runs(&mut self) -> Vec<u8> {
        let mut number = vec![0; NUMBER_BYTES];
        let longest = self.rng.pick(&[3, 8, 40, 100]);
        let mut place = self.rng.below(4);
        while place < NUMBER_BITS {
            let end = (place + self.rng.between(1, longest)).min(NUMBER_BITS);
            for bit in place..end {
                number[bit / 8] |= 1 << (bit % 8);
            }
            place = end + self.rng.between(1, longest);
        }
        let length = self.rng.between(1, NUMBER_BYTES);
        number.truncate(length);
        number
    }

    fn sparse(&mut self) -> Vec<u8> {
        let mut number = vec![0; NUMBER_BYTES];
        for _ in 0..self.rng.between(1, 5) {
            let place = self.rng.below(NUMBER_BITS);
            number[place / 8] |= 1 << (place % 8);
        }
        number
    }

    // Methods.

    /// A method and a width, mostly an allowed pair.
    pub fn method_and_width(&mut self) -> (u32, u32) {
        if !self.rng.one_in(6) {
            return self.rng.pick(&methods());
        }
        const METHOD: [u32; 15] = [0, 1, 2, 3, 4, 5, 6, 7, 256, 257, 258, 261, 262, 1 << 31, u32::MAX];
        const WIDTH: [u32; 16] = [
            0,
            1,
            2,
            *WINDOW_WIDTHS.end(),
            *WINDOW_WIDTHS.end() + 1,
            *NAF_WIDTHS.end(),
            *NAF_WIDTHS.end() + 1,
            *NAF_WIDTHS.end() + 2,
            64,
            255,
            256,
            257,
            262,
            1 << 31,
            u32::MAX - 1,
            u32::MAX,
        ];
        let widest = *WINDOW_WIDTHS.end() as usize;
        match self.rng.below(5) {
            0 => (self.rng.pick(&METHOD), self.rng.pick(&WIDTH)),
            1 => (self.rng.pick(&[1, 4, 6]), self.rng.between(1, widest + 1) as u32),
            2 => (self.rng.pick(&[2, 3]), self.rng.pick(&[0, widest as u32 + 1])),
            3 => (5, self.rng.pick(&NO_NAF_WIDTHS)),
            _ => (self.rng.pick(&METHOD), self.rng.below(widest + 2) as u32),
        }
    }

    // Digit strings.

    /// The length of a digit string, mostly within the limit.
    fn string_length(&mut self) -> usize {
        match self.rng.below(8) {
            0 => self.rng.below(4),
            1 => self.rng.between(STRING_DIGITS - 4, STRING_DIGITS),
            2 => self.rng.between(STRING_DIGITS - 2, STRING_DIGITS + 2),
            3 => self.rng.below(STRING_DIGITS + 9),
            4 => self
                .rng
                .pick(&[63, 64, 65, 127, 128, 129, 256, 257, 320, 383, 384, 385, 512]),
            _ => self.rng.below(450),
        }
    }

    /// A digit string, mostly within the limit, sometimes damaged.
    pub fn digit_string(&mut self) -> Vec<u8> {
        let length = self.string_length();
        let mut digits = match self.rng.below(13) {
            0 => vec![0x01; length],
            1 => vec![0xFF; length],
            2 => vec![0x00; length],
            3 => [0x01, 0xFF].iter().copied().cycle().take(length).collect(),
            4 => [0xFF, 0x01].iter().copied().cycle().take(length).collect(),
            5 => {
                // Digits below, zeros on top.
                let used = self.rng.below(length + 1);
                let mut digits = self.digits(used, 2);
                digits.resize(length, 0x00);
                digits
            }
            6 => self.digits(length, 20),
            7 => self.digit_runs(length),
            8 => self.canonical(length),
            9 => {
                // A top digit that all the others nearly cancel.
                let (top, lower) = self.rng.pick(&[(0x01, 0xFF), (0xFF, 0x01)]);
                let mut digits = vec![lower; length];
                if let Some(last) = digits.last_mut() {
                    *last = top;
                }
                digits
            }
            10 => self.digits(length, 1),
            _ => self.digits(length, 3),
        };
        if self.rng.one_in(5) {
            self.damage_digits(&mut digits);
        }
        digits
    }

    /// Random digits; about one in `spread` is drawn from 1, minus 1, the
    /// others are 0.
    fn digits(&mut self, length: usize, spread: usize) -> Vec<u8> {
        (0..length)
            .map(|_| match self.rng.one_in(spread) {
                true => self.rng.pick(&[0x01, 0xFF]),
                false => 0x00,
            })
            .collect()
    }

    fn digit_runs(&mut self, length: usize) -> Vec<u8> {
        let mut digits = Vec::new();
        while digits.len() < length {
            let digit = self.rng.pick(&[0x00, 0x01, 0xFF]);
            let run = self.rng.between(1, 12);
            digits.extend(std::iter::repeat(digit).take(run));
        }
        digits.truncate(length);
        digits
    }

    /// A canonical string, of about the length where that can be had.
    fn canonical(&mut self, length: usize) -> Vec<u8> {
        let digits = self.digits(length.min(STRING_DIGITS), 2);
        let mut canonical = vec![0; CLEAN_ROOM];
        let length = clean(&digits, &mut canonical).unwrap_or(0);
        canonical.truncate(length);
        canonical
    }

    fn damage_digits(&mut self, digits: &mut [u8]) {
        if digits.is_empty() {
            return;
        }
        let last = digits.len() - 1;
        match self.rng.below(4) {
            0 => digits[0] = self.rng.pick(&BAD_DIGITS),
            1 => digits[last] = self.rng.pick(&BAD_DIGITS),
            2 => {
                for _ in 0..self.rng.between(2, 5) {
                    let place = self.rng.below(last + 1);
                    digits[place] = self.rng.next_byte();
                }
            }
            _ => {
                let place = self.rng.below(last + 1);
                digits[place] = self.rng.pick(&BAD_DIGITS);
            }
        }
    }

    // Wide digit strings.

    /// A width of a NAF, or now and then one that is none.
    pub fn naf_width(&mut self) -> u32 {
        match self.rng.one_in(10) {
            true => self.rng.pick(&NO_NAF_WIDTHS),
            false => self.any_naf_width(),
        }
    }

    fn any_naf_width(&mut self) -> u32 {
        self.rng
            .between(*NAF_WIDTHS.start() as usize, *NAF_WIDTHS.end() as usize) as u32
    }

    /// A wide digit string, mostly within the limit, sometimes damaged; of any width where the one that is
    /// asked for is none.
    pub fn wide_digit_string(&mut self, width: u32) -> Vec<u8> {
        let width = match NAF_WIDTHS.contains(&width) {
            true => width,
            false => self.any_naf_width(),
        };
        let length = self.string_length();
        let largest = (1u8 << (width - 1)) - 1;
        let minus_largest = largest.wrapping_neg();
        let mut digits = match self.rng.below(15) {
            0 => vec![largest; length],
            1 => vec![minus_largest; length],
            2 => vec![0x00; length],
            3 => [largest, minus_largest].iter().copied().cycle().take(length).collect(),
            4 => vec![self.wide_digit(width); length],
            5 => {
                // Digits below, zeros on top.
                let used = self.rng.below(length + 1);
                let mut digits = self.wide_digits(used, width, 2);
                digits.resize(length, 0x00);
                digits
            }
            6 => self.wide_digits(length, width, 20),
            7 => self.wide_digits(length, width, 1),
            8 => self.wide_runs(length, width),
            9 => self.wide_naf(length, width),
            10 => self.outdone(length, width),
            11 => self.longest_cleaned(length, width),
            12 => self.carry_chain(length, width),
            _ => self.wide_digits(length, width, 3),
        };
        if self.rng.one_in(5) {
            self.damage_wide_digits(&mut digits, width);
        }
        digits
    }

    /// A digit other than 0, often 1 or the largest.
    fn wide_digit(&mut self, width: u32) -> u8 {
        let half = 1usize << (width - 1);
        let size = match self.rng.below(4) {
            0 => 1,
            1 => half - 1,
            _ => 2 * self.rng.below(half / 2) + 1,
        };
        let digit = size as u8;
        match self.rng.one_in(2) {
            true => digit,
            false => digit.wrapping_neg(),
        }
    }

    /// Random digits; about one in `spread` is not 0.
    fn wide_digits(&mut self, length: usize, width: u32, spread: usize) -> Vec<u8> {
        (0..length)
            .map(|_| match self.rng.one_in(spread) {
                true => self.wide_digit(width),
                false => 0x00,
            })
            .collect()
    }

    fn wide_runs(&mut self, length: usize, width: u32) -> Vec<u8> {
        let mut digits = Vec::new();
        while digits.len() < length {
            let digit = match self.rng.one_in(3) {
                true => 0x00,
                false => self.wide_digit(width),
            };
            let run = self.rng.between(1, 12);
            digits.extend(std::iter::repeat(digit).take(run));
        }
        digits.truncate(length);
        digits
    }

    /// A width-w NAF, of about the length where that can be had.
    fn wide_naf(&mut self, length: usize, width: u32) -> Vec<u8> {
        let length = length.min(STRING_DIGITS);
        let digits = self.wide_digits(length.saturating_sub(width as usize), width, 2);
        let mut naf = vec![0; CLEAN_WIDE_ROOM];
        let length = clean_wide(&digits, width, &mut naf).unwrap_or(0);
        naf.truncate(length);
        naf
    }

    /// A top digit that those below it nearly cancel, or outdo, so that the sign is theirs.
    fn outdone(&mut self, length: usize, width: u32) -> Vec<u8> {
        let top = self.wide_digit(width);
        let size = (top as i8).unsigned_abs();
        let largest = (1u8 << (width - 1)) - 1;
        let below = self.rng.pick(&[1, size, largest]);
        let mut digits = match (top as i8) < 0 {
            true => vec![below; length],
            false => vec![below.wrapping_neg(); length],
        };
        if let Some(last) = digits.last_mut() {
            *last = top;
        }
        digits
    }

    /// As many of the largest digits as the width, above a 1: the longest once it is cleaned.
    fn longest_cleaned(&mut self, length: usize, width: u32) -> Vec<u8> {
        let (one, largest) = match self.rng.one_in(2) {
            true => (0x01, (1u8 << (width - 1)) - 1),
            false => (0xFF, ((1u8 << (width - 1)) - 1).wrapping_neg()),
        };
        let top = length.saturating_sub(width as usize);
        let mut digits = match self.rng.one_in(2) {
            true => vec![0x00; length],
            false => self.wide_digits(length, width, 4),
        };
        digits[top..].fill(largest);
        if top > 0 {
            digits[top - 1] = one;
        }
        digits
    }

    /// Ones in all bits from some place on, by digits 1 or by the largest ones apart: what stands at the
    /// lowest place decides whether a carry runs through all of them.
    fn carry_chain(&mut self, length: usize, width: u32) -> Vec<u8> {
        let apart = self.rng.pick(&[1, width as usize - 1]);
        let digit = (1u8 << apart) - 1;
        let digit = match self.rng.one_in(2) {
            true => digit,
            false => digit.wrapping_neg(),
        };
        let start = self.rng.below(9.min(length + 1));
        let mut digits = vec![0x00; length];
        for place in (start..length).step_by(apart) {
            digits[place] = digit;
        }
        if self.rng.one_in(2) && length > 0 {
            let place = self.rng.below((start + 2).min(length));
            digits[place] = self.wide_digit(width);
        }
        digits
    }

    /// A byte that is no digit of the width: near a border, or any.
    fn bad_wide_digit(&mut self, width: u32) -> u8 {
        let half = 1i32 << (width - 1);
        let near = [2, -2, half, -half, half + 1, -half - 1, -128, half + 2];
        let mut bytes: Vec<u8> = match self.rng.one_in(2) {
            true => near.iter().map(|&byte| byte as u8).collect(),
            false => (0..=255).collect(),
        };
        bytes.retain(|&byte| !is_digit(byte, width));
        self.rng.pick(&bytes)
    }

    fn damage_wide_digits(&mut self, digits: &mut [u8], width: u32) {
        if digits.is_empty() {
            return;
        }
        let last = digits.len() - 1;
        let places = match self.rng.below(4) {
            0 => vec![0],
            1 => vec![last],
            2 => {
                let places = self.rng.between(2, 5);
                (0..places).map(|_| self.rng.below(last + 1)).collect()
            }
            _ => vec![self.rng.below(last + 1)],
        };
        for place in places {
            digits[place] = self.bad_wide_digit(width);
        }
    }

    // Buffers.

    /// A length for an output buffer where `needed` bytes are needed.
    fn room(&mut self, needed: usize) -> usize {
        match self.rng.below(10) {
            0 | 1 => needed.saturating_sub(1),
            2 => 0,
            3 => self.rng.below(2 * needed + 2),
            4 => needed + 1,
            5 | 6 => needed + self.rng.below(100),
            _ => needed,
        }
    }

    /// A length for the work space of a plan with that many steps.
    fn space(&mut self, steps: usize) -> usize {
        let needed = work_space(steps);
        match self.rng.below(24) {
            0 => needed - 1,
            1 => needed - self.rng.pick(&[VALUE_BYTES, RECORD_BYTES, needed]),
            2 => self.rng.below(2 * needed),
            3 | 4 => needed + 1,
            5..=8 => needed + self.rng.below(100),
            _ => needed,
        }
    }

    // Plans.

    fn number_and_plan(&mut self) -> (Vec<u8>, Vec<u8>) {
        let number = self.nonzero_number();
        let mut steps = self.own_plan(&number);
        match self.rng.below(27) {
            0..=2 => {}
            3 => {
                // One byte changed.
                if !steps.is_empty() {
                    let place = self.rng.below(steps.len());
                    steps[place] = match self.rng.below(3) {
                        0 => self.rng.next_byte(),
                        1 => steps[place] ^ (1 << self.rng.below(8)),
                        _ => self.rng.pick(&[0, 1, 2, 255]),
                    };
                }
            }
            4 => {
                // Cut short, or a few bytes too many.
                if self.rng.one_in(2) {
                    let length = self.rng.below(steps.len() + 1);
                    steps.truncate(length);
                } else {
                    let more = self.rng.between(1, 9);
                    steps.extend(self.rng.bytes(more));
                }
            }
            5 => {
                // Whole steps cut off.
                let length = self.rng.below(steps.len() / STEP_BYTES + 1);
                steps.truncate(STEP_BYTES * length);
            }
            6 => {
                for _ in 0..self.rng.between(1, 5) {
                    self.push_random_step(&mut steps, 3);
                }
            }
            7 => {
                // A plan for another number.
                let other = self.nonzero_number();
                return (other, steps);
            }
            8 => {
                // The next number, or one 255 below it.
                let mut other = number;
                other[0] = other[0].wrapping_add(1);
                return (trimmed(&other).to_vec(), steps);
            }
            9 | 10 => {
                let length = self.rng.pick(&[1, 2, 3, 5, 8, 20, 60]);
                let spread = self.rng.pick(&[1, 2, 4, 30]);
                let steps = self.random_plan(length, spread);
                return (self.end_of(&steps).unwrap_or(number), steps);
            }
            11 => {
                let length = self.rng.pick(&[100, 250, 400, 450, 600]);
                let spread = self.rng.pick(&[2, 4, 30]);
                let steps = self.random_plan(length, spread);
                return (self.end_of(&steps).unwrap_or(number), steps);
            }
            12 => {
                // Around the longest plan.
                let filler = match self.rng.below(3) {
                    0 => PLAN_STEPS + 1,
                    1 => self.rng.between(PLAN_STEPS - 10, PLAN_STEPS + 10),
                    _ => PLAN_STEPS,
                };
                let count = filler - (steps.len() / STEP_BYTES).min(filler);
                steps = after(filler_steps(count), &steps);
            }
            13 => {
                let number = match self.rng.below(4) {
                    0 => number,
                    1 => vec![2],
                    _ => vec![1],
                };
                return (number, Vec::new());
            }
            14 => {
                // Minus the number: n + 1, then 1 - (n + 1).
                let end = steps.len() / STEP_BYTES;
                push(&mut steps, 0, end, 0);
                push(&mut steps, 1, 0, end + 1);
            }
            15 => self.damage_position(&mut steps),
            16 => {
                // A value of zero, at the end or on the way.
                let keep = self.rng.below(steps.len() / STEP_BYTES + 1);
                let rest = steps.split_off(STEP_BYTES * keep);
                let position = self.rng.below(keep + 1);
                push(&mut steps, 1, position, position);
                steps.extend(rest);
            }
            17 => {
                // Any bytes whatever, mostly a whole number of steps.
                let length = self.rng.below(40);
                let extra = usize::from(self.rng.one_in(4));
                steps = self.rng.bytes(STEP_BYTES * length + extra);
            }
            18..=20 => steps = self.with_copies(&steps),
            kind => {
                let first = match kind {
                    21 | 22 => self.near_plan(),
                    23 => self.largest_plan(),
                    _ => self.border_plan(),
                };
                if self.rng.one_in(2) {
                    return (self.end_of(&first).unwrap_or(number), first);
                }
                // These values first, then the plan for the number.
                steps = after(first, &steps);
            }
        }
        (number, steps)
    }

    /// The plan of a random method for a number.
    fn own_plan(&mut self, number: &[u8]) -> Vec<u8> {
        let (method, width) = self.rng.pick(&methods());
        let mut steps = vec![0; PLAN_ROOM];
        let length = match plan(number, method, width, &mut steps) {
            Ok(counts) => STEP_BYTES * counts.total(),
            Err(_) => 0,
        };
        steps.truncate(length);
        steps
    }

    /// An unknown operation, or a position that is not below the step's own.
    fn damage_position(&mut self, steps: &mut Vec<u8>) {
        if steps.is_empty() {
            push(steps, 0, 0, 0);
        }
        let i = match self.rng.below(3) {
            0 => 1,
            1 => steps.len() / STEP_BYTES,
            _ => self.rng.between(1, steps.len() / STEP_BYTES),
        };
        let step = &mut steps[STEP_BYTES * (i - 1)..STEP_BYTES * i];
        let position = match self.rng.below(4) {
            0 => 65_535,
            1 => (i + 1) as u16,
            2 => (i + 256) as u16,
            _ => i as u16,
        };
        match self.rng.below(3) {
            0 => step[0] = self.rng.pick(&[2, 3, 128, 254, 255]),
            1 => step[1..3].copy_from_slice(&position.to_le_bytes()),
            _ => step[3..5].copy_from_slice(&position.to_le_bytes()),
        }
    }

    /// A step with positions in order; one in `spread` of the positions is any
    /// position, the others are among the latest two.
    fn push_random_step(&mut self, steps: &mut Vec<u8>, spread: usize) {
        let latest = steps.len() / STEP_BYTES;
        let position = |rng: &mut Rng| {
            if rng.one_in(spread) {
                rng.below(latest + 1)
            } else {
                latest - rng.below(2).min(latest)
            }
        };
        let j = position(&mut self.rng);
        let mut k = position(&mut self.rng);
        let operation = u8::from(self.rng.one_in(3));
        // A difference of equal positions is zero: seldom.
        if operation == 1 && j == k && !self.rng.one_in(40) {
            k = if j == 0 { latest } else { 0 };
        }
        let operation = if j == k && operation == 1 && latest == 0 {
            0
        } else {
            operation
        };
        push(steps, operation, j, k);
    }

    fn random_plan(&mut self, length: usize, spread: usize) -> Vec<u8> {
        let mut steps = Vec::with_capacity(STEP_BYTES * length);
        for _ in 0..length {
            self.push_random_step(&mut steps, spread);
        }
        steps
    }

    /// The same chain with copies of its values and of their opposites, so that
    /// many doublings are hidden: they add equal values at two positions, or
    /// subtract opposite ones.
    fn with_copies(&mut self, plan: &[u8]) -> Vec<u8> {
        let mut more = PLAN_STEPS - 5 - plan.len() / STEP_BYTES;
        let spread = self.rng.pick(&[1, 2, 4, 16]);
        // 1, then 2, -1 and 1 again.
        let mut steps = Vec::new();
        push(&mut steps, 0, 0, 0);
        push(&mut steps, 1, 0, 1);
        push(&mut steps, 1, 1, 0);
        // Where the value of each position stands now, and whether its sign is turned there.
        let mut copies = vec![vec![(0, false), (2, true), (3, false)]];
        let (mut end, mut is_turned) = (3, false);
        for step in plan.chunks_exact(STEP_BYTES) {
            let (j, k) = positions(step);
            let mut filled = Vec::new();
            loop {
                let (first, first_turned) = self.rng.pick(&copies[j]);
                let (second, second_turned) = self.rng.pick(&copies[k]);
                // Whether it is turned in what the step adds.
                let second_turned = second_turned != (step[0] == 1);
                is_turned = first_turned;
                if first_turned == second_turned {
                    push(&mut steps, 0, first, second);
                } else if self.rng.one_in(2) {
                    push(&mut steps, 1, first, second);
                } else {
                    push(&mut steps, 1, second, first);
                    is_turned = second_turned;
                }
                end += 1;
                filled.push((end, is_turned));
                if filled.len() > 1 || more == 0 || !self.rng.one_in(spread) {
                    break;
                }
                more -= 1;
            }
            copies.push(filled);
        }
        // Mostly from minus the number to the number: twice that, subtracted.
        if is_turned && !self.rng.one_in(8) {
            push(&mut steps, 0, end, end);
            push(&mut steps, 1, end, end + 1);
        }
        steps
    }

    /// Two values that are equal or differ in one or two bits, each with either
    /// sign, then their sum or difference.
    fn near_plan(&mut self) -> Vec<u8> {
        let top = match self.rng.below(3) {
            0 => self.rng.between(VALUE_BITS - 3, VALUE_BITS - 1),
            _ => self.rng.between(1, VALUE_BITS - 2),
        };
        let mut steps = Vec::new();
        for i in 0..top {
            push(&mut steps, 0, i, i);
        }
        // 2^top, and mostly one bit below it.
        let place = match self.rng.below(3) {
            0 => top - 1 - self.rng.below(8.min(top)),
            1 => self.rng.below(8.min(top)),
            _ => self.rng.below(top),
        };
        let other = match self.rng.below(4) {
            0 => self.rng.below(top),
            1 => top,
            _ => place,
        };
        let mut pair = [0; 2];
        for (value, place) in pair.iter_mut().zip([place, other]) {
            match place == top {
                true => push(&mut steps, 0, top - 1, top - 1),
                false => push(&mut steps, 0, top, place),
            }
            *value = steps.len() / STEP_BYTES;
            if self.rng.one_in(2) {
                // Its opposite: twice the value, subtracted from it.
                push(&mut steps, 0, *value, *value);
                push(&mut steps, 1, *value, *value + 1);
                *value += 2;
            }
        }
        let operation = self.rng.pick(&[0, 1]);
        let first = self.rng.below(2);
        push(&mut steps, operation, pair[first], pair[1 - first]);
        steps
    }

    /// A largest size of any number of bits, mostly around a border between two
    /// bytes or words, on either side of zero.
    fn largest_plan(&mut self) -> Vec<u8> {
        let border = match self.rng.below(3) {
            0 => 64 * self.rng.between(1, VALUE_BITS / 64),
            1 => 8 * self.rng.between(1, VALUE_BITS / 8),
            _ => self.rng.between(4, VALUE_BITS),
        };
        let bits = self.rng.between(border - 1, border + 1).min(VALUE_BITS);
        largest_of(bits, self.rng.one_in(2), self.rng.one_in(2))
    }

    /// Values around B, the limit of a size, below it or at it, on either side
    /// of zero.
    fn border_plan(&mut self) -> Vec<u8> {
        const TOP: usize = VALUE_BITS - 1;
        let mut steps = Vec::new();
        for i in 0..TOP {
            push(&mut steps, 0, i, i);
        }
        // Position TOP holds B/2.
        match self.rng.below(12) {
            0 => {}
            1 => push(&mut steps, 0, TOP, TOP),
            2 | 3 => {
                push(&mut steps, 1, TOP, 0); // B/2 - 1
                push(&mut steps, 0, TOP, TOP + 1); // B - 1
                match self.rng.below(6) {
                    0 => {}
                    1 => push(&mut steps, 0, TOP + 2, 0), // B
                    2 => push(&mut steps, 0, TOP + 2, TOP + 2),
                    3 => push(&mut steps, 0, 0, TOP + 2),
                    4 => push(&mut steps, 1, TOP, TOP + 1), // 1
                    _ => {
                        push(&mut steps, 1, 0, TOP + 2); // -(B - 2)
                        push(&mut steps, 1, TOP + 3, 0); // -(B - 1)
                        if self.rng.one_in(2) {
                            push(&mut steps, 1, TOP + 4, 0); // -B
                        }
                    }
                }
            }
            4 | 5 => {
                push(&mut steps, 1, 0, TOP); // -(B/2 - 1)
                push(&mut steps, 1, TOP + 1, TOP); // -(B - 1)
                match self.rng.below(6) {
                    0 => {}
                    1 => push(&mut steps, 1, TOP + 2, 0), // -B
                    2 => push(&mut steps, 0, TOP + 2, TOP + 2),
                    3 => push(&mut steps, 0, TOP + 2, 0), // -(B - 2)
                    4 => push(&mut steps, 1, 0, TOP + 2), // B
                    _ => push(&mut steps, 1, TOP + 2, TOP + 2),
                }
            }
            6 | 7 => {
                push(&mut steps, 0, TOP, 0); // B/2 + 1
                push(&mut steps, 1, 0, TOP + 1); // -B/2
                match self.rng.below(5) {
                    0 => push(&mut steps, 1, TOP + 2, TOP),     // -B
                    1 => push(&mut steps, 0, TOP + 2, TOP + 2), // -B
                    2 => push(&mut steps, 1, TOP, TOP + 2),     // B
                    3 => push(&mut steps, 0, TOP, TOP + 2),     // 0
                    _ => push(&mut steps, 0, TOP + 1, TOP + 2), // 1
                }
            }
            8 | 9 => {
                // B - 2^k, then 2^k or 2^k - 1 or 2^k - 2^m more.
                let place = self.rng.below(TOP);
                push(&mut steps, 1, TOP, place);
                push(&mut steps, 0, TOP + 1, TOP);
                match self.rng.below(4) {
                    0 => push(&mut steps, 0, TOP + 2, place),
                    1 => push(&mut steps, 0, place, TOP + 2),
                    2 => push(&mut steps, 1, place, TOP + 2),
                    _ => {
                        let lower = self.rng.below(place + 1);
                        push(&mut steps, 0, TOP + 2, lower);
                    }
                }
            }
            10 => {
                // Down from the border in differences of powers of two.
                let mut high = TOP;
                for _ in 0..self.rng.between(1, 20) {
                    let low = self.rng.below(high);
                    push(&mut steps, 1, high, low);
                    high = low.max(1);
                }
            }
            _ => {
                for _ in 0..self.rng.between(1, 8) {
                    self.push_random_step(&mut steps, 1);
                }
            }
        }
        steps
    }

    /// The value a plan ends at, if it is sound and its end is a number above
    /// zero within the limit.
    fn end_of(&self, steps: &[u8]) -> Option<Vec<u8>> {
        let count = steps.len() / STEP_BYTES;
        let mut space = vec![0; work_space(count)];
        match check(&[1], steps, &mut space) {
            Err(refusal) if refusal.number != WRONG_END => return None,
            _ => {}
        }
        let record = &space[RECORD_BYTES * count..];
        let (size, above) = record[1..].split_at(NUMBER_BYTES);
        if record[0] != 0 || above.iter().any(|&byte| byte != 0) {
            return None;
        }
        Some(trimmed(size).to_vec())
    }
}

/// How many steps of an accepted plan are hidden doublings, by the records that
/// its check left: steps that add equal values at two positions, and steps that
/// subtract opposite ones.
pub fn hidden_doublings(plan: &[u8], space: &[u8]) -> [usize; 2] {
    let record = |position: usize| space[RECORD_BYTES * position..][..RECORD_BYTES].split_at(1);
    let mut hidden = [0; 2];
    for step in plan.chunks_exact(STEP_BYTES) {
        let (j, k) = positions(step);
        let ((sign, size), (other_sign, other_size)) = (record(j), record(k));
        let is_subtraction = step[0] == 1;
        if j != k && size == other_size && (sign != other_sign) == is_subtraction {
            hidden[usize::from(is_subtraction)] += 1;
        }
    }
    hidden
}

/// A plan for 2 that adds and subtracts two values, with either sign, which
/// differ in the bit at this place alone; then the larger one and a copy of it,
/// so that four doublings are hidden, unless it is too large for that.
pub fn one_bit_apart(place: usize) -> Vec<u8> {
    const TOP: usize = VALUE_BITS - 1;
    let mut steps = Vec::new();
    // Position i holds 2^i; the smaller value is one of these.
    for i in 0..TOP {
        push(&mut steps, 0, i, i);
    }
    let small = usize::from(place == 0);
    let (large, copy, minus_large, minus_copy, minus_small) = (TOP + 1, TOP + 2, TOP + 4, TOP + 5, TOP + 6);
    push(&mut steps, 0, place, small);
    push(&mut steps, 0, place, small);
    push(&mut steps, 1, small, place);
    push(&mut steps, 1, TOP + 3, small + 1);
    push(&mut steps, 1, TOP + 3, small + 1);
    push(&mut steps, 1, small, small + 1);

    push(&mut steps, 0, large, small);
    push(&mut steps, 0, small, large);
    push(&mut steps, 0, minus_large, minus_small);
    push(&mut steps, 1, large, minus_small);
    push(&mut steps, 1, minus_small, large);
    push(&mut steps, 1, minus_large, small);
    push(&mut steps, 1, small, minus_large);
    if place < TOP {
        push(&mut steps, 0, large, copy);
        push(&mut steps, 0, minus_copy, minus_large);
        push(&mut steps, 1, copy, minus_large);
        push(&mut steps, 1, minus_large, large);
    }
    push(&mut steps, 0, 0, 0);
    steps
}

/// A plan for 2 whose largest size has this many bits, from 3 up: a power of two
/// or all ones. If it is below zero, no value above zero has as many bits.
pub fn largest_of(bits: usize, is_ones: bool, is_below_zero: bool) -> Vec<u8> {
    let mut steps = Vec::new();
    // Position i holds 2^i.
    for i in 0..bits - 2 {
        push(&mut steps, 0, i, i);
    }
    let mut half = bits - 2;
    if is_below_zero {
        // 1 - 2^half, then -2^half.
        push(&mut steps, 1, 0, half);
        push(&mut steps, 1, half + 1, 0);
        half += 2;
    }
    push(&mut steps, 0, half, half);
    if is_ones {
        // One nearer to zero, and both together.
        push(&mut steps, u8::from(!is_below_zero), half + 1, 0);
        push(&mut steps, 0, half + 1, half + 2);
    }
    push(&mut steps, 0, 0, 0);
    steps
}

/// The bits of the largest size above zero and of the largest below zero, 0 if
/// there is none, by the records that the check of a plan left.
pub fn bits_by_sign(plan: &[u8], space: &[u8]) -> [usize; 2] {
    let mut largest = [0; 2];
    for record in space.chunks_exact(RECORD_BYTES).take(plan.len() / STEP_BYTES + 1) {
        let sign = usize::from(record[0]);
        largest[sign] = largest[sign].max(bit_length(&record[1..]));
    }
    largest
}

/// Numbers of this many bytes, n bits, whose recoding by words is easy to get wrong: 2^n / 3 and
/// 2^(n + 1) / 3, rounded down and up, where three times the number gets its first and its second bit
/// above these n; all ones and one less; a 1 at the top, alone and above a 1 at the bottom; a 1 in the
/// highest byte, alone and above all ones.
pub fn corners(bytes: usize) -> Vec<Vec<u8>> {
    if bytes == 0 {
        return vec![Vec::new()];
    }
    // The highest byte, those below it, and which bits of the lowest are turned.
    let of = |high: u8, below: u8, turned: u8| {
        let mut number = vec![below; bytes];
        number[bytes - 1] = high;
        number[0] ^= turned;
        number
    };
    vec![
        of(0x55, 0x55, 0),
        of(0x55, 0x55, 0x55 ^ 0x56),
        of(0xAA, 0xAA, 0),
        of(0xAA, 0xAA, 0xAA ^ 0xAB),
        of(0xFF, 0xFF, 0),
        of(0xFF, 0xFF, 1),
        of(0x80, 0x00, 0),
        of(0x80, 0x00, 1),
        of(0x01, 0x00, 0),
        of(0x01, 0xFF, 0),
    ]
}

/// Numbers of this many bits around the borders of the modified form. If the top bit is 2^k, the non-adjacent form
/// leads with 1 0 -1 from 4/3 to 5/3 of 2^k, and with 1 0 0 above these. So 1, 4/3, 3/2, 5/3 and 2 times 2^k, rounded
/// down, with two neighbours on each side; or all numbers, where there are few.
pub fn modified_corners(bits: usize) -> Vec<Vec<u8>> {
    if bits <= 5 {
        return (1 << (bits - 1)..1 << bits).map(|number| vec![number]).collect();
    }
    let around = |sixths: u32| (-2..=2).map(move |by| sixths_of(sixths, bits - 1, by));
    let mut all: Vec<Vec<u8>> = [6, 8, 9, 10, 12].into_iter().flat_map(around).collect();
    all.retain(|number| bit_length(number) == bits);
    all
}

/// So many sixths of 2^place, rounded down, and moved by a little.
fn sixths_of(sixths: u32, place: usize, by: i32) -> Vec<u8> {
    let mut number = vec![0; place / 8];
    number.extend((sixths << (place % 8)).to_le_bytes());
    let mut remainder = 0;
    for byte in number.iter_mut().rev() {
        let part = 256 * remainder + u32::from(*byte);
        *byte = (part / 6) as u8;
        remainder = part % 6;
    }
    let mut carry = by;
    for byte in &mut number {
        let sum = i32::from(*byte) + carry;
        *byte = sum.rem_euclid(256) as u8;
        carry = sum.div_euclid(256);
    }
    trimmed(&number).to_vec()
}

/// Every number of at most this many words, each of them 0, all ones, every second bit from the lowest or
/// from the next, the lowest bit or the highest; zero too.
pub fn mixed_words(most: u32) -> impl Iterator<Item = Vec<u8>> {
    const WORDS: [u64; 6] = [0, u64::MAX, u64::MAX / 3, u64::MAX / 3 * 2, 1, 1 << 63];
    // As base 6 writes it, a mix has no high words 0: each number comes once.
    (0..WORDS.len().pow(most)).map(|mut mix| {
        let mut number = Vec::new();
        while mix > 0 {
            number.extend(WORDS[mix % WORDS.len()].to_le_bytes());
            mix /= WORDS.len();
        }
        trimmed(&number).to_vec()
    })
}

/// The number without its high zero bytes.
pub fn trimmed(number: &[u8]) -> &[u8] {
    let length = number.iter().rposition(|&byte| byte != 0).map_or(0, |top| top + 1);
    &number[..length]
}

pub fn bit_length(number: &[u8]) -> usize {
    match trimmed(number) {
        [] => 0,
        [below @ .., top] => 8 * below.len() + 8 - top.leading_zeros() as usize,
    }
}

/// 2^place less a small number that is not larger.
pub fn below_power_of_two(place: usize, small: u8) -> Vec<u8> {
    let mut number = power_of_two(place);
    let mut borrow = i32::from(small);
    for byte in &mut number {
        let difference = i32::from(*byte) - borrow;
        *byte = difference as u8;
        borrow = i32::from(difference < 0);
    }
    trimmed(&number).to_vec()
}

pub(crate) fn power_of_two(place: usize) -> Vec<u8> {
    let mut number = vec![0; place / 8 + 1];
    number[place / 8] = 1 << (place % 8);
    number
}

/// Ones at the places from `low` to `high`.
fn run_of_ones(low: usize, high: usize) -> Vec<u8> {
    let mut number = vec![0; high / 8 + 1];
    for place in low..=high {
        number[place / 8] |= 1 << (place % 8);
    }
    number
}

fn push(steps: &mut Vec<u8>, operation: u8, j: usize, k: usize) {
    steps.push(operation);
    steps.extend((j as u16).to_le_bytes());
    steps.extend((k as u16).to_le_bytes());
}

/// The two positions of a step.
fn positions(step: &[u8]) -> (usize, usize) {
    let position = |low: u8, high: u8| usize::from(u16::from_le_bytes([low, high]));
    (position(step[1], step[2]), position(step[3], step[4]))
}

/// Sound steps with the values 2, 3 and -1 over and over.
fn filler_steps(count: usize) -> Vec<u8> {
    let mut steps = Vec::with_capacity(STEP_BYTES * count);
    for i in 0..count {
        match i % 3 {
            0 => push(&mut steps, 0, 0, 0),
            1 => push(&mut steps, 0, 0, i),
            _ => push(&mut steps, 1, 0, i - 1),
        }
    }
    steps
}

/// A plan behind other steps: position 0 stays, all others move up.
fn after(mut first: Vec<u8>, then: &[u8]) -> Vec<u8> {
    let offset = first.len() / STEP_BYTES;
    let moved = |position: usize| match position {
        0 => 0,
        position => position + offset,
    };
    for step in then.chunks_exact(STEP_BYTES) {
        let (j, k) = positions(step);
        push(&mut first, step[0], moved(j), moved(k));
    }
    first
}
