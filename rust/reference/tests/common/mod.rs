//! Documents 01 and 02 once more, written for the tests: slow, with vectors, and
//! by other ways than the library takes. Each call answers the outcome and the
//! whole buffer as it must stand afterwards.

#![allow(dead_code)]

use reference::limits::*;
use reference::refusal::*;
use reference::{Accepted, Counts};
use std::cmp::Ordering;

pub fn refusal(number: u8, place: usize) -> Refusal {
    Refusal { number, place }
}

/// A whole number: sign and size, base 256, no high zero byte.
#[derive(Clone, PartialEq, Eq, Debug)]
pub struct Big {
    pub negative: bool,
    pub size: Vec<u8>,
}

impl Big {
    pub fn from_bytes(bytes: &[u8]) -> Big {
        Big {
            negative: false,
            size: bytes.to_vec(),
        }
        .trimmed()
    }

    pub fn small(value: i8) -> Big {
        Big {
            negative: value < 0,
            size: vec![value.unsigned_abs()],
        }
        .trimmed()
    }

    fn trimmed(mut self) -> Big {
        while self.size.last() == Some(&0) {
            self.size.pop();
        }
        if self.size.is_empty() {
            self.negative = false;
        }
        self
    }

    pub fn is_zero(&self) -> bool {
        self.size.is_empty()
    }

    pub fn negated(&self) -> Big {
        Big {
            negative: !self.negative,
            size: self.size.clone(),
        }
        .trimmed()
    }

    fn compare_size(&self, other: &Big) -> Ordering {
        self.size
            .len()
            .cmp(&other.size.len())
            .then_with(|| self.size.iter().rev().cmp(other.size.iter().rev()))
    }

    pub fn plus(&self, other: &Big) -> Big {
        if self.negative != other.negative && self.compare_size(other) == Ordering::Less {
            return other.plus(self);
        }
        let sign = if self.negative == other.negative { 1 } else { -1 };
        let mut size = Vec::new();
        let mut carry = 0i32;
        for i in 0..self.size.len().max(other.size.len()) + 1 {
            let a = i32::from(*self.size.get(i).unwrap_or(&0));
            let b = i32::from(*other.size.get(i).unwrap_or(&0));
            let sum = a + sign * b + carry;
            size.push(sum.rem_euclid(256) as u8);
            carry = sum.div_euclid(256);
        }
        assert_eq!(carry, 0);
        Big {
            negative: self.negative,
            size,
        }
        .trimmed()
    }

    pub fn minus(&self, other: &Big) -> Big {
        self.plus(&other.negated())
    }

    /// The remainder modulo 2^width, which is at most 256, and never below zero.
    fn modulo(&self, width: u32) -> i32 {
        let low = i32::from(*self.size.first().unwrap_or(&0));
        let sign = if self.negative { -1 } else { 1 };
        (sign * low).rem_euclid(1 << width)
    }

    /// Half of an even value.
    fn half(&self) -> Big {
        let mut size = self.size.clone();
        let mut from_above = 0;
        for byte in size.iter_mut().rev() {
            let low = *byte & 1;
            *byte = *byte / 2 + 128 * from_above;
            from_above = low;
        }
        assert_eq!(from_above, 0);
        Big {
            negative: self.negative,
            size,
        }
        .trimmed()
    }

    pub fn bits(&self) -> Vec<bool> {
        let mut bits: Vec<bool> = self
            .size
            .iter()
            .flat_map(|byte| (0..8).map(move |i| byte >> i & 1 == 1))
            .collect();
        while bits.last() == Some(&false) {
            bits.pop();
        }
        bits
    }

    /// The non-adjacent form by Bosma's rule modulo 4, lowest digit first.
    pub fn canonical(&self) -> Vec<u8> {
        let mut rest = self.clone();
        let mut digits = Vec::new();
        while !rest.is_zero() {
            let digit = match rest.modulo(2) {
                1 => 1,
                3 => -1,
                _ => 0,
            };
            rest = rest.minus(&Big::small(digit)).half();
            digits.push(digit as u8);
        }
        digits
    }

    /// The modified non-adjacent form, lowest digit first: in the non-adjacent form as people write it, leading
    /// digits 1 0 -1 become 1 1.
    pub fn modified(&self) -> Vec<u8> {
        let text: String = self
            .canonical()
            .iter()
            .rev()
            .map(|&digit| format!("{} ", digit as i8))
            .collect();
        let text = match text.strip_prefix("1 0 -1 ") {
            Some(rest) => format!("1 1 {}", rest),
            None => text,
        };
        let digits = text.split_whitespace().rev();
        digits.map(|word| word.parse::<i8>().unwrap() as u8).collect()
    }

    /// The width-w NAF, lowest digit first: the rest is even, or an odd digit leaves a multiple of 2^w,
    /// and then w - 1 zeros follow at once.
    pub fn naf(&self, width: u32) -> Vec<u8> {
        let mut rest = self.clone();
        let mut digits = Vec::new();
        while !rest.is_zero() {
            if rest.modulo(1) == 0 {
                digits.push(0);
                rest = rest.half();
                continue;
            }
            // Of the two odd numbers that leave such a multiple, the one nearer to zero.
            let residue = rest.modulo(width);
            let digit = [residue, residue - (1 << width)]
                .into_iter()
                .min_by_key(|digit| digit.abs())
                .unwrap() as i8;
            rest = rest.minus(&Big::small(digit));
            digits.push(digit as u8);
            for place in 0..width {
                rest = rest.half();
                if place > 0 && !rest.is_zero() {
                    digits.push(0);
                }
            }
        }
        digits
    }
}

/// The value of a digit string, from the top digit down.
pub fn value_of(digits: &[u8]) -> Big {
    digits.iter().rev().fold(Big::small(0), |value, &digit| {
        value.plus(&value).plus(&Big::small(digit as i8))
    })
}

fn read_number(number: &[u8]) -> Result<Big, Refusal> {
    let value = Big::from_bytes(number);
    match number.len() {
        length if length > NUMBER_BYTES => Err(refusal(NUMBER_TOO_LONG, 0)),
        // A highest byte of zero makes the number longer than its value.
        length if length > value.size.len() => Err(refusal(HIGHEST_BYTE_IS_ZERO, 0)),
        _ => Ok(value),
    }
}

fn read_nonzero(number: &[u8]) -> Result<Big, Refusal> {
    let number = read_number(number)?;
    if number.is_zero() {
        return Err(refusal(NUMBER_IS_ZERO, 0));
    }
    Ok(number)
}

fn read_digits(digits: &[u8]) -> Result<Big, Refusal> {
    if digits.len() > STRING_DIGITS {
        return Err(refusal(STRING_TOO_LONG, 0));
    }
    for (place, digit) in digits.iter().enumerate() {
        if ![0, 1, 255].contains(digit) {
            return Err(refusal(NOT_A_DIGIT, place));
        }
    }
    Ok(value_of(digits))
}

/// The digits of a width: every odd number between -2^(w-1) and 2^(w-1), and 0.
fn digits_of(width: u32) -> Vec<u8> {
    let half = 1i32 << (width - 1);
    let odd = (1 - half..half).filter(|digit| *digit % 2 != 0);
    odd.chain([0]).map(|digit| digit as i8 as u8).collect()
}

fn read_width(width: u32) -> Result<(), Refusal> {
    match width {
        2..=8 => Ok(()),
        _ => Err(refusal(METHOD_OR_WIDTH, 0)),
    }
}

fn read_wide_digits(digits: &[u8], width: u32) -> Result<Big, Refusal> {
    read_width(width)?;
    if digits.len() > STRING_DIGITS {
        return Err(refusal(STRING_TOO_LONG, 0));
    }
    let allowed = digits_of(width);
    for (place, digit) in digits.iter().enumerate() {
        if !allowed.contains(digit) {
            return Err(refusal(NOT_A_DIGIT, place));
        }
    }
    Ok(value_of(digits))
}

fn put(answer: &[u8], out: &mut [u8]) -> Result<(), Refusal> {
    if answer.len() > out.len() {
        return Err(refusal(ROOM_TOO_SMALL, answer.len()));
    }
    out[..answer.len()].copy_from_slice(answer);
    Ok(())
}

pub fn recode(number: &[u8], out: &mut [u8]) -> Result<usize, Refusal> {
    let digits = read_number(number)?.canonical();
    put(&digits, out)?;
    Ok(digits.len())
}

pub fn recode_modified(number: &[u8], out: &mut [u8]) -> Result<usize, Refusal> {
    let digits = read_number(number)?.modified();
    put(&digits, out)?;
    Ok(digits.len())
}

pub fn clean(digits: &[u8], out: &mut [u8]) -> Result<usize, Refusal> {
    let digits = read_digits(digits)?.canonical();
    put(&digits, out)?;
    Ok(digits.len())
}

pub fn read_back(digits: &[u8], out: &mut [u8]) -> Result<(u8, usize), Refusal> {
    let value = read_digits(digits)?;
    put(&value.size, out)?;
    Ok((u8::from(value.negative), value.size.len()))
}

pub fn recode_wide(number: &[u8], width: u32, out: &mut [u8]) -> Result<usize, Refusal> {
    let number = read_number(number)?;
    read_width(width)?;
    let digits = number.naf(width);
    put(&digits, out)?;
    Ok(digits.len())
}

pub fn clean_wide(digits: &[u8], width: u32, out: &mut [u8]) -> Result<usize, Refusal> {
    let digits = read_wide_digits(digits, width)?.naf(width);
    put(&digits, out)?;
    Ok(digits.len())
}

pub fn read_back_wide(digits: &[u8], width: u32, out: &mut [u8]) -> Result<(u8, usize), Refusal> {
    let value = read_wide_digits(digits, width)?;
    put(&value.size, out)?;
    Ok((u8::from(value.negative), value.size.len()))
}

type Step = (u8, usize, usize);

/// Where an odd value stands in the table of method 3.
fn position(v: usize) -> usize {
    match v {
        1 => 0,
        _ => (v + 1) / 2,
    }
}

/// The table of method 3 for width d.
fn odd_table(d: usize) -> Vec<Step> {
    let mut table = Vec::new();
    if d >= 2 {
        table.push((0, 0, 0));
        table.push((0, 1, 0));
        for i in 3..=1 << (d - 1) {
            table.push((0, i - 1, 1));
        }
    }
    table
}

fn bits_value(bits: &[bool]) -> usize {
    bits.iter().rev().fold(0, |value, &bit| 2 * value + usize::from(bit))
}

/// The steps of a plan, straight from the words of docs/RULES.md, "Methods".
fn steps_of(e: &Big, method: u32, width: u32) -> Result<Vec<Step>, Refusal> {
    let allowed = match method {
        1 | 4 | 6 => width == 0,
        2 | 3 => WINDOW_WIDTHS.contains(&width),
        5 => read_width(width).is_ok(),
        _ => false,
    };
    if !allowed {
        return Err(refusal(METHOD_OR_WIDTH, 0));
    }
    let d = width as usize;
    let bits = e.bits();
    let mut steps: Vec<Step> = Vec::new();
    match method {
        1 => {
            for place in (0..bits.len() - 1).rev() {
                steps.push((0, steps.len(), steps.len()));
                if bits[place] {
                    steps.push((0, steps.len(), 0));
                }
            }
        }
        2 => {
            if bits.len() <= d {
                let e = bits_value(&bits);
                for i in 1..e {
                    steps.push((0, i - 1, 0));
                }
                return Ok(steps);
            }
            let mut i = 1;
            while i + 2 <= 1 << d {
                steps.push((0, i - 1, 0));
                i += 1;
            }
            let windows: Vec<usize> = bits.chunks(d).map(bits_value).collect();
            let mut latest = windows[windows.len() - 1] - 1;
            for &v in windows.iter().rev().skip(1) {
                for _ in 0..d {
                    steps.push((0, latest, latest));
                    latest = steps.len();
                }
                if v != 0 {
                    steps.push((0, latest, v - 1));
                    latest = steps.len();
                }
            }
        }
        3 => {
            let mut table = odd_table(d);
            if bits[0] && bits.len() <= d {
                table.truncate(position(bits_value(&bits)));
                return Ok(table);
            }
            steps = table;
            // Most significant first.
            let bits: Vec<bool> = bits.into_iter().rev().collect();
            let mut latest = None;
            let mut at = 0;
            while at < bits.len() {
                if !bits[at] {
                    let from = latest.unwrap();
                    steps.push((0, from, from));
                    latest = Some(steps.len());
                    at += 1;
                    continue;
                }
                let mut length = d.min(bits.len() - at);
                while !bits[at + length - 1] {
                    length -= 1;
                }
                let v = bits[at..at + length].iter().fold(0, |v, &bit| 2 * v + usize::from(bit));
                latest = match latest {
                    None => Some(position(v)),
                    Some(mut from) => {
                        for _ in 0..length {
                            steps.push((0, from, from));
                            from = steps.len();
                        }
                        steps.push((0, from, position(v)));
                        Some(steps.len())
                    }
                };
                at += length;
            }
        }
        4 | 6 => {
            let digits = match method {
                4 => e.canonical(),
                _ => e.modified(),
            };
            for &digit in digits.iter().rev().skip(1) {
                steps.push((0, steps.len(), steps.len()));
                match digit {
                    1 => steps.push((0, steps.len(), 0)),
                    255 => steps.push((1, steps.len(), 0)),
                    _ => {}
                }
            }
        }
        _ => {
            steps = odd_table(d - 1);
            if bits[0] && bits.len() < d {
                steps.truncate(position(bits_value(&bits)));
                return Ok(steps);
            }
            let mut latest = None;
            for digit in e.naf(width).into_iter().rev().map(|digit| digit as i8) {
                if let Some(from) = latest {
                    steps.push((0, from, from));
                    latest = Some(steps.len());
                }
                let at = position(usize::from(digit.unsigned_abs()));
                match (latest, digit.signum()) {
                    (_, 0) => continue,
                    (None, _) => latest = Some(at),
                    (Some(from), sign) => {
                        steps.push((u8::from(sign < 0), from, at));
                        latest = Some(steps.len());
                    }
                }
            }
        }
    }
    Ok(steps)
}

/// A step doubles if it gives twice its first value: then the second is equal to that and added, or
/// opposite and subtracted.
fn counts_of(steps: &[Step]) -> Counts {
    let mut values = vec![Big::small(1)];
    let mut counts = Counts {
        doublings: 0,
        additions: 0,
        subtractions: 0,
    };
    for &(operation, j, k) in steps {
        let value = value_at(&values, operation, j, k);
        if value == values[j].plus(&values[j]) {
            counts.doublings += 1;
        } else if operation == 0 {
            counts.additions += 1;
        } else {
            counts.subtractions += 1;
        }
        values.push(value);
    }
    counts
}

/// The value of a step over the values so far.
fn value_at(values: &[Big], operation: u8, j: usize, k: usize) -> Big {
    match operation {
        0 => values[j].plus(&values[k]),
        _ => values[j].minus(&values[k]),
    }
}

pub fn plan(number: &[u8], method: u32, width: u32, out: &mut [u8]) -> Result<Counts, Refusal> {
    let steps = steps_of(&read_nonzero(number)?, method, width)?;
    let mut bytes = Vec::new();
    for &(operation, j, k) in &steps {
        bytes.push(operation);
        bytes.push((j % 256) as u8);
        bytes.push((j / 256) as u8);
        bytes.push((k % 256) as u8);
        bytes.push((k / 256) as u8);
    }
    put(&bytes, out)?;
    Ok(counts_of(&steps))
}

pub fn forecast(number: &[u8], method: u32, width: u32) -> Result<Counts, Refusal> {
    let steps = steps_of(&read_nonzero(number)?, method, width)?;
    Ok(counts_of(&steps))
}

fn put_record(space: &mut [u8], position: usize, value: &Big) {
    let record = &mut space[RECORD_BYTES * position..RECORD_BYTES * (position + 1)];
    record.fill(0);
    record[0] = u8::from(value.negative);
    record[1..1 + value.size.len()].copy_from_slice(&value.size);
}

/// The bits of the largest size, which is looked for first.
fn largest_bits(values: &[Big]) -> usize {
    let largest = values.iter().max_by(|a, b| a.compare_size(b)).unwrap();
    largest.bits().len()
}

pub fn check(number: &[u8], plan: &[u8], space: &mut [u8]) -> Result<Accepted, Refusal> {
    let number = read_nonzero(number)?;
    if plan.len() % STEP_BYTES != 0 || plan.len() > PLAN_ROOM {
        return Err(refusal(PLAN_LENGTH, 0));
    }
    let r = plan.len() / STEP_BYTES;
    if space.len() < work_space(r) {
        return Err(refusal(WORK_SPACE_TOO_SHORT, 0));
    }
    let mut values = vec![Big::small(1)];
    let mut steps = Vec::new();
    put_record(space, 0, &values[0]);
    for i in 1..=r {
        let step = &plan[STEP_BYTES * (i - 1)..STEP_BYTES * i];
        let j = usize::from(step[1]) + 256 * usize::from(step[2]);
        let k = usize::from(step[3]) + 256 * usize::from(step[4]);
        if step[0] > 1 || j >= i || k >= i {
            return Err(refusal(MALFORMED_STEP, i));
        }
        let value = value_at(&values, step[0], j, k);
        if value.is_zero() {
            return Err(refusal(VALUE_IS_ZERO, i));
        }
        if value.size.len() > VALUE_BYTES {
            return Err(refusal(VALUE_TOO_LARGE, i));
        }
        put_record(space, i, &value);
        values.push(value);
        steps.push((step[0], j, k));
    }
    if values[r] != number {
        return Err(refusal(WRONG_END, r));
    }
    Ok(Accepted {
        counts: counts_of(&steps),
        largest_bits: largest_bits(&values),
    })
}
