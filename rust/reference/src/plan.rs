//! Planning by the six methods, and the forecast of a plan's counts.

use crate::limits::{NAF_WIDTHS, RECODE_WORDS, STEP_BYTES, WINDOW_WIDTHS};
use crate::modified::ModifiedNaf;
use crate::naf::Naf;
use crate::number::Number;
use crate::refusal::METHOD_OR_WIDTH;
use crate::wide::WideNaf;
use crate::{output, Counts, Refusal};

pub(crate) const ADD: u8 = 0x00;
pub(crate) const SUBTRACT: u8 = 0x01;

#[derive(Clone, Copy)]
enum Method {
    Binary,
    FixedWindows(usize),
    SlidingWindows(usize),
    Naf,
    WideNaf(u32),
    ModifiedNaf,
}

impl Method {
    /// Refusal 3: no such method, or a width it does not allow.
    fn select(method: u32, width: u32) -> Result<Method, Refusal> {
        match method {
            1 if width == 0 => Ok(Method::Binary),
            2 if WINDOW_WIDTHS.contains(&width) => Ok(Method::FixedWindows(width as usize)),
            3 if WINDOW_WIDTHS.contains(&width) => Ok(Method::SlidingWindows(width as usize)),
            4 if width == 0 => Ok(Method::Naf),
            5 if NAF_WIDTHS.contains(&width) => Ok(Method::WideNaf(width)),
            6 if width == 0 => Ok(Method::ModifiedNaf),
            _ => Err(Refusal::new(METHOD_OR_WIDTH, 0)),
        }
    }
}

/// Writes the plan for a number by a method; answers the counts of its steps.
///
/// Refusals in order: 1, 13, 2, 3, 6.
pub fn plan(number: &[u8], method: u32, width: u32, out: &mut [u8]) -> Result<Counts, Refusal> {
    let number = Number::read_nonzero(number)?;
    let method = Method::select(method, width)?;
    let counts = count(&number, method);
    let mut chain = Chain::new(output(out, STEP_BYTES * counts.total())?);
    match method {
        Method::Binary => binary(&number, &mut chain),
        Method::FixedWindows(width) => fixed_windows(&number, width, &mut chain),
        Method::SlidingWindows(width) => sliding_windows(&number, width, &mut chain),
        Method::Naf => non_adjacent_form(&number, &mut chain),
        Method::WideNaf(width) => wide_non_adjacent_form(&number, width, &mut chain),
        Method::ModifiedNaf => modified_non_adjacent_form(&number, &mut chain),
    }
    debug_assert_eq!(chain.filled, counts.total());
    Ok(counts)
}

/// The counts of the plan that the same inputs give, without the plan.
///
/// Refusals in order: 1, 13, 2, 3.
pub fn forecast(number: &[u8], method: u32, width: u32) -> Result<Counts, Refusal> {
    let number = Number::read_nonzero(number)?;
    let method = Method::select(method, width)?;
    Ok(count(&number, method))
}

/// A chain as it is written: its steps so far and the latest position.
struct Chain<'a> {
    out: &'a mut [u8],
    /// The last position filled; position 0 holds 1 without a step.
    filled: usize,
    latest: usize,
}

impl<'a> Chain<'a> {
    fn new(out: &'a mut [u8]) -> Chain<'a> {
        Chain {
            out,
            filled: 0,
            latest: 0,
        }
    }

    fn step(&mut self, operation: u8, j: usize, k: usize) {
        let start = STEP_BYTES * self.filled;
        let [j_low, j_high] = (j as u16).to_le_bytes();
        let [k_low, k_high] = (k as u16).to_le_bytes();
        self.out[start..start + STEP_BYTES].copy_from_slice(&[operation, j_low, j_high, k_low, k_high]);
        self.filled += 1;
        self.latest = self.filled;
    }

    fn double(&mut self) {
        self.step(ADD, self.latest, self.latest);
    }

    fn add(&mut self, position: usize) {
        self.step(ADD, self.latest, position);
    }

    fn subtract(&mut self, position: usize) {
        self.step(SUBTRACT, self.latest, position);
    }
}

fn count(number: &Number, method: Method) -> Counts {
    match method {
        Method::Binary => count_binary(number),
        Method::FixedWindows(width) => count_fixed_windows(number, width),
        Method::SlidingWindows(width) => count_sliding_windows(number, width),
        Method::Naf => count_non_adjacent_form(number),
        Method::WideNaf(width) => count_wide_non_adjacent_form(number, width),
        Method::ModifiedNaf => count_modified_non_adjacent_form(number),
    }
}

/// Counts of a table of `steps` steps, of which only the first, add(0, 0), is a
/// doubling.
fn count_table(steps: usize) -> Counts {
    Counts {
        doublings: steps.min(1),
        additions: steps.saturating_sub(1),
        subtractions: 0,
    }
}

// Method 1.

fn binary(number: &Number, chain: &mut Chain) {
    for place in (0..number.bit_length() - 1).rev() {
        chain.double();
        if number.bit(place) {
            chain.add(0);
        }
    }
}

fn count_binary(number: &Number) -> Counts {
    Counts {
        doublings: number.bit_length() - 1,
        additions: number.count_ones() - 1,
        subtractions: 0,
    }
}

// Method 2.

/// Steps of the table: up to the number itself if it is below 2^width,
/// otherwise up to 2^width - 1. Value v stands at position v - 1.
fn fixed_table_steps(number: &Number, width: usize) -> usize {
    if number.bit_length() <= width {
        number.window(0, width) - 1
    } else {
        (1 << width) - 2
    }
}

fn fixed_windows(number: &Number, width: usize, chain: &mut Chain) {
    for _ in 0..fixed_table_steps(number, width) {
        chain.add(0);
    }
    if number.bit_length() <= width {
        return;
    }
    let top = (number.bit_length() - 1) / width;
    chain.latest = number.window(width * top, width) - 1;
    for index in (0..top).rev() {
        for _ in 0..width {
            chain.double();
        }
        let value = number.window(width * index, width);
        if value != 0 {
            chain.add(value - 1);
        }
    }
}

fn count_fixed_windows(number: &Number, width: usize) -> Counts {
    let mut counts = count_table(fixed_table_steps(number, width));
    // With a number below 2^width there is no lower window.
    let top = (number.bit_length() - 1) / width;
    counts.doublings += width * top;
    counts.additions += (0..top)
        .filter(|index| number.window(width * index, width) != 0)
        .count();
    counts
}

// Method 3, and the table of odd multiples, which method 5 has too.

/// Position in the table of an odd value.
fn odd_position(value: usize) -> usize {
    match value {
        1 => 0,
        _ => (value + 1) / 2,
    }
}

/// Whether the number is odd and below 2^width, so that the table ends at it.
fn is_in_odd_table(number: &Number, width: usize) -> bool {
    number.bit_length() <= width && number.bit(0)
}

fn odd_table_steps(number: &Number, width: usize) -> usize {
    if is_in_odd_table(number, width) {
        odd_position(number.window(0, width))
    } else if width == 1 {
        0
    } else {
        1 << (width - 1)
    }
}

/// The longest window of at most `width` bits that begins at the highest 1 below a
/// place and ends in 1, the zeros above it, and its value.
struct Window {
    zeros: usize,
    bits: usize,
    value: usize,
}

/// The next window below a place above 0, or `None` if nothing but zeros is left.
fn next_window(number: &Number, below: usize, width: usize) -> Option<Window> {
    let mut zeros = 0;
    while zeros < below {
        let bits = number.bits_down(below - zeros - 1);
        if bits != 0 {
            let more = bits.leading_zeros() as usize;
            // Windows are read whole from the place of their top bit.
            let bits = number.bits_down(below - zeros - more - 1) >> (64 - width);
            let trailing = bits.trailing_zeros() as usize;
            return Some(Window {
                zeros: zeros + more,
                bits: width - trailing,
                value: (bits >> trailing) as usize,
            });
        }
        zeros += 64;
    }
    None
}

/// Positions 1, 2, 3, ... hold 2, 3, 5, 7, 9, ...
fn odd_table(number: &Number, width: usize, chain: &mut Chain) {
    for i in 1..=odd_table_steps(number, width) {
        match i {
            1 | 2 => chain.add(0),
            _ => chain.add(1),
        }
    }
}

fn sliding_windows(number: &Number, width: usize, chain: &mut Chain) {
    odd_table(number, width, chain);
    if is_in_odd_table(number, width) {
        return;
    }

    let mut below = number.bit_length();
    if let Some(first) = next_window(number, below, width) {
        chain.latest = odd_position(first.value);
        below -= first.bits;
    }
    while let Some(window) = next_window(number, below, width) {
        for _ in 0..window.zeros + window.bits {
            chain.double();
        }
        chain.add(odd_position(window.value));
        below -= window.zeros + window.bits;
    }
    for _ in 0..below {
        chain.double();
    }
}

fn count_sliding_windows(number: &Number, width: usize) -> Counts {
    let mut counts = count_table(odd_table_steps(number, width));
    if is_in_odd_table(number, width) {
        return counts;
    }

    // One doubling for each bit below the first window, one addition for each
    // later window.
    let mut below = number.bit_length();
    if let Some(first) = next_window(number, below, width) {
        below -= first.bits;
    }
    counts.doublings += below;
    while let Some(window) = next_window(number, below, width) {
        below -= window.zeros + window.bits;
        counts.additions += 1;
    }
    counts
}

// Method 4.

fn non_adjacent_form(number: &Number, chain: &mut Chain) {
    let naf = Naf::of(&number.widened::<RECODE_WORDS>());
    for place in (0..naf.length - 1).rev() {
        chain.double();
        if naf.is_one(place) {
            chain.add(0);
        } else if naf.is_minus_one(place) {
            chain.subtract(0);
        }
    }
}

fn count_non_adjacent_form(number: &Number) -> Counts {
    let naf = Naf::of(&number.widened::<RECODE_WORDS>());
    Counts {
        doublings: naf.length - 1,
        additions: naf.count_ones() - 1,
        subtractions: naf.count_minus_ones(),
    }
}

// Method 5. Its table is method 3's for one bit less.

fn wide_non_adjacent_form(number: &Number, width: u32, chain: &mut Chain) {
    let table_width = width as usize - 1;
    odd_table(number, table_width, chain);
    if is_in_odd_table(number, table_width) {
        return;
    }
    let naf = WideNaf::of(&number.widened::<RECODE_WORDS>(), width);
    let position = |digit: i8| odd_position(usize::from(digit.unsigned_abs()));
    if let [below @ .., top] = naf.digits() {
        chain.latest = position(*top);
        for &digit in below.iter().rev() {
            chain.double();
            match digit {
                0 => {}
                _ if digit > 0 => chain.add(position(digit)),
                _ => chain.subtract(position(digit)),
            }
        }
    }
}

fn count_wide_non_adjacent_form(number: &Number, width: u32) -> Counts {
    let table_width = width as usize - 1;
    let mut counts = count_table(odd_table_steps(number, table_width));
    if is_in_odd_table(number, table_width) {
        return counts;
    }
    let naf = WideNaf::of(&number.widened::<RECODE_WORDS>(), width);
    if let [below @ .., _] = naf.digits() {
        counts.doublings += below.len();
        counts.additions += below.iter().filter(|&&digit| digit > 0).count();
        counts.subtractions += below.iter().filter(|&&digit| digit < 0).count();
    }
    counts
}

// Method 6: method 4's rule on the modified form.

fn modified_non_adjacent_form(number: &Number, chain: &mut Chain) {
    let form = ModifiedNaf::of(number);
    for &digit in form.digits().iter().rev().skip(1) {
        chain.double();
        match digit {
            1 => chain.add(0),
            -1 => chain.subtract(0),
            _ => {}
        }
    }
}

fn count_modified_non_adjacent_form(number: &Number) -> Counts {
    let form = ModifiedNaf::of(number);
    let below = match form.digits() {
        [below @ .., _] => below,
        [] => return Counts::NONE,
    };
    Counts {
        doublings: below.len(),
        additions: below.iter().filter(|&&digit| digit == 1).count(),
        subtractions: below.iter().filter(|&&digit| digit == -1).count(),
    }
}
