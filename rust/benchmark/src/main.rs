//! The proved library's time beside that of plain Rust, for the same job on the same inputs.
//!
//! Both are release builds and are called as functions of another crate, through slices. Each round
//! runs every job once on both sides, one after the other, so that a busy machine strikes both. The
//! plain side is `reference`, written from the papers: no allocation, words of 64 bits, ordinary
//! safe Rust. For take, whose work is as small as its call, there is a plain side that was made as
//! fast as its author could, called and inlined (`tuned`). For forecasts by method 1, which are as
//! short, there are tables of their own (`forecasts`), and for recodings, beside several plain programs
//! (`recodings`, and `wide` for those in the wide form). In the modified form, too, there is a plain side that is tuned
//! (`modified`).
mod forecasts;
mod lines;
mod modified;
mod recodings;
mod tuned;
mod ways;
mod wide;

use lesmutka::sys;
use reference::generate::Rng;
use std::time::Instant;

/// How many inputs a job has, and how often they are run in a round.
const INPUTS: usize = 64;
const ROUNDS: usize = 400;

/// How many bytes the numbers have: those of the 256-bit curves, and the most.
const SIZES: [usize; 2] = [32, lesmutka::NUMBER_BYTES];

/// The methods, each with a width that it allows.
const METHODS: [(&str, u32, u32); 6] = [
    ("binary", 1, 0),
    ("fixed windows 4", 2, 4),
    ("sliding windows 4", 3, 4),
    ("NAF", 4, 0),
    ("wide NAF 5", 5, WIDTH),
    ("modified NAF", 6, 0),
];

/// The width of the digit strings in the wide form, and those by which numbers are recoded into it.
const WIDTH: u32 = 5;
const WIDTHS: [u32; 3] = [4, WIDTH, 6];

/// One job on both sides: each runs all inputs.
struct Job<'a> {
    name: String,
    proved: Box<dyn FnMut() + 'a>,
    plain: Box<dyn FnMut() + 'a>,
    proved_times: Vec<f64>,
    plain_times: Vec<f64>,
}

impl<'a> Job<'a> {
    fn new(name: &str, proved: impl FnMut(usize) + 'a, plain: impl FnMut(usize) + 'a) -> Job<'a> {
        Job {
            name: name.to_string(),
            proved: each(proved),
            plain: each(plain),
            proved_times: Vec::new(),
            plain_times: Vec::new(),
        }
    }

    /// A round on both sides; which goes first changes from round to round.
    fn round(&mut self, round: usize) {
        if round % 2 == 0 {
            self.proved_times.push(time(&mut self.proved));
            self.plain_times.push(time(&mut self.plain));
        } else {
            self.plain_times.push(time(&mut self.plain));
            self.proved_times.push(time(&mut self.proved));
        }
    }

    fn print(&mut self) {
        let proved = Spread::of(&mut self.proved_times);
        let plain = Spread::of(&mut self.plain_times);
        println!(
            "{:<27} {:>8.0} {:>8.0}   {:>8.0} {:>8.0}   {:>5.2} {:>6.2}",
            self.name,
            proved.best,
            proved.median,
            plain.best,
            plain.median,
            proved.best / plain.best,
            proved.median / plain.median
        );
    }
}

/// Keeps an answer from being left out: it is taken to be read where it stands, since a copy can take
/// longer than the call. (`std::hint::black_box` is newer than Rust 1.63.)
#[inline(always)]
fn keep<T>(answer: &T) {
    // SAFETY: it does nothing.
    unsafe { std::arch::asm!("/* {0} */", in(reg) answer, options(nostack, preserves_flags)) };
}

/// A run over all inputs, by what runs the i-th.
fn each<'a>(mut run: impl FnMut(usize) + 'a) -> Box<dyn FnMut() + 'a> {
    Box::new(move || (0..INPUTS).for_each(&mut run))
}

/// Nanoseconds for one input, over all inputs.
fn time(run: &mut dyn FnMut()) -> f64 {
    let start = Instant::now();
    run();
    start.elapsed().as_nanos() as f64 / INPUTS as f64
}

struct Spread {
    best: f64,
    median: f64,
}

impl Spread {
    fn of(times: &mut [f64]) -> Spread {
        times.sort_by(f64::total_cmp);
        Spread {
            best: times[0],
            median: times[times.len() / 2],
        }
    }
}

/// What the jobs run on, for numbers of this many bytes.
pub struct Inputs {
    bytes: usize,
    /// Numbers whose top bit is 1.
    numbers: Vec<Vec<u8>>,
    canonicals: Vec<Vec<u8>>,
    /// Strings of a digit for each bit, none of them better than another.
    strings: Vec<Vec<u8>>,
    /// The same in the wide form.
    wide_nafs: Vec<Vec<u8>>,
    wide_strings: Vec<Vec<u8>>,
    /// Plans of the longest kind: 20 steps for each byte, so as many as there may be for the longest
    /// number.
    plans: Vec<Vec<u8>>,
    decimals: Vec<String>,
    hexadecimals: Vec<String>,
}

impl Inputs {
    fn new(rng: &mut Rng, bytes: usize) -> Inputs {
        let number = |rng: &mut Rng| {
            let mut number = rng.bytes(bytes);
            number[bytes - 1] |= 0x80;
            number
        };
        let numbers: Vec<Vec<u8>> = (0..INPUTS).map(|_| number(rng)).collect();
        let string = |rng: &mut Rng| (0..8 * bytes).map(|_| [0, 1, 255][rng.below(3)]).collect();
        let wide_string = |rng: &mut Rng| (0..8 * bytes).map(|_| wide_digit(rng)).collect();
        Inputs {
            bytes,
            canonicals: numbers.iter().map(|number| canonical(number)).collect(),
            strings: (0..INPUTS).map(|_| string(rng)).collect(),
            wide_nafs: numbers.iter().map(|number| wide_naf(number)).collect(),
            wide_strings: (0..INPUTS).map(|_| wide_string(rng)).collect(),
            plans: numbers.iter().map(|number| plan_of(number, 20 * bytes)).collect(),
            decimals: numbers.iter().map(|number| lines::decimal(number)).collect(),
            hexadecimals: numbers.iter().map(|number| lines::hexadecimal(number)).collect(),
            numbers,
        }
    }
}

fn canonical(number: &[u8]) -> Vec<u8> {
    let mut out = [0; lesmutka::RECODE_ROOM];
    let length = reference::recode(number, &mut out).unwrap();
    out[..length].to_vec()
}

fn wide_naf(number: &[u8]) -> Vec<u8> {
    let mut out = [0; lesmutka::RECODE_ROOM];
    let length = reference::recode_wide(number, WIDTH, &mut out).unwrap();
    out[..length].to_vec()
}

/// 0, or an odd number of a size below 2^(w-1), none of them better than another.
fn wide_digit(rng: &mut Rng) -> u8 {
    let half = 1 << (WIDTH - 1);
    match rng.below(half + 1) {
        0 => 0,
        i => (2 * i as i32 - 1 - half as i32) as u8,
    }
}

/// A plan of this many steps for a number: doublings of position 0, then the binary method's steps.
fn plan_of(number: &[u8], all: usize) -> Vec<u8> {
    let mut out = [0; lesmutka::PLAN_ROOM];
    let counts = reference::plan(number, 1, 0, &mut out).unwrap();
    let steps = counts.total();
    let more = all - steps;
    let shifted = |low: u8, high: u8| match u16::from_le_bytes([low, high]) {
        0 => [0, 0],
        position => (position + more as u16).to_le_bytes(),
    };
    let mut plan = vec![0; lesmutka::STEP_BYTES * more];
    for step in out[..lesmutka::STEP_BYTES * steps].chunks(lesmutka::STEP_BYTES) {
        plan.push(step[0]);
        plan.extend(shifted(step[1], step[2]));
        plan.extend(shifted(step[3], step[4]));
    }
    plan
}

fn proved_takes(number: &[u8]) -> u32 {
    let mut recoder = sys::Recoder {
        words: [0; lesmutka::NUMBER_BYTES / 8 + 1],
    };
    sys::start(number, &mut recoder);
    let mut sum = 0;
    while let Some(digit) = sys::take(&mut recoder) {
        sum += u32::from(digit);
    }
    sum
}

fn plain_takes(number: &[u8]) -> u32 {
    let (mut recoder, _) = reference::Recoder::start(number);
    let mut sum = 0;
    while let Some(digit) = recoder.take() {
        sum += u32::from(digit);
    }
    sum
}

fn tuned_takes(number: &[u8], take: impl Fn(&mut tuned::Recoder) -> Option<u8>) -> u32 {
    let mut recoder = tuned::Recoder::start(number);
    let mut sum = 0;
    while let Some(digit) = take(&mut recoder) {
        sum += u32::from(digit);
    }
    sum
}

/// What is timed is done: both sides answer, and answer the same.
fn agree(inputs: &Inputs, i: usize) {
    let (number, string) = (&inputs.numbers[i], &inputs.strings[i]);
    let (canonical, plan) = (&inputs.canonicals[i], &inputs.plans[i]);
    let mut a = vec![0; lesmutka::work_space(lesmutka::PLAN_STEPS)];
    let mut b = a.clone();
    for recode in [sys::recode, sys::recode_words] {
        let length = recode(number, &mut a);
        assert_eq!(Ok(length.length), reference::recode(number, &mut b));
        assert_eq!(a, b);
        a.fill(0);
        b.fill(0);
    }
    for plain in [reference::recode_modified, modified::recode] {
        let length = sys::recode_modified(number, &mut a);
        assert_eq!(Ok(length.length), plain(number, &mut b));
        assert_eq!(a, b);
        a.fill(0);
        b.fill(0);
    }
    assert_eq!(proved_takes(number), plain_takes(number));
    assert_eq!(proved_takes(number), tuned_takes(number, tuned::Recoder::take));
    let length = sys::clean(string, &mut a);
    assert_eq!(Ok(length.length), reference::clean(string, &mut b));
    let value = sys::read_back(canonical, &mut a);
    assert_eq!(
        Ok((value.sign as u8, value.length)),
        reference::read_back(canonical, &mut b)
    );
    let (naf, string) = (&inputs.wide_nafs[i], &inputs.wide_strings[i]);
    for width in WIDTHS {
        let length = sys::recode_wide(number, width, &mut a);
        assert_eq!(Ok(length.length), reference::recode_wide(number, width, &mut b));
    }
    let length = sys::clean_wide(string, WIDTH, &mut a);
    assert_eq!(Ok(length.length), reference::clean_wide(string, WIDTH, &mut b));
    assert_eq!(Ok(length.length), wide::cleaned_by_sums(string, WIDTH, &mut b));
    let value = sys::read_back_wide(naf, WIDTH, &mut a);
    let value = Ok((value.sign as u8, value.length));
    assert_eq!(value, reference::read_back_wide(naf, WIDTH, &mut b));
    assert_eq!(value, wide::read_by_bytes(naf, WIDTH, &mut b));
    for (_, method, width) in METHODS {
        let forecast = sys::forecast(number, method, width);
        assert_eq!(sys::plan(number, method, width, &mut a), forecast);
        assert_eq!(Ok(counts(forecast)), reference::plan(number, method, width, &mut b));
        assert_eq!(Ok(counts(forecast)), reference::forecast(number, method, width));
    }
    let forecast = sys::forecast(number, 6, 0);
    assert_eq!(Ok(counts(forecast)), modified::forecast(number));
    let checked = sys::check(number, plan, &mut a);
    assert_eq!(Ok(accepted(checked)), reference::check(number, plan, &mut b));
    assert_eq!(a, b);
}

fn counts(counts: sys::Counts) -> reference::Counts {
    reference::Counts {
        doublings: counts.doublings,
        additions: counts.additions,
        subtractions: counts.subtractions,
    }
}

fn accepted(accepted: sys::Accepted) -> reference::Accepted {
    reference::Accepted {
        counts: reference::Counts {
            doublings: accepted.doublings,
            additions: accepted.additions,
            subtractions: accepted.subtractions,
        },
        largest_bits: accepted.largest_bits,
    }
}

/// All jobs on these inputs.
fn jobs(inputs: &Inputs) -> Vec<Job<'_>> {
    const ROOM: usize = lesmutka::PLAN_ROOM;
    const SPACE: usize = lesmutka::work_space(lesmutka::PLAN_STEPS);
    let Inputs {
        bytes,
        numbers,
        canonicals,
        strings,
        wide_nafs,
        wide_strings,
        plans,
        decimals,
        hexadecimals,
    } = inputs;
    let mut jobs = Vec::new();
    let (mut a, mut b) = (vec![0; ROOM], vec![0; ROOM]);
    jobs.push(Job::new(
        "recode",
        move |i| keep(&sys::recode(&numbers[i], &mut a)),
        move |i| keep(&reference::recode(&numbers[i], &mut b)),
    ));
    let (mut a, mut b) = (vec![0; ROOM], vec![0; ROOM]);
    jobs.push(Job::new(
        "recode by words",
        move |i| keep(&sys::recode_words(&numbers[i], &mut a)),
        move |i| keep(&reference::recode(&numbers[i], &mut b)),
    ));
    let (mut a, mut b) = (vec![0; ROOM], vec![0; ROOM]);
    jobs.push(Job::new(
        "recode modified",
        move |i| keep(&sys::recode_modified(&numbers[i], &mut a)),
        move |i| keep(&reference::recode_modified(&numbers[i], &mut b)),
    ));
    let (mut a, mut b) = (vec![0; ROOM], vec![0; ROOM]);
    jobs.push(Job::new(
        "same, plain one tuned",
        move |i| keep(&sys::recode_modified(&numbers[i], &mut a)),
        move |i| keep(&modified::recode(&numbers[i], &mut b)),
    ));
    jobs.push(Job::new(
        "take, all digits",
        move |i| keep(&proved_takes(&numbers[i])),
        move |i| keep(&plain_takes(&numbers[i])),
    ));
    jobs.push(Job::new(
        "same, plain one tuned",
        move |i| keep(&proved_takes(&numbers[i])),
        move |i| keep(&tuned_takes(&numbers[i], tuned::called)),
    ));
    jobs.push(Job::new(
        "same, and inlined",
        move |i| keep(&proved_takes(&numbers[i])),
        move |i| keep(&tuned_takes(&numbers[i], tuned::Recoder::take)),
    ));
    let (mut a, mut b) = (vec![0; ROOM], vec![0; ROOM]);
    jobs.push(Job::new(
        &format!("clean, {} digits", 8 * bytes),
        move |i| keep(&sys::clean(&strings[i], &mut a)),
        move |i| keep(&reference::clean(&strings[i], &mut b)),
    ));
    let (mut a, mut b) = (vec![0; ROOM], vec![0; ROOM]);
    jobs.push(Job::new(
        "read back, the NAF",
        move |i| keep(&sys::read_back(&canonicals[i], &mut a)),
        move |i| keep(&reference::read_back(&canonicals[i], &mut b)),
    ));
    for width in WIDTHS {
        let (mut a, mut b) = (vec![0; ROOM], vec![0; ROOM]);
        jobs.push(Job::new(
            &format!("recode wide {}", width),
            move |i| keep(&sys::recode_wide(&numbers[i], width, &mut a)),
            move |i| keep(&reference::recode_wide(&numbers[i], width, &mut b)),
        ));
    }
    let (mut a, mut b) = (vec![0; ROOM], vec![0; ROOM]);
    jobs.push(Job::new(
        &format!("clean wide {}, {} digits", WIDTH, 8 * bytes),
        move |i| keep(&sys::clean_wide(&wide_strings[i], WIDTH, &mut a)),
        move |i| keep(&reference::clean_wide(&wide_strings[i], WIDTH, &mut b)),
    ));
    let (mut a, mut b) = (vec![0; ROOM], vec![0; ROOM]);
    jobs.push(Job::new(
        "same, plain one tuned",
        move |i| keep(&sys::clean_wide(&wide_strings[i], WIDTH, &mut a)),
        move |i| keep(&wide::cleaned_by_sums(&wide_strings[i], WIDTH, &mut b)),
    ));
    let (mut a, mut b) = (vec![0; ROOM], vec![0; ROOM]);
    jobs.push(Job::new(
        &format!("read back wide {}, the NAF", WIDTH),
        move |i| keep(&sys::read_back_wide(&wide_nafs[i], WIDTH, &mut a)),
        move |i| keep(&reference::read_back_wide(&wide_nafs[i], WIDTH, &mut b)),
    ));
    let (mut a, mut b) = (vec![0; ROOM], vec![0; ROOM]);
    jobs.push(Job::new(
        "same, plain one tuned",
        move |i| keep(&sys::read_back_wide(&wide_nafs[i], WIDTH, &mut a)),
        move |i| keep(&wide::read_by_bytes(&wide_nafs[i], WIDTH, &mut b)),
    ));
    for (name, method, width) in METHODS {
        let (mut a, mut b) = (vec![0; ROOM], vec![0; ROOM]);
        jobs.push(Job::new(
            &format!("plan, {}", name),
            move |i| keep(&sys::plan(&numbers[i], method, width, &mut a)),
            move |i| keep(&reference::plan(&numbers[i], method, width, &mut b)),
        ));
        jobs.push(Job::new(
            &format!("forecast, {}", name),
            move |i| keep(&sys::forecast(&numbers[i], method, width)),
            move |i| keep(&reference::forecast(&numbers[i], method, width)),
        ));
    }
    jobs.push(Job::new(
        "same, plain one tuned",
        move |i| keep(&sys::forecast(&numbers[i], 6, 0)),
        move |i| keep(&modified::forecast(&numbers[i])),
    ));
    let (mut a, mut b) = (vec![0; SPACE], vec![0; SPACE]);
    jobs.push(Job::new(
        &format!("check, {} steps", plans[0].len() / lesmutka::STEP_BYTES),
        move |i| keep(&sys::check(&numbers[i], &plans[i], &mut a)),
        move |i| keep(&reference::check(&numbers[i], &plans[i], &mut b)),
    ));
    let (mut a, mut b) = (vec![0; ROOM], vec![0; ROOM]);
    jobs.push(Job::new(
        "hexadecimal text read",
        move |i| keep(&sys::hexadecimal(hexadecimals[i].as_bytes(), &mut a)),
        move |i| keep(&reference::text::hexadecimal(hexadecimals[i].as_bytes(), &mut b)),
    ));
    let (mut a, mut b) = (vec![0; ROOM], vec![0; ROOM]);
    jobs.push(Job::new(
        "decimal text read",
        move |i| keep(&sys::decimal(decimals[i].as_bytes(), &mut a)),
        move |i| keep(&reference::text::decimal(decimals[i].as_bytes(), &mut b)),
    ));
    jobs
}

fn main() {
    let rng = &mut Rng::new(1);
    let sizes = SIZES.map(|bytes| Inputs::new(rng, bytes));
    for inputs in &sizes {
        for i in 0..INPUTS {
            agree(inputs, i);
        }
        forecasts::agree(inputs);
    }
    let mut tables: Vec<Vec<Job>> = sizes.iter().map(jobs).collect();
    for round in 0..ROUNDS {
        for job in tables.iter_mut().flatten() {
            job.round(round);
        }
    }
    println!(
        "ns a call: {} rounds over {} numbers; buffers lent once, not cleared",
        ROUNDS, INPUTS
    );
    for (inputs, table) in sizes.iter().zip(&mut tables) {
        let title = format!("numbers of {} bytes", inputs.bytes);
        println!(
            "\n{:<27} {:>17}   {:>17}   {:>12}",
            title, "proved", "plain Rust", "ratio"
        );
        println!(
            "{:<27} {:>8} {:>8}   {:>8} {:>8}   {:>5} {:>6}",
            "call", "best", "median", "best", "median", "best", "median"
        );
        for job in table {
            job.print();
        }
    }
    forecasts::print(&sizes);
    recodings::print(rng);
    wide::print(&sizes);
    lines::print(&sizes);
}
