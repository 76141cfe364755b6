//! Every call of the proved library beside an implementation written from the papers alone: the
//! same answers, and the same bytes in all memory, lent or not. A fixed seed; stops at the first
//! difference.
mod library;
mod memory;

use lesmutka::sys;
use memory::Lent;
use reference::generate::{
    below_power_of_two, bit_length, bits_by_sign, corners, hidden_doublings, largest_of, methods, mixed_words,
    modified_corners, one_bit_apart, trimmed, Generator, Rng, NO_NAF_WIDTHS,
};
use reference::refusal::{HIGHEST_BYTE_IS_ZERO, LAST, MALFORMED_STEP, WRONG_END};
use reference::{limits, Refusal};
use std::fmt::Debug;

const SEED: u64 = 0x6c65_736d_7574_6b61;
const CASES: usize = 100_000;

/// The words of a recoder that hold its number.
const NUMBER_WORDS: usize = lesmutka::NUMBER_BYTES / 8;

/// How often a call answered, and gave each refusal.
struct Tally {
    call: &'static str,
    answered: usize,
    refused: [usize; LAST + 1],
    /// Doublings at two positions in plans that were accepted: of equal values added, of opposite ones
    /// subtracted.
    hidden: [usize; 2],
    /// Plans that were accepted: those whose largest size has more bits than the number, and those in which
    /// one below zero has more bits than all above.
    largest: [usize; 2],
}

impl Tally {
    fn new(call: &'static str) -> Tally {
        Tally {
            call,
            answered: 0,
            refused: [0; LAST + 1],
            hidden: [0; 2],
            largest: [0; 2],
        }
    }

    fn count<T>(&mut self, answer: &Result<T, Refusal>) {
        match answer {
            Ok(_) => self.answered += 1,
            Err(refusal) => self.refused[refusal.number as usize] += 1,
        }
    }

    fn cases(&self) -> usize {
        self.answered + self.refused.iter().sum::<usize>()
    }

    /// Prints the counts. A call that did not answer, did not give each of its refusals, or gave
    /// another, was not tested.
    fn print(&self, refusals: &[usize]) {
        print!(
            "{:<15} {:>7} cases: {:>6} answered",
            self.call,
            self.cases(),
            self.answered
        );
        for (number, &count) in self.refused.iter().enumerate() {
            if count > 0 {
                print!(", {} refused {}", count, number);
            }
        }
        println!();
        assert!(self.cases() >= CASES, "{}: too few cases", self.call);
        assert!(self.answered > 0, "{}: no answer", self.call);
        for number in 0..=LAST {
            assert_eq!(
                self.refused[number] > 0,
                refusals.contains(&number),
                "{}: refusal {}",
                self.call,
                number
            );
        }
    }
}

/// Prints how many doublings were hidden. Without both kinds, what a check counts was not tested.
fn print_hidden(hidden: [usize; 2]) {
    println!(
        "hidden doublings in accepted plans: {} of equal values added, {} of opposite values subtracted",
        hidden[0], hidden[1]
    );
    assert!(hidden.iter().all(|&steps| steps > 0), "no hidden doublings");
}

/// Prints how often the largest size had more bits than the number, and how often it was below zero. Without
/// both kinds, the bits that a check answers were not tested.
fn print_largest(largest: [usize; 2]) {
    println!(
        "largest sizes in accepted plans: {} of more bits than the number, {} below zero",
        largest[0], largest[1]
    );
    assert!(largest.iter().all(|&plans| plans > 0), "no such largest sizes");
}

/// Says what differed, and ends.
fn differ(call: &str, what: &str, inputs: &dyn Debug) -> ! {
    eprintln!("{}: {} differ for {:x?}", call, what, inputs);
    std::process::exit(1);
}

/// One call on both sides: `ours` and `theirs` read the inputs and may write into `lent`.
fn compare<T: PartialEq + Debug>(
    tally: &mut Tally,
    inputs: &[&Lent],
    lent: &Lent,
    ours: impl Fn(&mut [u8]) -> Result<T, Refusal>,
    theirs: impl Fn(&mut [u8]) -> Result<T, Refusal>,
) -> Lent {
    let before: Vec<Lent> = inputs.iter().map(|&input| input.clone()).collect();
    let mut left = lent.clone();
    let mut right = lent.clone();
    let answer = ours(left.part_mut());
    let expected = theirs(right.part_mut());
    let parts: Vec<&[u8]> = inputs.iter().map(|input| input.part()).collect();
    if answer != expected {
        differ(tally.call, "answers", &(parts, lent.part().len(), answer, expected));
    }
    if left != right {
        differ(tally.call, "bytes left", &(parts, left.part(), right.part()));
    }
    if matches!(&answer, Err(refusal) if leaves_all(refusal)) && left != *lent {
        differ(tally.call, "bytes before and after a refusal", &(parts, left.part()));
    }
    if inputs.iter().zip(&before).any(|(input, before)| *input != before) {
        differ(tally.call, "inputs before and after", &parts);
    }
    tally.count(&answer);
    left
}

/// Only the refusals of steps, and that of the end, come after something was written.
fn leaves_all(refusal: &Refusal) -> bool {
    !(MALFORMED_STEP..=WRONG_END).contains(&refusal.number)
}

/// A call that reads one slice and writes another, with the same signature on both sides.
type Call<T> = fn(&[u8], &mut [u8]) -> Result<T, Refusal>;

/// One such call on all its cases: what it reads, and how much room it has to write.
fn calls<T: PartialEq + Debug>(
    call: &'static str,
    rng: &mut Rng,
    mut next: impl FnMut() -> (Vec<u8>, usize),
    ours: Call<T>,
    theirs: Call<T>,
) -> Tally {
    let mut tally = Tally::new(call);
    for _ in 0..CASES {
        let (input, room) = next();
        let input = Lent::holding(rng, &input);
        let lent = Lent::noise(rng, room);
        compare(
            &mut tally,
            &[&input],
            &lent,
            |out| ours(input.part(), out),
            |out| theirs(input.part(), out),
        );
    }
    tally
}

/// The calls that recode, each beside the reference, then the one by words beside the other.
const RECODINGS: [(&str, Call<usize>, Call<usize>); 3] = [
    ("recode", library::recode, reference::recode),
    ("by words", library::recode_words, reference::recode),
    ("both calls", library::recode_words, library::recode),
];

/// One number into the same bytes by all of them.
fn recode_one(rng: &mut Rng, tallies: &mut [Tally], number: &[u8], room: usize) {
    let number = Lent::holding(rng, number);
    let lent = Lent::noise(rng, room);
    for (tally, (_, ours, theirs)) in tallies.iter_mut().zip(RECODINGS) {
        compare(
            tally,
            &[&number],
            &lent,
            |out| ours(number.part(), out),
            |out| theirs(number.part(), out),
        );
    }
}

fn recode(cases: &mut Generator, rng: &mut Rng) -> [Tally; 3] {
    let mut tallies = RECODINGS.map(|(call, _, _)| Tally::new(call));
    for _ in 0..CASES {
        let case = cases.recode_case();
        recode_one(rng, &mut tallies, &case.number, case.room);
    }
    for number in padded() {
        recode_one(rng, &mut tallies, &number, 0);
        recode_one(rng, &mut tallies, &number, limits::RECODE_ROOM);
    }
    let needed = |number: &[u8]| reference::recode(number, &mut [0; limits::RECODE_ROOM]).expect("a number");
    // Each room up to one more than is needed.
    for number in (0..=limits::NUMBER_BYTES).flat_map(corners) {
        for room in 0..=needed(&number) + 1 {
            recode_one(rng, &mut tallies, &number, room);
        }
    }
    // Just the room, and a byte less.
    for number in mixed_words(NUMBER_WORDS as u32) {
        let room = needed(&number);
        recode_one(rng, &mut tallies, &number, room);
        recode_one(rng, &mut tallies, &number, room.saturating_sub(1));
    }
    tallies
}

/// Around the borders of the modified form, for each number of bits.
fn all_modified_corners() -> impl Iterator<Item = Vec<u8>> {
    (1..=limits::NUMBER_BITS).flat_map(modified_corners)
}

/// The forms of a number that are written agree, by the library alone: of the modified form clean makes what recode
/// writes, and read back makes the number.
fn both_forms(number: &[u8]) {
    let mut form = [0; limits::RECODE_ROOM];
    let length = match library::recode_modified(number, &mut form) {
        Ok(length) => length,
        Err(_) => return,
    };
    let (mut naf, mut cleaned) = ([0; limits::RECODE_ROOM], [0; limits::RECODE_ROOM]);
    let recoded = library::recode(number, &mut naf);
    if library::clean(&form[..length], &mut cleaned) != recoded || cleaned != naf {
        differ("modified", "what clean makes of it and what recode writes", &number);
    }
    let mut size = [0; limits::NUMBER_BYTES];
    let value = library::read_back(&form[..length], &mut size);
    if value != Ok((0, number.len())) || size[..number.len()] != *number {
        differ("modified", "the number and what is read back", &number);
    }
}

/// Beside the reference; what is written goes through the library's clean and read back.
fn recode_modified(cases: &mut Generator, rng: &mut Rng) -> Tally {
    let mut tally = Tally::new("recode modified");
    let mut one = |rng: &mut Rng, number: &[u8], room: usize| {
        let number = Lent::holding(rng, number);
        let lent = Lent::noise(rng, room);
        compare(
            &mut tally,
            &[&number],
            &lent,
            |out| library::recode_modified(number.part(), out),
            |out| reference::recode_modified(number.part(), out),
        );
        both_forms(number.part());
    };
    for _ in 0..CASES {
        let case = cases.recode_modified_case();
        one(rng, &case.number, case.room);
    }
    for number in padded() {
        one(rng, &number, 0);
        one(rng, &number, limits::RECODE_ROOM);
    }
    let needed = |number: &[u8]| reference::recode_modified(number, &mut [0; limits::RECODE_ROOM]).expect("a number");
    // Each room up to one more than is needed.
    for number in (0..=limits::NUMBER_BYTES).flat_map(corners) {
        for room in 0..=needed(&number) + 1 {
            one(rng, &number, room);
        }
    }
    // Just the room, a byte more and a byte less.
    for number in all_modified_corners() {
        let room = needed(&number);
        for room in room - 1..=room + 1 {
            one(rng, &number, room);
        }
    }
    for number in mixed_words(NUMBER_WORDS as u32) {
        one(rng, &number, needed(&number));
    }
    for number in 1..1u32 << 14 {
        one(rng, trimmed(&number.to_le_bytes()), limits::RECODE_ROOM);
    }
    tally
}

/// A highest byte of zero at every length, also where that is too long. Below it: zeros, a 1, all ones, a
/// 1 at the top.
fn padded() -> impl Iterator<Item = Vec<u8>> {
    (1..=limits::NUMBER_BYTES + 2).flat_map(|length| {
        let below = |low: u8, rest: u8, high: u8| {
            let mut number = vec![rest; length];
            number[0] = low;
            number[length.saturating_sub(2)] |= high;
            number[length - 1] = 0;
            number
        };
        [below(0, 0, 0), below(1, 0, 0), below(0xFF, 0xFF, 0), below(0, 0, 1)]
    })
}

fn clean(cases: &mut Generator, rng: &mut Rng) -> Tally {
    let next = || {
        let case = cases.clean_case();
        (case.digits, case.room)
    };
    calls("clean", rng, next, library::clean, reference::clean)
}

fn read_back(cases: &mut Generator, rng: &mut Rng) -> Tally {
    let next = || {
        let case = cases.read_back_case();
        (case.digits, case.room)
    };
    calls("read back", rng, next, library::read_back, reference::read_back)
}

/// A call in the wide form, with the same signature on both sides.
type WideCall<T> = fn(&[u8], u32, &mut [u8]) -> Result<T, Refusal>;

/// The calls in the wide form, each on both sides.
const RECODE_WIDE: [WideCall<usize>; 2] = [library::recode_wide, reference::recode_wide];
const CLEAN_WIDE: [WideCall<usize>; 2] = [library::clean_wide, reference::clean_wide];
const READ_BACK_WIDE: [WideCall<(u8, usize)>; 2] = [library::read_back_wide, reference::read_back_wide];

fn wide_one<T: PartialEq + Debug>(
    rng: &mut Rng,
    tally: &mut Tally,
    [ours, theirs]: [WideCall<T>; 2],
    input: &[u8],
    width: u32,
    room: usize,
) {
    let input = Lent::holding(rng, input);
    let lent = Lent::noise(rng, room);
    compare(
        tally,
        &[&input],
        &lent,
        |out| ours(input.part(), width, out),
        |out| theirs(input.part(), width, out),
    );
}

/// Widths 0 to 10, and some huge ones.
fn widths() -> impl Iterator<Item = u32> {
    (0..=10).chain(NO_NAF_WIDTHS.into_iter().filter(|&width| width > 10))
}

/// Around the numbers whose width-w NAF begins to have one digit more than they have bits: 2^L - 2^(w-1) and its
/// neighbours, all ones and 2^L, for each L; each with its width.
fn around_powers_of_two() -> impl Iterator<Item = (Vec<u8>, u32)> {
    (8..limits::NUMBER_BITS).flat_map(|bits| {
        limits::NAF_WIDTHS.flat_map(move |width| {
            let half = 1 << (width - 1);
            [0, 1, half - 1, half, half + 1].map(|less| (below_power_of_two(bits, less), width))
        })
    })
}

/// Beside the reference, then of width 2 beside recode.
fn recode_wide(cases: &mut Generator, rng: &mut Rng) -> [Tally; 2] {
    let mut tally = Tally::new("recode wide");
    let mut plain = Tally::new("both, width 2");
    let mut one = |rng: &mut Rng, number: &[u8], width: u32, room: usize| {
        wide_one(rng, &mut tally, RECODE_WIDE, number, width, room);
        let width_two: [WideCall<usize>; 2] = [
            |number, _, out| library::recode_wide(number, 2, out),
            |number, _, out| library::recode(number, out),
        ];
        wide_one(rng, &mut plain, width_two, number, width, room);
    };
    for _ in 0..CASES {
        let case = cases.recode_wide_case();
        one(rng, &case.number, case.width, case.room);
    }
    for number in padded() {
        for width in [2, 8, 0, 9] {
            one(rng, &number, width, 0);
            one(rng, &number, width, limits::RECODE_ROOM);
        }
    }
    for width in widths() {
        for number in [&[][..], &[1], &[43], &[0xFF; limits::NUMBER_BYTES]] {
            one(rng, number, width, 0);
            one(rng, number, width, limits::RECODE_ROOM);
        }
    }
    let needed = |number: &[u8], width: u32| {
        reference::recode_wide(number, width, &mut [0; limits::RECODE_ROOM]).expect("a number and a width")
    };
    for number in (0..=limits::NUMBER_BYTES).flat_map(corners) {
        for width in limits::NAF_WIDTHS {
            let needed = needed(&number, width);
            for room in needed.saturating_sub(2)..=needed + 2 {
                one(rng, &number, width, room);
            }
        }
    }
    // Each room up to one more than is needed.
    for width in limits::NAF_WIDTHS {
        let number = [0xB7; limits::NUMBER_BYTES];
        for room in 0..=needed(&number, width) + 1 {
            one(rng, &number, width, room);
        }
    }
    for (number, width) in mixed_words(NUMBER_WORDS as u32).zip(limits::NAF_WIDTHS.cycle()) {
        let room = needed(&number, width);
        one(rng, &number, width, room);
    }
    for (number, width) in around_powers_of_two() {
        one(rng, &number, width, limits::RECODE_ROOM);
    }
    [tally, plain]
}

/// Digit strings that no generator leaves to chance, each with its width: every length up to two more than the
/// limit, of the largest digits and of their opposites; every byte at the lowest place; a byte that is no digit at
/// every place, and one more above it; widths that are none, beside every other fault.
fn wide_strings() -> impl Iterator<Item = (Vec<u8>, u32)> {
    let largest = |width: u32| (1u8 << (width - 1)) - 1;
    let lengths = limits::NAF_WIDTHS.flat_map(move |width| {
        (0..=limits::STRING_DIGITS + 2).flat_map(move |length| {
            [largest(width), largest(width).wrapping_neg()].map(|digit| (vec![digit; length], width))
        })
    });
    let bytes = limits::NAF_WIDTHS.flat_map(|width| (0..=255).map(move |byte| (vec![byte, 0, 1, byte], width)));
    let places = (0..limits::STRING_DIGITS).flat_map(move |place| {
        let width = 2 + place as u32 % 7;
        [2, 0x80, largest(width) + 1].map(|bad| {
            let mut string = vec![largest(width); limits::STRING_DIGITS];
            string[place] = bad;
            string[limits::STRING_DIGITS - 1] = bad;
            (string, width)
        })
    });
    let too_long = limits::STRING_DIGITS + 1;
    let faults = [vec![], vec![1], vec![2], vec![1; too_long], vec![2; too_long]];
    let refused = widths().flat_map(move |width| faults.clone().map(|string| (string, width)));
    lengths.chain(bytes).chain(places).chain(refused)
}

fn clean_wide(cases: &mut Generator, rng: &mut Rng) -> Tally {
    let mut tally = Tally::new("clean wide");
    for _ in 0..CASES {
        let case = cases.clean_wide_case();
        wide_one(rng, &mut tally, CLEAN_WIDE, &case.digits, case.width, case.room);
    }
    for (string, width) in wide_strings() {
        let needed = reference::clean_wide(&string, width, &mut [0; limits::CLEAN_WIDE_ROOM]).unwrap_or(0);
        for room in needed.saturating_sub(1)..=needed + 1 {
            wide_one(rng, &mut tally, CLEAN_WIDE, &string, width, room);
        }
    }
    tally
}

fn read_back_wide(cases: &mut Generator, rng: &mut Rng) -> Tally {
    let mut tally = Tally::new("read back wide");
    for _ in 0..CASES {
        let case = cases.read_back_wide_case();
        wide_one(rng, &mut tally, READ_BACK_WIDE, &case.digits, case.width, case.room);
    }
    for (string, width) in wide_strings() {
        let size = &mut [0; limits::READ_BACK_WIDE_ROOM];
        let needed = reference::read_back_wide(&string, width, size).map_or(0, |(_, length)| length);
        for room in needed.saturating_sub(1)..=needed + 1 {
            wide_one(rng, &mut tally, READ_BACK_WIDE, &string, width, room);
        }
    }
    tally
}

/// A plan that is written goes through the library's own check, which accepts it with the counts of
/// the forecast, and with the bits that the reference answers.
fn plan_one(rng: &mut Rng, tally: &mut Tally, number: &[u8], method: u32, width: u32, room: usize) {
    let number = Lent::holding(rng, number);
    let lent = Lent::noise(rng, room);
    let written = compare(
        tally,
        &[&number],
        &lent,
        |out| library::plan(number.part(), method, width, out),
        |out| reference::plan(number.part(), method, width, out),
    );
    if let Ok(counts) = library::forecast(number.part(), method, width) {
        let length = lesmutka::STEP_BYTES * counts.total();
        if length <= room {
            let mut space = vec![0; lesmutka::work_space(counts.total())];
            let plan = &written.part()[..length];
            let checked = library::check(number.part(), plan, &mut space);
            if checked.map(|accepted| accepted.counts) != Ok(counts) {
                differ("own plans", "check and forecast", &(number.part(), plan));
            }
            if checked != reference::check(number.part(), plan, &mut space) {
                differ("own plans", "answers of check", &(number.part(), plan));
            }
        }
    }
}

fn plan(cases: &mut Generator, rng: &mut Rng) -> Tally {
    let mut tally = Tally::new("plan");
    for _ in 0..CASES {
        let case = cases.plan_case();
        plan_one(rng, &mut tally, &case.number, case.method, case.width, case.room);
    }
    for (number, method, width) in small() {
        plan_one(rng, &mut tally, &number, method, width, lesmutka::PLAN_ROOM);
    }
    for number in padded() {
        for (method, width) in [(4, 0), (2, 6), (5, 8), (6, 0), (0, 0)] {
            plan_one(rng, &mut tally, &number, method, width, lesmutka::PLAN_ROOM);
            plan_one(rng, &mut tally, &number, method, width, 0);
        }
    }
    for (number, width) in around_powers_of_two() {
        plan_one(rng, &mut tally, &number, 5, width, lesmutka::PLAN_ROOM);
    }
    for width in widths() {
        for method in [5, 6, 7] {
            plan_one(rng, &mut tally, &[43], method, width, lesmutka::PLAN_ROOM);
        }
    }
    // Just the room, and a byte less.
    for number in all_modified_corners() {
        let steps = reference::forecast(&number, 6, 0).expect("a number").total();
        let room = lesmutka::STEP_BYTES * steps;
        plan_one(rng, &mut tally, &number, 6, 0, room);
        plan_one(rng, &mut tally, &number, 6, 0, room.saturating_sub(1));
    }
    tally
}

/// Every number that the tables of Bosma, "Signed bits and fast exponentiation", sum up, 1 to 1,023, by every method
/// and width.
fn small() -> impl Iterator<Item = (Vec<u8>, u32, u32)> {
    (1..1024usize).flat_map(|number| {
        let bytes = number.to_le_bytes()[..1 + usize::from(number > 255)].to_vec();
        let one = move |(method, width)| (bytes.clone(), method, width);
        methods().into_iter().map(one)
    })
}

fn forecast_one(rng: &mut Rng, tally: &mut Tally, number: &[u8], method: u32, width: u32) {
    let number = Lent::holding(rng, number);
    let nothing = Lent::noise(rng, 0);
    compare(
        tally,
        &[&number],
        &nothing,
        |_| library::forecast(number.part(), method, width),
        |_| reference::forecast(number.part(), method, width),
    );
}

fn forecast(cases: &mut Generator, rng: &mut Rng) -> Tally {
    let mut tally = Tally::new("forecast");
    for _ in 0..CASES {
        let case = cases.forecast_case();
        forecast_one(rng, &mut tally, &case.number, case.method, case.width);
    }
    for (number, method, width) in small() {
        forecast_one(rng, &mut tally, &number, method, width);
    }
    for number in padded() {
        for (method, width) in [(4, 0), (2, 6), (5, 8), (6, 0), (0, 0)] {
            forecast_one(rng, &mut tally, &number, method, width);
        }
    }
    for (number, width) in around_powers_of_two() {
        forecast_one(rng, &mut tally, &number, 5, width);
    }
    for width in widths() {
        for method in [5, 6, 7] {
            forecast_one(rng, &mut tally, &[43], method, width);
        }
    }
    for number in all_modified_corners() {
        forecast_one(rng, &mut tally, &number, 6, 0);
    }
    // Method 1 counts ones by words: each bit alone below the top one, for every length.
    for bytes in 1..=lesmutka::NUMBER_BYTES {
        for place in 0..8 * bytes {
            let mut number = vec![0; bytes];
            number[bytes - 1] = 0x80;
            number[place / 8] |= 1 << (place % 8);
            forecast_one(rng, &mut tally, &number, 1, 0);
        }
    }
    tally
}

fn check_one(rng: &mut Rng, tally: &mut Tally, number: &[u8], plan: &[u8], room: usize) {
    let number = Lent::holding(rng, number);
    let plan = Lent::holding(rng, plan);
    let lent = Lent::noise(rng, room);
    let answered = tally.answered;
    let left = compare(
        tally,
        &[&number, &plan],
        &lent,
        |space| library::check(number.part(), plan.part(), space),
        |space| reference::check(number.part(), plan.part(), space),
    );
    if tally.answered > answered {
        let hidden = hidden_doublings(plan.part(), left.part());
        tally.hidden = [tally.hidden[0] + hidden[0], tally.hidden[1] + hidden[1]];
        let [above, below] = bits_by_sign(plan.part(), left.part());
        tally.largest[0] += usize::from(above.max(below) > bit_length(number.part()));
        tally.largest[1] += usize::from(below > above);
    }
}

fn check(cases: &mut Generator, rng: &mut Rng) -> Tally {
    let mut tally = Tally::new("check");
    for _ in 0..CASES {
        let case = cases.check_case();
        check_one(rng, &mut tally, &case.number, &case.plan, case.room);
    }
    damaged_steps(rng, &mut tally);
    for place in 0..limits::VALUE_BITS {
        let plan = one_bit_apart(place);
        let room = lesmutka::work_space(plan.len() / lesmutka::STEP_BYTES);
        check_one(rng, &mut tally, &[2], &plan, room);
    }
    for bits in 3..=limits::VALUE_BITS {
        for (is_ones, is_below_zero) in [(false, false), (true, false), (false, true), (true, true)] {
            let plan = largest_of(bits, is_ones, is_below_zero);
            let room = lesmutka::work_space(plan.len() / lesmutka::STEP_BYTES);
            check_one(rng, &mut tally, &[2], &plan, room);
        }
    }
    for number in padded() {
        // The plan of the number without these bytes, if there is one; part of a step; no step at all.
        let mut own = vec![0; lesmutka::PLAN_ROOM];
        let steps = reference::plan(trimmed(&number), 4, 0, &mut own).map_or(0, |counts| counts.total());
        own.truncate(lesmutka::STEP_BYTES * steps);
        for plan in [&own[..], &[0; lesmutka::STEP_BYTES - 1], &[2; lesmutka::STEP_BYTES]] {
            check_one(rng, &mut tally, &number, plan, lesmutka::work_space(steps + 1));
            check_one(rng, &mut tally, &number, plan, 0);
        }
    }
    tally
}

/// A recoder between words of noise, in this order.
#[repr(C)]
struct Guarded {
    below: [u64; 8],
    recoder: sys::Recoder,
    above: [u64; 8],
}

impl Guarded {
    fn noise(rng: &mut Rng) -> Guarded {
        let mut words = || rng.next_u64();
        Guarded {
            below: [(); 8].map(|_| words()),
            recoder: sys::Recoder {
                words: [(); NUMBER_WORDS + 1].map(|_| words()),
            },
            above: [(); 8].map(|_| words()),
        }
    }
}

/// Takes until the reference is done, and three times more.
fn takes(number: &[u8], recoder: &mut sys::Recoder, mut theirs: reference::Recoder) {
    let mut more = 4;
    while more > 0 {
        let before = *recoder;
        let answer = library::take(recoder);
        let expected = theirs.take();
        if answer != expected {
            differ("take", "digits", &(number, before.words, answer, expected));
        }
        if answer.is_none() {
            if *recoder != before {
                differ("take", "recoders before and after done", &(number, before.words));
            }
            more -= 1;
        }
    }
}

fn take(cases: &mut Generator, rng: &mut Rng) -> Tally {
    let mut tally = Tally::new("take");
    let cases = (0..CASES).map(|_| cases.take_case().number);
    for number in padded().chain(cases) {
        let number = Lent::holding(rng, &number);
        let before = number.clone();
        let mut ours = Guarded::noise(rng);
        let (below, above) = (ours.below, ours.above);
        let answer = library::start(number.part(), &mut ours.recoder);
        let (theirs, expected) = reference::Recoder::start(number.part());
        if answer != expected {
            differ("start", "answers", &(number.part(), answer, expected));
        }
        // No other words stand for zero.
        if answer.is_err() && ours.recoder.words != [0; NUMBER_WORDS + 1] {
            differ(
                "start",
                "the refused recoder and that of zero",
                &(number.part(), ours.recoder),
            );
        }
        takes(number.part(), &mut ours.recoder, theirs);
        if number != before || ours.below != below || ours.above != above {
            differ("take", "bytes that no take was lent", &number.part());
        }
        tally.count(&answer);
    }
    tally
}

/// Recoders put together by hand: they stand for their words, plus one where the last is not 0.
fn by_hand(rng: &mut Rng) -> usize {
    for _ in 0..CASES {
        let mut recoder = Guarded::noise(rng).recoder;
        for word in &mut recoder.words {
            match rng.below(4) {
                0 => *word = 0,
                1 => *word = u64::MAX,
                2 => *word >>= rng.below(64),
                _ => {}
            }
        }
        let mut number = [0; lesmutka::NUMBER_BYTES];
        let mut carry = u64::from(recoder.words[NUMBER_WORDS] != 0);
        for (word, bytes) in recoder.words[..NUMBER_WORDS].iter().zip(number.chunks_mut(8)) {
            let (sum, wrapped) = word.overflowing_add(carry);
            bytes.copy_from_slice(&sum.to_le_bytes());
            carry = u64::from(wrapped);
        }
        if carry == 0 {
            let (theirs, started) = reference::Recoder::start(trimmed(&number));
            assert_eq!(started, Ok(()));
            takes(&number, &mut recoder, theirs);
        } else {
            above_all_numbers(&mut recoder);
        }
    }
    CASES
}

/// The one recoder that stands for more than any number has: a 1 above as many zeros as a number
/// has bits.
fn above_all_numbers(recoder: &mut sys::Recoder) {
    let words = recoder.words;
    let mut digits = Vec::new();
    while let Some(digit) = library::take(recoder) {
        digits.push(digit);
    }
    let mut expected = vec![0; limits::NUMBER_BITS];
    expected.push(1);
    if digits != expected || library::take(recoder).is_some() {
        differ("take", "digits of the largest recoder", &words);
    }
}

/// A damaged step at each place of the longest plan, in a space that just fits.
fn damaged_steps(rng: &mut Rng, tally: &mut Tally) {
    let steps = lesmutka::PLAN_STEPS;
    for i in 1..=steps {
        let own = (i as u16).to_le_bytes();
        for step in [
            [2, 0, 0, 0, 0],
            [0, own[0], own[1], 0, 0],
            [0, 0, 0, own[0], own[1]],
            [1, 0, 0, 255, 255],
            [1, 0, 0, 0, 0],
        ] {
            let mut bytes = vec![0; lesmutka::PLAN_ROOM];
            bytes[lesmutka::STEP_BYTES * (i - 1)..lesmutka::STEP_BYTES * i].copy_from_slice(&step);
            check_one(rng, tally, &[2], &bytes, lesmutka::work_space(steps));
        }
    }
}

/// A text that is nearly a number: digits of one kind, now and then another byte or a prefix.
fn text(rng: &mut Rng, digits: &[u8]) -> (Vec<u8>, usize) {
    let length = match rng.below(8) {
        0 => rng.below(4),
        1 => rng.below(300),
        _ => rng.below(130),
    };
    let mut text: Vec<u8> = (0..length).map(|_| rng.pick(digits)).collect();
    if rng.one_in(4) {
        text.iter_mut().take(length / 2).for_each(|digit| *digit = b'0');
    }
    if rng.one_in(3) {
        text.splice(0..0, rng.pick(&[*b"0x", *b"0X", *b"1x", *b"00"]));
    }
    if rng.one_in(4) && !text.is_empty() {
        let at = rng.below(text.len());
        text[at] = match rng.one_in(2) {
            true => rng.next_byte(),
            false => rng.pick(b"/:@G`g -x"),
        };
    }
    let enough = (text.len() + 1) / 2;
    let room = match rng.below(6) {
        0 => rng.below(enough + 2),
        1 => enough.saturating_sub(1),
        _ => enough + rng.below(3),
    };
    (text, room)
}

fn hexadecimal(rng: &mut Rng) -> Tally {
    let texts = &mut rng.clone();
    let next = || text(texts, b"0123456789abcdefABCDEF");
    let theirs: Call<usize> = |text, out| reference::text::hexadecimal(text, out).ok_or(library::no_number(0));
    calls("hexadecimal", rng, next, library::hexadecimal, theirs)
}

/// A number that is read has no high zero byte, however many zeros stand in front.
fn decimal(rng: &mut Rng) -> Tally {
    let texts = &mut rng.clone();
    let next = || text(texts, b"0123456789");
    let ours: Call<usize> = |text, out| {
        let read = library::decimal(text, out);
        if let Ok(length) = read {
            let recoded = library::recode(&out[..length], &mut [0; lesmutka::RECODE_ROOM]);
            if matches!(recoded, Err(refusal) if refusal.number == HIGHEST_BYTE_IS_ZERO) {
                differ(
                    "decimal",
                    "the bytes and the spelling of the number",
                    &(text, &out[..length]),
                );
            }
        }
        read
    };
    let theirs: Call<usize> = |text, out| reference::text::decimal(text, out).map_err(library::no_number);
    calls("decimal", rng, next, ours, theirs)
}

/// Words that are nearly digits or steps, with blanks between them, and room for about as many bytes as
/// they take.
fn words_of(rng: &mut Rng, word: fn(&mut Rng) -> Vec<u8>, bytes: usize) -> (Vec<u8>, usize) {
    let count = match rng.one_in(100) {
        true => rng.between(limits::PLAN_STEPS, limits::PLAN_STEPS + 60),
        false => rng.below(12),
    };
    let mut text = Vec::new();
    for _ in 0..count {
        let blanks = if rng.one_in(8) { rng.below(3) } else { 1 };
        text.extend((0..blanks).map(|_| rng.pick(b"    \t\n\x0b\x0c\r")));
        text.extend(word(rng));
        if rng.one_in(40) {
            let at = rng.below(text.len() + 1);
            text.insert(at, rng.next_byte());
        }
    }
    let room = match rng.below(4) {
        0 => rng.below(bytes * count + 2),
        _ => bytes * (count + 1),
    };
    (text, room)
}

fn digit_word(rng: &mut Rng) -> Vec<u8> {
    let words: [&[u8]; 12] = [
        b"0", b"1", b"-1", b"0", b"1", b"-1", b"-", b"2", b"-0", b"11", b"-11", b"--1",
    ];
    rng.pick(&words).to_vec()
}

fn step_word(rng: &mut Rng) -> Vec<u8> {
    let names = ["add", "subtract", "add", "subtract", "ad", "ADD", "subtracts", ""];
    let mut position = || match rng.below(8) {
        0 => rng
            .pick(&[
                "",
                "00",
                "0007",
                "65535",
                "65536",
                "655360",
                "99999999999999999999",
                "-1",
                "x",
            ])
            .to_string(),
        1 => rng.below(70_000).to_string(),
        _ => rng.below(700).to_string(),
    };
    let (j, k) = (position(), position());
    let (open, comma, close) = match rng.below(12) {
        0 => rng.pick(&[
            ("", ",", ")"),
            ("((", ",", ")"),
            ("(", "", ")"),
            ("(", ",,", ")"),
            ("(", ",", ""),
            ("(", ",", ")x"),
        ]),
        _ => ("(", ",", ")"),
    };
    format!("{}{}{}{}{}{}", rng.pick(&names), open, j, comma, k, close).into_bytes()
}

fn read_digits(rng: &mut Rng) -> Tally {
    let texts = &mut rng.clone();
    let next = || words_of(texts, digit_word, 1);
    calls(
        "read digits",
        rng,
        next,
        library::read_digits,
        reference::text::read_digits,
    )
}

fn read_steps(rng: &mut Rng) -> Tally {
    let texts = &mut rng.clone();
    let next = || words_of(texts, step_word, limits::STEP_BYTES);
    calls(
        "read steps",
        rng,
        next,
        library::read_steps,
        reference::text::read_steps,
    )
}

fn words(rng: &mut Rng) -> Tally {
    let numbers = &mut rng.clone();
    let next = || {
        let refusal = match numbers.one_in(8) {
            true => numbers.next_byte(),
            false => numbers.below(LAST + 1) as u8,
        };
        (vec![refusal], numbers.below(100))
    };
    let theirs: Call<usize> = |refusal, out| reference::text::write_words(usize::from(refusal[0]), out);
    calls("words", rng, next, library::words, theirs)
}

/// The limits that the linked library keeps are those of the papers.
fn same_limits() {
    let linked = lesmutka::limits();
    assert_eq!(linked.number_bytes, limits::NUMBER_BYTES);
    assert_eq!(linked.string_digits, limits::STRING_DIGITS);
    assert_eq!(linked.step_bytes, limits::STEP_BYTES);
    assert_eq!(linked.plan_steps, limits::PLAN_STEPS);
    assert_eq!(linked.value_bytes, limits::VALUE_BYTES);
    assert_eq!(linked.record_bytes, limits::RECORD_BYTES);
}

fn main() {
    same_limits();
    let cases = &mut Generator::new(SEED);
    let rng = &mut Rng::new(SEED ^ 1);
    for recoding in recode(cases, rng) {
        recoding.print(&[1, 6, 13]);
    }
    let [wide, width_two] = recode_wide(cases, rng);
    wide.print(&[1, 3, 6, 13]);
    width_two.print(&[1, 6, 13]);
    recode_modified(cases, rng).print(&[1, 6, 13]);
    take(cases, rng).print(&[1, 13]);
    clean(cases, rng).print(&[4, 5, 6]);
    clean_wide(cases, rng).print(&[3, 4, 5, 6]);
    read_back(cases, rng).print(&[4, 5, 6]);
    read_back_wide(cases, rng).print(&[3, 4, 5, 6]);
    plan(cases, rng).print(&[1, 2, 3, 6, 13]);
    forecast(cases, rng).print(&[1, 2, 3, 13]);
    let checks = check(cases, rng);
    checks.print(&[1, 2, 7, 8, 9, 10, 11, 12, 13]);
    print_hidden(checks.hidden);
    print_largest(checks.largest);
    hexadecimal(rng).print(&[4]);
    decimal(rng).print(&[4]);
    read_digits(rng).print(&[6]);
    read_steps(rng).print(&[6, 7]);
    words(rng).print(&[6]);
    println!("recoders put together by hand: {}", by_hand(rng));
    println!("differential: no difference");
}
