//! The requests of the proved program `cases` (crates/cases/stdin), and their answers by this crate
//! alone, which the program must write (crates/cases/stdout). `crates/cases/src/main.rt` has the
//! form of both. A case is a line here; then
//!
//! ```text
//! cargo run --manifest-path rust/Cargo.toml -p reference --example cases
//! ```
//!
//! writes the two files again.

use crate::generate::{corners, largest_of, methods, modified_corners, power_of_two};
use crate::limits::*;
use crate::refusal::{Refusal, LAST};
use crate::{
    check, clean, clean_wide, forecast, plan, read_back, read_back_wide, recode, recode_modified, recode_wide, text,
    Accepted, Counts, Recoder,
};

/// What the program fills a buffer with before it lends it.
const FILL: u8 = 0xA5;

/// What a take answers where no digit is left.
const DONE: usize = 0x100;

/// What the program takes in: the bytes of a request's words, and the room to lend.
const LINE_BYTES: usize = 2 * PLAN_ROOM;
const MOST_ROOM: usize = work_space(PLAN_STEPS + 1);

const CALLS: [&str; 17] = [
    "recode", "bywords", "take", "clean", "readback", "plan", "forecast", "check", "hex", "decimal", "digits", "steps",
    "words", "wrecode", "wclean", "wread", "mrecode",
];

// Answers.

/// The lines of the requests, each request with its answer behind it.
pub fn answers(requests: &str) -> String {
    requests
        .lines()
        .map(|line| match line.is_empty() || line.starts_with("# ") {
            true => format!("{}\n", line),
            false => format!("{}: {}\n", line, answer(line)),
        })
        .collect()
}

fn answer(request: &str) -> String {
    let words: Vec<&str> = request.split(' ').collect();
    if LINE_BYTES < words.iter().map(|word| word.len() / 2).sum() {
        return "long".to_string();
    }
    let room = decimal(words[1]) as usize;
    if MOST_ROOM < room {
        return "room".to_string();
    }
    let input = bytes(words[2]);
    let mut out = vec![FILL; room];
    match (words[0], &words[3..]) {
        ("recode" | "bywords", []) => fields(recode(&input, &mut out).map(|length| [length])) + &buffer(&out),
        ("mrecode", []) => fields(recode_modified(&input, &mut out).map(|length| [length])) + &buffer(&out),
        ("take", []) => take(&input, room),
        ("clean", []) => fields(clean(&input, &mut out).map(|length| [length])) + &buffer(&out),
        ("readback", []) => {
            let value = read_back(&input, &mut out);
            fields(value.map(|(sign, length)| [usize::from(sign), length])) + &buffer(&out)
        }
        ("wrecode", [width]) => {
            let length = recode_wide(&input, decimal(width), &mut out);
            fields(length.map(|length| [length])) + &buffer(&out)
        }
        ("wclean", [width]) => {
            let length = clean_wide(&input, decimal(width), &mut out);
            fields(length.map(|length| [length])) + &buffer(&out)
        }
        ("wread", [width]) => {
            let value = read_back_wide(&input, decimal(width), &mut out);
            fields(value.map(|(sign, length)| [usize::from(sign), length])) + &buffer(&out)
        }
        ("plan", [method, width]) => {
            let counts = plan(&input, decimal(method), decimal(width), &mut out);
            fields(counts.map(numbers)) + &buffer(&out)
        }
        ("forecast", [method, width]) => fields(forecast(&input, decimal(method), decimal(width)).map(numbers)),
        ("check", [plan]) => {
            let accepted = check(&input, &bytes(plan), &mut out);
            fields(accepted.map(numbers_and_bits)) + &buffer(&out)
        }
        ("hex", []) => {
            let read = text::hexadecimal(&input, &mut out);
            read.map_or("0 0 0".to_string(), |length| format!("1 0 {}", length)) + &buffer(&out)
        }
        ("decimal", []) => {
            let read = text::decimal(&input, &mut out);
            read.map_or_else(|place| format!("0 {} 0", place), |length| format!("1 0 {}", length)) + &buffer(&out)
        }
        ("digits", []) => fields(text::read_digits(&input, &mut out).map(|length| [length])) + &buffer(&out),
        ("steps", []) => fields(text::read_steps(&input, &mut out).map(|length| [length])) + &buffer(&out),
        ("words", [refusal]) => {
            let written = text::write_words(decimal(refusal) as usize, &mut out);
            fields(written.map(|length| [length])) + &buffer(&out)
        }
        (name, _) if !CALLS.contains(&name) => "unknown".to_string(),
        _ => panic!("{} is no request", request),
    }
}

fn decimal(word: &str) -> u32 {
    let value: u32 = word.parse().expect(word);
    assert_eq!(value.to_string(), word);
    value
}

fn bytes(word: &str) -> Vec<u8> {
    if word == "-" {
        return Vec::new();
    }
    let digits: Vec<u8> = word
        .chars()
        .map(|digit| digit.to_digit(16).expect(word) as u8)
        .collect();
    let bytes: Vec<u8> = digits.chunks(2).map(|pair| 16 * pair[0] + pair[1]).collect();
    assert_eq!(hexadecimal(&bytes), word);
    bytes
}

fn hexadecimal(bytes: &[u8]) -> String {
    bytes.iter().map(|byte| format!("{:02x}", byte)).collect()
}

/// All fields of an answer: refusal and place, 0 where there is none, then the values, 0 where it
/// is refused.
fn fields<const N: usize>(answer: Result<[usize; N], Refusal>) -> String {
    let (refusal, place, values) = match answer {
        Ok(values) => (0, 0, values),
        Err(refusal) => (refusal.number, refusal.place, [0; N]),
    };
    let values: String = values.iter().map(|value| format!(" {}", value)).collect();
    format!("{} {}{}", refusal, place, values)
}

fn numbers(counts: Counts) -> [usize; 3] {
    [counts.doublings, counts.additions, counts.subtractions]
}

fn numbers_and_bits(accepted: Accepted) -> [usize; 4] {
    let [doublings, additions, subtractions] = numbers(accepted.counts);
    [doublings, additions, subtractions, accepted.largest_bits]
}

/// The bytes up to the last one that is not the fill, and how many stand above it.
fn buffer(out: &[u8]) -> String {
    let end = out.iter().rposition(|&byte| byte != FILL).map_or(0, |last| last + 1);
    format!(" {}+{}", hexadecimal(&out[..end]), out.len() - end)
}

/// The words of a recoder are fixed only where it stands for zero: all are 0.
fn take(number: &[u8], times: usize) -> String {
    let (mut recoder, result) = Recoder::start(number);
    let mut answer = fields(result.map(|_| []));
    for _ in 0..times {
        answer += &format!(" {}", recoder.take().map_or(DONE, usize::from));
    }
    assert_eq!(recoder, Recoder::start(&[]).0, "a recoder with digits left");
    answer + &" 0".repeat(NUMBER_WORDS + 1)
}

// Requests.

/// All requests, in sections.
pub fn requests() -> String {
    let mut requests = Requests(String::new());
    requests.numbers();
    requests.strings();
    requests.wide_numbers();
    requests.wide_strings();
    requests.modified_numbers();
    requests.plans();
    requests.wide_plans();
    requests.modified_plans();
    requests.checks();
    requests.texts();
    requests.digit_texts();
    requests.step_texts();
    requests.most_words();
    requests.words();
    requests.unanswered();
    requests.families();
    requests.0
}

struct Requests(String);

/// The bytes of a small number, without a high zero byte.
fn small(number: usize) -> Vec<u8> {
    let mut bytes = number.to_le_bytes().to_vec();
    while bytes.last() == Some(&0) {
        bytes.pop();
    }
    bytes
}

/// The same with high zero bytes.
fn padded(number: usize, length: usize) -> Vec<u8> {
    let mut bytes = small(number);
    bytes.resize(length, 0);
    bytes
}

/// Numbers within the limit whose highest byte is zero: zero, small ones, and all ones below it.
fn high_zeros() -> Vec<Vec<u8>> {
    let mut longest = vec![0xFF; NUMBER_BYTES];
    longest[NUMBER_BYTES - 1] = 0;
    vec![
        padded(0, 1),
        padded(0, 2),
        padded(0, NUMBER_BYTES),
        padded(1, 2),
        padded(3, 3),
        padded(43, 2),
        padded(43, NUMBER_BYTES),
        longest,
    ]
}

/// 2^k - 1.
fn ones(k: usize) -> Vec<u8> {
    let mut number = vec![0xFF; k / 8];
    if k % 8 > 0 {
        number.push((1 << (k % 8)) - 1);
    }
    number
}

/// An odd number less 1.
fn less_one(mut number: Vec<u8>) -> Vec<u8> {
    number[0] -= 1;
    number
}

/// A number in decimal.
fn decimal_text(number: &[u8]) -> String {
    let mut digits = vec![0];
    for &byte in number.iter().rev() {
        let mut carry = u32::from(byte);
        for digit in &mut digits {
            carry += 256 * *digit;
            *digit = carry % 10;
            carry /= 10;
        }
        while carry > 0 {
            digits.push(carry % 10);
            carry /= 10;
        }
    }
    digits.iter().rev().map(u32::to_string).collect()
}

/// A number of the longest kind, with runs of ones and zeros of several lengths.
fn long() -> Vec<u8> {
    (0..NUMBER_BYTES).map(|i| (37 * i + 11) as u8).collect()
}

/// The bytes of digits as prose writes them, most significant first.
fn digits(digits: &[i8]) -> Vec<u8> {
    digits.iter().rev().map(|&digit| digit as u8).collect()
}

/// The string of most digits that is longest once it is cleaned: as many of the largest digits as the width,
/// above a 1.
fn longest_cleaned(width: usize) -> Vec<u8> {
    let mut string = vec![0; STRING_DIGITS];
    string[STRING_DIGITS - width - 1] = 1;
    string[STRING_DIGITS - width..].fill((1 << (width - 1)) - 1);
    string
}

fn add(j: usize, k: usize) -> Vec<u8> {
    step(0, j, k)
}

fn subtract(j: usize, k: usize) -> Vec<u8> {
    step(1, j, k)
}

fn step(operation: u8, j: usize, k: usize) -> Vec<u8> {
    let mut bytes = vec![operation];
    bytes.extend((j as u16).to_le_bytes());
    bytes.extend((k as u16).to_le_bytes());
    bytes
}

fn doublings(steps: usize) -> Vec<u8> {
    (0..steps).flat_map(|i| add(i, i)).collect()
}

/// Room for the records of a few steps.
const FEW: usize = work_space(4);

impl Requests {
    fn title(&mut self, words: &str) {
        if !self.0.is_empty() {
            self.0.push('\n');
        }
        self.0 += &format!("# {}\n", words);
    }

    fn line(&mut self, name: &str, room: usize, input: &[u8], more: &str) {
        self.0 += &format!("{} {} {}{}\n", name, room, Requests::word(input), more);
    }

    fn word(bytes: &[u8]) -> String {
        match bytes.is_empty() {
            true => "-".to_string(),
            false => hexadecimal(bytes),
        }
    }

    /// Recoded, and again by words.
    fn recode(&mut self, room: usize, number: &[u8]) {
        self.line("recode", room, number, "");
        self.line("bywords", room, number, "");
    }

    fn recode_modified(&mut self, room: usize, number: &[u8]) {
        self.line("mrecode", room, number, "");
    }

    fn take(&mut self, times: usize, number: &[u8]) {
        self.line("take", times, number, "");
    }

    fn clean(&mut self, room: usize, digits: &[u8]) {
        self.line("clean", room, digits, "");
    }

    fn read_back(&mut self, room: usize, digits: &[u8]) {
        self.line("readback", room, digits, "");
    }

    fn recode_wide(&mut self, room: usize, number: &[u8], width: u32) {
        self.line("wrecode", room, number, &format!(" {}", width));
    }

    fn clean_wide(&mut self, room: usize, digits: &[u8], width: u32) {
        self.line("wclean", room, digits, &format!(" {}", width));
    }

    fn read_back_wide(&mut self, room: usize, digits: &[u8], width: u32) {
        self.line("wread", room, digits, &format!(" {}", width));
    }

    fn plan(&mut self, room: usize, number: &[u8], method: u32, width: u32) {
        self.line("plan", room, number, &format!(" {} {}", method, width));
    }

    fn forecast(&mut self, number: &[u8], method: u32, width: u32) {
        self.line("forecast", 0, number, &format!(" {} {}", method, width));
    }

    fn check(&mut self, room: usize, number: &[u8], plan: &[u8]) {
        self.line("check", room, number, &format!(" {}", Requests::word(plan)));
    }

    /// A text as a number of both kinds, into the room that is enough, a byte more and a byte less.
    fn text(&mut self, text: &str) {
        for name in ["hex", "decimal"] {
            let enough = (text.len() + 1) / 2;
            for room in [enough, enough + 1, enough.saturating_sub(1)] {
                self.line(name, room, text.as_bytes(), "");
            }
        }
    }

    /// The canonical string, whole and digit by digit, done twice over.
    fn recoded(&mut self, number: &[u8]) {
        let length = recode(number, &mut [0; RECODE_ROOM]).unwrap_or(0);
        self.recode(RECODE_ROOM, number);
        self.take(length + 2, number);
    }

    fn read(&mut self, digits: &[u8]) {
        self.clean(CLEAN_ROOM, digits);
        self.read_back(READ_BACK_ROOM, digits);
    }

    /// Cleaned and read back, and what was written once more.
    fn cleaned(&mut self, digits: &[u8]) {
        let mut out = [0; CLEAN_ROOM];
        let length = clean(digits, &mut out).unwrap();
        self.read(digits);
        self.read(&out[..length]);
    }

    fn read_wide(&mut self, digits: &[u8], width: u32) {
        self.clean_wide(CLEAN_WIDE_ROOM, digits, width);
        self.read_back_wide(READ_BACK_WIDE_ROOM, digits, width);
    }

    /// The same in the wide form.
    fn cleaned_wide(&mut self, digits: &[u8], width: u32) {
        let mut out = [0; CLEAN_WIDE_ROOM];
        let length = clean_wide(digits, width, &mut out).unwrap();
        self.read_wide(digits, width);
        self.read_wide(&out[..length], width);
    }

    fn planned(&mut self, number: &[u8], method: u32, width: u32) {
        self.plan(PLAN_ROOM, number, method, width);
        self.forecast(number, method, width);
    }

    /// Into just the room that it takes, and into a byte less.
    fn fitted(&mut self, number: &[u8], method: u32, width: u32) {
        let room = STEP_BYTES * forecast(number, method, width).unwrap().total();
        self.plan(room, number, method, width);
        if room > 0 {
            self.plan(room - 1, number, method, width);
        }
    }

    /// The check of a plan of our own.
    fn accepted(&mut self, number: &[u8], method: u32, width: u32) {
        let mut out = [0; PLAN_ROOM];
        let steps = plan(number, method, width, &mut out).unwrap().total();
        self.check(work_space(steps), number, &out[..STEP_BYTES * steps]);
    }

    /// Recoded into just the room that it takes, a byte more and a byte less.
    fn recode_fitted(&mut self, number: &[u8]) {
        let length = recode(number, &mut [0; RECODE_ROOM]).unwrap();
        for room in [length, length + 1, length.saturating_sub(1)] {
            self.recode(room, number);
        }
    }

    fn numbers(&mut self) {
        self.title("Numbers to try by hand: recoded, then taken digit by digit until done, and done again");
        for number in [0, 1, 3, 7, 15, 25, 27, 43] {
            self.recoded(&small(number));
        }
        self.title("The longest number, room for its digits and for one less, and a byte too many");
        self.recoded(&[0xFF; NUMBER_BYTES]);
        self.recode(RECODE_ROOM - 1, &[0xFF; NUMBER_BYTES]);
        self.recoded(&[0; NUMBER_BYTES + 1]);
        self.recoded(&[0xFF; NUMBER_BYTES + 1]);
        self.recode(0, &[0xFF; NUMBER_BYTES + 1]);
        self.title("A highest byte of zero, also into no room; a zero byte below it; a byte too many");
        for number in high_zeros() {
            self.recoded(&number);
            self.recode(0, &number);
        }
        self.recoded(&small(256));
        self.recoded(&padded(43, NUMBER_BYTES + 1));
        self.recode(0, &padded(43, NUMBER_BYTES + 1));
        self.title("Room");
        self.recode(0, &[]);
        for room in [7, 6, 40, 0] {
            self.recode(room, &small(43));
        }
        self.title(WHOLE_WORDS);
        for words in 1..=NUMBER_WORDS {
            for number in corners(8 * words) {
                self.recode_fitted(&number);
            }
        }
        self.title(NO_WHOLE_WORDS);
        for bytes in [1, 7, 9, NUMBER_BYTES - 1] {
            for number in corners(bytes) {
                self.recode(RECODE_ROOM, &number);
            }
        }
        self.title("The published table of non-adjacent forms");
        for number in 1..40 {
            self.recoded(&small(number));
        }
    }

    fn texts(&mut self) {
        self.title("Texts as hexadecimal and as decimal numbers");
        for text in [
            "", "0", "1", "43", "2b", "2B", "0x2b", "0X2B", "0x02b", "0x", "x", "0x0x1", "00", "0000043",
        ] {
            self.text(text);
        }
        self.title("Bytes beside the digits, at the front, inside and at the end");
        for text in [
            "/", ":", "@", "G", "`", "g", " 43", "43 ", "4:3", "4/3", "-43", "+43", "4\0", "\u{e9}4",
        ] {
            self.text(text);
        }
        self.title("As many digits as the reader takes at a time, one less and one more");
        for digits in [15, 16, 17, 31, 32, 33] {
            self.text(&"9".repeat(digits));
            self.text(&format!("1{}", "0".repeat(digits - 1)));
        }
        self.title("The greatest number, one more, and longer texts");
        let limit = decimal_text(&ones(NUMBER_BITS));
        let (high, last) = limit.split_at(limit.len() - 1);
        assert_eq!(last, "5");
        self.text(&limit);
        self.text(&format!("{}6", high));
        self.text(&format!("{}{}", "0".repeat(50), limit));
        self.text(&"123456789".repeat(20));
    }

    fn digit_texts(&mut self) {
        self.title("Digits as text: digits, then words that are none");
        for text in ["", " ", "0", "1", "-1", "1 0 -1", " 1\t0\n-1\x0b1\x0c0\r", "1  0"] {
            self.words_into("digits", 1, text);
        }
        for text in [
            "2", "-0", "+1", "11", "--1", "-", "1 -11 0", "x 1", "1\u{a0}1", "1\0", "\x081", "\x0e1",
        ] {
            self.words_into("digits", 1, text);
        }
    }

    fn step_texts(&mut self) {
        self.title("Steps as text: steps, then words that are none");
        for text in [
            "",
            "add(0,0)",
            "subtract(2,0)",
            "add(0,0) add(1,1)\nsubtract(2,0)",
            "add(258,65535)",
            "add(007,00)",
        ] {
            self.words_into("steps", STEP_BYTES, text);
        }
        for text in [
            "add",
            "add(",
            "add()",
            "add(,)",
            "add(0)",
            "add(0,)",
            "add(,0)",
            "add(0,0",
            "add(0,0))",
            "add(0,0)x",
            "add(0,0,0)",
            "add(0;0)",
            "add0,0)",
            "xadd(0,0)",
            "ADD(0,0)",
            "sub(0,0)",
            "subtract(0,65536)",
            "add(65536,0)",
            "add(99999999999999999999999,0)",
            "add(-1,0)",
            "add(0x1,0)",
            "add(0, 0)",
            "add(0,0) x add(0,0)",
        ] {
            self.words_into("steps", STEP_BYTES, text);
        }
    }

    /// As many words as a plan has steps, and one more, into enough room and into none.
    fn most_words(&mut self) {
        self.title("The most words that are read as steps, and one more");
        for words in [PLAN_STEPS, PLAN_STEPS + 1] {
            for room in [PLAN_ROOM + STEP_BYTES, 0] {
                self.line("steps", room, "x ".repeat(words).as_bytes(), "");
            }
        }
    }

    /// A text whose words take this many bytes each, into more room than it takes, just enough, and a
    /// byte less.
    fn words_into(&mut self, name: &str, bytes: usize, text: &str) {
        let enough = match name {
            "digits" => text::read_digits(text.as_bytes(), &mut [0; 99]),
            _ => text::read_steps(text.as_bytes(), &mut [0; 99]),
        }
        .unwrap();
        for room in [enough + bytes, enough, enough.saturating_sub(1)] {
            self.line(name, room, text.as_bytes(), "");
        }
    }

    fn words(&mut self) {
        self.title("The words of each refusal, into enough room, into a byte less than that, and into none");
        for refusal in (0..=LAST + 2).chain([255, 256, u32::MAX as usize]) {
            let length = text::words(refusal).len();
            for room in [100, length, length - 1, 0] {
                self.line("words", room, &[], &format!(" {}", refusal));
            }
        }
    }

    fn strings(&mut self) {
        self.title("Numbers to try by hand: cleaned and read back, then what was written");
        self.cleaned(&digits(&[1, 1]));
        self.cleaned(&digits(&[-1, 1]));
        self.cleaned(&digits(&[0, 0, 1]));
        self.cleaned(&digits(&[1, -1, -1]));
        self.title("The longest strings, and a digit too many");
        self.cleaned(&[0x01; STRING_DIGITS]);
        self.cleaned(&[0xFF; STRING_DIGITS]);
        self.cleaned(&[0x00; STRING_DIGITS]);
        self.read(&[0x00; STRING_DIGITS + 1]);
        self.title("A run of three, values below zero, zero, a size of two bytes");
        self.cleaned(&digits(&[1, 1, 1]));
        self.cleaned(&digits(&[-1, -1]));
        self.read(&digits(&[0]));
        self.read(&digits(&[0, 0, 0]));
        let two_bytes = digits(&[1, 0, 0, 0, 0, 0, 0, 0, -1, 0]);
        self.read(&two_bytes);
        self.title("Bytes that are no digits: the lowest counts, and a string too long is refused as such");
        self.read(&[2, 0, 255, 0, 1]);
        self.read(&[255, 0, 2, 0, 1]);
        self.read(&[255, 0, 255, 0, 2]);
        self.read(&[255, 2, 0, 2, 1]);
        self.read(&[254]);
        let mut longest = [0; STRING_DIGITS];
        (longest[0], longest[STRING_DIGITS - 1]) = (1, 2);
        self.read(&longest);
        let mut too_long = [0; STRING_DIGITS + 1];
        (too_long[0], too_long[STRING_DIGITS]) = (2, 1);
        self.read(&too_long);
        self.title("Room for just the answer, for a byte less, for more; none, where 5 or 4 comes first");
        for room in [3, 2, 40] {
            self.clean(room, &digits(&[1, 1]));
        }
        self.clean(CLEAN_ROOM - 1, &[0x01; STRING_DIGITS]);
        for room in [2, 1, 40] {
            self.read_back(room, &two_bytes);
        }
        self.read_back(READ_BACK_ROOM - 1, &[0x01; STRING_DIGITS]);
        for string in [&[][..], &[1, 2], &[1; STRING_DIGITS + 1]] {
            self.clean(0, string);
            self.read_back(0, string);
        }
        self.title("What recode writes, read back");
        for number in [small(0), small(43), long(), ones(NUMBER_BITS)] {
            let mut out = [0; RECODE_ROOM];
            let length = recode(&number, &mut out).unwrap();
            self.recode(RECODE_ROOM, &number);
            self.read_back(NUMBER_BYTES, &out[..length]);
        }
    }

    fn wide_numbers(&mut self) {
        self.title(WIDE_43);
        for width in NAF_WIDTHS.chain([0, 1, 9, 10, 260, u32::MAX]) {
            self.recode_wide(RECODE_ROOM, &small(43), width);
        }
        self.title("The width-w NAFs of 1122334455, the example of a textbook, then of a number of the longest kind");
        for width in 2..=6 {
            self.recode_wide(RECODE_ROOM, &small(1_122_334_455), width);
        }
        for width in NAF_WIDTHS {
            self.recode_wide(RECODE_ROOM, &long(), width);
        }
        self.title("Zero, 1, and the longest number into the room for its digits and for one less");
        for width in [2, 8] {
            self.recode_wide(0, &small(0), width);
            self.recode_wide(1, &small(1), width);
            self.recode_wide(RECODE_ROOM, &ones(NUMBER_BITS), width);
            self.recode_wide(RECODE_ROOM - 1, &ones(NUMBER_BITS), width);
        }
        self.title("Room for just the digits of 43, for one less, for more, for none");
        for room in [5, 4, 40, 0] {
            self.recode_wide(room, &small(43), 4);
        }
        self.title("Order: 1, 13, 3, 6");
        for number in [padded(43, NUMBER_BYTES + 1), ones(NUMBER_BITS + 8)] {
            self.recode_wide(0, &number, 9);
        }
        for number in high_zeros() {
            self.recode_wide(0, &number, 9);
        }
        self.recode_wide(0, &small(43), 9);
        self.recode_wide(0, &small(43), 8);
    }

    fn wide_strings(&mut self) {
        self.title(
            "Wide digit strings, cleaned and read back, then what was written: a sign that is not the top digit's",
        );
        self.cleaned_wide(&digits(&[1, -3]), 3);
        self.cleaned_wide(&digits(&[1, 0, 0, -127]), 8);
        self.title("Shorter than the width; cleaned into as many more digits as the width; high zeros; zero");
        self.cleaned_wide(&digits(&[1, 1]), 8);
        self.cleaned_wide(&digits(&[3, 3, 3, 1]), 3);
        self.cleaned_wide(&digits(&[0, 0, 7, -5, 0]), 4);
        self.read_wide(&digits(&[0, 0, 0]), 5);
        self.title("The longest strings: the largest digits, the longest once cleaned, zeros; and a digit too many");
        self.cleaned_wide(&[127; STRING_DIGITS], 8);
        self.cleaned_wide(&longest_cleaned(8), 8);
        self.cleaned_wide(&longest_cleaned(5), 5);
        self.read_wide(&[0; STRING_DIGITS], 6);
        self.read_wide(&[0; STRING_DIGITS + 1], 6);
        self.title("Bytes that are no digits of the width: even, too large, 80; the lowest counts");
        for (byte, width) in [(2, 8), (128, 8), (3, 2), (4, 4), (251, 3), (127, 7)] {
            self.read_wide(&[255, 0, byte, byte, 1], width);
        }
        self.read_wide(&[129, 0, 127, 0, 1], 8);
        self.title("Order: 3, 5, 4, 6");
        for width in [1, 9] {
            self.read_wide(&[1], width);
        }
        for (string, width) in [
            (&[2; STRING_DIGITS + 1][..], 9),
            (&[2; STRING_DIGITS + 1], 4),
            (&[1, 2], 9),
            (&[1, 2], 4),
            (&[1], 4),
            (&[], 4),
        ] {
            self.clean_wide(0, string, width);
            self.read_back_wide(0, string, width);
        }
        self.title("Room for just the answer, for a byte less, for more");
        for room in [7, 6, 40] {
            self.clean_wide(room, &digits(&[3, 3, 3, 1]), 3);
        }
        self.clean_wide(CLEAN_WIDE_ROOM - 1, &longest_cleaned(8), 8);
        for room in [READ_BACK_WIDE_ROOM, READ_BACK_WIDE_ROOM - 1] {
            self.read_back_wide(room, &[127; STRING_DIGITS], 8);
        }
    }

    fn wide_plans(&mut self) {
        self.title("43 by wide NAF, of every width, and by widths that are none");
        for width in NAF_WIDTHS.chain([1, 9, 258]) {
            self.planned(&small(43), 5, width);
        }
        self.title("1, an odd number in the table, even ones below the table's end, an odd one above it");
        for (number, width) in [(1, 2), (1, 8), (5, 8), (6, 4), (2, 8), (129, 8)] {
            self.planned(&small(number), 5, width);
        }
        self.title(LARGEST_WIDE);
        for (number, width) in [
            // Even, below the table's end and at it.
            (2, 3),
            (2, 4),
            (2, 8),
            (62, 8),
            (64, 8),
            // Odd: above 2^L - 2^(w-1), in the table, at that border.
            (7, 2),
            (7, 3),
            (7, 4),
            (247, 4),
            (249, 4),
            (1023, 8),
            (895, 8),
        ] {
            self.accepted(&small(number), 5, width);
        }
        self.accepted(&ones(NUMBER_BITS), 5, 8);
        self.accepted(&long(), 5, 5);
        self.title("Small numbers by wide NAF");
        for width in [3, 8] {
            for number in 1..=12 {
                self.forecast(&small(number), 5, width);
            }
        }
    }

    fn modified_numbers(&mut self) {
        self.title(MODIFIED);
        for number in [0, 1, 2, 3, 6, 7, 15, 25, 27, 43] {
            let mut out = [0; RECODE_ROOM];
            let length = recode_modified(&small(number), &mut out).unwrap();
            self.recode_modified(RECODE_ROOM, &small(number));
            self.read(&out[..length]);
        }
        self.title("The published table of modified non-adjacent forms");
        for number in 1..40 {
            self.recode_modified(RECODE_ROOM, &small(number));
        }
        self.title(MODIFIED_CORNERS);
        for bits in [8, 63, 64, 65, NUMBER_BITS] {
            for number in modified_corners(bits) {
                self.recode_modified(RECODE_ROOM, &number);
            }
        }
        self.title("Room for just the digits, for one less, for more, for none");
        for room in [6, 5, 40, 0] {
            self.recode_modified(room, &small(43));
        }
        for room in [RECODE_ROOM, RECODE_ROOM - 1] {
            self.recode_modified(room, &ones(NUMBER_BITS));
        }
        // A 1 1 and zeros: as many digits as bits.
        let mut number = vec![0; NUMBER_BYTES];
        number[NUMBER_BYTES - 1] = 0xC0;
        for room in [RECODE_ROOM - 1, RECODE_ROOM - 2] {
            self.recode_modified(room, &number);
        }
        self.recode_modified(0, &[]);
        self.title("Order: 1, 13, 6");
        for number in [padded(43, NUMBER_BYTES + 1), ones(NUMBER_BITS + 8)] {
            self.recode_modified(RECODE_ROOM, &number);
            self.recode_modified(0, &number);
        }
        for number in high_zeros() {
            self.recode_modified(RECODE_ROOM, &number);
            self.recode_modified(0, &number);
        }
    }

    fn modified_plans(&mut self) {
        self.title("Plans by modified NAF: numbers to try by hand, and one of the longest kind");
        for number in [1, 2, 3, 6, 7, 25, 27, 43] {
            self.planned(&small(number), 6, 0);
        }
        self.planned(&long(), 6, 0);
        self.title("Modified NAF has no width, and there is no method 7");
        for (method, width) in [(6, 1), (6, 2), (6, 8), (6, 256), (7, 0), (7, 4), (262, 0)] {
            self.planned(&small(43), method, width);
        }
        self.title(LARGEST_MODIFIED);
        for k in [2, 3, 8, 64] {
            for number in [ones(k), less_one(ones(k)), power_of_two(k)] {
                self.accepted(&number, 6, 0);
            }
        }
        for number in [ones(NUMBER_BITS), long()] {
            self.accepted(&number, 6, 0);
        }
    }

    fn plans(&mut self) {
        self.title("Numbers to try by hand: planned and forecast");
        for (method, width) in [(1, 0), (2, 2), (2, 3), (3, 2), (3, 3), (4, 0)] {
            self.planned(&small(43), method, width);
        }
        self.planned(&small(3), 1, 0);
        self.title("The number 1");
        let widest = *WINDOW_WIDTHS.end();
        for (method, width) in [(1, 0), (2, 1), (2, widest), (3, 1), (3, widest), (4, 0)] {
            self.planned(&small(1), method, width);
        }
        self.title("Numbers that are refused");
        self.planned(&[0x00; NUMBER_BYTES + 1], 1, 0);
        self.planned(&[0xFF; NUMBER_BYTES + 1], 4, 0);
        self.planned(&padded(43, NUMBER_BYTES + 1), 1, 0);
        self.planned(&[], 1, 0);
        self.planned(&[], 2, 2);
        for number in high_zeros() {
            self.planned(&number, 4, 0);
        }
        self.planned(&padded(43, 2), 2, 2);
        self.title("Methods and widths that are refused");
        let wide = WINDOW_WIDTHS.end() + 1;
        for (method, width) in [
            (0, 0),
            (5, 0),
            (u32::MAX, 0),
            (2, 0),
            (3, 0),
            (2, wide),
            (3, wide),
            (1, 1),
            (4, 1),
        ] {
            self.planned(&small(43), method, width);
        }
        self.title("Room for just the plan, and for a byte less");
        for (method, width) in methods() {
            self.fitted(&small(43), method, width);
        }
        for (method, width) in methods() {
            self.fitted(&long(), method, width);
        }
        self.plan(44, &small(43), 2, 3);
        self.plan(0, &small(43), 4, 0);
        self.plan(0, &small(1), 1, 0);
        self.title("Order: 1, 13, 2, 3, 6");
        for number in [
            &[0; NUMBER_BYTES + 1][..],
            &padded(0, 1),
            &padded(43, 2),
            &[],
            &small(43),
        ] {
            self.plan(0, number, 0, 0);
            self.forecast(number, 0, 0);
        }
        self.plan(0, &padded(43, 2), 4, 0);
    }

    fn checks(&mut self) {
        self.title("Numbers to try by hand: plans checked");
        self.check(FEW, &small(3), &[add(0, 0), subtract(0, 1), subtract(1, 2)].concat());
        self.check(FEW, &small(1), &[]);
        self.check(FEW, &small(2), &[]);
        self.check(FEW, &small(3), &[add(0, 0), add(1, 0)].concat());
        self.title("A plan that ends at minus the number");
        self.check(FEW, &small(1), &[add(0, 0), subtract(0, 1)].concat());
        self.title("Plans of our own");
        for (method, width) in [(1, 0), (2, 2), (3, 3), (4, 0)] {
            self.accepted(&small(43), method, width);
        }
        self.accepted(&long(), 4, 0);
        self.hidden_doublings();
        self.largest_sizes();
        self.title("The longest plan and a step more; part of a step");
        self.check(work_space(PLAN_STEPS + 1), &small(2), &[0; PLAN_ROOM]);
        self.check(work_space(PLAN_STEPS + 1), &small(2), &[0; PLAN_ROOM + STEP_BYTES]);
        self.check(FEW, &small(2), &[0; STEP_BYTES - 1]);
        self.check(FEW, &small(2), &[0; STEP_BYTES + 1]);
        self.title("The largest values: doublings up to the limit, one more, an unknown operation there");
        let room = work_space(VALUE_BITS + 3);
        let top = VALUE_BITS - 1;
        self.check(room, &small(1), &doublings(top));
        self.check(room, &small(1), &doublings(top + 1));
        self.check(room, &small(1), &[doublings(top), step(2, top, top)].concat());
        let mut number = padded(0, NUMBER_BYTES);
        number[NUMBER_BYTES - 1] = 0x80;
        self.check(room, &number, &doublings(NUMBER_BITS - 1));
        self.title("Below zero: 1 less half the limit, 1 less the limit, which passes, then minus the limit");
        let below = [subtract(0, top), subtract(top + 1, top), subtract(top + 2, 0)].concat();
        self.check(room, &small(1), &[doublings(top), below].concat());
        self.title("Steps that are refused");
        self.check(FEW, &small(2), &add(1, 0));
        self.check(FEW, &small(2), &add(0, 1));
        self.check(FEW, &small(4), &[add(0, 0), add(1, 2)].concat());
        self.check(FEW, &small(2), &step(2, 0, 0));
        self.check(FEW, &small(2), &step(255, 0, 0));
        self.check(FEW, &small(2), &add(256, 0));
        self.check(FEW, &small(2), &add(0, 256));
        self.check(FEW, &small(1), &subtract(0, 0));
        self.check(FEW, &small(1), &subtract(1, 1));
        self.check(FEW, &small(1), &[subtract(0, 0), add(2, 2)].concat());
        self.check(FEW, &small(1), &[add(1, 1), subtract(0, 0)].concat());
        self.title("Order: 1, 13, 2, 7, 8, then the steps");
        for number in [&[0; NUMBER_BYTES + 1][..], &padded(0, 1), &padded(1, 2), &[]] {
            self.check(0, number, &[0; STEP_BYTES - 1]);
        }
        self.check(0, &padded(1, 2), &[]);
        self.check(FEW, &padded(1, 2), &[0; STEP_BYTES - 1]);
        self.check(FEW, &padded(1, 2), &step(2, 0, 0));
        self.check(0, &[], &[]);
        self.check(0, &small(1), &[0; STEP_BYTES - 1]);
        self.check(0, &small(1), &step(2, 0, 0));
        self.title("A highest byte of zero, where all else is as it should be; a byte too many");
        self.check(FEW, &padded(1, 2), &[]);
        self.check(FEW, &padded(2, 2), &add(0, 0));
        self.check(FEW, &padded(2, NUMBER_BYTES), &add(0, 0));
        self.check(FEW, &padded(2, NUMBER_BYTES + 1), &add(0, 0));
        for number in high_zeros() {
            self.check(FEW, &number, &add(0, 0));
        }
        self.title("Work spaces that just fit, and a byte less");
        self.check(work_space(1), &small(2), &add(0, 0));
        self.check(work_space(1) - 1, &small(2), &add(0, 0));
        self.check(work_space(0), &small(1), &[]);
        self.check(work_space(0) - 1, &small(1), &[]);
        self.check(work_space(PLAN_STEPS) - 1, &small(2), &[0; PLAN_ROOM]);
    }

    fn hidden_doublings(&mut self) {
        self.title(HIDDEN);
        // 1, 2, 2: added; subtracted, which is zero; a position too high; an unknown operation; a wrong end.
        let equal = [add(0, 0), add(0, 0)].concat();
        for last in [
            add(1, 2),
            add(2, 1),
            subtract(1, 2),
            subtract(2, 1),
            add(1, 3),
            step(2, 1, 2),
        ] {
            self.check(FEW, &small(4), &[&equal[..], &last].concat());
        }
        self.check(FEW, &small(5), &[&equal[..], &add(1, 2)].concat());
        // 1, 2, -1: subtracted; added, which is zero; and the same faults.
        let opposite = [add(0, 0), subtract(0, 1)].concat();
        for last in [subtract(0, 2), add(0, 2), add(2, 0), subtract(0, 3), step(2, 0, 2)] {
            self.check(FEW, &small(2), &[&opposite[..], &last].concat());
        }
        self.check(FEW, &small(1), &[&opposite[..], &subtract(0, 2)].concat());
        // -2, as -1 plus -1 and as -1 less 1; then 1 less that.
        let below = [subtract(0, 1), add(2, 3), subtract(0, 4)].concat();
        self.check(work_space(5), &small(3), &[&opposite[..], &below].concat());
        let below = [subtract(2, 0), subtract(0, 3)].concat();
        self.check(FEW, &small(3), &[&opposite[..], &below].concat());

        self.title(NEAR);
        // Of as many bytes as a value may have: half the largest power of two, that again, three values
        // that differ from it, and its opposite.
        let top = VALUE_BITS - 1;
        let (half, copy, lowest, middle, highest, minus) = (top - 1, top + 1, top + 2, top + 3, top + 4, top + 5);
        let mut steps = doublings(top);
        steps.extend(add(top - 2, top - 2));
        for place in [0, VALUE_BITS / 2, top - 3] {
            steps.extend(add(half, place));
        }
        steps.extend(subtract(half, top));
        for other in [lowest, middle, highest, copy] {
            steps.extend(add(half, other));
            steps.extend(subtract(other, minus));
            steps.extend(subtract(minus, other));
        }
        steps.extend(add(0, 0));
        self.check(work_space(steps.len() / STEP_BYTES), &small(2), &steps);

        self.title("Hidden doublings that are too large");
        let room = work_space(top + 3);
        let equal = [add(top - 1, top - 1), add(top, top + 1)].concat();
        self.check(room, &small(1), &[doublings(top), equal].concat());
        let opposite = [subtract(0, top), subtract(top + 1, 0), subtract(top + 2, top)].concat();
        self.check(room, &small(1), &[doublings(top), opposite].concat());
    }

    fn largest_sizes(&mut self) {
        self.title(LARGEST);
        let below = [add(0, 0), subtract(0, 1), subtract(2, 1), add(3, 3)].concat();
        for (number, steps) in [
            (1, vec![]),
            (2, vec![add(0, 0)]),
            (1, vec![add(0, 0), subtract(1, 0)]),
            // At the end: 12.
            (12, vec![doublings(3), add(3, 2)]),
            // On the way: 16, then 15 and 3.
            (3, vec![doublings(4), subtract(4, 0), add(1, 0)]),
            // Below zero: -6, then 1, or 7 and 8.
            (1, vec![below.clone(), add(1, 2)]),
            (8, vec![below, subtract(0, 4), add(5, 0)]),
        ] {
            let steps = steps.concat();
            self.check(work_space(steps.len() / STEP_BYTES), &small(number), &steps);
        }

        self.title(LARGEST_NAF);
        for k in [2, 8, 64] {
            for number in [ones(k), less_one(ones(k)), power_of_two(k)] {
                self.accepted(&number, 4, 0);
            }
        }
        self.accepted(&ones(NUMBER_BITS), 4, 0);

        self.title(LARGEST_WINDOWS);
        for (number, width) in [
            (2, 1),
            (2, 2),
            (2, 3),
            (2, 6),
            (6, 3),
            (6, 4),
            (30, 5),
            (30, 6),
            (62, 6),
            (64, 6),
            (1, 6),
            (5, 6),
            (31, 6),
            (63, 6),
        ] {
            self.accepted(&small(number), 3, width);
        }
        for number in [2, 6, 31] {
            self.accepted(&small(number), 2, 6);
        }

        self.title(LARGEST_BITS);
        let plan = |requests: &mut Requests, bits: usize, is_ones: bool, is_below_zero: bool| {
            let steps = largest_of(bits, is_ones, is_below_zero);
            requests.check(work_space(steps.len() / STEP_BYTES), &small(2), &steps);
        };
        for bits in EDGES {
            plan(self, bits, false, false);
        }
        for bits in [8, 9, 63, 64, 65, VALUE_BITS] {
            plan(self, bits, true, true);
        }

        self.title(LARGEST_REFUSED);
        for last in [step(2, 0, 0), subtract(64, 64), add(0, 0)] {
            self.check(work_space(65), &small(1), &[doublings(64), last].concat());
        }
        self.check(work_space(VALUE_BITS), &small(1), &doublings(VALUE_BITS));
    }

    /// What the program does not hand to a call.
    fn unanswered(&mut self) {
        self.title(UNANSWERED);
        self.line("plans", 5, &small(2), " 1 0");
        self.check(MOST_ROOM + 1, &small(1), &[]);
        self.check(MOST_ROOM, &small(1), &vec![0; LINE_BYTES]);
    }

    fn families(&mut self) {
        self.title(ONES);
        for k in 2..=NUMBER_BITS {
            for method in [1, 4, 6] {
                self.forecast(&ones(k), method, 0);
            }
        }
        self.title(SMALL);
        for number in 1..1024 {
            for method in [1, 4, 6] {
                self.forecast(&small(number), method, 0);
            }
        }
        self.title("Small numbers by windows of every width");
        for (method, width) in methods() {
            if [2, 3].contains(&method) {
                for number in 1..=130 {
                    self.forecast(&small(number), method, width);
                }
            }
        }
    }
}

/// Bit lengths around the borders of bytes and words, those of the longest number and the largest value included.
pub const EDGES: [usize; 8] = [8, 9, 63, 64, 65, NUMBER_BITS, NUMBER_BITS + 1, VALUE_BITS];

/// The titles of some sections.
pub const WIDE_43: &str = "43 by every width of a NAF, then by some that are none";
pub const LARGEST_WIDE: &str = "Largest sizes of plans by wide NAF: of the table, of 2^L, of the number";
pub const MODIFIED: &str = "Numbers to try by hand, in the modified form; what is written, cleaned and read back";
pub const MODIFIED_CORNERS: &str = "Around the numbers between which the modified form is not the NAF";
pub const LARGEST_MODIFIED: &str =
    "2^k - 1 by modified NAF, whose largest size has one bit more from k = 3 on, then 2^k - 2 and a power of two";
pub const WHOLE_WORDS: &str =
    "Whole words: three times the number has no bit above them, one or two; carries through all of them";
pub const NO_WHOLE_WORDS: &str = "The same for a byte more or less than whole words";
pub const HIDDEN: &str = "Equal values added and opposite ones subtracted, at two positions, and what is near";
pub const NEAR: &str = "Values that differ in the lowest bit, in a middle byte, in the highest byte, and not at all";
pub const LARGEST: &str = "The largest size: of the empty plan, at the end, on the way, below zero";
pub const LARGEST_NAF: &str = "2^k - 1 by NAF, whose largest size has one bit more, then 2^k - 2 and a power of two";
pub const LARGEST_WINDOWS: &str =
    "Even numbers of fewer bits than a sliding window, whose largest size is the table's; others; fixed windows";
pub const LARGEST_BITS: &str =
    "Largest sizes around borders of bytes and words, then 2: powers of two, and minus all ones";
pub const LARGEST_REFUSED: &str = "Refused after large values";
pub const UNANSWERED: &str = "A call of another name, more room than there is, a line that is too long";
pub const ONES: &str = "2^k - 1 for each k of 2 or more, by methods 1, 4 and 6";
pub const SMALL: &str = "1 to 1,023, by methods 1, 4 and 6";
