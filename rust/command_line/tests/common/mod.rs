//! What the tests of the program share: how to run it, what `reference` answers, and a reader of JSON.
#![allow(dead_code)]
use reference::limits::*;
use reference::text::words;
use reference::{
    check, clean, clean_wide, forecast, plan, read_back, read_back_wide, recode, recode_modified, recode_wide, text,
    Counts, Refusal,
};
use std::collections::HashMap;
use std::fs;
use std::io::Write;
use std::path::{Path, PathBuf};
use std::process::{self, Child, Command, Stdio};
use std::sync::atomic::{AtomicUsize, Ordering};
use std::thread;

/// How a run ended: the exit status, and what it wrote.
pub struct Ended {
    pub status: i32,
    pub out: Vec<u8>,
    pub err: String,
}

impl Ended {
    pub fn text(&self) -> String {
        String::from_utf8(self.out.clone()).expect("text on standard output")
    }
}

pub fn program() -> Command {
    Command::new(env!("CARGO_BIN_EXE_lesmutka"))
}

/// Starts a command whose standard input, output and error are pipes.
pub fn started(command: &mut Command) -> Child {
    command
        .stdin(Stdio::piped())
        .stdout(Stdio::piped())
        .stderr(Stdio::piped())
        .spawn()
        .expect("the program runs")
}

/// Runs a command with this on standard input.
pub fn ended(command: &mut Command, input: &[u8]) -> Ended {
    let mut child = started(command);
    let mut stdin = child.stdin.take().expect("standard input");
    let input = input.to_vec();
    // The program may end before it has read all.
    let writer = thread::spawn(move || {
        let _ = stdin.write_all(&input);
    });
    let output = child.wait_with_output().expect("the program ends");
    writer.join().expect("its input was written");
    Ended {
        status: output.status.code().expect("an exit status, and no signal"),
        out: output.stdout,
        err: String::from_utf8_lossy(&output.stderr).into_owned(),
    }
}

/// Runs the program in a folder.
pub fn run(folder: &Folder, arguments: &[&str], input: &[u8]) -> Ended {
    ended(program().args(arguments).current_dir(folder.path()), input)
}

/// A folder that is gone with its files when the test ends.
pub struct Folder(PathBuf);

impl Folder {
    pub fn new() -> Folder {
        static COUNT: AtomicUsize = AtomicUsize::new(0);
        let count = COUNT.fetch_add(1, Ordering::Relaxed);
        let path = std::env::temp_dir().join(format!("lesmutka-test-{}-{}", process::id(), count));
        fs::create_dir(&path).expect("a new folder");
        Folder(path)
    }

    pub fn path(&self) -> &Path {
        &self.0
    }

    pub fn file(&self, name: &str) -> PathBuf {
        self.0.join(name)
    }

    pub fn write(&self, name: &str, bytes: &[u8]) {
        fs::write(self.file(name), bytes).expect(name);
    }

    pub fn read(&self, name: &str) -> Vec<u8> {
        fs::read(self.file(name)).expect(name)
    }

    /// The names of all files, hidden ones too.
    pub fn names(&self) -> Vec<String> {
        let mut names: Vec<String> = fs::read_dir(&self.0)
            .expect("the folder")
            .map(|entry| entry.expect("a file").file_name().to_string_lossy().into_owned())
            .collect();
        names.sort();
        names
    }
}

impl Drop for Folder {
    fn drop(&mut self) {
        let _ = fs::remove_dir_all(&self.0);
    }
}

/// The bytes of a plan, by operation and positions.
pub fn steps(steps: &[[u16; 3]]) -> Vec<u8> {
    let step = |step: &[u16; 3]| {
        let (j, k) = (step[1].to_le_bytes(), step[2].to_le_bytes());
        [step[0] as u8, j[0], j[1], k[0], k[1]]
    };
    steps.iter().flat_map(step).collect()
}

/// The files that the stored requests read.
pub fn stored_files() -> HashMap<String, Vec<u8>> {
    let doublings = |n: usize| steps(&(0..n as u16).map(|i| [0, i, i]).collect::<Vec<_>>());
    let two = steps(&[[0, 0, 0]]);
    let files = [
        ("below-zero.plan", steps(&[[0, 0, 0], [1, 0, 1], [1, 1, 2]])),
        ("equal-values.plan", steps(&[[0, 0, 0], [0, 0, 0], [0, 1, 2]])),
        ("opposite-values.plan", steps(&[[0, 0, 0], [1, 0, 1], [1, 0, 2]])),
        (
            "largest-below-zero.plan",
            steps(&[[0, 0, 0], [1, 0, 1], [1, 2, 1], [0, 3, 3], [0, 1, 2]]),
        ),
        ("largest-most.plan", [doublings(VALUE_BITS - 1), two].concat()),
        ("minus-one.plan", steps(&[[0, 0, 0], [1, 0, 1]])),
        ("zero.plan", steps(&[[1, 0, 0]])),
        ("own-position.plan", steps(&[[0, 0, 0], [0, 2, 0]])),
        ("operation.plan", steps(&[[0, 0, 0], [2, 0, 0]])),
        ("part.plan", vec![0; STEP_BYTES - 1]),
        ("doublings-most.plan", doublings(VALUE_BITS - 1)),
        ("doublings-more.plan", doublings(VALUE_BITS)),
        ("steps-most.plan", vec![0; PLAN_ROOM]),
        ("steps-more.plan", vec![0; PLAN_ROOM + STEP_BYTES]),
    ];
    files
        .iter()
        .map(|(name, bytes)| (name.to_string(), bytes.clone()))
        .collect()
}

/// The bytes of a number that a person writes.
pub fn number(word: &str) -> Vec<u8> {
    let mut bytes = vec![0; word.len()];
    let length = match word.starts_with("0x") || word.starts_with("0X") {
        true => text::hexadecimal(word.as_bytes(), &mut bytes).expect(word),
        false => text::decimal(word.as_bytes(), &mut bytes).expect(word),
    };
    bytes.truncate(length);
    bytes
}

pub fn shown(bytes: &[u8]) -> String {
    match bytes.is_empty() {
        true => "0".to_string(),
        false => format!(
            "0x{}",
            bytes.iter().rev().map(|b| format!("{:02x}", b)).collect::<String>()
        ),
    }
}

const METHODS: [(&str, u32); 6] = [
    ("binary", 1),
    ("fixed", 2),
    ("sliding", 3),
    ("naf", 4),
    ("wide-naf", 5),
    ("modified-naf", 6),
];

/// A method or a width, and its digits; one that has no room is the highest.
fn small(word: &str) -> (u32, &str) {
    assert!(word.chars().all(|c| c.is_ascii_digit()), "{}", word);
    let digits = word.trim_start_matches('0');
    (
        word.parse().unwrap_or(u32::MAX),
        if digits.is_empty() { "0" } else { digits },
    )
}

/// A method and a width, and how an answer names them.
fn choice(words: &[&str]) -> (u32, u32, String) {
    let (method, name) = match METHODS.iter().find(|(name, _)| *name == words[0]) {
        Some((name, number)) => (*number, *name),
        None => small(words[0]),
    };
    let name = METHODS
        .iter()
        .find(|(_, number)| *number == method)
        .map_or(name, |(name, _)| name);
    match words.get(1).map_or((0, "0"), |word| small(word)) {
        (0, _) => (method, 0, name.to_string()),
        (width, digits) => (method, width, format!("{} {}", name, digits)),
    }
}

/// The bytes of digits that are written most significant first; 2 stands for what is no digit.
fn digit_bytes(words: &[&str]) -> Vec<u8> {
    let byte = |word: &&str| match *word {
        "0" => 0,
        "1" => 1,
        "-1" => 255,
        _ => 2,
    };
    words.iter().rev().map(byte).collect()
}

/// The same in the wide form, by a list of all words that are digits of some width or even.
fn wide_digit_bytes(words: &[&str]) -> Vec<u8> {
    let byte = |word: &&str| {
        let digit = (-127..=127).find(|digit: &i32| digit.to_string() == *word);
        digit.map_or(2, |digit| digit as u8)
    };
    words.iter().rev().map(byte).collect()
}

/// A request's words without --width=W, and the width with its digits.
fn split_width<'a>(words: &[&'a str]) -> (Vec<&'a str>, Option<(u32, &'a str)>) {
    let option = words.iter().find_map(|word| word.strip_prefix("--width="));
    let rest = words.iter().copied().filter(|word| !word.starts_with("--width="));
    (rest.collect(), option.map(small))
}

fn digits(string: &[u8]) -> String {
    let words: Vec<String> = string.iter().rev().map(|&byte| (byte as i8).to_string()).collect();
    match words.is_empty() {
        true => "digits: none".to_string(),
        false => format!("digits: {}", words.join(" ")),
    }
}

pub fn counted(counts: Counts) -> String {
    format!(
        "{} doublings, {} additions, {} subtractions",
        counts.doublings, counts.additions, counts.subtractions
    )
}

pub fn step_words(plan: &[u8]) -> String {
    let step = |step: &[u8]| {
        let name = if step[0] == 0 { "add" } else { "subtract" };
        let position = |at: usize| u16::from_le_bytes([step[at], step[at + 1]]);
        format!("{}({},{})", name, position(1), position(3))
    };
    match plan.is_empty() {
        true => "none".to_string(),
        false => plan.chunks(STEP_BYTES).map(step).collect::<Vec<_>>().join(" "),
    }
}

/// A number as the calls take it: the word 0, or whole bytes without a leading zero byte.
fn spelling(number: &[u8]) -> String {
    let digits = shown(number);
    let rest = digits.trim_start_matches("0x").trim_start_matches("00");
    match rest {
        "" | "0" => "0".to_string(),
        _ => format!("0x{}", rest),
    }
}

/// What was asked for, as far as a refusal says what is allowed instead.
#[derive(Clone, Copy)]
enum Asked {
    Nothing,
    Method(u32),
    Width(u32),
}

/// A refusal of a number, and what is allowed where it says that something is not.
fn refused(refusal: Refusal, number: &[u8], asked: Asked) -> String {
    match refusal.number {
        13 => format!("{}; write {}", refused_word(refusal, asked, None), spelling(number)),
        _ => refused_word(refusal, asked, None),
    }
}

/// A refusal with the word behind it.
fn refused_word(refusal: Refusal, asked: Asked, word: Option<&str>) -> String {
    let said = format!(
        "refused {}, place {}: {}",
        refusal.number,
        refusal.place,
        words(refusal.number as usize)
    );
    let hint = match (refusal.number, asked) {
        (1, _) => format!("a number has at most {} bytes", NUMBER_BYTES),
        (3, Asked::Method(1)) => "binary takes no width".to_string(),
        (3, Asked::Method(2)) => format!("fixed takes a width from 1 to {}", WINDOW_WIDTHS.end()),
        (3, Asked::Method(3)) => format!("sliding takes a width from 1 to {}", WINDOW_WIDTHS.end()),
        (3, Asked::Method(4)) => "naf takes no width".to_string(),
        (3, Asked::Method(5)) => "wide-naf takes a width from 2 to 8".to_string(),
        (3, Asked::Method(6)) => "modified-naf takes no width".to_string(),
        (3, Asked::Method(_)) => {
            "the methods are binary (1), fixed (2), sliding (3), naf (4), wide-naf (5), modified-naf (6)".to_string()
        }
        (3, _) => "a NAF has a width from 2 to 8".to_string(),
        (4, Asked::Width(width)) => {
            let largest = [1, 3, 7, 15, 31, 63, 127][width as usize - 2];
            format!(
                "the digits of width {} are 0 and the odd numbers from -{} to {}",
                width, largest, largest
            )
        }
        (4, _) => "the digits are 0, 1 and -1".to_string(),
        (5, _) => format!("at most {} digits", STRING_DIGITS),
        (7, _) => format!(
            "a step has {} bytes, and a plan at most {} steps",
            STEP_BYTES, PLAN_STEPS
        ),
        (11, _) => format!("a size is below 2^{}", VALUE_BITS),
        _ => String::new(),
    };
    let word = word.map_or(String::new(), |word| format!("it is `{}`", word));
    let parts = [said, hint, word].into_iter().filter(|part| !part.is_empty());
    parts.collect::<Vec<String>>().join("; ")
}

/// A refusal of digits, which names the word at its place.
fn refused_digits(refusal: Refusal, words: &[&str], asked: Asked) -> String {
    let word = words.iter().rev().nth(refusal.place).filter(|_| refusal.number == 4);
    refused_word(refusal, asked, word.copied())
}

/// The answer to a request in the wide form, with the width in front.
fn expected_wide(words: &[&str], (width, shown_width): (u32, &str)) -> String {
    let mut out = [0; PLAN_ROOM];
    let asked = Asked::Width(width);
    match words[0] {
        "recode" => {
            let number = number(words[1]);
            let answer = match recode_wide(&number, width, &mut out) {
                Ok(length) => digits(&out[..length]),
                Err(refusal) => refused(refusal, &number, asked),
            };
            format!("{}, width {}: {}", shown(&number), shown_width, answer)
        }
        "clean" => {
            let answer = match clean_wide(&wide_digit_bytes(&words[1..]), width, &mut out) {
                Ok(length) => digits(&out[..length]),
                Err(refusal) => refused_digits(refusal, &words[1..], asked),
            };
            format!("width {}: {}", shown_width, answer)
        }
        "read-back" => {
            let answer = match read_back_wide(&wide_digit_bytes(&words[1..]), width, &mut out) {
                Ok((sign, length)) => {
                    let minus = if sign == 1 { "-" } else { "" };
                    format!("value: {}{}", minus, shown(&out[..length]))
                }
                Err(refusal) => refused_digits(refusal, &words[1..], asked),
            };
            format!("width {}: {}", shown_width, answer)
        }
        verb => panic!("{} takes no --width", verb),
    }
}

/// The answer to a number that is recoded in the modified form, which is named in front.
fn expected_modified(words: &[&str]) -> String {
    assert_eq!((words[0], words.len()), ("recode", 2));
    let mut out = [0; RECODE_ROOM];
    let number = number(words[1]);
    let answer = match recode_modified(&number, &mut out) {
        Ok(length) => digits(&out[..length]),
        Err(refusal) => refused(refusal, &number, Asked::Nothing),
    };
    format!("{}, modified: {}", shown(&number), answer)
}

/// The answer to a request that is well formed, by `reference`; a plan may go into a file.
pub fn expected(words: &[&str], files: &mut HashMap<String, Vec<u8>>) -> String {
    let (mut words, width) = split_width(words);
    if let Some(width) = width {
        return expected_wide(&words, width);
    }
    if words.contains(&"--modified") {
        words.retain(|word| *word != "--modified");
        return expected_modified(&words);
    }
    let mut out = [0; PLAN_ROOM];
    match words[0] {
        "clean" => match clean(&digit_bytes(&words[1..]), &mut out) {
            Ok(length) => digits(&out[..length]),
            Err(refusal) => refused_digits(refusal, &words[1..], Asked::Nothing),
        },
        "read-back" => match read_back(&digit_bytes(&words[1..]), &mut out) {
            Ok((sign, length)) => {
                let minus = if sign == 1 { "-" } else { "" };
                format!("value: {}{}", minus, shown(&out[..length]))
            }
            Err(refusal) => refused_digits(refusal, &words[1..], Asked::Nothing),
        },
        "recode" => {
            let number = number(words[1]);
            let answer = match recode(&number, &mut out) {
                Ok(length) => digits(&out[..length]),
                Err(refusal) => refused(refusal, &number, Asked::Nothing),
            };
            format!("{}: {}", shown(&number), answer)
        }
        "check" => {
            let number = number(words[1]);
            let mut space = vec![0; work_space(PLAN_STEPS)];
            let answer = match check(&number, &files[words[2]], &mut space) {
                Ok(accepted) => format!(
                    "accepted: {}; at most {} bits",
                    counted(accepted.counts),
                    accepted.largest_bits
                ),
                Err(refusal) => refused(refusal, &number, Asked::Nothing),
            };
            format!("{}: {}", shown(&number), answer)
        }
        "forecast" => {
            let number = number(words[1]);
            let (method, width, name) = choice(&words[2..]);
            let answer = match forecast(&number, method, width) {
                Ok(counts) => counted(counts),
                Err(refusal) => refused(refusal, &number, Asked::Method(method)),
            };
            format!("{} by {}: {}", shown(&number), name, answer)
        }
        "plan" => {
            let number = number(words[1]);
            let to = words.iter().position(|&word| word == "to").unwrap_or(words.len());
            let (method, width, name) = choice(&words[2..to]);
            let answer = match (plan(&number, method, width, &mut out), words.get(to + 1)) {
                (Ok(counts), Some(file)) => {
                    let bytes = out[..STEP_BYTES * counts.total()].to_vec();
                    files.insert(file.to_string(), bytes);
                    format!("{}; written to {}", counted(counts), file)
                }
                (Ok(counts), None) => {
                    let steps = step_words(&out[..STEP_BYTES * counts.total()]);
                    format!("{}; steps: {}", counted(counts), steps)
                }
                (Err(refusal), _) => refused(refusal, &number, Asked::Method(method)),
            };
            format!("{} by {}: {}", shown(&number), name, answer)
        }
        verb => panic!("{} is no request", verb),
    }
}

/// A value of JSON.
#[derive(Clone, Debug, PartialEq)]
pub enum Json {
    Null,
    Number(i128),
    Text(String),
    List(Vec<Json>),
    Object(Vec<(String, Json)>),
}

impl Json {
    /// The value that a text holds, and nothing else.
    pub fn read(text: &str) -> Json {
        let mut rest = text;
        let value = Json::value(&mut rest);
        assert_eq!(rest.trim(), "", "behind the value in {}", text);
        value
    }

    pub fn keys(&self) -> Vec<&str> {
        match self {
            Json::Object(fields) => fields.iter().map(|(key, _)| key.as_str()).collect(),
            _ => panic!("no object"),
        }
    }

    pub fn get(&self, key: &str) -> &Json {
        match self {
            Json::Object(fields) => &fields.iter().find(|(name, _)| name == key).expect(key).1,
            _ => panic!("no object"),
        }
    }

    fn value(rest: &mut &str) -> Json {
        match rest.chars().next().expect("a value") {
            'n' => {
                *rest = rest.strip_prefix("null").expect("null");
                Json::Null
            }
            '"' => Json::Text(Json::text(rest)),
            '[' => Json::List(Json::items(rest, ']', Json::value)),
            '{' => Json::Object(Json::items(rest, '}', |rest| {
                let key = Json::text(rest);
                *rest = rest.strip_prefix(':').expect("a colon");
                (key, Json::value(rest))
            })),
            _ => {
                let end = rest
                    .find(|c: char| c != '-' && !c.is_ascii_digit())
                    .unwrap_or(rest.len());
                let digits = rest[..end].strip_prefix('-').unwrap_or(&rest[..end]);
                assert!(
                    !digits.is_empty() && (digits == "0" || !digits.starts_with('0')),
                    "no number: {}",
                    rest
                );
                // One that has no room here is still a number.
                let number = rest[..end].parse().unwrap_or(i128::MAX);
                *rest = &rest[end..];
                Json::Number(number)
            }
        }
    }

    fn items<T>(rest: &mut &str, end: char, item: impl Fn(&mut &str) -> T) -> Vec<T> {
        *rest = &rest[1..];
        let mut items = Vec::new();
        while !rest.starts_with(end) {
            if !items.is_empty() {
                *rest = rest.strip_prefix(',').expect("a comma");
            }
            items.push(item(rest));
        }
        *rest = &rest[1..];
        items
    }

    fn text(rest: &mut &str) -> String {
        let mut chars = rest.strip_prefix('"').expect("a quote").chars();
        let mut text = String::new();
        loop {
            match chars.next().expect("the end of a text") {
                '"' => break,
                '\\' => match chars.next().expect("an escape") {
                    'u' => {
                        let code: String = chars.by_ref().take(4).collect();
                        let code = u32::from_str_radix(&code, 16).expect("four digits");
                        text.push(char::from_u32(code).expect("a character"));
                    }
                    c => text.push(c),
                },
                c => {
                    assert!(!c.is_control(), "a control character in a text");
                    text.push(c);
                }
            }
        }
        *rest = chars.as_str();
        text
    }
}
