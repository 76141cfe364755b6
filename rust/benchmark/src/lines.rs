//! How many lines a second the program answers, on one core.
use crate::Inputs;
use std::fs::{self, File};
use std::path::{Path, PathBuf};
use std::process::{self, Command, Stdio};
use std::time::Instant;

/// How many lines a batch has, and how often it is run; the best run counts.
const LINES: usize = 100_000;
const RUNS: usize = 5;

/// A request as it is written for a number, least significant byte first.
type Request = fn(&[u8]) -> String;

const REQUESTS: [(&str, Request); 9] = [
    ("forecast 0x.. binary", |number| {
        format!("forecast {} binary", hexadecimal(number))
    }),
    ("forecast 0x.. naf", |number| {
        format!("forecast {} naf", hexadecimal(number))
    }),
    ("forecast, decimal, naf", |number| {
        format!("forecast {} naf", decimal(number))
    }),
    ("plan 0x.. naf", |number| format!("plan {} naf", hexadecimal(number))),
    ("plan 0x.. binary", |number| {
        format!("plan {} binary", hexadecimal(number))
    }),
    ("plan 0x.. wide-naf 5", |number| {
        format!("plan {} wide-naf 5", hexadecimal(number))
    }),
    ("recode 0x..", |number| format!("recode {}", hexadecimal(number))),
    ("recode 0x.. --width=5", |number| {
        format!("recode {} --width=5", hexadecimal(number))
    }),
    ("recode 0x.. --modified", |number| {
        format!("recode {} --modified", hexadecimal(number))
    }),
];

pub fn hexadecimal(number: &[u8]) -> String {
    let digits: String = number.iter().rev().map(|byte| format!("{:02x}", byte)).collect();
    format!("0x{}", digits)
}

/// By long division, digit by digit.
pub fn decimal(number: &[u8]) -> String {
    let mut left = number.to_vec();
    let mut digits = Vec::new();
    while left.iter().any(|&byte| byte != 0) {
        let mut remainder = 0;
        for byte in left.iter_mut().rev() {
            let part = 256 * remainder + u32::from(*byte);
            *byte = (part / 10) as u8;
            remainder = part % 10;
        }
        digits.push(b'0' + remainder as u8);
    }
    digits.reverse();
    String::from_utf8(digits).expect("digits")
}

/// The program, which stands beside this one.
fn program() -> PathBuf {
    let own = std::env::current_exe().expect("this program");
    own.parent().expect("its folder").join("lesmutka")
}

/// Seconds for a batch whose answers nobody reads.
fn time(program: &Path, file: &Path) -> f64 {
    let start = Instant::now();
    let status = Command::new(program)
        .arg("batch")
        .stdin(File::open(file).expect("the requests"))
        .stdout(Stdio::null())
        .stderr(Stdio::null())
        .status()
        .expect("the program runs");
    assert!(status.success(), "a request was not answered");
    start.elapsed().as_secs_f64()
}

pub fn print(sizes: &[Inputs]) {
    let program = program();
    if !program.is_file() {
        println!(
            "\nlines a second: no program at {}; ./lesmutka --build makes it",
            program.display()
        );
        return;
    }
    println!(
        "\nlines a second of the program, one core: best of {} runs over {} lines",
        RUNS, LINES
    );
    print!("{:<24}", "");
    for inputs in sizes {
        print!(" {:>29}", format!("numbers of {} bytes", inputs.bytes));
    }
    println!();
    for (name, request) in REQUESTS {
        print!("{:<24}", name);
        for inputs in sizes {
            let best = best(&program, inputs, request);
            print!(
                " {:>11.0} {:>6.0} ns a line",
                LINES as f64 / best,
                1e9 * best / LINES as f64
            );
        }
        println!();
    }
}

/// Seconds of the best run over these numbers.
fn best(program: &Path, inputs: &Inputs, request: Request) -> f64 {
    let file = std::env::temp_dir().join(format!("lesmutka-benchmark-{}", process::id()));
    let lines: Vec<String> = inputs.numbers.iter().map(|number| request(number) + "\n").collect();
    let all: String = lines.iter().cycle().take(LINES).map(String::as_str).collect();
    fs::write(&file, all).expect("the requests");
    let best = (0..RUNS).map(|_| time(program, &file)).fold(f64::INFINITY, f64::min);
    fs::remove_file(&file).expect("the requests");
    best
}
