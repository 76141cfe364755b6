//! Batches: random and damaged lines, long ones, comments, line ends, and a reader that goes away.
mod common;

use common::{ended, expected, program, run, started, Folder, Json};
use reference::generate::{methods, Rng};
use reference::limits::NUMBER_BYTES;
use std::collections::HashMap;
use std::io::{BufRead, BufReader, Read, Write};
use std::process::Stdio;

const LINES: usize = 100_000;

/// A decimal number, often with zeros in front.
fn decimal(rng: &mut Rng) -> String {
    let zeros = rng.pick(&[0, 0, 1, 2, 3, 9, 50, 130]);
    let count = rng.between(usize::from(zeros == 0), 130);
    let digits: String = (0..count).map(|_| char::from(b'0' + rng.below(10) as u8)).collect();
    "0".repeat(zeros) + &digits
}

/// A request that is well formed.
fn request(rng: &mut Rng) -> String {
    let length = rng.pick(&[0, 1, 1, 2, 4, 8, 32, NUMBER_BYTES - 1, NUMBER_BYTES, NUMBER_BYTES + 1]);
    let number = rng.bytes(length);
    let number = match rng.below(4) {
        0 => rng.next_u64().to_string(),
        1 => decimal(rng),
        // Digits in front of the bytes: a leading zero byte, or none.
        front => format!(
            "0x{}{}",
            rng.pick(&[&["1", "01", "f"], &["0", "00", "000"]][front - 2][..]),
            number.iter().map(|byte| format!("{:02X}", byte)).collect::<String>()
        ),
    };
    let (method, width) = match rng.below(4) {
        0 => (rng.below(8) as u32, rng.below(11) as u32),
        _ => rng.pick(&methods()),
    };
    let names = [
        "0",
        "binary",
        "fixed",
        "sliding",
        "naf",
        "wide-naf",
        "modified-naf",
        "7",
    ];
    let name = names[method as usize];
    let method = match (rng.one_in(2), width) {
        (true, 0) => name.to_string(),
        (true, _) => format!("{} {}", name, width),
        (false, _) => format!("{} {}", method, width),
    };
    let mut digits = |words: &[&str]| {
        let count = rng.below(40);
        let words: Vec<&str> = (0..count).map(|_| rng.pick(words)).collect();
        words.join(" ")
    };
    let (plain, wide) = (digits(&PLAIN_DIGITS), digits(&WIDE_DIGITS));
    let width = rng.below(11);
    match rng.below(9) {
        0 => format!("recode {}", number),
        1 => format!("clean {}", plain),
        2 => format!("read-back {}", plain),
        3 => format!("plan {} {}", number, method),
        4 => format!("forecast {} {}", number, method),
        5 => format!("recode {} --width={}", number, width),
        6 => format!("clean --width={} {}", width, wide),
        7 => format!("recode --modified {}", number),
        _ => format!("read-back {} --width={}", wide, width),
    }
}

/// Digits, and words that are none or of some widths alone.
const PLAIN_DIGITS: [&str; 7] = ["0", "1", "-1", "0", "1", "-1", "2"];
const WIDE_DIGITS: [&str; 24] = [
    "0", "0", "0", "0", "0", "0", "0", "0", "0", "0", "1", "-1", "1", "-1", "1", "-1", "3", "-3", "5", "-7", "15",
    "-31", "127", "2",
];

/// A line with some bytes changed, cut out or put in; none ends it.
fn damaged(rng: &mut Rng, line: &str) -> Vec<u8> {
    let mut bytes = line.as_bytes().to_vec();
    for _ in 0..rng.between(1, 4) {
        let at = rng.below(bytes.len() + 1);
        let byte = match rng.one_in(2) {
            true => rng.next_byte(),
            false => rng.pick(b" 0x1-#fa\t\r\0{\"~"),
        };
        match rng.below(3) {
            0 => bytes.insert(at, byte),
            1 => bytes.truncate(at),
            _ if at < bytes.len() => bytes[at] = byte,
            _ => {}
        }
    }
    bytes.retain(|&byte| byte != b'\n');
    bytes
}

/// Whether a line has a word before a comment.
fn has_words(line: &[u8]) -> bool {
    let is_blank = |byte: &u8| *byte == b' ' || (9..=13).contains(byte);
    let first = line.split(is_blank).find(|word| !word.is_empty());
    first.map_or(false, |word| word[0] != b'#')
}

/// 100,000 lines: a third as they should be, whose answers are those of `reference`; a third damaged; a
/// third of random bytes. Each line with words has one answer, behind its number, and the run ends
/// with a status, not a panic.
#[test]
fn random_and_damaged_lines() {
    let rng = &mut Rng::new(0x6c69_6e65);
    let mut input = Vec::new();
    let mut wanted = Vec::new();
    for _ in 0..LINES {
        let line = request(rng);
        match rng.below(3) {
            0 => {
                let words: Vec<&str> = line.split_whitespace().collect();
                wanted.push(Some(expected(&words, &mut HashMap::new())));
                input.extend_from_slice(line.as_bytes());
            }
            1 => {
                wanted.push(None);
                input.extend_from_slice(&damaged(rng, &line));
            }
            _ => {
                wanted.push(None);
                let length = rng.below(60);
                input.extend(rng.bytes(length).into_iter().filter(|&byte| byte != b'\n'));
            }
        }
        input.push(b'\n');
    }
    let folder = Folder::new();
    let words = run(&folder, &["batch"], &input);
    let objects = run(&folder, &["batch", "--json"], &input);
    assert_eq!(folder.names(), Vec::<String>::new());
    assert!(words.status == 2 || words.status == 3, "{}", words.err);
    assert_eq!(objects.status, words.status);
    assert_eq!(objects.err, words.err);
    assert!(!words.err.contains("panicked"), "{}", words.err);

    let answers = words.text();
    let answers: Vec<(usize, &str)> = answers
        .lines()
        .map(|line| line.split_once(": ").expect(line))
        .map(|(number, answer)| (number.parse().expect("the number of a line"), answer))
        .collect();
    assert!(answers.windows(2).all(|pair| pair[0].0 < pair[1].0));
    let objects = objects.text();
    let objects: Vec<Json> = objects.lines().map(Json::read).collect();
    assert_eq!(objects.len(), answers.len());
    let mut statuses: HashMap<String, usize> = HashMap::new();
    let mut compared = 0;
    for ((number, answer), object) in answers.iter().zip(&objects) {
        assert_eq!(object.keys(), objects[0].keys());
        assert_eq!(object.get("line"), &Json::Number(*number as i128));
        let status = match object.get("status") {
            Json::Text(status) => status.clone(),
            other => panic!("{:?}", other),
        };
        if let Some(wanted) = &wanted[number - 1] {
            assert_eq!(answer, wanted);
            compared += 1;
        }
        *statuses.entry(status).or_default() += 1;
    }
    assert_eq!(
        answers.len(),
        input
            .split(|&byte| byte == b'\n')
            .filter(|line| has_words(line))
            .count()
    );
    assert_eq!(compared, wanted.iter().flatten().count());
    assert!(compared > LINES / 4);
    let count = |status: &str| statuses.get(status).copied().unwrap_or(0);
    assert!(count("answered") > 10_000 && count("refused") > 10_000 && count("malformed") > 10_000);
    assert!(words.err.starts_with(&format!(
        "lesmutka: {} requests: {} answered, {} refused, {} malformed (the first on line ",
        answers.len(),
        count("answered"),
        count("refused"),
        count("malformed")
    )));
}

/// A decimal number has one spelling, however many zeros stand in front: each request answers as for the
/// number without them, and refusal 13 never comes up.
#[test]
fn decimal_numbers_with_zeros_in_front() {
    let rng = &mut Rng::new(0x6465_6369);
    let folder = Folder::new();
    folder.write("plan", &[0; 5]);
    let (mut plain, mut padded) = (String::new(), String::new());
    let mut numbers: Vec<String> = ["0", "1", "43", "255", "256", "65536"].map(String::from).to_vec();
    numbers.extend((0..5_000).map(|_| decimal(rng)));
    for number in &numbers {
        let digits = match number.trim_start_matches('0') {
            "" => "0",
            digits => digits,
        };
        let zeros = "0".repeat(rng.between(1, 200));
        for request in ["recode N", "forecast N naf", "plan N binary", "check N plan"] {
            plain += &(request.replace('N', digits) + "\n");
            padded += &(request.replace('N', &(zeros.clone() + number)) + "\n");
        }
    }
    let plain = run(&folder, &["batch"], plain.as_bytes());
    let padded = run(&folder, &["batch"], padded.as_bytes());
    assert_eq!(plain.text(), padded.text());
    assert_eq!(padded.text().lines().count(), 4 * numbers.len());
    assert!(padded.text().contains(": refused 1, ") && padded.text().contains(": refused 2, "));
    assert!(!padded.text().contains("refused 13"));
}

fn batch(input: &[u8]) -> (i32, String, String) {
    let folder = Folder::new();
    let ended = run(&folder, &["-"], input);
    (ended.status, ended.text(), ended.err)
}

#[test]
fn comments_blank_lines_and_line_ends() {
    let (status, out, err) = batch(
        b"\xef\xbb\xbf# a comment\r\n\r\n  recode\t3 \r\n\n# recode 3\nrecode 1 # one\nclean 1 1#1\n\xef\xbb\xbfrecode 3\nrecode 1",
    );
    assert_eq!(
        out,
        "3: 0x03: digits: 1 0 -1\n6: 0x01: digits: 1\n\
         7: refused 4, place 0: the byte at this place is no digit; the digits are 0, 1 and -1; it is `1#1`\n\
         8: malformed: no such request (recode, clean, read-back, forecast, plan, check, show, methods, batch): \
         `\\u{feff}recode`\n\
         9: 0x01: digits: 1\n"
    );
    assert_eq!(status, 2);
    assert_eq!(
        err,
        "lesmutka: 5 requests: 3 answered, 1 refused, 1 malformed (the first on line 8), 0 failed\n"
    );
}

#[test]
fn nothing_to_answer() {
    for input in [&b""[..], b"\n\n", b"# nothing", b"\xef\xbb\xbf"] {
        let (status, out, err) = batch(input);
        assert_eq!((status, out.as_str()), (0, ""));
        assert_eq!(
            err,
            "lesmutka: 0 requests: 0 answered, 0 refused, 0 malformed, 0 failed\n"
        );
    }
}

/// The highest status of an answer counts.
#[test]
fn highest_status() {
    let lines = [
        "recode 1\n",
        "recode 0x00\nforecast 0 naf\n",
        "plan\n",
        "check 3 missing\n",
    ];
    for status in 0..4 {
        let input: String = lines[..=status].concat();
        assert_eq!(batch(input.as_bytes()).0, status as i32);
        let reversed: String = lines[..=status].iter().rev().copied().collect();
        assert_eq!(batch(reversed.as_bytes()).0, status as i32);
    }
}

/// What stands on the command line alone, and `-` for standard input, which holds the requests.
#[test]
fn what_a_line_cannot_ask_for() {
    for line in [
        "show x",
        "methods",
        "batch",
        "-",
        "help",
        "recode 1 --json",
        "recode 1 --help",
        "--version",
        "check 3 -",
        "plan 3 naf to -",
        "recode 1 --force",
        "recode 1 --dot",
        "-- show x",
        "-- methods",
        "--",
        "--force",
        "--force show x",
        "--jason",
        "--width=4",
        "recode 1 --width",
        "recode 1 --width=",
        "plan 3 naf --width=4",
        "check 3 x --width=4",
        "--modified",
        "recode 1 --modified=1",
        "recode 1 --modified --width=2",
        "clean 1 --modified",
        "plan 3 naf --modified",
    ] {
        let (status, out, _) = batch(line.as_bytes());
        assert_eq!(status, 2, "{}", line);
        assert!(out.starts_with("1: malformed: "), "{}: {}", line, out);
    }
}

/// Each line by its own width, or none; a number that is none is told without it.
#[test]
fn widths_in_lines() {
    let (status, out, err) = batch(
        b"recode 43 --width=4\nrecode 43\n--width=3 clean 1 -3\nclean 1 -3\nread-back --width=9 1\n\
          recode 2b --width=4\nrecode 43 --width=4 --width=5\n",
    );
    assert_eq!(
        out,
        "1: 0x2b, width 4: digits: 3 0 0 0 -5\n2: 0x2b: digits: 1 0 -1 0 -1 0 -1\n3: width 3: digits: -1\n\
         4: refused 4, place 0: the byte at this place is no digit; the digits are 0, 1 and -1; it is `-3`\n\
         5: width 9: refused 3, place 0: no such method, or a width that it does not allow; \
         a NAF has a width from 2 to 8\n\
         6: malformed: no decimal number: `2b`; if it is hexadecimal, write 0x2b\n\
         7: malformed: there is more than one width: `5`\n"
    );
    assert_eq!(status, 2);
    assert_eq!(
        err,
        "lesmutka: 7 requests: 3 answered, 2 refused, 2 malformed (the first on line 6), 0 failed\n"
    );
}

/// Each line in its own form: modified, by a width, or neither; not in both.
#[test]
fn modified_forms_in_lines() {
    let (status, out, err) = batch(
        b"recode 25 --modified\nrecode 25\n--modified recode 27\nrecode 25 --width=2\nrecode 0x0019 --modified\n\
          recode 2b --modified\nrecode 25 --modified --width=2\nread-back --modified 1 1\nrecode 25 --dot\n",
    );
    assert_eq!(
        out,
        "1: 0x19, modified: digits: 1 1 0 0 1\n2: 0x19: digits: 1 0 -1 0 0 1\n\
         3: 0x1b, modified: digits: 1 0 0 -1 0 -1\n4: 0x19, width 2: digits: 1 0 -1 0 0 1\n\
         5: 0x0019, modified: refused 13, place 0: the highest byte of the number is zero; write 0x19\n\
         6: malformed: no decimal number: `2b`; if it is hexadecimal, write 0x2b\n\
         7: malformed: --modified and --width are two forms of the digits; ask for one\n\
         8: malformed: --modified is for `recode` alone\n\
         9: malformed: of the options a line takes --force, --width and --modified alone\n"
    );
    assert_eq!(status, 2);
    assert_eq!(
        err,
        "lesmutka: 9 requests: 4 answered, 1 refused, 4 malformed (the first on line 6), 0 failed\n"
    );
}

#[test]
fn unknown_options_in_a_line() {
    let (_, out, _) = batch(b"--foo\nrecode 1 --foo\n");
    let told = "malformed: no such option: `--foo`\n";
    assert_eq!(out, format!("1: {}2: {}", told, told));
}

/// A failed request is still answered with its number, and a batch's --force is for plans into files
/// alone.
#[test]
fn failures_name_the_number() {
    let folder = Folder::new();
    let lines = b"plan 43 naf to missing/x\ncheck 43 missing\ncheck 43 hello\nrecode 1\nplan 3 to x\n";
    folder.write("hello", b"add(0,0) hello");
    let ended = run(&folder, &["batch", "--force"], lines);
    let missing = "No such file or directory (os error 2)";
    assert_eq!(
        ended.text(),
        format!(
            "1: 0x2b by naf: failed: cannot write missing/x: {}\n2: 0x2b: failed: cannot read missing: {}\n\
             3: 0x2b: refused 9, place 2: this step has an unknown operation, or a position that is not below its own; \
             it is `hello`\n4: 0x01: digits: 1\n5: malformed: the method is missing\n",
            missing, missing
        )
    );
    assert_eq!(ended.status, 3);
}

#[test]
fn long_lines() {
    let most = 8192;
    let exact = format!("recode {}", "0".repeat(most - 7));
    let zero = "0: digits: none\n";
    let long = "malformed: a line has at most 8192 bytes\n";
    for end in ["\n", "\r\n", ""] {
        let (status, out, _) = batch(format!("{}{}", exact, end).as_bytes());
        assert_eq!((status, out), (0, format!("1: {}", zero)));
    }
    // A byte order mark in front, wherever the pipe is cut.
    let marked = format!("\u{feff}{}\r\n", exact);
    for cut in [0, 1, 5, 4000, 8190] {
        let mut child = started(program().arg("-"));
        let mut stdin = child.stdin.take().expect("standard input");
        stdin.write_all(&marked.as_bytes()[..cut]).expect("a part");
        std::thread::sleep(std::time::Duration::from_millis(20));
        stdin.write_all(&marked.as_bytes()[cut..]).expect("the rest");
        drop(stdin);
        let output = child.wait_with_output().expect("the program ends");
        assert_eq!(
            String::from_utf8_lossy(&output.stdout),
            format!("1: {}", zero),
            "cut at {}",
            cut
        );
    }
    // A comment is no exception, wherever it begins in what is read at a time.
    for lines in [0, 20_000] {
        let comment = format!("{}#{}\n", "\n".repeat(lines), "x".repeat(60_000));
        let (status, out, _) = batch(comment.as_bytes());
        assert_eq!((status, out), (2, format!("{}: {}", lines + 1, long)));
    }
    for more in [1, 2, 100_000, 1_000_000] {
        let line = format!("{}{}", exact, "0".repeat(more));
        let (status, out, _) = batch(format!("recode 0\n{}\nrecode 0\n{}", line, line).as_bytes());
        assert_eq!(
            (status, out),
            (2, format!("1: {}2: {}3: {}4: {}", zero, long, zero, long))
        );
    }
}

/// An answer comes before the next request is there.
#[test]
fn answers_come_at_once() {
    let mut child = started(program().arg("-"));
    let mut stdin = child.stdin.take().expect("standard input");
    let mut stdout = BufReader::new(child.stdout.take().expect("standard output"));
    for line in 1..4 {
        stdin.write_all(b"recode 1\n").expect("a request");
        let mut answer = String::new();
        stdout.read_line(&mut answer).expect("an answer");
        assert_eq!(answer, format!("{}: 0x01: digits: 1\n", line));
    }
    drop(stdin);
    assert!(child.wait().expect("the program ends").success());
}

/// A reader that has gone away: the program ends, without a word.
#[test]
fn a_closed_pipe() {
    let mut child = started(program().arg("-"));
    drop(child.stdout.take());
    let mut stdin = child.stdin.take().expect("standard input");
    let _ = stdin.write_all("recode 1\n".repeat(100_000).as_bytes());
    drop(stdin);
    let mut err = String::new();
    child
        .stderr
        .take()
        .expect("standard error")
        .read_to_string(&mut err)
        .expect("text");
    assert!(child.wait().expect("the program ends").success());
    assert_eq!(err, "");
}

#[test]
fn input_that_cannot_be_read_and_output_that_cannot_be_written() {
    let folder = Folder::new();
    let input = std::fs::File::open(folder.path()).expect("a folder");
    let output = program().arg("-").stdin(input).output().expect("the program runs");
    assert_eq!(output.status.code(), Some(3));
    assert!(String::from_utf8_lossy(&output.stderr).starts_with("lesmutka: cannot read standard input: "));
    let full = std::fs::OpenOptions::new()
        .write(true)
        .open("/dev/full")
        .expect("/dev/full");
    for words in [&["-"][..], &["methods"], &["recode", "1"]] {
        let mut child = program()
            .args(words)
            .stdin(Stdio::piped())
            .stdout(full.try_clone().expect("/dev/full"))
            .stderr(Stdio::piped())
            .spawn()
            .expect("the program runs");
        let _ = child.stdin.take().expect("standard input").write_all(b"recode 1\n");
        let output = child.wait_with_output().expect("the program ends");
        assert_eq!(output.status.code(), Some(3), "{:?}", words);
        assert!(String::from_utf8_lossy(&output.stderr).starts_with("lesmutka: cannot write to standard output: "));
    }
}

/// Binary input.
#[test]
fn binary_input() {
    let bytes = Rng::new(7).bytes(1 << 20);
    let ended = ended(program().arg("-"), &bytes);
    assert!(ended.status == 2 || ended.status == 3);
    assert!(!ended.err.contains("panicked"), "{}", ended.err);
}
