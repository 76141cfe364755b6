//! What the proved program `cases` is given and must write (crates/cases): both files are as
//! `reference::cases` makes them, so the program answers as this crate does, and what they hold
//! agrees with the rules and with the tables of Bosma, "Signed bits and fast exponentiation".

use reference::cases::*;
use reference::generate::{bit_length, bits_by_sign};
use reference::limits::{NUMBER_BITS, NUMBER_BYTES, STEP_BYTES, VALUE_BITS};
use reference::refusal::{HIGHEST_BYTE_IS_ZERO, LAST, MALFORMED_STEP, NUMBER_TOO_LONG, WRONG_END};

const STDIN: &str = include_str!("../../../crates/cases/stdin");
const STDOUT: &str = include_str!("../../../crates/cases/stdout");

/// Equal line by line, which says where they differ, and as a whole.
fn assert_same(file: &str, stored: &str, made: &str) {
    for (number, (stored, made)) in stored.lines().zip(made.lines()).enumerate() {
        assert_eq!(stored, made, "crates/cases/{}, line {}", file, number + 1);
    }
    assert!(stored == made, "crates/cases/{} is longer or shorter", file);
}

#[test]
fn requests_are_stored() {
    assert_same("stdin", STDIN, &requests());
}

#[test]
fn stored_answers() {
    assert_same("stdout", STDOUT, &answers(STDIN));
}

/// An answer that is stored: the words of the request and of the answer.
struct Stored {
    request: Vec<&'static str>,
    answer: Vec<&'static str>,
}

impl Stored {
    fn read(line: &'static str) -> Option<Stored> {
        if line.is_empty() || line.starts_with('#') {
            return None;
        }
        let (request, answer) = line.split_once(": ").expect(line);
        Some(Stored {
            request: request.split(' ').collect(),
            answer: answer.split(' ').collect(),
        })
    }

    fn field(&self, index: usize) -> usize {
        self.answer[index].parse().unwrap()
    }

    /// The counts of a forecast that was not refused, and its method.
    fn forecast(&self) -> (&str, [usize; 3]) {
        assert_eq!((self.request[0], self.field(0)), ("forecast", 0));
        (self.request[3], [self.field(2), self.field(3), self.field(4)])
    }
}

/// The bytes that a word has in hexadecimal.
fn bytes_of(word: &str) -> Vec<u8> {
    let byte = |i: usize| u8::from_str_radix(&word[i..i + 2], 16).unwrap();
    (0..word.len()).step_by(2).map(byte).collect()
}

/// The answers below a title.
fn section(title: &str) -> Vec<Stored> {
    let title = format!("# {}", title);
    let lines = STDOUT.lines().skip_while(move |&line| line != title).skip(1);
    lines
        .take_while(|line| !line.starts_with('#'))
        .filter_map(Stored::read)
        .collect()
}

/// All refusals but 9 to 12 leave what was lent as it was.
#[test]
fn every_refusal_is_stored() {
    let mut seen = [0; LAST + 1];
    // The readers of text answer no refusal, but whether there is a number.
    let answered = |stored: &Stored| stored.answer.len() > 1 && !["hex", "decimal"].contains(&stored.request[0]);
    for stored in STDOUT.lines().filter_map(Stored::read).filter(answered) {
        let refusal = stored.field(0);
        seen[refusal] += 1;
        let lends = !["take", "forecast"].contains(&stored.request[0]);
        let of_steps = usize::from(MALFORMED_STEP)..=usize::from(WRONG_END);
        if lends && refusal > 0 && !of_steps.contains(&refusal) {
            let buffer = *stored.answer.last().unwrap();
            assert_eq!(buffer, format!("+{}", stored.request[1]), "{:?}", stored.request);
        }
    }
    assert!(seen.iter().all(|&times| times > 0), "{:?}", seen);
}

/// In every call that takes a number a highest byte of zero is refused, whatever else is wrong, unless the
/// number is too long; the takes then answer done.
#[test]
fn highest_bytes_of_zero_are_stored() {
    for call in [
        "recode", "bywords", "wrecode", "mrecode", "take", "plan", "forecast", "check",
    ] {
        let mut seen = [0; 2];
        let padded = STDOUT
            .lines()
            .filter_map(Stored::read)
            .filter(|stored| stored.request[0] == call && stored.request[2].ends_with("00") && stored.answer.len() > 1);
        for stored in padded {
            let is_long = stored.request[2].len() > 2 * NUMBER_BYTES;
            let refusal = if is_long { NUMBER_TOO_LONG } else { HIGHEST_BYTE_IS_ZERO };
            assert_eq!(stored.field(0), usize::from(refusal), "{:?}", stored.request);
            assert_eq!(stored.field(1), 0, "{:?}", stored.request);
            if call == "take" {
                let takes: usize = stored.request[1].parse().unwrap();
                assert!(takes > 0 && stored.answer[2..2 + takes].iter().all(|&taken| taken == "256"));
            }
            seen[usize::from(is_long)] += 1;
        }
        assert!(seen[0] > 5 && seen[1] > 0, "{}: {:?}", call, seen);
    }
}

/// Each number is recoded by words right after it is recoded, into the same room, with the same answer.
#[test]
fn both_recodings_are_stored() {
    let all: Vec<Stored> = STDOUT.lines().filter_map(Stored::read).collect();
    let of = |call: &str| all.iter().filter(|stored| stored.request[0] == call).count();
    let mut pairs = 0;
    for pair in all.windows(2).filter(|pair| pair[0].request[0] == "recode") {
        assert_eq!(pair[1].request[0], "bywords");
        assert_eq!(pair[0].request[1..], pair[1].request[1..]);
        assert_eq!(pair[0].answer, pair[1].answer, "{:?}", pair[0].request);
        pairs += 1;
    }
    assert_eq!((of("recode"), of("bywords")), (pairs, pairs));
    // Into just the room and a byte more, then refused: by how many digits are needed.
    for stored in section(WHOLE_WORDS).chunks(6) {
        let length = stored[0].field(2);
        for (answers, room) in stored.chunks(2).zip([length, length + 1, length - 1]) {
            let expected = if room < length { [6, length, 0] } else { [0, 0, length] };
            for answer in answers {
                assert_eq!(answer.request[1], room.to_string());
                assert_eq!([0, 1, 2].map(|index| answer.field(index)), expected);
            }
        }
    }
    assert_eq!(section(WHOLE_WORDS).len(), 6 * 10 * NUMBER_BYTES / 8);
    assert_eq!(section(NO_WHOLE_WORDS).len(), 2 * 10 * 4);
}

/// 43 by every width: with width 2 as recode writes it, then by hand; other widths are refused with 3.
#[test]
fn wide_nafs_are_stored() {
    let stored = section(WIDE_43);
    let answers: Vec<String> = stored.iter().map(|stored| stored.answer.join(" ")).collect();
    let plain = STDOUT
        .lines()
        .find_map(|line| line.strip_prefix("recode 385 2b: "))
        .unwrap();
    assert_eq!(answers[0], plain);
    assert_eq!(answers[1], "0 0 7 030000fd000001+378");
    assert_eq!(answers[2], "0 0 5 fb00000003+380");
    assert_eq!(answers[3], "0 0 6 0b0000000001+379");
    assert_eq!(answers[4], "0 0 7 eb000000000001+378");
    assert_eq!(answers[5..7], ["0 0 1 2b+384", "0 0 1 2b+384"]);
    assert!(answers[7..].iter().all(|answer| answer == "3 0 0 +385"));
    assert_eq!(answers.len(), 7 + 6);
}

/// The modified forms by hand, each cleaned to what recode writes, and read back to the number; 1 to 39 as recode writes
/// them, but for those whose NAF leads with 1 0 -1.
#[test]
fn modified_forms_are_stored() {
    let written = |stored: &Stored| stored.answer[3].split_once('+').unwrap().0;
    let forms: Vec<String> = section(MODIFIED)
        .chunks(3)
        .map(|stored| {
            assert_eq!(
                [0, 1, 2].map(|i| stored[i].request[0]),
                ["mrecode", "clean", "readback"]
            );
            let form = written(&stored[0]);
            assert_eq!(stored[1].request[2], if form.is_empty() { "-" } else { form });
            let recoded = format!("recode 385 {}: ", stored[0].request[2]);
            let recoded = STDOUT.lines().find_map(|line| line.strip_prefix(&recoded)).unwrap();
            assert_eq!(
                recoded.split(' ').nth(3).unwrap().split_once('+').unwrap().0,
                written(&stored[1])
            );
            let size = stored[2].answer[4].split_once('+').unwrap().0;
            assert_eq!(size, stored[0].request[2].trim_end_matches('-'));
            form.to_string()
        })
        .collect();
    assert_eq!(
        forms,
        [
            "",
            "01",
            "0001",
            "0101",
            "000101",
            "ff000001",
            "ff00000001",
            "0100000101",
            "ff00ff000001",
            "ff00ff000101",
        ]
    );
    // Both forms of each number.
    let (mut same, mut other) = (0, 0);
    for number in 1..40 {
        let form = |call: &str| {
            let line = format!("{} 385 {:02x}: ", call, number);
            STDOUT
                .lines()
                .find_map(|answer| answer.strip_prefix(&line))
                .unwrap()
                .to_string()
        };
        match form("mrecode") == form("recode") {
            true => same += 1,
            false => other += 1,
        }
    }
    assert_eq!((same, other), (29, 10));
    // Numbers of each bit length: those that lead with 1 1 have as many digits; of the others some have one more.
    let mut seen = [0; 3];
    for stored in section(MODIFIED_CORNERS) {
        let more = stored.field(2) - bit_length(&bytes_of(stored.request[2]));
        match written(&stored).ends_with("0101") {
            true => {
                assert_eq!(more, 0, "{:?}", stored.request);
                seen[2] += 1;
            }
            false => seen[more] += 1,
        }
    }
    assert_eq!(seen, [30, 20, 50]);
}

/// A doubling adds equal values or subtracts opposite ones, whatever its positions are (docs/RULES.md, 3.7).
#[test]
fn hidden_doublings_are_stored() {
    let fields = |stored: &Stored| [0, 1, 2, 3, 4].map(|index| stored.field(index));
    let small: Vec<[usize; 5]> = section(HIDDEN).iter().map(fields).collect();
    assert_eq!(
        small,
        [
            [0, 0, 3, 0, 0],
            [0, 0, 3, 0, 0],
            [10, 3, 0, 0, 0],
            [10, 3, 0, 0, 0],
            [9, 3, 0, 0, 0],
            [9, 3, 0, 0, 0],
            [12, 3, 0, 0, 0],
            [0, 0, 2, 0, 1],
            [10, 3, 0, 0, 0],
            [10, 3, 0, 0, 0],
            [9, 3, 0, 0, 0],
            [9, 3, 0, 0, 0],
            [12, 3, 0, 0, 0],
            [0, 0, 2, 0, 3],
            [0, 0, 2, 0, 2],
        ]
    );
    // Doublings up to the largest power of two, then its half again, three hidden ones and the last step.
    // Each of the three values that differ is made by an addition, then added once and subtracted twice.
    let near: Vec<[usize; 5]> = section(NEAR).iter().map(fields).collect();
    assert_eq!(near, [[0, 0, VALUE_BITS - 1 + 1 + 3 + 1, 3 + 3, 1 + 6]]);
}

/// The last number of a check: how many bits the largest size has, none where it is refused.
#[test]
fn largest_sizes_are_stored() {
    let bits = |title: &str| -> Vec<usize> { section(title).iter().map(|stored| stored.field(5)).collect() };
    assert_eq!(bits(LARGEST), [1, 2, 2, 4, 5, 3, 4]);
    let naf = [3, 2, 3, 9, 8, 9, 65, 64, 65, NUMBER_BITS + 1];
    assert_eq!(bits(LARGEST_NAF), naf);
    // The width where an even number has fewer bits; else those of the number.
    let sliding = [2, 2, 3, 6, 3, 4, 5, 6, 6, 7, 1, 3, 5, 6];
    let fixed = [2, 3, 5];
    assert_eq!(bits(LARGEST_WINDOWS), [&sliding[..], &fixed].concat());
    // The table's last, 2^L, or the number.
    let wide = [2, 3, 7, 7, 7, 4, 4, 3, 8, 9, 11, 10];
    let (small, long) = (bits(LARGEST_WIDE)[..12].to_vec(), bits(LARGEST_WIDE)[12..].to_vec());
    assert_eq!((small, long), (wide.to_vec(), vec![NUMBER_BITS + 1, NUMBER_BITS]));
    let modified = [2, 2, 3, 4, 3, 4, 9, 8, 9, 65, 64, 65, NUMBER_BITS + 1, NUMBER_BITS];
    assert_eq!(bits(LARGEST_MODIFIED), modified);
    let below_zero = [8, 9, 63, 64, 65, VALUE_BITS];
    assert_eq!(bits(LARGEST_BITS), [&EDGES[..], &below_zero].concat());
    let refused: Vec<[usize; 6]> = section(LARGEST_REFUSED)
        .iter()
        .map(|stored| [0, 1, 2, 3, 4, 5].map(|index| stored.field(index)))
        .collect();
    assert_eq!(
        refused,
        [
            [9, 65, 0, 0, 0, 0],
            [10, 65, 0, 0, 0, 0],
            [12, 65, 0, 0, 0, 0],
            [11, VALUE_BITS, 0, 0, 0, 0],
        ]
    );
}

/// In every check that is stored, these bits are those of the records behind them.
#[test]
fn the_bits_of_stored_records() {
    let mut seen = [0; 2];
    let checks = STDOUT.lines().filter_map(Stored::read);
    for stored in checks.filter(|stored| stored.request[0] == "check" && stored.answer.len() > 1) {
        let is_accepted = stored.field(0) == 0;
        seen[usize::from(is_accepted)] += 1;
        if !is_accepted {
            assert_eq!(
                [2, 3, 4, 5].map(|index| stored.field(index)),
                [0; 4],
                "{:?}",
                stored.request
            );
            continue;
        }
        let (records, _) = stored.answer[6].split_once('+').unwrap();
        let plan = match stored.request[3] {
            "-" => vec![],
            plan => bytes_of(plan),
        };
        assert_eq!(plan.len() % STEP_BYTES, 0);
        let [above, below] = bits_by_sign(&plan, &bytes_of(records));
        assert_eq!(stored.field(5), above.max(below), "{:?}", stored.request);
    }
    assert!(seen[0] > 50 && seen[1] > 50, "{:?}", seen);
}

/// Both readers answer with a number and without, and where there is none, nothing is written.
#[test]
fn texts_are_stored() {
    for reader in ["hex", "decimal"] {
        let mut seen = [0; 2];
        let texts = STDOUT
            .lines()
            .filter_map(Stored::read)
            .filter(|stored| stored.request[0] == reader);
        for stored in texts {
            seen[stored.field(0)] += 1;
            if stored.field(0) == 0 {
                assert_eq!(
                    stored.answer[3],
                    format!("+{}", stored.request[1]),
                    "{:?}",
                    stored.request
                );
            }
        }
        assert!(seen[0] > 20 && seen[1] > 20, "{}: {:?}", reader, seen);
    }
}

/// What no call is made for has one word for an answer, and nothing else has.
#[test]
fn requests_without_a_call() {
    let words = |stored: &[Stored]| -> Vec<&str> {
        let single = stored.iter().filter(|stored| stored.answer.len() == 1);
        single.map(|stored| stored.answer[0]).collect()
    };
    let all: Vec<Stored> = STDOUT.lines().filter_map(Stored::read).collect();
    assert_eq!(words(&all), ["unknown", "room", "long"]);
    assert_eq!(words(&section(UNANSWERED)), words(&all));
}

/// 2^k - 1 takes 2k - 2 steps by method 1, k + 1 by method 4 and, but for 3, as many by method 6 (docs/RULES.md, 5.10).
#[test]
fn one_below_a_power_of_two() {
    let stored = section(ONES);
    assert_eq!(stored.len(), 3 * (NUMBER_BITS - 1));
    for (k, each) in (2..).zip(stored.chunks(3)) {
        assert!(each.iter().all(|stored| stored.request[2] == each[0].request[2]));
        assert_eq!(each[0].forecast(), ("1", [k - 1, k - 1, 0]));
        assert_eq!(each[1].forecast(), ("4", [k, 0, 1]));
        assert_eq!(each[2].forecast(), ("6", if k == 2 { [1, 1, 0] } else { [k, 0, 1] }));
    }
}

/// Each plan has one doubling less than the digits and one other step less than the nonzero digits,
/// so over all numbers below 2^10 Bosma's totals give the sums (propositions 7 and 8).
#[test]
fn published_totals() {
    let stored = section(SMALL);
    let numbers = 1023;
    assert_eq!(stored.len(), 3 * numbers);
    let sums = |method: &str| {
        let mut sums = [0; 3];
        for stored in &stored {
            let (by, counts) = stored.forecast();
            if by == method {
                for (sum, count) in sums.iter_mut().zip(counts) {
                    *sum += count;
                }
            }
        }
        sums
    };
    assert_eq!(sums("1"), [9217 - numbers, 5120 - numbers, 0]);
    let [doublings, additions, subtractions] = sums("4");
    assert_eq!(doublings, 9894 - numbers);
    assert_eq!(additions + subtractions, 3868 - numbers);
    assert_eq!((additions, subtractions), (1252, 1593));
    // A third of the numbers have a doubling less, and an addition for a subtraction.
    let [doublings, additions, subtractions] = sums("6");
    assert_eq!(doublings, 9553 - numbers);
    assert_eq!(additions + subtractions, 3868 - numbers);
    assert_eq!((additions, subtractions), (1252 + 341, 1593 - 341));
}
