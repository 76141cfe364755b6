//! The C header, this crate and the linked library say the same: limits, methods, refusals, words, version, the fields
//! of answers; and the rules say the same limits.
use lesmutka::{forecast, limits, sys, Method, Refusal};

const HEADER: &str = include_str!("../../../include/lesmutka.h");
const RULES: &str = include_str!("../../../docs/RULES.md");

/// The value of a constant of the header.
fn constant(name: &str) -> usize {
    let define = format!("#define {} ", name);
    let line = HEADER.lines().find(|line| line.starts_with(&define)).expect(name);
    line[define.len()..].parse().expect(name)
}

/// The value of a name in an enumeration of the header.
fn enumerator(name: &str) -> u32 {
    let entry = format!("    {} = ", name);
    let line = HEADER.lines().find(|line| line.starts_with(&entry)).expect(name);
    line[entry.len()..].trim_end_matches(',').parse().expect(name)
}

#[test]
fn limits_agree() {
    let linked = limits();
    assert_eq!(linked.number_bytes, lesmutka::NUMBER_BYTES);
    assert_eq!(linked.string_digits, lesmutka::STRING_DIGITS);
    assert_eq!(linked.step_bytes, lesmutka::STEP_BYTES);
    assert_eq!(linked.plan_steps, lesmutka::PLAN_STEPS);
    assert_eq!(linked.value_bytes, lesmutka::VALUE_BYTES);
    assert_eq!(linked.record_bytes, lesmutka::RECORD_BYTES);
    assert_eq!(linked.number_bytes, constant("LESMUTKA_NUMBER_BYTES"));
    assert_eq!(linked.string_digits, constant("LESMUTKA_STRING_DIGITS"));
    assert_eq!(linked.step_bytes, constant("LESMUTKA_STEP_BYTES"));
    assert_eq!(linked.plan_steps, constant("LESMUTKA_PLAN_STEPS"));
    assert_eq!(linked.value_bytes, constant("LESMUTKA_VALUE_BYTES"));
}

/// The table of limits in the rules.
#[test]
fn the_rules_say_the_same() {
    let table = RULES
        .lines()
        .skip_while(|line| *line != "| name | number | meaning |")
        .skip(2)
        .take_while(|line| line.starts_with("| "));
    let stated: Vec<(&str, usize)> = table
        .map(|line| {
            let cells: Vec<&str> = line.split(" | ").collect();
            (cells[0].trim_start_matches("| "), cells[1].parse().expect(line))
        })
        .collect();
    let linked = limits();
    let words = std::mem::size_of::<sys::Recoder>() / 8 - 1;
    assert_eq!(
        stated,
        [
            ("NUMBER_BYTES", linked.number_bytes),
            ("STRING_DIGITS", linked.string_digits),
            ("STEP_BYTES", linked.step_bytes),
            ("PLAN_STEPS", linked.plan_steps),
            ("VALUE_BYTES", linked.value_bytes),
            ("RECORD_BYTES", linked.record_bytes),
            ("NUMBER_WORDS", words),
            ("WORDS_ROOM", constant("LESMUTKA_WORDS_ROOM")),
            ("FIXED_WINDOW_BITS", constant("LESMUTKA_FIXED_WINDOW_BITS")),
            ("SLIDING_WINDOW_BITS", constant("LESMUTKA_SLIDING_WINDOW_BITS")),
            ("LEAST_WIDTH", constant("LESMUTKA_LEAST_WIDTH")),
            ("LARGEST_WIDTH", constant("LESMUTKA_LARGEST_WIDTH")),
        ]
    );
}

/// The widest windows are taken, and a bit more is refused.
#[test]
fn widest_windows_agree() {
    let (fixed, sliding) = (lesmutka::FIXED_WINDOW_BITS, lesmutka::SLIDING_WINDOW_BITS);
    assert_eq!(fixed as usize, constant("LESMUTKA_FIXED_WINDOW_BITS"));
    assert_eq!(sliding as usize, constant("LESMUTKA_SLIDING_WINDOW_BITS"));
    for (widest, wider) in [
        (Method::FixedWindows(fixed), Method::FixedWindows(fixed + 1)),
        (Method::SlidingWindows(sliding), Method::SlidingWindows(sliding + 1)),
    ] {
        assert!(forecast(&[43], widest).is_ok());
        assert_eq!(forecast(&[43], wider), Err(Refusal::MethodOrWidth));
    }
}

/// The widths of a NAF are taken from the least to the largest, by method 5 and by every call in the wide form;
/// the next below and above are refused.
#[test]
fn widths_agree() {
    let (least, largest) = (lesmutka::LEAST_WIDTH, lesmutka::LARGEST_WIDTH);
    assert_eq!(least as usize, constant("LESMUTKA_LEAST_WIDTH"));
    assert_eq!(largest as usize, constant("LESMUTKA_LARGEST_WIDTH"));
    for width in least - 1..=largest + 1 {
        let expected = match (least..=largest).contains(&width) {
            true => Ok(()),
            false => Err(Refusal::MethodOrWidth),
        };
        let room = &mut [0; 8];
        assert_eq!(forecast(&[43], Method::WideNaf(width)).map(|_| ()), expected);
        assert_eq!(lesmutka::recode_wide(&[1], width, room).map(|_| ()), expected);
        assert_eq!(lesmutka::clean_wide(&[1], width, room).map(|_| ()), expected);
        assert_eq!(lesmutka::read_back_wide(&[1], width, &mut [0; 8]).map(|_| ()), expected);
    }
}

/// All refusals, in the order of their numbers.
fn refusals() -> [Refusal; 13] {
    [
        Refusal::NumberTooLong,
        Refusal::NumberIsZero,
        Refusal::MethodOrWidth,
        Refusal::NotADigit { place: 7 },
        Refusal::StringTooLong,
        Refusal::RoomTooSmall { needed: 7 },
        Refusal::PlanLength,
        Refusal::WorkSpaceTooShort,
        Refusal::MalformedStep { step: 7 },
        Refusal::ValueIsZero { step: 7 },
        Refusal::ValueTooLarge { step: 7 },
        Refusal::WrongEnd { steps: 7 },
        Refusal::HighestByteIsZero,
    ]
}

/// The header's name for a name of this crate: LESMUTKA_WRONG_END for WrongEnd.
fn header_name(name: &str) -> String {
    let mut long = String::from("LESMUTKA");
    for letter in name.chars().take_while(|letter| letter.is_alphabetic()) {
        if letter.is_uppercase() {
            long.push('_');
        }
        long.push(letter.to_ascii_uppercase());
    }
    long
}

#[test]
fn refusals_agree() {
    for (i, refusal) in refusals().iter().enumerate() {
        assert_eq!(refusal.number(), i + 1);
        assert_eq!(enumerator(&header_name(&format!("{:?}", refusal))), i as u32 + 1);
    }
}

#[test]
fn places_are_kept() {
    let places: Vec<usize> = refusals().iter().map(|refusal| refusal.place()).collect();
    assert_eq!(places, [0, 0, 0, 7, 0, 7, 0, 0, 7, 7, 7, 7, 0]);
}

#[test]
fn methods_agree() {
    for method in Method::ALL {
        assert_eq!(enumerator(&header_name(&format!("{:?}", method))), method.number());
    }
}

/// The fields of a struct of the header, in their order; all are size_t.
fn fields(name: &str) -> Vec<&'static str> {
    let body = HEADER.split(&format!("}} {};", name)).next().unwrap();
    let (_, body) = body.rsplit_once("typedef struct {").expect(name);
    let field = |line: &'static str| line.strip_prefix("    size_t ")?.strip_suffix(';');
    let lines = body.lines().filter(|line| !line.is_empty());
    lines.map(|line| field(line).expect(line)).collect()
}

/// Each struct has the header's fields in the header's order, and no others.
#[test]
fn fields_agree() {
    fn agree<T: std::fmt::Debug>(name: &str, answer: T) {
        let named = format!("{:?}", answer);
        let (_, list) = named.split_once(" { ").expect(name);
        let own: Vec<&str> = list.split(", ").map(|field| field.split(':').next().unwrap()).collect();
        assert_eq!(own, fields(name));
        assert_eq!(std::mem::size_of::<T>(), own.len() * std::mem::size_of::<usize>());
    }
    let (number, space) = ([2], &mut [7; lesmutka::work_space(1)]);
    let mut recoder = sys::Recoder {
        words: [7; lesmutka::NUMBER_BYTES / 8 + 1],
    };
    agree("lesmutka_started", sys::start(&number, &mut recoder));
    agree("lesmutka_length", sys::recode(&number, space));
    agree("lesmutka_length", sys::recode_words(&number, space));
    agree("lesmutka_length", sys::recode_wide(&number, 2, space));
    agree("lesmutka_length", sys::recode_modified(&number, space));
    agree("lesmutka_length", sys::clean_wide(&[1], 2, space));
    agree("lesmutka_value", sys::read_back(&[1], space));
    agree("lesmutka_value", sys::read_back_wide(&[1], 2, space));
    agree("lesmutka_counts", sys::forecast(&number, 1, 0));
    agree(
        "lesmutka_accepted",
        sys::check(&number, &[0; lesmutka::STEP_BYTES], space),
    );
    agree("lesmutka_parsed", sys::decimal(b"2", space));
    agree("lesmutka_limits_t", sys::limits());
}

#[test]
fn versions_agree() {
    assert_eq!(lesmutka::version(), lesmutka::VERSION);
    assert_eq!(lesmutka::VERSION as usize, constant("LESMUTKA_VERSION"));
    let changes = include_str!("../../../CHANGELOG.md");
    let latest = changes
        .lines()
        .find_map(|line| line.strip_prefix("## "))
        .expect("a version");
    assert_eq!(latest, env!("CARGO_PKG_VERSION"));
    let numbers = env!("CARGO_PKG_VERSION")
        .split('.')
        .map(|number| number.parse::<u32>().unwrap());
    assert_eq!(
        numbers.fold(0, |version, number| 100 * version + number),
        lesmutka::VERSION
    );
}

/// The linked library's words for a number.
fn linked_words(refusal: usize) -> String {
    let mut room = [7; 100];
    let answer = sys::write_words(refusal, &mut room);
    assert_eq!((answer.refusal, answer.place), (0, 0));
    let (words, rest) = room.split_at(answer.length);
    assert!(rest.iter().all(|&byte| byte == 7));
    String::from_utf8(words.to_vec()).unwrap()
}

#[test]
fn linked_words_agree() {
    assert_eq!(linked_words(0), "not refused");
    for refusal in refusals() {
        assert_eq!(linked_words(refusal.number()), refusal.message());
    }
    for number in [14, 15, 256, 257, usize::MAX] {
        assert_eq!(linked_words(number), "no such refusal");
    }
}

#[test]
fn words_take_room() {
    for number in 0..=14 {
        let words = linked_words(number);
        let mut room = vec![7; words.len()];
        let answer = sys::write_words(number, &mut room[1..]);
        assert_eq!((answer.refusal, answer.place, answer.length), (6, words.len(), 0));
        assert!(room.iter().all(|&byte| byte == 7));
        assert_eq!(sys::write_words(number, &mut room).length, words.len());
        assert_eq!(room, words.as_bytes());
    }
}

/// The header's words, by the number of the refusal.
fn header_words() -> Vec<&'static str> {
    let table = HEADER.split("words[] = {").nth(1).expect("the header's table of words");
    let words: Vec<&str> = table
        .split("};")
        .next()
        .unwrap()
        .lines()
        .filter_map(|line| line.trim().strip_prefix('"')?.strip_suffix("\","))
        .collect();
    assert_eq!(words.len(), 14);
    words
}

#[test]
fn header_words_agree() {
    let words = header_words();
    assert_eq!(words[0], "not refused");
    for refusal in refusals() {
        assert_eq!(words[refusal.number()], refusal.message());
    }
}
