//! The stored requests: the stored answers are the program's, and those of `reference`.
mod common;

use common::{expected, run, stored_files, Folder, Json};

const REQUESTS: &str = include_str!("requests.txt");
const ANSWERS: &str = include_str!("answers.txt");

fn folder() -> Folder {
    let folder = Folder::new();
    for (name, bytes) in stored_files() {
        folder.write(&name, &bytes);
    }
    folder
}

/// The words of a request without --force.
fn words(request: &str) -> Vec<&str> {
    request.split(' ').filter(|word| *word != "--force").collect()
}

fn status(answer: &str) -> i32 {
    i32::from(answer.contains("refused "))
}

#[test]
fn answers_of_the_reference() {
    let mut files = stored_files();
    assert!(REQUESTS.lines().count() > 140);
    assert_eq!(REQUESTS.lines().count(), ANSWERS.lines().count());
    for (request, stored) in REQUESTS.lines().zip(ANSWERS.lines()) {
        assert_eq!(expected(&words(request), &mut files), stored, "{}", request);
    }
}

/// Writes answers.txt again, after a change of requests.txt:
///
/// ```text
/// cargo test --manifest-path rust/Cargo.toml -p command_line --test stored -- --ignored
/// ```
#[test]
#[ignore = "writes answers.txt"]
fn write_the_answers() {
    let mut files = stored_files();
    let answer = |request: &str| expected(&words(request), &mut files) + "\n";
    let answers: String = REQUESTS.lines().map(answer).collect();
    let file = std::path::Path::new(env!("CARGO_MANIFEST_DIR")).join("tests/answers.txt");
    std::fs::write(file, answers).expect("the answers");
}

/// Every refusal that can come up is stored. 6 and 8 cannot: the program lends room and work space for
/// every answer.
#[test]
fn all_refusals_are_stored() {
    for number in [1, 2, 3, 4, 5, 7, 9, 10, 11, 12, 13] {
        assert!(
            ANSWERS.contains(&format!("refused {}, place ", number)),
            "refusal {}",
            number
        );
    }
}

/// A highest byte of zero is refused by each request that takes a number, and zero by those that plan or
/// check.
#[test]
fn numbers_that_are_refused() {
    let refused = |verb: &str, number: u32| {
        let all = REQUESTS.lines().zip(ANSWERS.lines());
        all.filter(|(request, answer)| words(request)[0] == verb && answer.contains(&format!("refused {}, ", number)))
            .count()
    };
    for verb in ["recode", "forecast", "plan", "check"] {
        assert!(refused(verb, 13) > 2, "{}", verb);
        assert_eq!(refused(verb, 2) > 0, verb != "recode", "{}", verb);
    }
}

/// In the wide form each refusal that it can have is stored, by each request.
#[test]
fn wide_requests_are_stored() {
    for (verb, refusals) in [
        ("recode", &[1, 3, 13][..]),
        ("clean", &[3, 4, 5]),
        ("read-back", &[3, 4, 5]),
    ] {
        let answers: Vec<&str> = REQUESTS
            .lines()
            .zip(ANSWERS.lines())
            .filter(|(request, _)| words(request)[0] == verb && request.contains("--width="))
            .map(|(_, answer)| answer)
            .collect();
        assert!(
            answers.iter().filter(|answer| status(answer) == 0).count() > 7,
            "{}",
            verb
        );
        for refusal in refusals {
            let said = format!(": refused {}, place ", refusal);
            assert!(
                answers.iter().any(|answer| answer.contains(&said)),
                "{} {}",
                verb,
                refusal
            );
        }
    }
}

/// Each refusal that recode can have is stored in the modified form too, and forms that are the NAF and that are not.
#[test]
fn modified_requests_are_stored() {
    let answers: Vec<(&str, &str)> = REQUESTS
        .lines()
        .zip(ANSWERS.lines())
        .filter(|(request, _)| request.contains("--modified"))
        .collect();
    for refusal in [1, 13] {
        let said = format!(", modified: refused {}, place 0: ", refusal);
        assert!(answers.iter().any(|(_, answer)| answer.contains(&said)), "{}", refusal);
    }
    for (request, answer) in [
        ("recode 0 --modified", "0, modified: digits: none"),
        ("recode 3 --modified", "0x03, modified: digits: 1 1"),
        ("recode 25 --modified", "0x19, modified: digits: 1 1 0 0 1"),
        ("recode 27 --modified", "0x1b, modified: digits: 1 0 0 -1 0 -1"),
        ("recode --modified 0x2b", "0x2b, modified: digits: 1 1 0 -1 0 -1"),
    ] {
        assert!(answers.contains(&(request, answer)), "{}", request);
    }
}

/// As a batch: each answer behind the number of its line.
#[test]
fn as_a_batch() {
    let folder = folder();
    let ended = run(&folder, &["batch"], REQUESTS.as_bytes());
    let numbered: String = ANSWERS
        .lines()
        .enumerate()
        .map(|(i, answer)| format!("{}: {}\n", i + 1, answer))
        .collect();
    assert_eq!(ended.text(), numbered);
    assert_eq!(ended.status, 1);
    let refused = ANSWERS.lines().filter(|answer| status(answer) == 1).count();
    let all = ANSWERS.lines().count();
    assert_eq!(
        ended.err,
        format!(
            "lesmutka: {} requests: {} answered, {} refused, 0 malformed, 0 failed\n",
            all,
            all - refused,
            refused
        )
    );
}

/// Each by itself, as words on the command line.
#[test]
fn one_by_one() {
    let folder = folder();
    for (request, answer) in REQUESTS.lines().zip(ANSWERS.lines()) {
        let words: Vec<&str> = request.split(' ').collect();
        let ended = run(&folder, &words, b"");
        assert_eq!(ended.text(), format!("{}\n", answer), "{}", request);
        assert_eq!(ended.status, status(answer), "{}", request);
        assert_eq!(ended.err, "", "{}", request);
    }
}

/// As JSON: all objects have the same fields, and these say the same.
#[test]
fn as_json() {
    let folder = folder();
    let ended = run(&folder, &["--json", "-"], REQUESTS.as_bytes());
    let objects: Vec<Json> = ended.text().lines().map(Json::read).collect();
    assert_eq!(objects.len(), ANSWERS.lines().count());
    for (i, (object, answer)) in objects.iter().zip(ANSWERS.lines()).enumerate() {
        assert_eq!(object.keys(), objects[0].keys());
        assert_eq!(object.get("line"), &Json::Number(i as i128 + 1));
        assert_eq!(in_words(object), answer);
    }
}

/// The words that an object stands for.
fn in_words(object: &Json) -> String {
    let text = |key: &str| match object.get(key) {
        Json::Text(text) => text.clone(),
        other => panic!("{}: {:?}", key, other),
    };
    let number = |key: &str| match object.get(key) {
        Json::Number(number) => *number,
        other => panic!("{}: {:?}", key, other),
    };
    let list = |key: &str| match object.get(key) {
        Json::List(items) => items
            .iter()
            .map(|item| match item {
                Json::Number(number) => number.to_string(),
                Json::Text(text) => text.clone(),
                other => panic!("{:?}", other),
            })
            .collect::<Vec<String>>(),
        other => panic!("{}: {:?}", key, other),
    };
    let joined = |items: Vec<String>| match items.is_empty() {
        true => "none".to_string(),
        false => items.join(" "),
    };
    let form = object.get("form");
    if form != &Json::Null {
        assert_eq!(
            (form, text("request").as_str()),
            (&Json::Text("modified".to_string()), "recode")
        );
        assert_eq!((object.get("method"), object.get("width")), (&Json::Null, &Json::Null));
    }
    let subject = match (object.get("number"), object.get("method"), object.get("width")) {
        _ if form != &Json::Null => format!("{}, {}: ", text("number"), text("form")),
        (Json::Null, Json::Null, Json::Null) => String::new(),
        (Json::Null, Json::Null, _) => format!("width {}: ", number("width")),
        (_, Json::Null, Json::Null) => format!("{}: ", text("number")),
        (_, Json::Null, _) => format!("{}, width {}: ", text("number"), number("width")),
        _ if number("width") == 0 => format!("{} by {}: ", text("number"), text("method")),
        _ => format!("{} by {} {}: ", text("number"), text("method"), number("width")),
    };
    if text("status") == "refused" {
        assert_eq!(object.get("doublings"), &Json::Null);
        assert_eq!(object.get("largest_bits"), &Json::Null);
        return format!(
            "{}refused {}, place {}: {}",
            subject,
            number("refusal"),
            number("place"),
            text("message")
        );
    }
    assert_eq!(text("status"), "answered");
    assert_eq!(object.get("refusal"), &Json::Null);
    // Plan and forecast answer counts alone.
    if text("request") != "check" {
        assert_eq!(object.get("largest_bits"), &Json::Null);
    }
    let counts = || {
        format!(
            "{} doublings, {} additions, {} subtractions",
            number("doublings"),
            number("additions"),
            number("subtractions")
        )
    };
    let answer = match text("request").as_str() {
        "recode" | "clean" => format!("digits: {}", joined(list("digits"))),
        "read-back" => format!("value: {}", text("value")),
        "forecast" => counts(),
        "plan" if object.get("file") == &Json::Null => format!("{}; steps: {}", counts(), joined(list("steps"))),
        "plan" => format!("{}; written to {}", counts(), text("file")),
        "check" => format!("accepted: {}; at most {} bits", counts(), number("largest_bits")),
        other => panic!("{}", other),
    };
    subject + &answer
}
