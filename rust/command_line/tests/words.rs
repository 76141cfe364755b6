//! The words of the command line: help, version, and requests that are none.
mod common;

use common::{run, Folder, Json};
use reference::limits::NUMBER_BYTES;

fn asked(words: &[&str]) -> (i32, String, String) {
    let ended = run(&Folder::new(), words, b"");
    (ended.status, ended.text(), ended.err)
}

#[test]
fn help_and_version() {
    let (status, help, err) = asked(&["help"]);
    assert_eq!((status, err.as_str()), (0, ""));
    for words in [&["--help"][..], &["-h"], &["help", "help"]] {
        assert_eq!(asked(words), (0, help.clone(), String::new()));
    }
    for verb in [
        "recode",
        "clean",
        "read-back",
        "forecast",
        "plan",
        "check",
        "show",
        "methods",
        "batch",
    ] {
        assert!(help.contains(&format!("\n  {}", verb)), "{}", verb);
        let (status, about, err) = asked(&["help", verb]);
        assert_eq!((status, err.as_str()), (0, ""));
        assert!(about.starts_with(&format!("usage: lesmutka {}", verb)), "{}", about);
        assert_eq!(asked(&[verb, "--help"]).1, about);
        assert_eq!(asked(&["-h", verb]).1, about);
    }
    let version = lesmutka::version();
    let text = format!(
        "lesmutka {}.{}.{}\n",
        version / 10000,
        version / 100 % 100,
        version % 100
    );
    assert_eq!(asked(&["--version"]), (0, text.clone(), String::new()));
    assert_eq!(text, format!("lesmutka {}\n", env!("CARGO_PKG_VERSION")));
    let (status, out, err) = asked(&[]);
    assert_eq!((status, out.as_str()), (2, ""));
    assert_eq!(err, "lesmutka: no request; `lesmutka help` lists them\n");
    assert!(asked(&["help", "plan"]).1.contains("\n--force"));
    assert!(asked(&["help", "recode"]).1.contains("no leading zero byte"));
    assert!(!asked(&["help", "plan"]).1.contains("--dot"));
    assert!(asked(&["help", "show"]).1.contains("\n--dot"));
    for verb in ["recode", "clean", "read-back"] {
        assert!(asked(&["help", verb]).1.contains("\n--width=W "), "{}", verb);
    }
    assert!(!asked(&["help", "plan"]).1.contains("--width"));
    assert!(help.contains("\n--modified ") && asked(&["help", "recode"]).1.contains("\n--modified "));
    for verb in ["clean", "read-back", "plan"] {
        assert!(!asked(&["help", verb]).1.contains("--modified"), "{}", verb);
    }
}

#[test]
fn methods() {
    assert_eq!(
        asked(&["methods"]).1,
        "1  binary       takes no width\n2  fixed        takes a width from 1 to 6\n\
         3  sliding      takes a width from 1 to 6\n4  naf          takes no width\n\
         5  wide-naf     takes a width from 2 to 8\n6  modified-naf takes no width\n"
    );
    let objects = asked(&["methods", "--json"]).1;
    let objects: Vec<Json> = objects.lines().map(Json::read).collect();
    let choices = reference::generate::methods();
    assert_eq!(objects.len(), choices.len());
    for (object, (method, width)) in objects.iter().zip(choices) {
        let name = ["binary", "fixed", "sliding", "naf", "wide-naf", "modified-naf"][method as usize - 1];
        assert_eq!(object.get("method"), &Json::Text(name.to_string()));
        assert_eq!(object.get("width"), &Json::Number(i128::from(width)));
    }
}

/// What is malformed is told in one line that names the word at fault, and nothing is answered.
#[test]
fn malformed_requests() {
    const REQUESTS: &str = "(recode, clean, read-back, forecast, plan, check, show, methods, batch)";
    const METHODS: &str = "(binary, fixed, sliding, naf, wide-naf, modified-naf)";
    const NO_NUMBER: &str = "no number, which is decimal, or hexadecimal with 0x: ";
    let told = |words: &[&str], told: String| {
        let folder = Folder::new();
        let ended = run(&folder, words, b"");
        assert_eq!(ended.err, format!("lesmutka: {}\n", told), "{:?}", words);
        assert_eq!(ended.status, 2, "{:?}", words);
        assert_eq!(ended.out.is_empty(), !words.contains(&"--json"), "{:?}", words);
        assert_eq!(folder.names(), Vec::<String>::new(), "{:?}", words);
    };
    for verb in ["rekode", "", "re\u{202e}code"] {
        let shown = verb.replace('\u{202e}', "\\u{202e}");
        told(&[verb, "43"], format!("no such request {}: `{}`", REQUESTS, shown));
    }
    for word in ["2b", "2B", "abc"] {
        let advice = format!("no decimal number: `{}`; if it is hexadecimal, write 0x{}", word, word);
        told(&["recode", word], advice);
    }
    for word in ["2g", "-1", "1.5", "1 ", "1_000", "\u{0663}", "g"] {
        for words in [&["recode", word][..], &["forecast", word, "naf"], &["check", word, "x"]] {
            told(words, format!("{}`{}`", NO_NUMBER, word));
        }
    }
    told(&["recode", "4\x1b3"], format!("{}`4\\u{{1b}}3`", NO_NUMBER));
    told(
        &["recode", &"z".repeat(1000)],
        format!("{}`{}...`", NO_NUMBER, "z".repeat(80)),
    );
    for word in ["0x", "0x2g", "0x0x2", "0X-1"] {
        told(&["recode", word], format!("no hexadecimal number: `{}`", word));
    }
    for word in ["x", "to1", "", "0x4", "-4", "4.0"] {
        told(&["plan", "3", word], format!("no such method {}: `{}`", METHODS, word));
        told(
            &["plan", "3", "fixed", word],
            format!("no width, which is a decimal number: `{}`", word),
        );
    }
    for word in ["", "x", "-4", "4.0", "0x4", "4 "] {
        for verb in ["recode", "clean", "read-back"] {
            told(
                &[verb, "1", &format!("--width={}", word)],
                format!("no width, which is a decimal number: `{}`", word),
            );
        }
    }
    for (words, what) in [
        (
            &["recode"][..],
            "words are missing; the form is: recode NUMBER [--width=W | --modified]",
        ),
        (
            &["recode", "4", "3"],
            "too many words: `3`; the form is: recode NUMBER [--width=W | --modified]",
        ),
        (&["recode", "4", "--width"], "the width is missing; write --width=W"),
        (
            &["recode", "4", "--width", "3"],
            "the width is missing; write --width=W",
        ),
        (&["recode", "4", "--widths=3"], "no such option: `--widths=3`"),
        (
            &["recode", "4", "--width=3", "--width=3"],
            "there is more than one width: `3`",
        ),
        (
            &["forecast", "3", "naf", "--width=3"],
            "--width is for `recode`, `clean` and `read-back` alone",
        ),
        (
            &["methods", "--width=3"],
            "--width is for `recode`, `clean` and `read-back` alone",
        ),
        (
            &["batch", "--width=3"],
            "--width is for `recode`, `clean` and `read-back` alone",
        ),
        (
            &["recode", "4", "--modified", "--width=3"],
            "--modified and --width are two forms of the digits; ask for one",
        ),
        (
            &["recode", "--width=9", "--modified", "4", "--json"],
            "--modified and --width are two forms of the digits; ask for one",
        ),
        (
            &["recode", "4", "--modified", "3"],
            "too many words: `3`; the form is: recode NUMBER [--width=W | --modified]",
        ),
        (&["recode", "4", "--modified=3"], "no such option: `--modified=3`"),
        (&["clean", "1", "--modified"], "--modified is for `recode` alone"),
        (
            &["forecast", "3", "naf", "--modified"],
            "--modified is for `recode` alone",
        ),
        (&["batch", "--modified"], "--modified is for `recode` alone"),
        (&["--version", "--modified"], "--modified is for `recode` alone"),
        (&["recode", ""], "the number is empty"),
        (&["plan", "", "2", "4", "to", "x"], "the number is empty"),
        (
            &["plan", "3"],
            "words are missing; the form is: plan NUMBER METHOD [WIDTH] [to FILE] [--force]",
        ),
        (
            &["plan", "3", "2", "1", "1"],
            "a method has one width and no more words: `1`",
        ),
        (
            &["plan", "3", "1", "2", "into", "x"],
            "a method has one width and no more words: `into`",
        ),
        (&["plan", "3", "1", "to"], "the file is missing behind `to`"),
        (&["plan", "3", "to", "x"], "the method is missing"),
        (&["plan", "3", "naf", "to", "x", "y"], "too many words: `y`"),
        (&["plan", "3", "1", "to", ""], "the name of the file is empty"),
        (
            &["plan", "3", "1", "to", "-", "--json"],
            "with `to -` standard output holds the plan's bytes, and no JSON",
        ),
        (
            &["plan", "3", "1", "--force"],
            "--force is for `plan ... to FILE` alone",
        ),
        (&["plan", "3", "1", "--dot"], "--dot is for `show` alone"),
        (
            &["forecast", "3"],
            "words are missing; the form is: forecast NUMBER METHOD [WIDTH]",
        ),
        (
            &["forecast", "3", "1", "to", "x"],
            "a method has one width and no more words: `x`",
        ),
        (&["check", "3"], "words are missing; the form is: check NUMBER FILE"),
        (&["check", "3", ""], "the name of the file is empty"),
        (
            &["check", "3", "x", "y"],
            "too many words: `y`; the form is: check NUMBER FILE",
        ),
        (&["show"], "words are missing; the form is: show FILE [--dot]"),
        (
            &["show", "x", "y"],
            "too many words: `y`; the form is: show FILE [--dot]",
        ),
        (
            &["show", "x", "--dot", "--json"],
            "--dot and --json are two forms of one answer",
        ),
        (&["methods", "x"], "too many words: `x`; the form is: methods"),
        (&["methods", "--force"], "--force is for `plan ... to FILE` alone"),
        (&["batch", "x"], "too many words: `x`; the form is: batch [--force]"),
        (&["-", "x"], "too many words: `x`; the form is: batch [--force]"),
        (&["batch", "--dot"], "--dot is for `show` alone"),
        (&["help", "me"], "no such request: `me`"),
        (&["help", "plan", "show"], "too many words: `show`"),
        (&["--version", "x"], "too many words: `x`"),
        (&["--version", "--force"], "--force is for `plan ... to FILE` alone"),
        (&["recode", "1", "--jason"], "no such option: `--jason`"),
        (&["recode", "1", "--json", "--jason"], "no such option: `--jason`"),
        (&["--help", "--jason"], "no such option: `--jason`"),
        (&["--version", "--jason"], "no such option: `--jason`"),
        (&["--json"], "no request; `lesmutka help` lists them"),
    ] {
        told(words, what.to_string());
    }
}

/// With --json a fault is an object too.
#[test]
fn faults_as_json() {
    for (words, status, name) in [
        (&["recode", "2b", "--json"][..], 2, "malformed"),
        (&["check", "3", "missing", "--json"], 3, "failed"),
    ] {
        let (ended, out, err) = asked(words);
        assert_eq!(ended, status);
        let object = Json::read(out.trim_end());
        assert_eq!(object.get("status"), &Json::Text(name.to_string()));
        assert_eq!(object.get("request"), &Json::Text(words[0].to_string()));
        let message = match object.get("message") {
            Json::Text(message) => message.clone(),
            other => panic!("{:?}", other),
        };
        assert_eq!(err, format!("lesmutka: {}\n", message));
    }
}

/// What is known of a request that failed is in its object.
#[test]
fn failures_as_json() {
    let object = Json::read(
        asked(&["plan", "43", "sliding", "3", "to", "missing/x", "--json"])
            .1
            .trim_end(),
    );
    assert_eq!(object.get("status"), &Json::Text("failed".to_string()));
    assert_eq!(object.get("number"), &Json::Text("0x2b".to_string()));
    assert_eq!(object.get("method"), &Json::Text("sliding".to_string()));
    assert_eq!(object.get("width"), &Json::Number(3));
    assert_eq!(object.get("file"), &Json::Text("missing/x".to_string()));
    assert_eq!(object.get("steps"), &Json::Null);
    let object = Json::read(asked(&["show", "missing/x", "--json"]).1.trim_end());
    assert_eq!(object.get("file"), &Json::Text("missing/x".to_string()));
    assert_eq!(object.get("status"), &Json::Text("failed".to_string()));
}

/// A method or a width of more than 32 bits is shown as it was written.
#[test]
fn large_methods_and_widths() {
    let refused = "refused 3, place 0: no such method, or a width that it does not allow";
    let methods = "the methods are binary (1), fixed (2), sliding (3), naf (4), wide-naf (5), modified-naf (6)";
    let widths = "sliding takes a width from 1 to 6";
    for number in ["4294967295", "4294967300", "99999999999999999999999"] {
        let out = asked(&["forecast", "43", number]).1;
        assert_eq!(out, format!("0x2b by {}: {}; {}\n", number, refused, methods));
        let out = asked(&["forecast", "43", "sliding", number]).1;
        assert_eq!(out, format!("0x2b by sliding {}: {}; {}\n", number, refused, widths));
        let wide = format!("width {}: {}; a NAF has a width from 2 to 8\n", number, refused);
        let width = format!("--width={}", number);
        assert_eq!(asked(&["recode", "43", &width]).1, format!("0x2b, {}", wide));
        assert_eq!(asked(&["clean", "2", &width]).1, wide);
        let object = asked(&["read-back", "1", &width, "--json"]).1;
        assert!(
            object.contains(&format!("\"method\":null,\"width\":{},", number)),
            "{}",
            object
        );
    }
    assert_eq!(
        asked(&["forecast", "43", "0004"]).1,
        asked(&["forecast", "43", "NAF"]).1
    );
    let out = asked(&[
        "forecast",
        "43",
        "3",
        "000000000000000000000000000000000000000000000000007",
    ])
    .1;
    assert_eq!(out, format!("0x2b by sliding 7: {}; {}\n", refused, widths));
}

/// Behind `--` no word is an option.
#[test]
fn words_that_look_like_options() {
    let folder = Folder::new();
    assert_eq!(run(&folder, &["plan", "3", "1", "to", "--", "--json"], b"").status, 0);
    assert_eq!(folder.names(), ["--json"]);
    assert_eq!(run(&folder, &["check", "--", "3", "--json"], b"").status, 0);
}

/// Digits may stand in one word, in several, or there are none.
#[test]
fn digits() {
    for words in [
        &["read-back", "-1 0 1", "0", " 1 0 1"][..],
        &["read-back", "-1", "0", "1", "0", "1", "0", "1"],
    ] {
        assert_eq!(asked(words).1, "value: -0x2b\n");
    }
    for words in [&["clean"][..], &["clean", ""]] {
        assert_eq!(asked(words).1, "digits: none\n");
    }
}

/// In the wide form: a digit is spelled as it is printed, and any other word is refused with its place. The
/// option may stand anywhere, and behind `--` it is a word like any other.
#[test]
fn wide_digits() {
    for words in [
        &["read-back", "--width=4", "3", "0 0", " 0", "-5"][..],
        &["read-back", "3 0 0 0 -5", "--width=4"],
        &["--width=4", "read-back", "3", "0", "0", "0", "-5"],
        &["read-back", "3", "0", "0", "0", "-5", "--width=04"],
    ] {
        assert_eq!(asked(words), (0, "width 4: value: 0x2b\n".to_string(), String::new()));
    }
    for words in [&["clean", "--width=8"][..], &["clean", "", "--width=8"]] {
        assert_eq!(asked(words).1, "width 8: digits: none\n");
    }
    assert_eq!(asked(&["recode", "0", "--width=8"]).1, "0, width 8: digits: none\n");
    assert_eq!(
        asked(&["clean", "127", "-127", "--width=8"]).1,
        "width 8: digits: 127\n"
    );
    let refused = "refused 4, place 1: the byte at this place is no digit; ";
    let digits = "the digits of width 8 are 0 and the odd numbers from -127 to 127; ";
    for word in [
        "2", "-4", "128", "-128", "129", "255", "-0", "+1", "01", "-01", "1.0", "0x1", "x", "-", "\u{0661}",
    ] {
        let out = asked(&["clean", "1", word, "1", "--width=8"]).1;
        assert_eq!(out, format!("width 8: {}{}it is `{}`\n", refused, digits, word));
    }
    // 127 is a digit of width 8 alone.
    let out = asked(&["read-back", "1", "127", "0", "--width=7"]).1;
    let digits = "the digits of width 7 are 0 and the odd numbers from -63 to 63; ";
    assert_eq!(out, format!("width 7: {}{}it is `127`\n", refused, digits));
    let out = asked(&["clean", "1", "--", "--width=8", "1"]).1;
    let digits = "the digits are 0, 1 and -1; ";
    assert_eq!(out, format!("{}{}it is `--width=8`\n", refused, digits));
}

/// The option may stand anywhere, and more than once; behind `--` it is a word like any other. The answer names the form,
/// in words and as JSON, whose field is null for the other forms.
#[test]
fn the_modified_form() {
    let answer = "0x2b, modified: digits: 1 1 0 -1 0 -1\n";
    for words in [
        &["recode", "43", "--modified"][..],
        &["recode", "--modified", "43"],
        &["--modified", "recode", "0x2b"],
        &["recode", "43", "--modified", "--modified"],
    ] {
        assert_eq!(asked(words), (0, answer.to_string(), String::new()));
    }
    assert_eq!(asked(&["recode", "0", "--modified"]).1, "0, modified: digits: none\n");
    assert_eq!(asked(&["read-back", "1 1 0 -1 0 -1"]).1, "value: 0x2b\n");
    assert_eq!(asked(&["clean", "1 1 0 -1 0 -1"]).1, "digits: 1 0 -1 0 -1 0 -1\n");
    let (status, _, err) = asked(&["recode", "--", "43", "--modified"]);
    assert_eq!(status, 2);
    assert!(err.starts_with("lesmutka: too many words: `--modified`; "), "{}", err);

    let object = Json::read(asked(&["recode", "25", "--modified", "--json"]).1.trim_end());
    assert_eq!(object.get("request"), &Json::Text("recode".to_string()));
    assert_eq!(object.get("form"), &Json::Text("modified".to_string()));
    assert_eq!((object.get("method"), object.get("width")), (&Json::Null, &Json::Null));
    assert_eq!(
        object.get("digits"),
        &Json::List([1, 1, 0, 0, 1].map(Json::Number).to_vec())
    );
    for words in [
        &["recode", "25", "--json"][..],
        &["recode", "25", "--width=2", "--json"],
        &["forecast", "25", "modified-naf", "--json"],
        &["recode", "2b", "--modified", "--json"],
    ] {
        let object = Json::read(asked(words).1.trim_end());
        let is_asked = words.contains(&"--modified");
        assert_eq!(object.get("form") == &Json::Null, !is_asked, "{:?}", words);
    }
}

/// A hexadecimal number has no leading zero byte; a refusal says how it is written, and that is taken.
#[test]
fn one_spelling_of_a_number() {
    let longest = format!("0x{}", "f".repeat(2 * NUMBER_BYTES - 2));
    let (padded, padded_bytes) = (longest.replace("0x", "0x0"), longest.replace("0x", "0x00"));
    for (word, bytes, spelling) in [
        ("0x002b", "0x002b", "0x2b"),
        ("0x02b", "0x002b", "0x2b"),
        ("0X002B", "0x002b", "0x2b"),
        ("0x00b", "0x000b", "0x0b"),
        ("0x000100", "0x000100", "0x0100"),
        ("0x00100", "0x000100", "0x0100"),
        ("0x0000002b", "0x0000002b", "0x2b"),
        ("0x0", "0x00", "0"),
        ("0x00", "0x00", "0"),
        ("0x000", "0x0000", "0"),
        (padded.as_str(), padded_bytes.as_str(), longest.as_str()),
    ] {
        let said = format!("the highest byte of the number is zero; write {}", spelling);
        let line = format!("refused 13, place 0: {}\n", said);
        assert_eq!(
            asked(&["recode", word]),
            (1, format!("{}: {}", bytes, line), String::new())
        );
        for words in [
            &["forecast", word, "naf"][..],
            &["plan", word, "naf"],
            &["plan", word, "naf", "to", "x"],
        ] {
            assert_eq!(asked(words), (1, format!("{} by naf: {}", bytes, line), String::new()));
        }
        // Before an unknown method, and before a plan that is none.
        let refused = asked(&["plan", word, "9"]);
        assert_eq!(refused, (1, format!("{} by 9: {}", bytes, line), String::new()));
        let ended = run(&Folder::new(), &["check", word, "-"], &[2; 4]);
        assert_eq!((ended.status, ended.text()), (1, format!("{}: {}", bytes, line)));
        let object = Json::read(asked(&["recode", word, "--json"]).1.trim_end());
        assert_eq!(object.get("number"), &Json::Text(bytes.to_string()));
        assert_eq!(object.get("refusal"), &Json::Number(13));
        assert_eq!(object.get("place"), &Json::Number(0));
        assert_eq!(object.get("message"), &Json::Text(said));
        // What is advised is taken, and printed as it was typed.
        let (status, out, _) = asked(&["recode", spelling]);
        assert_eq!(status, 0, "{}", spelling);
        assert!(out.starts_with(&format!("{}: digits: ", spelling)), "{}", out);
    }
    // A zero digit in front is no zero byte.
    assert_eq!(asked(&["recode", "0x0b"]).1, "0x0b: digits: 1 0 -1 0 -1\n");
    assert_eq!(asked(&["recode", "0xb"]).1, "0x0b: digits: 1 0 -1 0 -1\n");
    assert_eq!(asked(&["recode", "0x0100"]).1, "0x0100: digits: 1 0 0 0 0 0 0 0 0\n");
    // The length is tested first.
    let (status, out, _) = asked(&["recode", &format!("0x{}2b", "00".repeat(NUMBER_BYTES))]);
    assert_eq!(status, 1);
    assert!(out.contains(": refused 1, place 0: "), "{}", out);
}

/// Zero is printed as the word that is taken for it, everywhere.
#[test]
fn zero() {
    for (words, line) in [
        (&["recode", "0"][..], "0: digits: none\n"),
        (&["recode", "000"], "0: digits: none\n"),
        (&["read-back"], "value: 0\n"),
        (&["read-back", "0", "0"], "value: 0\n"),
        (
            &["plan", "0", "naf"],
            "0 by naf: refused 2, place 0: the number is zero\n",
        ),
    ] {
        assert_eq!(asked(words).1, line);
    }
    let object = Json::read(asked(&["recode", "0", "--json"]).1.trim_end());
    assert_eq!(object.get("number"), &Json::Text("0".to_string()));
    let object = Json::read(asked(&["read-back", "0", "--json"]).1.trim_end());
    assert_eq!(object.get("value"), &Json::Text("0".to_string()));
}

/// Numbers of any length are read, and the call refuses them.
#[test]
fn huge_numbers() {
    for word in ["9".repeat(100_000), format!("0x{}", "f".repeat(100_000))] {
        let (status, out, _) = asked(&["recode", &word]);
        assert_eq!(status, 1);
        assert!(out.ends_with(&format!(
            ": refused 1, place 0: the number is too long; a number has at most {} bytes\n",
            NUMBER_BYTES
        )));
    }
    let (status, out, _) = asked(&["recode", &format!("{}43", "0".repeat(100_000))]);
    assert_eq!((status, out.as_str()), (0, "0x2b: digits: 1 0 -1 0 -1 0 -1\n"));
}
