//! What the program says about itself.
use crate::fault::Fault;
use crate::request::{Verb, VERBS};
use std::io::Write;

/// The words of a request, by the name that its form has for them.
const WORDS: [(&str, &str); 5] = [
    (
        "NUMBER",
        "decimal, or hexadecimal with 0x. What is written with 0x goes to the\n        \
         call byte for byte, two digits a byte, and has no leading zero byte.\n        \
         Zero is 0.",
    ),
    (
        "DIGITS",
        "0, 1 or -1 each, most significant first; the last has place 0. With\n        \
         --width=W, 0 or an odd number of a size below 2^(W - 1) each.",
    ),
    ("METHOD", "a name or a number; `lesmutka methods` lists them."),
    ("WIDTH", "the bits of a window, or the width of a wide NAF."),
    (
        "FILE",
        "a plan: its bytes, or its steps as text, as `plan` prints them.\n        \
         - is standard input, or for `plan ... to -` standard output.",
    ),
];

const OPTIONS: [(&str, &str); 8] = [
    (
        "--width=W",
        "recode, clean, read-back: in the wide form, the NAF of width W",
    ),
    (
        "--modified",
        "recode: in the modified form, the NAF with 1 1 for a leading 1 0 -1",
    ),
    ("--json", "one object a line, the same fields everywhere"),
    ("--force", "plan ... to FILE replaces a file that is there"),
    ("--dot", "show: the chain as a graph for Graphviz"),
    ("--help", "or -h: this text, or that of a request"),
    ("--version", "the version of the library that is linked"),
    ("--", "no word behind it is an option"),
];

const STATUS: &str = "\
Exit status: 0 answered, 1 refused, 2 malformed request, 3 a file or the
program failed; of a batch, the highest.
";

const BATCH: &str = "\
Each answer begins with the number of its line. A word that begins with #
begins a comment; a line without words has no answer. --json and --force on
the command line are for all lines; --force, --width and --modified may stand
on a line. A closing line on standard error says how many requests there were.
";

fn put_words(out: &mut Vec<u8>, is_meant: impl Fn(&str) -> bool) {
    for (name, about) in WORDS.iter().filter(|(name, _)| is_meant(name)) {
        let _ = writeln!(out, "{:<7} {}", format!("{}:", name), about);
    }
}

fn put_options(out: &mut Vec<u8>, is_meant: impl Fn(&str) -> bool) {
    for (name, about) in OPTIONS.iter().filter(|(name, _)| is_meant(name)) {
        let _ = writeln!(out, "{:<10} {}", name, about);
    }
}

/// All requests.
fn put_summary(out: &mut Vec<u8>) {
    let _ = writeln!(out, "usage: lesmutka REQUEST [OPTIONS]\n");
    for verb in &VERBS {
        let _ = writeln!(out, "  {}\n      {}", verb.form(), verb.about);
    }
    let _ = writeln!(out, "  help [REQUEST]\n      this text, or that of a request\n");
    put_words(out, |_| true);
    out.push(b'\n');
    put_options(out, |_| true);
    let _ = write!(out, "\n{}", STATUS);
}

/// What is asked about: a request, or all of them.
pub fn put_help(words: &[&[u8]], out: &mut Vec<u8>) -> Result<(), Fault> {
    let verb = match words {
        [] | [b"help"] => {
            put_summary(out);
            return Ok(());
        }
        [verb] => Verb::named(verb).ok_or_else(|| Fault::word("no such request", verb))?,
        [_, more, ..] => return Err(Fault::word("too many words", more)),
    };
    let _ = writeln!(out, "usage: lesmutka {}\n", verb.form());
    let _ = writeln!(out, "{}{}.\n", verb.about[..1].to_uppercase(), &verb.about[1..]);
    if verb.name == "batch" {
        let _ = writeln!(out, "{}", BATCH);
    }
    put_words(out, |name| verb.words.contains(name));
    put_options(out, |name| {
        name == "--json" || (name != "--" && verb.words.contains(name))
    });
    Ok(())
}

pub fn put_version(out: &mut Vec<u8>) {
    let version = lesmutka::version();
    let (major, minor, patch) = (version / 10000, version / 100 % 100, version % 100);
    let _ = writeln!(out, "lesmutka {}.{}.{}", major, minor, patch);
}
