//! Words into requests.
use crate::choice::{Choice, Small};
use crate::fault::{Fault, Shown};
use std::ffi::OsStr;
use std::os::unix::ffi::OsStrExt;

/// A request: its first word, the form of the words behind it, how many words it has at most, and what
/// it is about.
pub struct Verb {
    pub name: &'static str,
    pub words: &'static str,
    most: usize,
    pub about: &'static str,
}

impl Verb {
    /// The verb that a word is; `-` stands for batch.
    pub fn named(word: &[u8]) -> Option<&'static Verb> {
        let word = if word == b"-" { b"batch" } else { word };
        VERBS.iter().find(|verb| verb.name.as_bytes() == word)
    }

    pub fn form(&self) -> String {
        format!("{} {}", self.name, self.words).trim_end().to_string()
    }
}

pub static VERBS: [Verb; 9] = [
    Verb {
        name: "recode",
        words: "NUMBER [--width=W | --modified]",
        most: 2,
        about: "the canonical digits of a number, its non-adjacent form (NAF)",
    },
    Verb {
        name: "clean",
        words: "DIGITS... [--width=W]",
        most: usize::MAX,
        about: "the canonical digits of the value of a digit string",
    },
    Verb {
        name: "read-back",
        words: "DIGITS... [--width=W]",
        most: usize::MAX,
        about: "the value of a digit string",
    },
    Verb {
        name: "forecast",
        words: "NUMBER METHOD [WIDTH]",
        most: 4,
        about: "how many steps of each kind the plan for a number has",
    },
    Verb {
        name: "plan",
        words: "NUMBER METHOD [WIDTH] [to FILE] [--force]",
        most: 6,
        about: "the plan for a number by a method, printed or written to a file",
    },
    Verb {
        name: "check",
        words: "NUMBER FILE",
        most: 3,
        about: "whether a plan is sound and ends at the number, and its largest size",
    },
    Verb {
        name: "show",
        words: "FILE [--dot]",
        most: 2,
        about: "the steps of a plan with their values",
    },
    Verb {
        name: "methods",
        words: "",
        most: 1,
        about: "the methods and the widths that they take",
    },
    Verb {
        name: "batch",
        words: "[--force]",
        most: 1,
        about: "requests from standard input, one a line; `lesmutka -` is the same",
    },
];

/// What separates words: the blanks of the library's readers.
pub fn is_blank(byte: u8) -> bool {
    byte == b' ' || (b'\t'..=b'\r').contains(&byte)
}

/// The words without the options, and the options.
#[derive(Default)]
pub struct Words<'a> {
    pub plain: Vec<&'a [u8]>,
    pub json: bool,
    pub force: bool,
    pub dot: bool,
    pub modified: bool,
    pub help: bool,
    pub version: bool,
    /// What stands behind each `--width=`.
    widths: Vec<&'a [u8]>,
    unknown: Option<&'a [u8]>,
}

impl<'a> Words<'a> {
    /// Behind `--` no word is an option.
    pub fn new(all: &[&'a [u8]]) -> Words<'a> {
        let mut words = Words::default();
        let mut options = true;
        for &word in all {
            match word {
                b"--" if options => options = false,
                b"-h" | b"--help" if options => words.help = true,
                b"--version" if options => words.version = true,
                b"--json" if options => words.json = true,
                b"--force" if options => words.force = true,
                b"--dot" if options => words.dot = true,
                b"--modified" if options => words.modified = true,
                _ if options && word.starts_with(b"--") => match word.strip_prefix(b"--width=") {
                    Some(width) => words.widths.push(width),
                    None => words.unknown = words.unknown.or(Some(word)),
                },
                _ => words.plain.push(word),
            }
        }
        words
    }

    /// The verb, if the first word is one.
    pub fn verb(&self) -> Option<&'static Verb> {
        self.plain.first().and_then(|word| Verb::named(word))
    }

    /// No option is there that is none.
    pub fn check_unknown(&self) -> Result<(), Fault> {
        match self.unknown {
            Some(b"--width") => Err(Fault::Malformed("the width is missing; write --width=W".to_string())),
            Some(word) => Err(Fault::word("no such option", word)),
            None => Ok(()),
        }
    }

    /// No option is there that is none, or that this has no use for.
    pub fn check_options(&self, used: &[&str]) -> Result<(), Fault> {
        self.check_unknown()?;
        let given = [
            ("--force", self.force, "`plan ... to FILE`"),
            ("--dot", self.dot, "`show`"),
            ("--width", !self.widths.is_empty(), "`recode`, `clean` and `read-back`"),
            ("--modified", self.modified, "`recode`"),
        ];
        match given
            .iter()
            .find(|(name, is_given, _)| *is_given && !used.contains(name))
        {
            Some((name, _, request)) => Err(Fault::Malformed(format!("{} is for {} alone", name, request))),
            None => Ok(()),
        }
    }

    /// The width that is asked for, if one is.
    fn width(&self) -> Result<Option<Small<'a>>, Fault> {
        match self.widths.as_slice() {
            [] => Ok(None),
            [word] => Small::width(word).map(Some),
            [_, again, ..] => Err(Fault::word("there is more than one width", again)),
        }
    }

    /// There are at most this many words.
    pub fn check_length(&self, most: usize) -> Result<(), Fault> {
        match self.plain.get(most) {
            Some(word) => Err(Fault::word("too many words", word)),
            None => Ok(()),
        }
    }
}

/// What is asked for. Numbers and digits are still words. With a width it is asked for in the wide form.
pub enum Request<'a> {
    Recode {
        number: &'a [u8],
        width: Option<Small<'a>>,
        /// Without a width, in the modified form.
        modified: bool,
    },
    Clean {
        digits: &'a [&'a [u8]],
        width: Option<Small<'a>>,
    },
    ReadBack {
        digits: &'a [&'a [u8]],
        width: Option<Small<'a>>,
    },
    Forecast {
        number: &'a [u8],
        choice: Choice<'a>,
    },
    Plan {
        number: &'a [u8],
        choice: Choice<'a>,
        file: Option<&'a OsStr>,
        force: bool,
    },
    Check {
        number: &'a [u8],
        file: &'a OsStr,
    },
    Show {
        file: &'a OsStr,
        dot: bool,
    },
}

impl<'a> Request<'a> {
    pub fn new(words: &'a Words<'a>) -> Result<Request<'a>, Fault> {
        let request = Request::read(words)?;
        words.check_options(match request {
            Request::Recode { .. } => &["--width", "--modified"],
            Request::Clean { .. } | Request::ReadBack { .. } => &["--width"],
            Request::Plan { file: Some(_), .. } => &["--force"],
            Request::Show { .. } => &["--dot"],
            _ => &[],
        })?;
        if words.dot && words.json {
            return Err(Fault::Malformed(
                "--dot and --json are two forms of one answer".to_string(),
            ));
        }
        if request.is_modified() && request.width().is_some() {
            return Err(Fault::Malformed(
                "--modified and --width are two forms of the digits; ask for one".to_string(),
            ));
        }
        if words.json && request.is_to_standard_output() {
            let what = "with `to -` standard output holds the plan's bytes, and no JSON";
            return Err(Fault::Malformed(what.to_string()));
        }
        Ok(request)
    }

    fn read(words: &'a Words<'a>) -> Result<Request<'a>, Fault> {
        match words.plain.as_slice() {
            [b"recode", number] => Ok(Request::Recode {
                number,
                width: words.width()?,
                modified: words.modified,
            }),
            [b"clean", digits @ ..] => Ok(Request::Clean {
                digits,
                width: words.width()?,
            }),
            [b"read-back", digits @ ..] => Ok(Request::ReadBack {
                digits,
                width: words.width()?,
            }),
            [b"forecast", number, choice @ ..] if !choice.is_empty() => Ok(Request::Forecast {
                number,
                choice: Choice::read(choice)?,
            }),
            [b"plan", number, rest @ ..] if !rest.is_empty() => {
                let to = rest.iter().position(|&word| word == b"to");
                Ok(Request::Plan {
                    number,
                    choice: Choice::read(&rest[..to.unwrap_or(rest.len())])?,
                    file: match to {
                        Some(to) => Some(file_behind_to(&rest[to + 1..])?),
                        None => None,
                    },
                    force: words.force,
                })
            }
            [b"check", number, file] => Ok(Request::Check {
                number,
                file: file_of(file)?,
            }),
            [b"show", file] => Ok(Request::Show {
                file: file_of(file)?,
                dot: words.dot,
            }),
            plain => Err(no_request(plain)),
        }
    }

    /// Whether standard output is for a plan's bytes.
    pub fn is_to_standard_output(&self) -> bool {
        matches!(self, Request::Plan { file: Some(file), .. } if is_standard(file))
    }

    /// The method that is asked for, if one is.
    pub fn choice(&self) -> Option<Choice<'a>> {
        match self {
            Request::Forecast { choice, .. } | Request::Plan { choice, .. } => Some(*choice),
            _ => None,
        }
    }

    /// The width of the wide form, if that is asked for.
    pub fn width(&self) -> Option<Small<'a>> {
        match self {
            Request::Recode { width, .. } | Request::Clean { width, .. } | Request::ReadBack { width, .. } => *width,
            _ => None,
        }
    }

    /// Whether the modified form is asked for.
    pub fn is_modified(&self) -> bool {
        matches!(self, Request::Recode { modified: true, .. })
    }

    /// The file that is written or read, if one is.
    pub fn file(&self) -> Option<&'a OsStr> {
        match self {
            Request::Plan { file, .. } => *file,
            Request::Check { file, .. } | Request::Show { file, .. } => Some(file),
            _ => None,
        }
    }

    pub fn verb(&self) -> &'static str {
        match self {
            Request::Recode { .. } => "recode",
            Request::Clean { .. } => "clean",
            Request::ReadBack { .. } => "read-back",
            Request::Forecast { .. } => "forecast",
            Request::Plan { .. } => "plan",
            Request::Check { .. } => "check",
            Request::Show { .. } => "show",
        }
    }
}

/// Whether a file stands for standard input or output.
pub fn is_standard(file: &OsStr) -> bool {
    file == "-"
}

/// Words that are no request: none, a verb that is none, or the wrong words behind one.
fn no_request(words: &[&[u8]]) -> Fault {
    let first = match words.first() {
        Some(first) => first,
        None => return Fault::Malformed("no request; `lesmutka help` lists them".to_string()),
    };
    match Verb::named(first) {
        Some(verb) => Fault::Malformed(match words.get(verb.most) {
            Some(word) => format!("too many words: `{}`; the form is: {}", Shown(word), verb.form()),
            None => format!("words are missing; the form is: {}", verb.form()),
        }),
        None => {
            let names: Vec<&str> = VERBS.iter().map(|verb| verb.name).collect();
            Fault::word(&format!("no such request ({})", names.join(", ")), first)
        }
    }
}

fn file_behind_to<'a>(words: &[&'a [u8]]) -> Result<&'a OsStr, Fault> {
    match words {
        [file] => file_of(file),
        [] => Err(Fault::Malformed("the file is missing behind `to`".to_string())),
        [_, more, ..] => Err(Fault::word("too many words", more)),
    }
}

fn file_of(word: &[u8]) -> Result<&OsStr, Fault> {
    match word.is_empty() {
        true => Err(Fault::Malformed("the name of the file is empty".to_string())),
        false => Ok(OsStr::from_bytes(word)),
    }
}
