//! What goes wrong outside the calls, and how words are shown.
use crate::print::Status;
use std::fmt;

/// Why there is no answer: the request is no request, or a file or the system failed.
#[derive(Debug)]
pub enum Fault {
    Malformed(String),
    Failed(String),
}

impl Fault {
    /// A malformed request, with the word at fault.
    pub fn word(what: &str, word: &[u8]) -> Fault {
        Fault::Malformed(format!("{}: `{}`", what, Shown(word)))
    }

    pub fn status(&self) -> Status {
        match self {
            Fault::Malformed(_) => Status::Malformed,
            Fault::Failed(_) => Status::Failed,
        }
    }
}

impl fmt::Display for Fault {
    fn fmt(&self, f: &mut fmt::Formatter<'_>) -> fmt::Result {
        match self {
            Fault::Malformed(what) | Fault::Failed(what) => f.write_str(what),
        }
    }
}

/// A word as it is shown: in one line, with what does not print escaped, and not longer than can be
/// read.
pub struct Shown<'a>(pub &'a [u8]);

impl fmt::Display for Shown<'_> {
    fn fmt(&self, f: &mut fmt::Formatter<'_>) -> fmt::Result {
        const MOST: usize = 80;
        let text = String::from_utf8_lossy(self.0);
        for c in text.chars().take(MOST) {
            match c {
                '\'' | '"' => write!(f, "{}", c)?,
                _ => write!(f, "{}", c.escape_debug())?,
            }
        }
        match text.chars().nth(MOST) {
            Some(_) => f.write_str("..."),
            None => Ok(()),
        }
    }
}
