//! Plans as files hold them: their bytes, or their steps as text.
use crate::fault::{Fault, Shown};
use crate::json::Json;
use crate::request::{is_blank, is_standard};
use lesmutka::{Refusal, PLAN_ROOM, STEP_BYTES};
use std::ffi::OsStr;
use std::fs::File;
use std::io::{self, Read};
use std::os::unix::ffi::OsStrExt;

/// More bytes than any plan has, as bytes or as text with many comments.
const MOST: usize = 1 << 20;

/// The operation that the library's reader gives a word that is no step.
const NO_STEP: u8 = 2;

/// A plan as it was read, with the text of its steps if it was text.
pub struct Plan {
    pub bytes: Vec<u8>,
    text: Vec<u8>,
}

impl Plan {
    /// The word at a step that is refused because its word is no step.
    pub fn word(&self, refusal: Refusal) -> Option<Vec<u8>> {
        let step = match refusal {
            Refusal::MalformedStep { step } => step - 1,
            _ => return None,
        };
        let word = words(&self.text).nth(step)?;
        Some(word.to_vec()).filter(|_| self.bytes.get(STEP_BYTES * step) == Some(&NO_STEP))
    }
}

/// The plan in a file, or on standard input; a refusal if a text has more steps than a plan.
pub fn read(file: &OsStr) -> Result<Result<Plan, Refusal>, Fault> {
    let bytes = all_of(file).map_err(|error| {
        let name = match is_standard(file) {
            true => "standard input".to_string(),
            false => Shown(file.as_bytes()).to_string(),
        };
        Fault::Failed(format!("cannot read {}: {}", name, error))
    })?;
    if !is_text(&bytes) {
        // One that is longer than was read is refused for its length all the same.
        let text = Vec::new();
        return Ok(Ok(Plan { bytes, text }));
    }
    if bytes.len() > MOST {
        return Err(Fault::Malformed(format!(
            "the plan's text has more than {} bytes",
            MOST
        )));
    }
    steps_of(bytes.strip_prefix(b"\xef\xbb\xbf").unwrap_or(&bytes))
}

/// The bytes of a file, but for those past the limit and one more.
fn all_of(file: &OsStr) -> io::Result<Vec<u8>> {
    let mut bytes = Vec::new();
    let most = MOST as u64 + 1;
    match is_standard(file) {
        true => io::stdin().lock().take(most).read_to_end(&mut bytes)?,
        false => File::open(file)?.take(most).read_to_end(&mut bytes)?,
    };
    Ok(bytes)
}

/// Whether a file holds text: its first byte is none that a plan begins with, and no byte is 0.
fn is_text(bytes: &[u8]) -> bool {
    match bytes.first() {
        Some(&first) => (first >= b' ' || is_blank(first)) && !bytes.contains(&0),
        None => false,
    }
}

fn words(text: &[u8]) -> impl Iterator<Item = &[u8]> {
    text.split(|&byte| is_blank(byte)).filter(|word| !word.is_empty())
}

/// The steps in a text, by the library's reader: word after word, or what `plan` printed.
fn steps_of(text: &[u8]) -> Result<Result<Plan, Refusal>, Fault> {
    let steps = match words(text).next() {
        Some(word) if word[0] == b'{' => steps_of_object(text)?,
        _ => behind_answer(&without_comments(text)),
    };
    let mut all = words(&steps);
    match (all.next(), all.next()) {
        (None, _) => {
            return Err(Fault::Malformed(
                "the plan has no steps; an empty one is `none`".to_string(),
            ))
        }
        (Some(b"none"), None) => {
            return Ok(Ok(Plan {
                bytes: Vec::new(),
                text: Vec::new(),
            }))
        }
        _ => {}
    }
    let mut room = [0; PLAN_ROOM];
    Ok(lesmutka::read_steps(&steps, &mut room).map(|bytes| Plan {
        bytes: bytes.to_vec(),
        text: steps.clone(),
    }))
}

/// A text without what stands behind a word that begins with #, to the end of its line.
fn without_comments(text: &[u8]) -> Vec<u8> {
    let line = |line: &[u8]| -> Vec<u8> {
        let is_start = |&at: &usize| line[at] == b'#' && (at == 0 || is_blank(line[at - 1]));
        line[..(0..line.len()).find(is_start).unwrap_or(line.len())].to_vec()
    };
    let lines: Vec<Vec<u8>> = text.split(|byte| matches!(byte, b'\n' | b'\r')).map(line).collect();
    lines.join(&b'\n')
}

/// What stands behind `steps:` in an answer of `plan`, or behind that word alone; else all.
fn behind_answer(text: &[u8]) -> Vec<u8> {
    let all: Vec<&[u8]> = words(text).collect();
    let is_steps = |word: &&[u8]| **word == *b"steps:";
    match all.iter().position(is_steps) {
        Some(at) if is_answer(&all[..at]) => all[at + 1..].join(&b' '),
        _ => text.to_vec(),
    }
}

/// Whether these are the words of an answer of `plan` before its steps, or none.
fn is_answer(words: &[&[u8]]) -> bool {
    // The number of a line in a batch.
    let words = match words {
        [line, number, ..] if line.ends_with(b":") && number.starts_with(b"0x") => &words[1..],
        _ => words,
    };
    match words {
        [] => true,
        [number, by, .., _, doublings, _, additions, _, subtractions] => {
            number.starts_with(b"0x")
                && *by == b"by"
                && [*doublings, *additions, *subtractions] == [&b"doublings,"[..], b"additions,", b"subtractions;"]
        }
        _ => false,
    }
}

/// The steps of the JSON object that `plan` printed, with blanks between them.
fn steps_of_object(text: &[u8]) -> Result<Vec<u8>, Fault> {
    let read = || -> Option<Vec<u8>> {
        let object = Json::read(std::str::from_utf8(text).ok()?)?;
        match object.get("status") {
            Some(Json::Text(status)) if status == "answered" => {}
            Some(_) => return None,
            None => {}
        }
        let list = match object.get("steps")? {
            Json::List(list) => list,
            _ => return None,
        };
        let mut steps = vec![&b"none"[..]; usize::from(list.is_empty())];
        for step in list {
            match step {
                Json::Text(step) if words(step.as_bytes()).eq([step.as_bytes()]) && step != "none" => {
                    steps.push(step.as_bytes())
                }
                _ => return None,
            }
        }
        Some(steps.join(&b' '))
    };
    read().ok_or_else(|| Fault::Malformed("no object of a plan, which has one list of steps".to_string()))
}
