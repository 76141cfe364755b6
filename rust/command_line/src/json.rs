//! Answers as JSON: objects that all have the same fields, one a line; and the reading of one back.
use crate::answer::{Answer, Answered, Refused};
use crate::choice::Choice;
use crate::print::{put_bytes, put_digits, put_method, put_number, put_value, reason, About, Status};
use crate::request::Request;
use crate::steps::{put_steps, Frame};
use lesmutka::{Counts, Value};
use std::io::Write;
use std::os::unix::ffi::OsStrExt;

/// The fields of every object, in this order. What does not apply is null.
pub struct Fields<'a> {
    line: Option<u64>,
    request: Option<&'a str>,
    status: Status,
    about: About<'a>,
    pub digits: Option<&'a [i8]>,
    pub value: Option<Value<'a>>,
    pub counts: Option<Counts>,
    pub largest_bits: Option<usize>,
    pub steps: Option<&'a [u8]>,
    pub values: Option<&'a [Value<'a>]>,
    pub file: Option<&'a [u8]>,
    pub refused: Option<&'a Refused>,
    pub message: Option<String>,
}

impl<'a> Fields<'a> {
    pub fn new(line: Option<u64>, request: Option<&'a str>, status: Status) -> Fields<'a> {
        Fields {
            line,
            request,
            status,
            about: About::default(),
            digits: None,
            value: None,
            counts: None,
            largest_bits: None,
            steps: None,
            values: None,
            file: None,
            refused: None,
            message: None,
        }
    }

    /// What a request came to.
    pub fn of(line: Option<u64>, request: &'a Request, answered: &'a Answered, status: Status) -> Fields<'a> {
        let mut fields = Fields::new(line, Some(request.verb()), status);
        fields.about = About::of(request, answered);
        fields.file = request.file().map(|file| file.as_bytes());
        match &answered.outcome {
            Ok(Answer::Digits(digits)) => fields.digits = Some(digits),
            Ok(Answer::Value(value)) => fields.value = Some(*value),
            Ok(Answer::Counts(counts)) => fields.counts = Some(*counts),
            Ok(Answer::Plan(counts, plan)) => {
                fields.counts = Some(*counts);
                // A plan that was written to a file is there.
                fields.steps = Some(*plan).filter(|_| fields.file.is_none());
            }
            Ok(Answer::Accepted(accepted)) => {
                fields.counts = Some(accepted.counts);
                fields.largest_bits = Some(accepted.largest_bits);
            }
            Ok(Answer::Refused(refused)) => fields.refused = Some(refused),
            Err(fault) => fields.message = Some(fault.to_string()),
        }
        fields
    }

    /// A method with its width.
    pub fn of_choice(request: &'a str, choice: Choice<'a>) -> Fields<'a> {
        let mut fields = Fields::new(None, Some(request), Status::Answered);
        fields.about.choice = Some(choice);
        fields
    }

    pub fn put(&self, out: &mut Vec<u8>) {
        out.extend_from_slice(b"{\"line\":");
        put_or_null(self.line, out, put_number);
        out.extend_from_slice(b",\"request\":");
        put_or_null(self.request, out, put_text);
        out.extend_from_slice(b",\"status\":");
        put_text(self.status.name(), out);
        out.extend_from_slice(b",\"number\":");
        put_or_null(self.about.number, out, |number, out| {
            in_quotes(out, |out| put_bytes(number, out))
        });
        out.extend_from_slice(b",\"method\":");
        put_or_null(self.about.choice, out, |choice, out| {
            in_quotes(out, |out| put_method(choice, out))
        });
        out.extend_from_slice(b",\"width\":");
        let width = self.about.choice.map(|choice| choice.width).or(self.about.width);
        put_or_null(width, out, |width, out| match width.large() {
            Some(digits) => out.extend_from_slice(digits),
            None => put_number(u64::from(width.value), out),
        });
        out.extend_from_slice(b",\"form\":");
        put_or_null(self.about.form, out, put_text);
        out.extend_from_slice(b",\"digits\":");
        put_or_null(self.digits, out, |digits, out| {
            in_list(out, |out| put_digits(digits, b",", out))
        });
        out.extend_from_slice(b",\"value\":");
        put_or_null(self.value, out, |value, out| {
            in_quotes(out, |out| put_value(value, out))
        });
        let counts = self.counts.as_ref();
        out.extend_from_slice(b",\"doublings\":");
        put_or_null(counts.map(|counts| counts.doublings as u64), out, put_number);
        out.extend_from_slice(b",\"additions\":");
        put_or_null(counts.map(|counts| counts.additions as u64), out, put_number);
        out.extend_from_slice(b",\"subtractions\":");
        put_or_null(counts.map(|counts| counts.subtractions as u64), out, put_number);
        out.extend_from_slice(b",\"largest_bits\":");
        put_or_null(self.largest_bits.map(|bits| bits as u64), out, put_number);
        out.extend_from_slice(b",\"steps\":");
        put_or_null(self.steps, out, |plan, out| {
            in_list(out, |out| put_steps(plan, &Frame::new(b",\"", b"\""), out))
        });
        out.extend_from_slice(b",\"values\":");
        put_or_null(self.values, out, |values, out| {
            in_list(out, |out| {
                for value in values {
                    out.push(b',');
                    in_quotes(out, |out| put_value(*value, out));
                }
            })
        });
        out.extend_from_slice(b",\"file\":");
        put_or_null(self.file, out, put_bytes_as_text);
        let refusal = self.refused.map(|refused| refused.refusal);
        out.extend_from_slice(b",\"refusal\":");
        put_or_null(refusal.map(|refusal| refusal.number() as u64), out, put_number);
        out.extend_from_slice(b",\"place\":");
        put_or_null(refusal.map(|refusal| refusal.place() as u64), out, put_number);
        out.extend_from_slice(b",\"message\":");
        let reason = self.refused.map(|refused| reason(refused, self.about));
        put_or_null(reason.as_deref().or(self.message.as_deref()), out, put_text);
        out.extend_from_slice(b"}\n");
    }
}

fn put_or_null<T>(field: Option<T>, out: &mut Vec<u8>, put: impl FnOnce(T, &mut Vec<u8>)) {
    match field {
        Some(field) => put(field, out),
        None => out.extend_from_slice(b"null"),
    }
}

fn in_quotes(out: &mut Vec<u8>, put: impl FnOnce(&mut Vec<u8>)) {
    out.push(b'"');
    put(out);
    out.push(b'"');
}

/// A list whose elements each have a comma in front; the first comma becomes the bracket.
fn in_list(out: &mut Vec<u8>, put: impl FnOnce(&mut Vec<u8>)) {
    let start = out.len();
    put(out);
    match out.get_mut(start) {
        Some(comma) => *comma = b'[',
        None => out.push(b'['),
    }
    out.push(b']');
}

fn put_text(text: &str, out: &mut Vec<u8>) {
    in_quotes(out, |out| put_escaped(text, out));
}

fn put_escaped(text: &str, out: &mut Vec<u8>) {
    for c in text.chars() {
        match c {
            '"' => out.extend_from_slice(b"\\\""),
            '\\' => out.extend_from_slice(b"\\\\"),
            c if c.is_control() => {
                let _ = write!(out, "\\u{:04x}", u32::from(c));
            }
            c => out.extend_from_slice(c.encode_utf8(&mut [0; 4]).as_bytes()),
        }
    }
}

/// Bytes that need not be UTF-8, such as the name of a file. A byte that is none of a character becomes
/// a lone surrogate, U+DC00 and the byte, as Python reads and writes such names.
fn put_bytes_as_text(bytes: &[u8], out: &mut Vec<u8>) {
    in_quotes(out, |out| {
        let mut rest = bytes;
        while !rest.is_empty() {
            let valid = match std::str::from_utf8(rest) {
                Ok(text) => text,
                Err(error) => std::str::from_utf8(&rest[..error.valid_up_to()]).unwrap_or(""),
            };
            put_escaped(valid, out);
            rest = &rest[valid.len()..];
            if let Some((byte, behind)) = rest.split_first() {
                let _ = write!(out, "\\udc{:02x}", byte);
                rest = behind;
            }
        }
    });
}

/// A value that is read. Numbers and the like are not looked at.
pub enum Json {
    Text(String),
    List(Vec<Json>),
    Object(Vec<(String, Json)>),
    Other,
}

/// How deep lists and objects may stand in each other.
const DEPTH: usize = 16;

impl Json {
    /// The value that a text holds, if it holds one and nothing else.
    pub fn read(text: &str) -> Option<Json> {
        let mut reader = Reader { rest: text };
        let value = reader.value(DEPTH)?;
        reader.skip();
        Some(value).filter(|_| reader.rest.is_empty())
    }

    /// The field of an object that has it once.
    pub fn get(&self, name: &str) -> Option<&Json> {
        let fields = match self {
            Json::Object(fields) => fields,
            _ => return None,
        };
        let mut found = fields.iter().filter(|(key, _)| key == name);
        match (found.next(), found.next()) {
            (Some((_, value)), None) => Some(value),
            _ => None,
        }
    }
}

struct Reader<'a> {
    rest: &'a str,
}

impl Reader<'_> {
    fn skip(&mut self) {
        self.rest = self.rest.trim_start_matches([' ', '\t', '\n', '\r']);
    }

    /// Whether this comes next, which is then read.
    fn take(&mut self, text: &str) -> bool {
        self.skip();
        let behind = self.rest.strip_prefix(text);
        self.rest = behind.unwrap_or(self.rest);
        behind.is_some()
    }

    fn value(&mut self, depth: usize) -> Option<Json> {
        if depth == 0 {
            return None;
        }
        self.skip();
        match self.rest.as_bytes().first()? {
            b'"' => self.text().map(Json::Text),
            b'[' => self.items("[", "]", |reader| reader.value(depth - 1)).map(Json::List),
            b'{' => self
                .items("{", "}", |reader| {
                    reader.skip();
                    let key = reader.text()?;
                    Some((key, reader.take(":").then(|| reader.value(depth - 1))??))
                })
                .map(Json::Object),
            _ => self.other(),
        }
    }

    fn items<T>(&mut self, open: &str, close: &str, mut item: impl FnMut(&mut Self) -> Option<T>) -> Option<Vec<T>> {
        let mut items = Vec::new();
        self.take(open);
        if self.take(close) {
            return Some(items);
        }
        loop {
            items.push(item(self)?);
            if self.take(close) {
                return Some(items);
            }
            if !self.take(",") {
                return None;
            }
        }
    }

    /// A text without escapes but those of quotes and backslashes, which are all that a step or a name
    /// of a field needs; of others the letter stands for itself.
    fn text(&mut self) -> Option<String> {
        let mut chars = self.rest.strip_prefix('"')?.chars();
        let mut text = String::new();
        loop {
            match chars.next()? {
                '"' => break,
                '\\' => text.push(chars.next()?),
                c if c.is_control() => return None,
                c => text.push(c),
            }
        }
        self.rest = chars.as_str();
        Some(text)
    }

    fn other(&mut self) -> Option<Json> {
        if ["null", "true", "false"].iter().any(|word| self.take(word)) {
            return Some(Json::Other);
        }
        let behind = self
            .rest
            .trim_start_matches(|c: char| c.is_ascii_digit() || "+-.eE".contains(c));
        match behind.len() < self.rest.len() {
            true => {
                self.rest = behind;
                Some(Json::Other)
            }
            false => None,
        }
    }
}
