//! Answers as lines of words, and what words and JSON share.
use crate::answer::{Answer, Answered, Refused};
use crate::choice::{methods, widths, Choice, Small};
use crate::fault::{Fault, Shown};
use crate::json::Fields;
use crate::request::Request;
use crate::steps::{put_steps, Frame};
use lesmutka::{Accepted, Counts, Method, Refusal, Value};
use std::io::Write;
use std::os::unix::ffi::OsStrExt;

/// How a request ended, in the order of the exit status; of a batch, the highest.
#[derive(Clone, Copy, Debug, PartialEq, Eq, PartialOrd, Ord)]
pub enum Status {
    Answered = 0,
    Refused = 1,
    Malformed = 2,
    Failed = 3,
}

impl Status {
    pub fn name(self) -> &'static str {
        match self {
            Status::Answered => "answered",
            Status::Refused => "refused",
            Status::Malformed => "malformed",
            Status::Failed => "failed",
        }
    }
}

/// The form of the lines: words or JSON, with the number of the request's line in a batch.
pub struct Form {
    pub json: bool,
    pub line: Option<u64>,
}

impl Form {
    /// Puts what a request came to.
    pub fn answer(&self, request: &Request, answered: &Answered, out: &mut Vec<u8>) -> Status {
        let status = match &answered.outcome {
            Ok(Answer::Refused(_)) => Status::Refused,
            Ok(_) => Status::Answered,
            Err(fault) => fault.status(),
        };
        match &answered.outcome {
            _ if self.json => Fields::of(self.line, request, answered, status).put(out),
            // Standard output is for the plan's bytes alone.
            Ok(Answer::Plan(_, plan)) if request.is_to_standard_output() => out.extend_from_slice(plan),
            _ => self.words(request, answered, out),
        }
        status
    }

    /// Puts a fault of words that are no request; the verb, if there is one.
    pub fn fault(&self, verb: Option<&'static str>, fault: &Fault, out: &mut Vec<u8>) {
        if self.json {
            let mut fields = Fields::new(self.line, verb, fault.status());
            fields.message = Some(fault.to_string());
            fields.put(out);
        } else {
            self.put_line(out);
            let _ = writeln!(out, "{}: {}", fault.status().name(), fault);
        }
    }

    fn put_line(&self, out: &mut Vec<u8>) {
        if let Some(line) = self.line {
            put_number(line, out);
            out.extend_from_slice(b": ");
        }
    }

    fn words(&self, request: &Request, answered: &Answered, out: &mut Vec<u8>) {
        self.put_line(out);
        let about = About::of(request, answered);
        // Of a number that was not read nothing is known.
        if about.number.is_some() || answered.outcome.is_ok() {
            about.put(out);
        }
        match &answered.outcome {
            Ok(Answer::Digits(digits)) => {
                out.extend_from_slice(b"digits:");
                put_digits(digits, b" ", out);
                if digits.is_empty() {
                    out.extend_from_slice(b" none");
                }
            }
            Ok(Answer::Value(value)) => {
                out.extend_from_slice(b"value: ");
                put_value(*value, out);
            }
            Ok(Answer::Counts(counts)) => put_counts(*counts, out),
            Ok(Answer::Plan(counts, plan)) => {
                put_counts(*counts, out);
                match request.file() {
                    Some(file) => {
                        let _ = write!(out, "; written to {}", Shown(file.as_bytes()));
                    }
                    None => {
                        out.extend_from_slice(b"; steps:");
                        put_steps(plan, &Frame::new(b" ", b""), out);
                        if plan.is_empty() {
                            out.extend_from_slice(b" none");
                        }
                    }
                }
            }
            Ok(Answer::Accepted(accepted)) => {
                out.extend_from_slice(b"accepted: ");
                put_accepted(*accepted, out);
            }
            Ok(Answer::Refused(refused)) => put_refusal(refused, about, out),
            Err(fault) => {
                let _ = write!(out, "{}: {}", fault.status().name(), fault);
            }
        }
        out.push(b'\n');
    }
}

/// What an answer is about: a number, and the method or the form that is asked for.
#[derive(Clone, Copy, Default)]
pub struct About<'a> {
    pub number: Option<&'a [u8]>,
    pub choice: Option<Choice<'a>>,
    /// The width of the wide form.
    pub width: Option<Small<'a>>,
    /// The name of a form that has one.
    pub form: Option<&'static str>,
}

impl<'a> About<'a> {
    pub fn of(request: &Request<'a>, answered: &Answered<'a>) -> About<'a> {
        About {
            number: answered.number,
            choice: request.choice(),
            width: request.width(),
            form: if request.is_modified() { Some("modified") } else { None },
        }
    }

    /// Puts it in front of the answer.
    fn put(self, out: &mut Vec<u8>) {
        if let Some(number) = self.number {
            put_bytes(number, out);
            if let Some(choice) = self.choice {
                out.extend_from_slice(b" by ");
                put_choice(choice, out);
            }
        }
        if let Some(width) = self.width {
            out.extend_from_slice(if self.number.is_some() { b", width " } else { b"width " });
            put_small(width, out);
        }
        if let Some(form) = self.form {
            out.extend_from_slice(b", ");
            out.extend_from_slice(form.as_bytes());
        }
        if self.number.is_some() || self.width.is_some() {
            out.extend_from_slice(b": ");
        }
    }
}

pub fn put_refusal(refused: &Refused, about: About, out: &mut Vec<u8>) {
    let (refusal, place) = (refused.refusal.number(), refused.refusal.place());
    let _ = write!(out, "refused {}, place {}: {}", refusal, place, reason(refused, about));
}

/// What a refusal says, what is allowed where something is not, and the word behind it.
pub fn reason(refused: &Refused, about: About) -> String {
    let allowed = match refused.refusal {
        Refusal::NumberTooLong => Some(format!("a number has at most {} bytes", lesmutka::NUMBER_BYTES)),
        Refusal::NotADigit { .. } => Some(digits_of(about.width)),
        Refusal::StringTooLong => Some(format!("at most {} digits", lesmutka::STRING_DIGITS)),
        Refusal::PlanLength => Some(format!(
            "a step has {} bytes, and a plan at most {} steps",
            lesmutka::STEP_BYTES,
            lesmutka::PLAN_STEPS
        )),
        Refusal::ValueTooLarge { .. } => Some(format!("a size is below 2^{}", 8 * lesmutka::VALUE_BYTES)),
        Refusal::MethodOrWidth => match about.choice {
            Some(choice) => Some(choice.allowed()),
            None => Some(format!(
                "a NAF has a width from {} to {}",
                lesmutka::LEAST_WIDTH,
                lesmutka::LARGEST_WIDTH
            )),
        },
        Refusal::HighestByteIsZero => about.number.map(|number| format!("write {}", spelling(number))),
        _ => None,
    };
    let word = refused.word.as_ref().map(|word| format!("it is `{}`", Shown(word)));
    let said = refused.refusal.message().to_string();
    [Some(said), allowed, word]
        .iter()
        .flatten()
        .cloned()
        .collect::<Vec<String>>()
        .join("; ")
}

/// Which digits there are, in the wide form or without a width.
fn digits_of(width: Option<Small>) -> String {
    match width {
        // No other width is refused for its digits.
        Some(width) if (lesmutka::LEAST_WIDTH..=lesmutka::LARGEST_WIDTH).contains(&width.value) => {
            let largest = (1 << (width.value - 1)) - 1;
            format!(
                "the digits of width {} are 0 and the odd numbers from -{} to {}",
                width.value, largest, largest
            )
        }
        _ => "the digits are 0, 1 and -1".to_string(),
    }
}

/// Puts the list of methods.
pub fn put_methods(json: bool, out: &mut Vec<u8>) {
    if json {
        for &method in Method::ALL {
            Fields::of_choice("methods", Choice::of(method)).put(out);
        }
        return;
    }
    let longest = methods().map(|method| method.name().len()).max().unwrap_or(0);
    for method in methods() {
        let (number, name) = (method.number(), method.name());
        let _ = writeln!(out, "{}  {:<width$} {}", number, name, widths(method), width = longest);
    }
}

/// A method by its name, if it has one, and the width, if one was given.
fn put_choice(choice: Choice, out: &mut Vec<u8>) {
    put_method(choice, out);
    if choice.width.value != 0 {
        out.push(b' ');
        put_small(choice.width, out);
    }
}

pub fn put_method(choice: Choice, out: &mut Vec<u8>) {
    match choice.named() {
        Some(method) => out.extend_from_slice(method.name().as_bytes()),
        None => put_small(choice.method, out),
    }
}

/// A method's number or a width.
fn put_small(small: Small, out: &mut Vec<u8>) {
    match small.large() {
        Some(digits) => {
            let _ = write!(out, "{}", Shown(digits));
        }
        None => put_number(u64::from(small.value), out),
    }
}

/// A number as the calls take it, without high zero bytes.
fn spelling(number: &[u8]) -> Value<'_> {
    let length = number.iter().rposition(|&byte| byte != 0).map_or(0, |top| top + 1);
    Value {
        is_negative: false,
        size: &number[..length],
    }
}

/// A number's bytes as they went to the call, most significant first; 0 if there are none, since
/// hexadecimal has no word for these.
pub fn put_bytes(bytes: &[u8], out: &mut Vec<u8>) {
    const DIGITS: &[u8; 16] = b"0123456789abcdef";
    if bytes.is_empty() {
        out.push(b'0');
        return;
    }
    out.extend_from_slice(b"0x");
    for byte in bytes.iter().rev() {
        out.extend_from_slice(&[DIGITS[usize::from(byte >> 4)], DIGITS[usize::from(byte & 15)]]);
    }
}

pub fn put_value(value: Value, out: &mut Vec<u8>) {
    if value.is_negative {
        out.push(b'-');
    }
    put_bytes(value.size, out);
}

/// Digits most significant first, each with this in front.
pub fn put_digits(digits: &[i8], front: &[u8], out: &mut Vec<u8>) {
    for digit in digits.iter().rev() {
        out.extend_from_slice(front);
        if *digit < 0 {
            out.push(b'-');
        }
        match digit.unsigned_abs() {
            size @ 0..=9 => out.push(b'0' + size),
            size => put_number(u64::from(size), out),
        }
    }
}

/// As `Counts` prints, without the cost of formatting.
fn put_counts(counts: Counts, out: &mut Vec<u8>) {
    put_number(counts.doublings as u64, out);
    out.extend_from_slice(b" doublings, ");
    put_number(counts.additions as u64, out);
    out.extend_from_slice(b" additions, ");
    put_number(counts.subtractions as u64, out);
    out.extend_from_slice(b" subtractions");
}

/// As `Accepted` prints, without the cost of formatting.
fn put_accepted(accepted: Accepted, out: &mut Vec<u8>) {
    put_counts(accepted.counts, out);
    out.extend_from_slice(b"; at most ");
    put_number(accepted.largest_bits as u64, out);
    out.extend_from_slice(b" bits");
}

/// A number in decimal, without the cost of formatting.
pub fn put_number(number: u64, out: &mut Vec<u8>) {
    let mut text = [0; 20];
    let mut at = text.len();
    let mut left = number;
    loop {
        at -= 1;
        text[at] = b'0' + (left % 10) as u8;
        left /= 10;
        if left == 0 {
            break;
        }
    }
    out.extend_from_slice(&text[at..]);
}
