//! Requests into answers, by the calls of the library.
use crate::fault::{Fault, Shown};
use crate::files;
use crate::plans;
use crate::request::{is_blank, is_standard, Request};
use lesmutka::{sys, Accepted, Counts, Refusal, Value};

/// What a call answered.
pub enum Answer<'a> {
    Digits(&'a [i8]),
    Value(Value<'a>),
    Counts(Counts),
    Plan(Counts, &'a [u8]),
    Accepted(Accepted),
    Refused(Refused),
}

/// A refusal and, where a word is behind it, that word.
pub struct Refused {
    pub refusal: Refusal,
    pub word: Option<Vec<u8>>,
}

impl<'a> From<Refusal> for Answer<'a> {
    fn from(refusal: Refusal) -> Answer<'a> {
        Answer::Refused(Refused { refusal, word: None })
    }
}

/// What a request came to, with the number that it is about as it was read.
pub struct Answered<'a> {
    pub number: Option<&'a [u8]>,
    pub outcome: Result<Answer<'a>, Fault>,
}

/// The buffers that the calls are lent, used again from request to request.
pub struct Desk {
    number: Vec<u8>,
    digits_in: Vec<i8>,
    digits: [i8; lesmutka::CLEAN_WIDE_ROOM],
    size: [u8; lesmutka::READ_BACK_WIDE_ROOM],
    plan: [u8; lesmutka::PLAN_ROOM],
    pub space: [u8; lesmutka::work_space(lesmutka::PLAN_STEPS)],
}

impl Desk {
    pub fn new() -> Desk {
        Desk {
            number: Vec::new(),
            digits_in: Vec::new(),
            digits: [0; lesmutka::CLEAN_WIDE_ROOM],
            size: [0; lesmutka::READ_BACK_WIDE_ROOM],
            plan: [0; lesmutka::PLAN_ROOM],
            space: [0; lesmutka::work_space(lesmutka::PLAN_STEPS)],
        }
    }

    /// What a request comes to. A plan that is asked for in a file is written there before the answer
    /// comes back.
    pub fn answer(&mut self, request: &Request) -> Answered<'_> {
        let word = match request {
            Request::Recode { number, .. }
            | Request::Forecast { number, .. }
            | Request::Plan { number, .. }
            | Request::Check { number, .. } => number,
            Request::Clean { digits, width } => {
                let read = read_digits(digits, width.is_some(), &mut self.digits_in);
                let answer = match width {
                    Some(width) => lesmutka::clean_wide(read, width.value, &mut self.digits),
                    None => lesmutka::clean(read, &mut self.digits),
                }
                .map(Answer::Digits);
                return Answered {
                    number: None,
                    outcome: Ok(answer.unwrap_or_else(|refusal| refused_digits(refusal, digits))),
                };
            }
            Request::ReadBack { digits, width } => {
                let read = read_digits(digits, width.is_some(), &mut self.digits_in);
                let answer = match width {
                    Some(width) => lesmutka::read_back_wide(read, width.value, &mut self.size),
                    None => lesmutka::read_back(read, &mut self.size),
                }
                .map(Answer::Value);
                return Answered {
                    number: None,
                    outcome: Ok(answer.unwrap_or_else(|refusal| refused_digits(refusal, digits))),
                };
            }
            Request::Show { .. } => {
                return Answered {
                    number: None,
                    outcome: Err(Fault::word("it stands on the command line alone", b"show")),
                }
            }
        };
        let number = match read_number(word, &mut self.number) {
            Ok(number) => number,
            Err(fault) => {
                return Answered {
                    number: None,
                    outcome: Err(fault),
                }
            }
        };
        let outcome = match request {
            Request::Forecast { choice, .. } => {
                let answer = sys::forecast(number, choice.method.value, choice.width.value);
                Ok(Counts::try_from(answer).map_or_else(Answer::from, Answer::Counts))
            }
            Request::Plan {
                choice, file, force, ..
            } => {
                let answer = sys::plan(number, choice.method.value, choice.width.value, &mut self.plan);
                match (Counts::try_from(answer), file) {
                    (Err(refusal), _) => Ok(Answer::from(refusal)),
                    (Ok(counts), file) => {
                        let plan = &self.plan[..lesmutka::STEP_BYTES * counts.total()];
                        match file {
                            Some(file) if !is_standard(file) => files::write(file, plan, *force),
                            _ => Ok(()),
                        }
                        .map(|()| Answer::Plan(counts, plan))
                    }
                }
            }
            Request::Check { file, .. } => plans::read(file).map(|plan| match plan {
                Ok(plan) => match lesmutka::check(number, &plan.bytes, &mut self.space) {
                    Ok(accepted) => Answer::Accepted(accepted),
                    Err(refusal) => Answer::Refused(Refused {
                        refusal,
                        word: plan.word(refusal),
                    }),
                },
                Err(refusal) => Answer::from(refusal),
            }),
            _ => {
                let answer = match request.width() {
                    Some(width) => lesmutka::recode_wide(number, width.value, &mut self.digits),
                    None if request.is_modified() => lesmutka::recode_modified(number, &mut self.digits),
                    None => lesmutka::recode_words(number, &mut self.digits),
                };
                Ok(answer.map_or_else(Answer::from, Answer::Digits))
            }
        };
        Answered {
            number: Some(number),
            outcome,
        }
    }
}

/// The bytes of a number, by the library's readers. What is written with 0x goes to the call byte for
/// byte; a leading zero byte is for the call to refuse.
fn read_number<'a>(word: &[u8], bytes: &'a mut Vec<u8>) -> Result<&'a [u8], Fault> {
    let room = lesmutka::text_room(word.len());
    if bytes.len() < room {
        bytes.resize(room, 0);
    }
    if word.starts_with(b"0x") || word.starts_with(b"0X") {
        return match lesmutka::hexadecimal(word, bytes) {
            Some(number) => Ok(number),
            None => Err(Fault::word("no hexadecimal number", word)),
        };
    }
    lesmutka::decimal(word, bytes).map_err(|_| no_number(word))
}

/// What to do about a word that is no number.
fn no_number(word: &[u8]) -> Fault {
    if word.is_empty() {
        Fault::Malformed("the number is empty".to_string())
    } else if word.iter().all(u8::is_ascii_hexdigit) {
        let shown = Shown(word);
        Fault::Malformed(format!(
            "no decimal number: `{}`; if it is hexadecimal, write 0x{}",
            shown, shown
        ))
    } else {
        Fault::word("no number, which is decimal, or hexadecimal with 0x", word)
    }
}

/// The digits that words stand for. A word may hold several, with blanks between them. The library's reader
/// reads 0, 1 and -1; those of the wide form are read here.
fn read_digits<'a>(words: &[&[u8]], is_wide: bool, digits: &'a mut Vec<i8>) -> &'a [i8] {
    if is_wide {
        digits.clear();
        digits.extend(digit_words(words).rev().map(wide_digit));
        return digits;
    }
    let text = words.join(&b' ');
    let room = lesmutka::text_room(text.len());
    if digits.len() < room {
        digits.resize(room, 0);
    }
    lesmutka::read_digits(&text, digits).expect("there is room for every text of this length")
}

/// The words of digits, the most significant first.
fn digit_words<'a>(words: &'a [&'a [u8]]) -> impl DoubleEndedIterator<Item = &'a [u8]> {
    let all = words.iter().flat_map(|word| word.split(|&byte| is_blank(byte)));
    all.filter(|word| !word.is_empty())
}

/// A number from -127 to 127, spelled as it is printed. Any other word is 2, which is no digit of any width,
/// so that the call refuses it with its place.
fn wide_digit(word: &[u8]) -> i8 {
    let read = || -> Option<i8> {
        let text = std::str::from_utf8(word).ok()?;
        let digit: i8 = text.parse().ok()?;
        Some(digit).filter(|digit| *digit > i8::MIN && digit.to_string() == text)
    };
    read().unwrap_or(2)
}

/// A refusal of digits, with the word at its place, which counts from the last.
fn refused_digits<'a>(refusal: Refusal, words: &[&[u8]]) -> Answer<'a> {
    let word = match refusal {
        Refusal::NotADigit { place } => digit_words(words).rev().nth(place),
        _ => None,
    };
    Answer::Refused(Refused {
        refusal,
        word: word.map(<[u8]>::to_vec),
    })
}
