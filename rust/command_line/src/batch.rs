//! Requests from standard input, one a line.
use crate::answer::Desk;
use crate::fault::Fault;
use crate::print::{Form, Status};
use crate::request::{is_blank, is_standard, Request, Words};
use crate::{complain, put_all};
use std::io::{self, Read, Write};

/// The most bytes of a line. All that a call takes fits into it.
pub const LINE_BYTES: usize = 8192;

/// What a line may have besides: a byte order mark in front, a carriage return behind.
const MARKS: usize = 4;

/// Answers the lines of standard input. What was read is answered before more is read, so that an
/// answer comes as soon as its line is there.
pub fn run(words: &Words) -> Status {
    let mut batch = Batch::new(words.json, words.force);
    let mut input = io::stdin().lock();
    let mut block = vec![0; 1 << 16];
    loop {
        let length = match input.read(&mut block) {
            Ok(length) => length,
            Err(error) if error.kind() == io::ErrorKind::Interrupted => continue,
            Err(error) => {
                let fault = Fault::Failed(format!("cannot read standard input: {}", error));
                return batch.highest().max(complain(&fault));
            }
        };
        let put = match length {
            0 => batch.end(),
            _ => batch.read(&block[..length]),
        };
        match put.and_then(|goes_on| if goes_on { batch.put() } else { Ok(false) }) {
            Ok(true) if length > 0 => {}
            Ok(true) => {
                batch.summary();
                return batch.highest();
            }
            // Nobody reads the answers any more.
            Ok(false) => return batch.highest(),
            Err(fault) => return batch.highest().max(complain(&fault)),
        }
    }
}

struct Batch {
    json: bool,
    force: bool,
    desk: Desk,
    /// What has come of a line that has not ended, and whether it is longer than a line may be.
    begun: Vec<u8>,
    too_long: bool,
    line: u64,
    out: Vec<u8>,
    /// How many requests had each status.
    ended: [u64; 4],
    first_malformed: Option<u64>,
}

impl Batch {
    fn new(json: bool, force: bool) -> Batch {
        Batch {
            json,
            force,
            desk: Desk::new(),
            begun: Vec::new(),
            too_long: false,
            line: 0,
            out: Vec::new(),
            ended: [0; 4],
            first_malformed: None,
        }
    }

    /// Writes the answers that have gathered; false if nobody reads them any more.
    fn put(&mut self) -> Result<bool, Fault> {
        let put = put_all(&self.out);
        self.out.clear();
        put
    }

    /// Answers the lines that end in a block, and keeps what comes after them. The answer to one that
    /// wrote a file does not wait for the others.
    fn read(&mut self, block: &[u8]) -> Result<bool, Fault> {
        let mut rest = block;
        while let Some(end) = rest.iter().position(|&byte| byte == b'\n') {
            let wrote = if self.begun.is_empty() && !self.too_long {
                self.answer(Some(&rest[..end]))
            } else {
                self.keep(&rest[..end]);
                self.answer_begun()
            };
            if wrote && !self.put()? {
                return Ok(false);
            }
            rest = &rest[end + 1..];
        }
        self.keep(rest);
        Ok(true)
    }

    /// The last line may have no end.
    fn end(&mut self) -> Result<bool, Fault> {
        if !self.begun.is_empty() || self.too_long {
            self.answer_begun();
        }
        Ok(true)
    }

    fn keep(&mut self, part: &[u8]) {
        match self.begun.len() + part.len() > LINE_BYTES + MARKS {
            true => self.too_long = true,
            false => self.begun.extend_from_slice(part),
        }
    }

    fn answer_begun(&mut self) -> bool {
        let mut line = std::mem::take(&mut self.begun);
        let too_long = std::mem::take(&mut self.too_long);
        let wrote = self.answer(Some(line.as_slice()).filter(|_| !too_long));
        line.clear();
        self.begun = line;
        wrote
    }

    /// Answers a line, unless it has no words, and says whether it asked for a file. None is a line that
    /// was too long to be kept.
    fn answer(&mut self, line: Option<&[u8]>) -> bool {
        self.line += 1;
        let line = line.map(|line| trimmed(line, self.line == 1));
        let line = line.filter(|line| line.len() <= LINE_BYTES);
        let all = line.map_or(Vec::new(), words_of);
        if line.is_some() && all.is_empty() {
            return false;
        }
        let form = Form {
            json: self.json,
            line: Some(self.line),
        };
        let mut words = Words::new(&all);
        let verb = words.verb().map(|verb| verb.name);
        let request = match line {
            Some(_) => request(&mut words, self.force),
            None => Err(Fault::Malformed(format!("a line has at most {} bytes", LINE_BYTES))),
        };
        let (status, wrote) = match request {
            Ok(request) => {
                let status = form.answer(&request, &self.desk.answer(&request), &mut self.out);
                (status, matches!(request, Request::Plan { file: Some(_), .. }))
            }
            Err(fault) => {
                form.fault(verb, &fault, &mut self.out);
                (fault.status(), false)
            }
        };
        self.ended[status as usize] += 1;
        if status == Status::Malformed && self.first_malformed.is_none() {
            self.first_malformed = Some(self.line);
        }
        wrote
    }

    fn highest(&self) -> Status {
        let all = [Status::Failed, Status::Malformed, Status::Refused];
        let highest = all.iter().find(|&&status| self.ended[status as usize] > 0);
        *highest.unwrap_or(&Status::Answered)
    }

    /// The closing line on standard error.
    fn summary(&self) {
        let [answered, refused, malformed, failed] = self.ended;
        let first = match self.first_malformed {
            Some(line) => format!(" (the first on line {})", line),
            None => String::new(),
        };
        let _ = writeln!(
            io::stderr(),
            "lesmutka: {} requests: {} answered, {} refused, {} malformed{}, {} failed",
            answered + refused + malformed + failed,
            answered,
            refused,
            malformed,
            first,
            failed
        );
    }
}

/// A line without its carriage return and, if it is the first, its byte order mark.
fn trimmed(line: &[u8], first: bool) -> &[u8] {
    let line = line.strip_suffix(b"\r").unwrap_or(line);
    match first {
        true => line.strip_prefix(b"\xef\xbb\xbf").unwrap_or(line),
        false => line,
    }
}

/// The words of a line, down to one that begins with #.
fn words_of(line: &[u8]) -> Vec<&[u8]> {
    line.split(|&byte| is_blank(byte))
        .filter(|word| !word.is_empty())
        .take_while(|word| word[0] != b'#')
        .collect()
}

/// The request of a line's words. Where a plan goes into a file, `force` of the whole batch counts too.
fn request<'a>(words: &'a mut Words<'a>, force: bool) -> Result<Request<'a>, Fault> {
    words.check_unknown()?;
    if words.json || words.dot || words.help || words.version {
        return Err(Fault::Malformed(
            "of the options a line takes --force, --width and --modified alone".to_string(),
        ));
    }
    if let Some(&verb) = words.plain.first() {
        if matches!(verb, b"show" | b"methods" | b"batch" | b"-" | b"help") {
            return Err(Fault::word("it stands on the command line alone", verb));
        }
    }
    let mut request = Request::new(words)?;
    if let Request::Plan { force: own, .. } = &mut request {
        *own |= force;
    }
    match request.file() {
        Some(file) if is_standard(file) => Err(Fault::Malformed(
            "`-` is no file here, since standard input holds the requests".to_string(),
        )),
        _ => Ok(request),
    }
}
