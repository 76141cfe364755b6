//! The program `lesmutka`: the calls of the proved library, asked for by words and answered by lines.
//!
//! A request is taken apart by [`request`], answered by [`answer`] and printed by [`print`]. What a
//! person types reaches a call only through the library's proved readers of numbers, digits and steps,
//! but for the digits of the wide form, which are read here; all other words stand in lists and are
//! compared whole, names of methods in capitals or not.
mod answer;
mod batch;
mod choice;
mod fault;
mod files;
mod help;
mod json;
mod plans;
mod print;
mod request;
mod show;
mod signals;
mod steps;

use answer::Desk;
use fault::Fault;
use print::{Form, Status};
use request::{Request, Words};
use std::env;
use std::io::{self, Write};
use std::os::unix::ffi::OsStringExt;
use std::process;

fn main() {
    signals::ignore_file_size();
    let arguments: Vec<Vec<u8>> = env::args_os().skip(1).map(|word| word.into_vec()).collect();
    let all: Vec<&[u8]> = arguments.iter().map(|word| word.as_slice()).collect();
    let words = Words::new(&all);
    let mut out = Vec::new();
    // A fault is told on standard error and, with --json, as an object too.
    let status = run(&words, &mut out).unwrap_or_else(|fault| {
        if words.json && out.is_empty() {
            let form = Form { json: true, line: None };
            form.fault(words.verb().map(|verb| verb.name), &fault, &mut out);
        }
        complain(&fault)
    });
    let status = match put_all(&out) {
        Ok(_) => status,
        Err(fault) => status.max(complain(&fault)),
    };
    process::exit(status as i32);
}

/// Answers the words of the command line.
fn run(words: &Words, out: &mut Vec<u8>) -> Result<Status, Fault> {
    words.check_unknown()?;
    match words.plain.as_slice() {
        plain if words.help => help::put_help(plain, out)?,
        _ if words.version => {
            words.check_length(0)?;
            words.check_options(&[])?;
            help::put_version(out);
        }
        [b"help", about @ ..] => help::put_help(about, out)?,
        [b"methods"] => {
            words.check_options(&[])?;
            print::put_methods(words.json, out);
        }
        [b"batch" | b"-"] => {
            words.check_options(&["--force"])?;
            return Ok(batch::run(words));
        }
        _ => return answer(words, out),
    }
    Ok(Status::Answered)
}

/// Answers one request.
fn answer(words: &Words, out: &mut Vec<u8>) -> Result<Status, Fault> {
    let mut desk = Desk::new();
    let request = Request::new(words)?;
    if let Request::Show { file, dot } = request {
        return show::show(file, dot, words.json, &mut desk, out);
    }
    let form = Form {
        json: words.json,
        line: None,
    };
    let answered = desk.answer(&request);
    let status = form.answer(&request, &answered, out);
    match answered.outcome {
        Err(fault) => {
            // In words it is told on standard error alone.
            if !words.json {
                out.clear();
            }
            Err(fault)
        }
        Ok(_) => {
            if status == Status::Refused && request.is_to_standard_output() {
                let _ = io::stderr().write_all(out);
                out.clear();
            }
            Ok(status)
        }
    }
}

/// Tells a fault in one line on standard error.
fn complain(fault: &Fault) -> Status {
    let _ = writeln!(io::stderr(), "lesmutka: {}", fault);
    fault.status()
}

/// Writes to standard output; false if it is a pipe that nobody reads any more, which is no fault.
fn put_all(out: &[u8]) -> Result<bool, Fault> {
    let mut stdout = io::stdout().lock();
    match stdout.write_all(out).and_then(|()| stdout.flush()) {
        Ok(()) => Ok(true),
        Err(error) if error.kind() == io::ErrorKind::BrokenPipe => Ok(false),
        Err(error) => Err(Fault::Failed(format!("cannot write to standard output: {}", error))),
    }
}
