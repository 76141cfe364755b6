//! A plan with its values, which are the records that the check leaves in its work space.
use crate::answer::{Desk, Refused};
use crate::fault::Fault;
use crate::json::Fields;
use crate::plans;
use crate::print::{put_refusal, put_value, About, Status};
use lesmutka::{check, records, Accepted, Refusal, Step, Value, STEP_BYTES};
use std::ffi::OsStr;
use std::io::{self, Write};
use std::os::unix::ffi::OsStrExt;

/// Puts the steps of a plan with their values, down to the first that is not sound.
pub fn show(file: &OsStr, dot: bool, json: bool, desk: &mut Desk, out: &mut Vec<u8>) -> Result<Status, Fault> {
    let plan = plans::read(file).map_err(|fault| {
        if json {
            let mut fields = Fields::new(None, Some("show"), fault.status());
            fields.file = Some(file.as_bytes());
            fields.message = Some(fault.to_string());
            fields.put(out);
        }
        fault
    })?;
    let chain = match &plan {
        Ok(plan) => Chain::new(plan, &mut desk.space),
        Err(refusal) => Chain::refused(*refusal),
    };
    let status = match chain.refused {
        Some(_) => Status::Refused,
        None => Status::Answered,
    };
    if json {
        let mut fields = Fields::new(None, Some("show"), status);
        fields.file = Some(file.as_bytes());
        fields.steps = Some(&chain.bytes);
        fields.values = Some(&chain.values);
        fields.counts = chain.accepted.map(|accepted| accepted.counts);
        fields.largest_bits = chain.accepted.map(|accepted| accepted.largest_bits);
        fields.refused = chain.refused.as_ref();
        fields.put(out);
    } else if dot {
        chain.put_graph(out);
        if let Some(refused) = &chain.refused {
            let mut line = b"lesmutka: ".to_vec();
            put_refusal(refused, About::default(), &mut line);
            line.push(b'\n');
            let _ = io::stderr().write_all(&line);
        }
    } else {
        chain.put_lines(out);
    }
    Ok(status)
}

/// The sound steps of a plan, from the first.
struct Chain<'a> {
    bytes: Vec<u8>,
    /// The value at position 0, then one for each step.
    values: Vec<Value<'a>>,
    /// If the plan ends at a number that a call takes.
    accepted: Option<Accepted>,
    refused: Option<Refused>,
}

impl<'a> Chain<'a> {
    /// A plan that is refused before its first step.
    fn refused(refusal: Refusal) -> Chain<'a> {
        Chain {
            bytes: Vec::new(),
            values: Vec::new(),
            accepted: None,
            refused: Some(Refused { refusal, word: None }),
        }
    }

    fn new(plan: &plans::Plan, space: &'a mut [u8]) -> Chain<'a> {
        // Whatever the number is, the check leaves the records of all sound steps. A plan that is
        // refused for its length leaves none.
        let sound = match check(&[1], &plan.bytes, space) {
            Ok(_) | Err(Refusal::WrongEnd { .. }) => Ok(plan.bytes.len() / STEP_BYTES),
            Err(refusal) => Err(refusal),
        };
        let (steps, refusal) = match sound {
            Ok(steps) => (steps, None),
            Err(
                refusal @ (Refusal::MalformedStep { step }
                | Refusal::ValueIsZero { step }
                | Refusal::ValueTooLarge { step }),
            ) => (step - 1, Some(refusal)),
            Err(refusal) => return Chain::refused(refusal),
        };
        let end: Vec<u8> = match records(space, steps).next_back() {
            Some(end) if !end.is_negative => end.size.to_vec(),
            _ => Vec::new(),
        };
        Chain {
            bytes: plan.bytes[..STEP_BYTES * steps].to_vec(),
            accepted: match refusal {
                None => check(&end, &plan.bytes, space).ok(),
                Some(_) => None,
            },
            values: records(space, steps).collect(),
            refused: refusal.map(|refusal| Refused {
                refusal,
                word: plan.word(refusal),
            }),
        }
    }

    /// The step at a position; none at position 0.
    fn step(&self, position: usize) -> Option<Step> {
        let bytes = self.bytes.chunks_exact(STEP_BYTES).nth(position.checked_sub(1)?)?;
        Step::from_bytes([bytes[0], bytes[1], bytes[2], bytes[3], bytes[4]])
    }

    fn put_lines(&self, out: &mut Vec<u8>) {
        for (position, value) in self.values.iter().enumerate() {
            let _ = match self.step(position) {
                Some(step) => write!(out, "{}: {} = ", position, step),
                None => write!(out, "{}: ", position),
            };
            put_value(*value, out);
            out.push(b'\n');
        }
        match (&self.refused, self.values.last(), self.accepted) {
            (Some(refused), _, _) => put_refusal(refused, About::default(), out),
            (None, Some(end), accepted) => {
                out.extend_from_slice(b"ends at ");
                put_value(*end, out);
                if let Some(accepted) = accepted {
                    let _ = write!(out, ": {}", accepted);
                }
            }
            (None, None, _) => {}
        }
        out.push(b'\n');
    }

    /// The chain as a graph for Graphviz: an arrow from each value that a step takes to the one that
    /// it gives, dashed from the one that is subtracted. The arrow from the first value of a doubling
    /// is labelled `double`.
    fn put_graph(&self, out: &mut Vec<u8>) {
        out.extend_from_slice(b"digraph plan {\n    node [shape=box];\n");
        for (position, value) in self.values.iter().enumerate() {
            let _ = write!(out, "    {} [label=\"{}: ", position, position);
            put_value(*value, out);
            out.extend_from_slice(b"\"];\n");
            let mut arrow = |from: u16, label: &str| {
                let _ = writeln!(out, "    {} -> {} [label=\"{}\"];", from, position, label);
            };
            let step = match self.step(position) {
                Some(step) => step,
                None => continue,
            };
            let (Step::Add(j, k) | Step::Subtract(j, k)) = step;
            // Both positions are below that of a sound step.
            let is_doubling = step.is_doubling(self.values[usize::from(j)], self.values[usize::from(k)]);
            arrow(j, if is_doubling { "double" } else { "+" });
            match step {
                // One arrow stands for both.
                _ if is_doubling && j == k => {}
                Step::Add(..) => arrow(k, "+"),
                Step::Subtract(..) => arrow(k, "-\", style=\"dashed"),
            }
        }
        out.extend_from_slice(b"}\n");
    }
}
