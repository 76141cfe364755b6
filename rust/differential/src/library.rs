//! The linked functions with the reference's signatures, their answers taken apart field by field. Nothing of the safe
//! wrapper stands between but the pointers and lengths of slices.
use lesmutka::sys;
use reference::refusal::NOT_A_DIGIT;
use reference::{Accepted, Counts, Refusal};

fn refused(refusal: usize, place: usize, rest: &[usize]) -> Result<(), Refusal> {
    if refusal == 0 {
        assert_eq!(place, 0, "a place without a refusal");
        return Ok(());
    }
    assert!(
        rest.iter().all(|&field| field == 0),
        "a refusal that answers more than number and place"
    );
    Err(Refusal {
        number: u8::try_from(refusal).expect("a refusal's number"),
        place,
    })
}

fn counts(counts: sys::Counts) -> Result<Counts, Refusal> {
    let rest = [counts.doublings, counts.additions, counts.subtractions];
    refused(counts.refusal, counts.place, &rest)?;
    Ok(Counts {
        doublings: counts.doublings,
        additions: counts.additions,
        subtractions: counts.subtractions,
    })
}

fn value(value: sys::Value) -> Result<(u8, usize), Refusal> {
    refused(value.refusal, value.place, &[value.sign, value.length])?;
    Ok((u8::try_from(value.sign).expect("a sign"), value.length))
}

pub fn recode(number: &[u8], out: &mut [u8]) -> Result<usize, Refusal> {
    let answer = sys::recode(number, out);
    refused(answer.refusal, answer.place, &[answer.length]).map(|_| answer.length)
}

pub fn recode_words(number: &[u8], out: &mut [u8]) -> Result<usize, Refusal> {
    let answer = sys::recode_words(number, out);
    refused(answer.refusal, answer.place, &[answer.length]).map(|_| answer.length)
}

pub fn recode_modified(number: &[u8], out: &mut [u8]) -> Result<usize, Refusal> {
    let answer = sys::recode_modified(number, out);
    refused(answer.refusal, answer.place, &[answer.length]).map(|_| answer.length)
}

pub fn recode_wide(number: &[u8], width: u32, out: &mut [u8]) -> Result<usize, Refusal> {
    let answer = sys::recode_wide(number, width, out);
    refused(answer.refusal, answer.place, &[answer.length]).map(|_| answer.length)
}

pub fn clean_wide(digits: &[u8], width: u32, out: &mut [u8]) -> Result<usize, Refusal> {
    let answer = sys::clean_wide(digits, width, out);
    refused(answer.refusal, answer.place, &[answer.length]).map(|_| answer.length)
}

pub fn read_back_wide(digits: &[u8], width: u32, out: &mut [u8]) -> Result<(u8, usize), Refusal> {
    value(sys::read_back_wide(digits, width, out))
}

pub fn clean(digits: &[u8], out: &mut [u8]) -> Result<usize, Refusal> {
    let answer = sys::clean(digits, out);
    refused(answer.refusal, answer.place, &[answer.length]).map(|_| answer.length)
}

pub fn read_back(digits: &[u8], out: &mut [u8]) -> Result<(u8, usize), Refusal> {
    value(sys::read_back(digits, out))
}

pub fn plan(number: &[u8], method: u32, width: u32, out: &mut [u8]) -> Result<Counts, Refusal> {
    counts(sys::plan(number, method, width, out))
}

pub fn forecast(number: &[u8], method: u32, width: u32) -> Result<Counts, Refusal> {
    counts(sys::forecast(number, method, width))
}

pub fn check(number: &[u8], plan: &[u8], space: &mut [u8]) -> Result<Accepted, Refusal> {
    let answer = sys::check(number, plan, space);
    let counts = Counts {
        doublings: answer.doublings,
        additions: answer.additions,
        subtractions: answer.subtractions,
    };
    let rest = [
        counts.doublings,
        counts.additions,
        counts.subtractions,
        answer.largest_bits,
    ];
    refused(answer.refusal, answer.place, &rest)?;
    Ok(Accepted {
        counts,
        largest_bits: answer.largest_bits,
    })
}

/// A recoder in memory that is lent, at the alignment of a word.
pub fn start(number: &[u8], recoder: &mut sys::Recoder) -> Result<(), Refusal> {
    let answer = sys::start(number, recoder);
    refused(answer.refusal, answer.place, &[])
}

pub fn take(recoder: &mut sys::Recoder) -> Option<u8> {
    match unsafe { sys::lesmutka_take(recoder) } {
        sys::DONE => None,
        byte => Some(u8::try_from(byte).expect("a digit's byte, or done")),
    }
}

/// That a text is no number is told as refusal 4, with the place that is answered.
fn number_read(answer: sys::Parsed) -> Result<usize, Refusal> {
    match answer.is_number {
        1 => {
            assert_eq!(answer.place, 0, "a place beside a number");
            Ok(answer.length)
        }
        is_number => {
            assert_eq!((is_number, answer.length), (0, 0), "a length without a number");
            Err(no_number(answer.place))
        }
    }
}

pub fn no_number(place: usize) -> Refusal {
    Refusal {
        number: NOT_A_DIGIT,
        place,
    }
}

pub fn hexadecimal(text: &[u8], out: &mut [u8]) -> Result<usize, Refusal> {
    number_read(sys::hexadecimal(text, out))
}

pub fn decimal(text: &[u8], out: &mut [u8]) -> Result<usize, Refusal> {
    number_read(sys::decimal(text, out))
}

pub fn read_digits(text: &[u8], out: &mut [u8]) -> Result<usize, Refusal> {
    let answer = sys::read_digits(text, out);
    refused(answer.refusal, answer.place, &[answer.length]).map(|_| answer.length)
}

pub fn read_steps(text: &[u8], out: &mut [u8]) -> Result<usize, Refusal> {
    let answer = sys::read_steps(text, out);
    refused(answer.refusal, answer.place, &[answer.length]).map(|_| answer.length)
}

/// The words of the refusal whose number is the first byte.
pub fn words(refusal: &[u8], out: &mut [u8]) -> Result<usize, Refusal> {
    let answer = sys::write_words(usize::from(refusal[0]), out);
    refused(answer.refusal, answer.place, &[answer.length]).map(|_| answer.length)
}
