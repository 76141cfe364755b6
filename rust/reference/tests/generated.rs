//! Generated cases against the slow implementation in `common`: outcomes, and
//! every byte of the buffers, so the memory rule too. Each test also asserts
//! that every outcome of its call came up.

mod common;

use reference::generate::{
    bit_length, bits_by_sign, corners, hidden_doublings, largest_of, methods, mixed_words, modified_corners,
    one_bit_apart, trimmed, Generator,
};
use reference::limits::*;
use reference::refusal::{HIGHEST_BYTE_IS_ZERO, LAST, STRING_TOO_LONG, WRONG_END};
use reference::*;

/// How often each outcome came up: index 0 for success.
struct Tally {
    call: &'static str,
    outcomes: [usize; LAST + 1],
    /// Of the cases that were refused for high zero bytes: the outcomes without these bytes.
    without: [usize; LAST + 1],
}

impl Tally {
    fn new(call: &'static str) -> Tally {
        Tally {
            call,
            outcomes: [0; LAST + 1],
            without: [0; LAST + 1],
        }
    }

    fn note<T>(&mut self, result: &Result<T, Refusal>) {
        self.outcomes[outcome(result)] += 1;
    }

    /// As `note`, for a call that takes a number; `call` is the same call for another one.
    fn note_number<T>(
        &mut self,
        result: &Result<T, Refusal>,
        number: &[u8],
        call: impl Fn(&[u8]) -> Result<T, Refusal>,
    ) {
        self.note(result);
        if outcome(result) == usize::from(HIGHEST_BYTE_IS_ZERO) {
            self.without[outcome(&call(trimmed(number)))] += 1;
        }
    }

    /// Each outcome that the call can have is at least one in 100, no other
    /// ever occurs.
    fn assert_all(&self, possible: &[usize]) {
        println!("{:10} {:?}", self.call, self.outcomes);
        let total: usize = self.outcomes.iter().sum();
        for (outcome, &times) in self.outcomes.iter().enumerate() {
            if possible.contains(&outcome) {
                assert!(times * 100 >= total, "{} {}", self.call, outcome);
            } else {
                assert_eq!(times, 0, "{} {}", self.call, outcome);
            }
        }
    }

    /// High zero bytes come up alone, and beside each of these later refusals.
    fn assert_without(&self, later: &[usize]) {
        println!("{:10} without high zero bytes: {:?}", self.call, self.without);
        for (outcome, &times) in self.without.iter().enumerate() {
            let is_possible = outcome == 0 || later.contains(&outcome);
            assert_eq!(times >= 5, is_possible, "{} {}", self.call, outcome);
        }
    }
}

fn outcome<T>(result: &Result<T, Refusal>) -> usize {
    match result {
        Ok(_) => 0,
        Err(refusal) => usize::from(refusal.number),
    }
}

const CASES: usize = 20_000;

#[test]
fn recode_cases() {
    let mut generator = Generator::new(1);
    let mut tally = Tally::new("recode");
    for _ in 0..CASES {
        let case = generator.recode_case();
        let mut expected_out = generator.rng().bytes(case.room);
        let mut out = expected_out.clone();
        let result = recode(&case.number, &mut out);
        let expected = common::recode(&case.number, &mut expected_out);
        assert_eq!((&result, &out), (&expected, &expected_out), "{:?}", case);
        tally.note_number(&result, &case.number, |number| recode(number, &mut vec![0; case.room]));
    }
    tally.assert_all(&[0, 1, 6, 13]);
    tally.assert_without(&[6]);
}

#[test]
fn recode_modified_cases() {
    let mut generator = Generator::new(21);
    let mut tally = Tally::new("modified");
    // Forms that lead with 1 1, that are the non-adjacent form, and those of one digit more than there are bits.
    let mut seen = [0; 3];
    for _ in 0..CASES {
        let case = generator.recode_modified_case();
        let mut expected_out = generator.rng().bytes(case.room);
        let mut out = expected_out.clone();
        let result = recode_modified(&case.number, &mut out);
        let expected = common::recode_modified(&case.number, &mut expected_out);
        assert_eq!((&result, &out), (&expected, &expected_out), "{:?}", case);
        tally.note_number(&result, &case.number, |number| {
            recode_modified(number, &mut vec![0; case.room])
        });
        if let Ok(length) = result {
            seen[usize::from(!out[..length].ends_with(&[1, 1]))] += 1;
            seen[2] += usize::from(length > bit_length(&case.number));
        }
    }
    tally.assert_all(&[0, 1, 6, 13]);
    tally.assert_without(&[6]);
    assert!(seen.iter().all(|&times| times > 1000), "{:?}", seen);
}

/// The corners of the modified form are numbers of just so many bits, and for each such length the non-adjacent form
/// leads with 1 0 -1, with 1 0 0 -1, with 1 0 1 and with zeros alone. Clean makes the non-adjacent form of the modified
/// one, and reading that back gives the number.
#[test]
fn modified_corners_of_every_length() {
    for bits in 1..=NUMBER_BITS {
        let mut leads = Vec::new();
        for number in modified_corners(bits) {
            assert_eq!((bit_length(&number), trimmed(&number)), (bits, &number[..]));
            let (mut out, mut expected_out) = ([7; RECODE_ROOM], [7; RECODE_ROOM]);
            let expected = common::recode_modified(&number, &mut expected_out);
            let length = recode_modified(&number, &mut out).unwrap();
            assert_eq!((Ok(length), &out), (expected, &expected_out), "{:x?}", number);

            let (mut naf, mut cleaned) = ([7; RECODE_ROOM], [7; RECODE_ROOM]);
            let digits = recode(&number, &mut naf).unwrap();
            assert_eq!(clean(&out[..length], &mut cleaned), Ok(digits), "{:x?}", number);
            assert_eq!(cleaned, naf, "{:x?}", number);
            let mut size = [7; NUMBER_BYTES];
            assert_eq!(read_back(&out[..length], &mut size), Ok((0, number.len())));
            assert_eq!(size[..number.len()], number[..]);
            leads.push(naf[digits.saturating_sub(4)..digits].to_vec());
        }
        if bits > 5 {
            for lead in [[0xFF, 0, 1].as_slice(), &[0xFF, 0, 0, 1], &[1, 0, 1], &[0, 0, 0, 1]] {
                assert!(
                    leads.iter().any(|digits| digits.ends_with(lead)),
                    "{} bits: {:?}",
                    bits,
                    lead
                );
            }
        }
    }
    assert_eq!(modified_corners(1), [[1]]);
    assert_eq!(modified_corners(5).len(), 16);
}

/// The corners and the mixes are numbers that are taken, and none of the mixes comes twice. Three times a
/// corner has no bit above its bytes, one or two.
#[test]
fn corners_and_mixed_words() {
    for bytes in 1..=NUMBER_BYTES {
        let above: Vec<usize> = corners(bytes)
            .iter()
            .map(|number| {
                assert!(number.len() == bytes && number.last() != Some(&0), "{:x?}", number);
                let number = common::Big::from_bytes(number);
                let triple = number.plus(&number).plus(&number);
                bit_length(&triple.size).saturating_sub(8 * bytes)
            })
            .collect();
        assert_eq!(above, [0, 1, 1, 2, 2, 2, 1, 1, 0, 0], "{} bytes", bytes);
    }
    let mut mixes: Vec<Vec<u8>> = mixed_words(3).collect();
    assert!(mixes.iter().all(|number| number.last() != Some(&0)));
    mixes.sort();
    mixes.dedup();
    assert_eq!(mixes.len(), 6 * 6 * 6);
}

#[test]
fn recode_corners() {
    let numbers = (0..=NUMBER_BYTES).flat_map(corners).chain(mixed_words(4));
    for number in numbers {
        let (mut out, mut expected_out) = ([7; RECODE_ROOM], [7; RECODE_ROOM]);
        let expected = common::recode(&number, &mut expected_out);
        assert_eq!(recode(&number, &mut out), expected, "{:x?}", number);
        assert_eq!(out, expected_out, "{:x?}", number);
    }
}

/// T-12: "The nonzero places of the NAF are the ones in 3e XOR e, shifted down by one." There the digit is
/// minus 1 exactly if e has the one. The digits are those of the rule modulo 4, and 3e is a sum.
#[test]
fn nonzero_places() {
    let mut generator = Generator::new(12);
    let random: Vec<Vec<u8>> = (0..CASES).map(|_| generator.number()).collect();
    let small = (0..1u32 << 16).map(|number| number.to_le_bytes().to_vec());
    let corners = (0..=NUMBER_BYTES).flat_map(corners);
    let mut seen = [0; 3];
    for number in small.chain(corners).chain(mixed_words(4)).chain(random) {
        let number = common::Big::from_bytes(&number);
        let triple = number.plus(&number).plus(&number).bits();
        let single = number.bits();
        let digits = number.canonical();
        assert_eq!(digits.len(), triple.len().saturating_sub(1), "{:x?}", number);
        // Bit 0 is the same in both.
        assert_eq!(triple.first(), single.first(), "{:x?}", number);
        for (place, &digit) in digits.iter().enumerate() {
            let in_single = single.get(place + 1) == Some(&true);
            let expected = match (triple[place + 1] != in_single, in_single) {
                (false, _) => 0x00,
                (true, false) => 0x01,
                (true, true) => 0xFF,
            };
            assert_eq!(digit, expected, "{:x?}, place {}", number, place);
            seen[usize::from(digit.wrapping_add(1))] += 1;
        }
    }
    assert!(seen.iter().all(|&digits| digits > 100_000), "{:?}", seen);
}

#[test]
fn take_cases() {
    let mut generator = Generator::new(2);
    let mut tally = Tally::new("take");
    let mut dones = 0;
    for _ in 0..CASES {
        let case = generator.take_case();
        let (mut recoder, result) = Recoder::start(&case.number);
        tally.note_number(&result, &case.number, |number| Recoder::start(number).1);
        let mut digits = vec![0; RECODE_ROOM];
        let expected = common::recode(&case.number, &mut digits);
        digits.truncate(expected.unwrap_or(0));
        assert_eq!(result.err(), expected.err());
        if result.is_err() {
            assert_eq!(recoder, Recoder::start(&[]).0);
        }
        for place in 0..case.takes {
            let before = recoder;
            let digit = recoder.take();
            assert_eq!(digit, digits.get(place).copied());
            if digit.is_none() {
                assert_eq!(recoder, before);
                dones += 1;
            }
        }
    }
    tally.assert_all(&[0, 1, 13]);
    tally.assert_without(&[]);
    assert!(dones > CASES / 10);
}

#[test]
fn clean_cases() {
    let mut generator = Generator::new(3);
    let mut tally = Tally::new("clean");
    let mut longest = 0;
    let mut empty = 0;
    let mut copied = 0;
    for _ in 0..CASES {
        let case = generator.clean_case();
        let mut expected_out = generator.rng().bytes(case.room);
        let mut out = expected_out.clone();
        let result = clean(&case.digits, &mut out);
        let expected = common::clean(&case.digits, &mut expected_out);
        assert_eq!((&result, &out), (&expected, &expected_out), "{:?}", case);
        tally.note(&result);
        match result {
            Ok(CLEAN_ROOM) => longest += 1,
            Ok(0) => empty += 1,
            Ok(length) if out[..length] == case.digits => copied += 1,
            _ => {}
        }
    }
    tally.assert_all(&[0, 4, 5, 6]);
    assert!(longest > 100 && empty > 100 && copied > 100);
}

#[test]
fn read_back_cases() {
    let mut generator = Generator::new(4);
    let mut tally = Tally::new("read_back");
    let mut signs = [0; 2];
    let mut zeros = 0;
    for _ in 0..CASES {
        let case = generator.read_back_case();
        let mut expected_out = generator.rng().bytes(case.room);
        let mut out = expected_out.clone();
        let result = read_back(&case.digits, &mut out);
        let expected = common::read_back(&case.digits, &mut expected_out);
        assert_eq!((&result, &out), (&expected, &expected_out), "{:?}", case);
        tally.note(&result);
        match result {
            Ok((_, 0)) => zeros += 1,
            Ok((sign, _)) => signs[usize::from(sign)] += 1,
            _ => {}
        }
    }
    tally.assert_all(&[0, 4, 5, 6]);
    assert!(zeros > 100 && signs[0] > 1000 && signs[1] > 1000);
}

#[test]
fn recode_wide_cases() {
    let mut generator = Generator::new(15);
    let mut tally = Tally::new("wide");
    let mut widths = [0; 9];
    for _ in 0..CASES {
        let case = generator.recode_wide_case();
        let mut expected_out = generator.rng().bytes(case.room);
        let mut out = expected_out.clone();
        let result = recode_wide(&case.number, case.width, &mut out);
        let expected = common::recode_wide(&case.number, case.width, &mut expected_out);
        assert_eq!((&result, &out), (&expected, &expected_out), "{:?}", case);
        tally.note_number(&result, &case.number, |number| {
            recode_wide(number, case.width, &mut vec![0; case.room])
        });
        if result.is_ok() {
            widths[case.width as usize] += 1;
        }
    }
    tally.assert_all(&[0, 1, 3, 6, 13]);
    tally.assert_without(&[3, 6]);
    assert!(widths[2..].iter().all(|&times| times > CASES / 20), "{:?}", widths);
}

/// With width 2 the wide calls take and give what the plain ones do.
#[test]
fn width_two() {
    let mut generator = Generator::new(16);
    for _ in 0..CASES {
        let case = generator.clean_case();
        let (mut out, mut wide) = (vec![7; case.room], vec![7; case.room]);
        let plain = clean(&case.digits, &mut out);
        assert_eq!(clean_wide(&case.digits, 2, &mut wide), plain, "{:?}", case);
        assert_eq!(wide, out, "{:?}", case);
        let plain = read_back(&case.digits, &mut out);
        assert_eq!(read_back_wide(&case.digits, 2, &mut wide), plain, "{:?}", case);
        assert_eq!(wide, out, "{:?}", case);
        let number = generator.number();
        let plain = recode(&number, &mut out);
        assert_eq!(recode_wide(&number, 2, &mut wide), plain, "{:?}", case);
        assert_eq!(wide, out, "{:?}", case);
    }
}

/// What is written is a width-w NAF of the same value, so cleaning it again changes nothing, or it is too long.
#[test]
fn clean_wide_cases() {
    let mut generator = Generator::new(17);
    let mut tally = Tally::new("clean wide");
    let (mut longest, mut empty, mut copied, mut too_long) = ([0; 9], 0, 0, 0);
    for _ in 0..CASES {
        let case = generator.clean_wide_case();
        let mut expected_out = generator.rng().bytes(case.room);
        let mut out = expected_out.clone();
        let result = clean_wide(&case.digits, case.width, &mut out);
        let expected = common::clean_wide(&case.digits, case.width, &mut expected_out);
        assert_eq!((&result, &out), (&expected, &expected_out), "{:?}", case);
        tally.note(&result);
        let length = match result {
            Ok(length) => length,
            Err(_) => continue,
        };
        longest[case.width as usize] = length.max(longest[case.width as usize]);
        empty += usize::from(length == 0);
        copied += usize::from(length > 0 && out[..length] == case.digits);
        let mut again = vec![7; length];
        let result = clean_wide(&out[..length], case.width, &mut again);
        if length > STRING_DIGITS {
            let refused = common::refusal(STRING_TOO_LONG, 0);
            assert_eq!((result, &again), (Err(refused), &vec![7; length]), "{:?}", case);
            too_long += 1;
        } else {
            assert_eq!((result, &again[..]), (Ok(length), &out[..length]), "{:?}", case);
        }
    }
    tally.assert_all(&[0, 3, 4, 5, 6]);
    println!("{:?}", (longest, empty, copied, too_long));
    assert!(empty > 100 && copied > 100 && too_long > 100);
    let most = |width: usize| STRING_DIGITS + width - usize::from(width == 2);
    assert!((2..=8).all(|width| longest[width] == most(width)), "{:?}", longest);
}

#[test]
fn read_back_wide_cases() {
    let mut generator = Generator::new(18);
    let mut tally = Tally::new("read wide");
    let (mut signs, mut zeros, mut turned, mut longest) = ([0; 2], 0, 0, 0);
    for _ in 0..CASES {
        let case = generator.read_back_wide_case();
        let mut expected_out = generator.rng().bytes(case.room);
        let mut out = expected_out.clone();
        let result = read_back_wide(&case.digits, case.width, &mut out);
        let expected = common::read_back_wide(&case.digits, case.width, &mut expected_out);
        assert_eq!((&result, &out), (&expected, &expected_out), "{:?}", case);
        tally.note(&result);
        match result {
            Ok((_, 0)) => zeros += 1,
            Ok((sign, length)) => {
                signs[usize::from(sign)] += 1;
                let top = trimmed(&case.digits).last().map(|&top| (top as i8) < 0);
                turned += usize::from(top != Some(sign == 1));
                longest += usize::from(length == READ_BACK_WIDE_ROOM);
            }
            _ => {}
        }
    }
    tally.assert_all(&[0, 3, 4, 5, 6]);
    println!("{:?}", (signs, zeros, turned, longest));
    assert!(zeros > 100 && signs[0] > 1000 && signs[1] > 1000 && turned > 300 && longest > 100);
}

/// Every length of a wide digit string up to two more than the limit, every byte at the lowest place, and every
/// place with a bad byte.
#[test]
fn wide_strings_of_every_length() {
    let mut generator = Generator::new(19);
    for length in 0..=STRING_DIGITS + 2 {
        let width = 2 + length as u32 % 7;
        let mut string = generator.wide_digit_string(width);
        string.resize(length, (1 << (width - 1)) - 1);
        for bad in [None, Some(0), Some(length / 2), length.checked_sub(1)] {
            let mut string = string.clone();
            if let Some(byte) = bad.and_then(|place| string.get_mut(place)) {
                *byte = 0x80;
            }
            let (mut out, mut expected_out) = ([7; CLEAN_WIDE_ROOM], [7; CLEAN_WIDE_ROOM]);
            let expected = common::clean_wide(&string, width, &mut expected_out);
            assert_eq!(clean_wide(&string, width, &mut out), expected, "{:?}", string);
            assert_eq!(out, expected_out, "{:?}", string);
            let expected = common::read_back_wide(&string, width, &mut expected_out);
            assert_eq!(read_back_wide(&string, width, &mut out), expected, "{:?}", string);
            assert_eq!(out, expected_out, "{:?}", string);
        }
    }
    for width in NAF_WIDTHS {
        for byte in 0..=255 {
            let string = [byte, 0, 1];
            let (mut out, mut expected_out) = ([7; 12], [7; 12]);
            let expected = common::clean_wide(&string, width, &mut expected_out);
            assert_eq!(clean_wide(&string, width, &mut out), expected);
            assert_eq!(out, expected_out);
        }
    }
}

#[test]
fn plan_cases() {
    let mut generator = Generator::new(5);
    let mut tally = Tally::new("plan");
    let mut planned = std::collections::HashMap::new();
    for _ in 0..CASES {
        let case = generator.plan_case();
        let mut expected_out = generator.rng().bytes(case.room);
        let mut out = expected_out.clone();
        let result = plan(&case.number, case.method, case.width, &mut out);
        let expected = common::plan(&case.number, case.method, case.width, &mut expected_out);
        assert_eq!((&result, &out), (&expected, &expected_out), "{:?}", case);
        tally.note_number(&result, &case.number, |number| {
            plan(number, case.method, case.width, &mut vec![0; case.room])
        });
        if result.is_ok() {
            *planned.entry((case.method, case.width)).or_insert(0) += 1;
        }
    }
    tally.assert_all(&[0, 1, 2, 3, 6, 13]);
    tally.assert_without(&[2, 3, 6]);
    for method in methods() {
        assert!(planned[&method] > CASES / 100);
    }
}

#[test]
fn forecast_cases() {
    let mut generator = Generator::new(6);
    let mut tally = Tally::new("forecast");
    for _ in 0..CASES {
        let case = generator.forecast_case();
        let result = forecast(&case.number, case.method, case.width);
        let expected = common::forecast(&case.number, case.method, case.width);
        assert_eq!(result, expected, "{:?}", case);
        tally.note_number(&result, &case.number, |number| {
            forecast(number, case.method, case.width)
        });
    }
    tally.assert_all(&[0, 1, 2, 3, 13]);
    tally.assert_without(&[2, 3]);
}

#[test]
fn check_cases() {
    let mut generator = Generator::new(7);
    let mut tally = Tally::new("check");
    let (mut full, mut empty, mut below_zero, mut minus, mut large) = (0, 0, 0, 0, 0);
    // Accepted plans with hidden doublings, in both ways.
    let mut hidden = [0; 2];
    // Accepted plans whose largest size has more bits than the number, and those in which one below zero has
    // more bits than all above.
    let mut largest = [0; 2];
    for _ in 0..CASES {
        let case = generator.check_case();
        let mut expected_space = generator.rng().bytes(case.room);
        let mut space = expected_space.clone();
        let result = check(&case.number, &case.plan, &mut space);
        let expected = common::check(&case.number, &case.plan, &mut expected_space);
        assert_eq!(result, expected, "{:?}", case);
        assert!(space == expected_space, "{:?}", case);
        tally.note_number(&result, &case.number, |number| {
            check(number, &case.plan, &mut vec![0; case.room])
        });

        let steps = case.plan.len() / STEP_BYTES;
        let mut records = space.chunks(RECORD_BYTES).take(steps + 1);
        match result {
            Ok(accepted) => {
                let [above, below] = bits_by_sign(&case.plan, &space);
                assert_eq!(accepted.largest_bits, above.max(below), "{:?}", case);
                let bits = common::Big::from_bytes(&case.number).bits().len();
                assert!((bits..=VALUE_BITS).contains(&accepted.largest_bits), "{:?}", case);
                largest[0] += usize::from(accepted.largest_bits > bits);
                largest[1] += usize::from(below > above);
                full += usize::from(steps == PLAN_STEPS);
                empty += usize::from(steps == 0);
                below_zero += usize::from(records.clone().any(|record| record[0] == 1));
                large += usize::from(records.any(|record| record[VALUE_BYTES] == 0xFF));
                for (plans, steps) in hidden.iter_mut().zip(hidden_doublings(&case.plan, &space)) {
                    *plans += usize::from(steps > 0);
                }
            }
            Err(Refusal { number: WRONG_END, .. }) => {
                let last = records.next_back().unwrap();
                let end = common::Big::from_bytes(&last[1..]);
                let same_size = end == common::Big::from_bytes(&case.number);
                minus += usize::from(last[0] == 1 && same_size);
            }
            _ => {}
        }
    }
    tally.assert_all(&[0, 1, 2, 7, 8, 9, 10, 11, 12, 13]);
    tally.assert_without(&[2, 7, 8, 9, 10, 11, 12]);
    println!("{:?}", (full, empty, below_zero, minus, large, hidden, largest));
    assert!(full > 100 && empty > 100 && below_zero > 100 && minus > 100 && large > 100);
    assert!(hidden[0] > 500 && hidden[1] > 500);
    assert!(largest[0] > 500 && largest[1] > 300);
}

/// Values that differ in one bit are not equal, whichever bit it is.
#[test]
fn values_one_bit_apart() {
    for place in 0..VALUE_BITS {
        let plan = one_bit_apart(place);
        let mut space = vec![0; work_space(plan.len() / STEP_BYTES)];
        let mut expected_space = space.clone();
        let result = check(&[2], &plan, &mut space);
        assert_eq!(result, common::check(&[2], &plan, &mut expected_space), "{}", place);
        assert!(space == expected_space, "{}", place);
        // The largest cannot be doubled.
        let hidden = if place < VALUE_BITS - 1 { [2, 2] } else { [0, 0] };
        assert_eq!(hidden_doublings(&plan, &space), hidden, "{}", place);
        let accepted = Accepted {
            counts: Counts {
                doublings: VALUE_BITS + hidden[0] + hidden[1],
                additions: 5,
                subtractions: 8,
            },
            // Of 2^TOP, or of what is added to it.
            largest_bits: VALUE_BITS,
        };
        assert_eq!(result, Ok(accepted), "{}", place);
    }
}

/// Every number of bits that a size may have, from the smallest such size to the largest, on either side of zero.
#[test]
fn largest_sizes() {
    for bits in 3..=VALUE_BITS {
        for (is_ones, is_below_zero) in [(false, false), (true, false), (false, true), (true, true)] {
            let plan = largest_of(bits, is_ones, is_below_zero);
            let mut space = vec![0; work_space(plan.len() / STEP_BYTES)];
            let mut expected_space = space.clone();
            let result = check(&[2], &plan, &mut space);
            assert_eq!(result, common::check(&[2], &plan, &mut expected_space), "{}", bits);
            assert!(space == expected_space, "{}", bits);
            assert_eq!(result.map(|accepted| accepted.largest_bits), Ok(bits));
            let [above, below] = bits_by_sign(&plan, &space);
            let expected = if is_below_zero { [bits - 1, bits] } else { [bits, 0] };
            assert_eq!([above, below], expected, "{}", bits);
        }
    }
}

/// Every kind of padding comes up in every call that takes a number.
#[test]
fn kinds_of_padding() {
    type Kind = fn(&[u8]) -> bool;
    let kinds: [(&str, Kind); 5] = [
        ("zero in one byte", |number| number == [0]),
        ("zero in several", |number| {
            (2..=NUMBER_BYTES).contains(&number.len()) && trimmed(number).is_empty()
        }),
        ("1", |number| {
            (2..=NUMBER_BYTES).contains(&number.len()) && trimmed(number) == [1]
        }),
        ("the longest", |number| {
            number.len() == NUMBER_BYTES && number.ends_with(&[0])
        }),
        ("too long", |number| {
            number.len() == NUMBER_BYTES + 1 && number.ends_with(&[0])
        }),
    ];
    type Next = fn(&mut Generator) -> Vec<u8>;
    let calls: [(&str, Next); 7] = [
        ("recode", |generator| generator.recode_case().number),
        ("recode modified", |generator| generator.recode_modified_case().number),
        ("recode wide", |generator| generator.recode_wide_case().number),
        ("take", |generator| generator.take_case().number),
        ("plan", |generator| generator.plan_case().number),
        ("forecast", |generator| generator.forecast_case().number),
        ("check", |generator| generator.check_case().number),
    ];
    for (call, next) in calls {
        let mut generator = Generator::new(9);
        let numbers: Vec<Vec<u8>> = (0..CASES).map(|_| next(&mut generator)).collect();
        for (kind, is_it) in kinds {
            let times = numbers.iter().filter(|number| is_it(number)).count();
            assert!(times > 100, "{}: {}: {}", call, kind, times);
        }
    }
}

#[test]
fn same_seed_same_cases() {
    let (mut a, mut b) = (Generator::new(8), Generator::new(8));
    for _ in 0..100 {
        assert_eq!(a.recode_case(), b.recode_case());
        assert_eq!(a.recode_modified_case(), b.recode_modified_case());
        assert_eq!(a.clean_case(), b.clean_case());
        assert_eq!(a.recode_wide_case(), b.recode_wide_case());
        assert_eq!(a.clean_wide_case(), b.clean_wide_case());
        assert_eq!(a.read_back_wide_case(), b.read_back_wide_case());
        assert_eq!(a.plan_case(), b.plan_case());
        assert_eq!(a.check_case(), b.check_case());
    }
}
