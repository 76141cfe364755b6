//! Numbers to try by hand, and slips that are easy to make.

use reference::generate::hidden_doublings;
use reference::limits::*;
use reference::refusal::*;
use reference::*;

fn refusal(number: u8, place: usize) -> Refusal {
    Refusal { number, place }
}

/// Digits most significant first, as prose writes them.
fn bytes(digits: &[i8]) -> Vec<u8> {
    digits.iter().rev().map(|&digit| digit as u8).collect()
}

fn recoded(number: &[u8]) -> Vec<u8> {
    let mut out = [7; RECODE_ROOM + 40];
    let length = recode(number, &mut out).unwrap();
    assert!(out[length..].iter().all(|&byte| byte == 7));
    out[..length].to_vec()
}

fn recoded_modified(number: &[u8]) -> Vec<u8> {
    let mut out = [7; RECODE_ROOM + 40];
    let length = recode_modified(number, &mut out).unwrap();
    assert!(out[length..].iter().all(|&byte| byte == 7));
    out[..length].to_vec()
}

fn cleaned(digits: &[u8]) -> Vec<u8> {
    let mut out = [7; CLEAN_ROOM + 40];
    let length = clean(digits, &mut out).unwrap();
    assert!(out[length..].iter().all(|&byte| byte == 7));
    out[..length].to_vec()
}

fn recoded_wide(number: &[u8], width: u32) -> Vec<u8> {
    let mut out = [7; RECODE_ROOM + 40];
    let length = recode_wide(number, width, &mut out).unwrap();
    assert!(out[length..].iter().all(|&byte| byte == 7));
    out[..length].to_vec()
}

fn cleaned_wide(digits: &[u8], width: u32) -> Vec<u8> {
    let mut out = [7; CLEAN_WIDE_ROOM + 40];
    let length = clean_wide(digits, width, &mut out).unwrap();
    assert!(out[length..].iter().all(|&byte| byte == 7));
    out[..length].to_vec()
}

/// The value of a wide digit string of few digits.
fn value_wide(digits: &[u8], width: u32) -> i64 {
    let mut out = [0; 8];
    let (sign, _) = read_back_wide(digits, width, &mut out).unwrap();
    match sign {
        0 => i64::from_le_bytes(out),
        _ => -i64::from_le_bytes(out),
    }
}

fn planned(number: &[u8], method: u32, width: u32) -> Vec<u8> {
    let mut out = [7; PLAN_ROOM + 40];
    let counts = plan(number, method, width, &mut out).unwrap();
    assert_eq!(forecast(number, method, width), Ok(counts));
    let length = STEP_BYTES * counts.total();
    assert!(out[length..].iter().all(|&byte| byte == 7));
    out[..length].to_vec()
}

fn step(operation: u8, j: u16, k: u16) -> Vec<u8> {
    let mut bytes = vec![operation];
    bytes.extend(j.to_le_bytes());
    bytes.extend(k.to_le_bytes());
    bytes
}

fn counts(doublings: usize, additions: usize, subtractions: usize) -> Counts {
    Counts {
        doublings,
        additions,
        subtractions,
    }
}

fn accepted(counts: Counts, largest_bits: usize) -> Result<Accepted, Refusal> {
    Ok(Accepted { counts, largest_bits })
}

fn values(number: &[u8], steps: &[u8]) -> Vec<i64> {
    let mut space = vec![0; work_space(steps.len() / STEP_BYTES)];
    check(number, steps, &mut space).unwrap();
    space
        .chunks(RECORD_BYTES)
        .map(|record| {
            let size = i64::from_le_bytes(record[1..9].try_into().unwrap());
            if record[0] == 1 {
                -size
            } else {
                size
            }
        })
        .collect()
}

#[test]
fn recoding() {
    let table: [(u8, &[i8]); 8] = [
        (0, &[]),
        (1, &[1]),
        (3, &[1, 0, -1]),
        (7, &[1, 0, 0, -1]),
        (15, &[1, 0, 0, 0, -1]),
        (25, &[1, 0, -1, 0, 0, 1]),
        (27, &[1, 0, 0, -1, 0, -1]),
        (43, &[1, 0, -1, 0, -1, 0, -1]),
    ];
    for (number, digits) in table {
        // Zero has no bytes.
        let number = &[number][usize::from(number == 0)..];
        assert_eq!(recoded(number), bytes(digits));
        let (mut recoder, result) = Recoder::start(number);
        assert_eq!(result, Ok(()));
        for digit in bytes(digits) {
            assert_eq!(recoder.take(), Some(digit));
        }
        let end = recoder;
        assert_eq!((recoder.take(), recoder), (None, end));
    }
}

/// Leading digits 1 0 -1 become 1 1, and no others: not 1 0 0 -1, nor 1 0 1, nor 1 0 -1 further down.
#[test]
fn modified_recoding() {
    let table: [(u8, &[i8]); 16] = [
        (0, &[]),
        (1, &[1]),
        (2, &[1, 0]),
        (3, &[1, 1]),
        (5, &[1, 0, 1]),
        (6, &[1, 1, 0]),
        (7, &[1, 0, 0, -1]),
        (11, &[1, 1, 0, -1]),
        (12, &[1, 1, 0, 0]),
        (13, &[1, 1, 0, 1]),
        (25, &[1, 1, 0, 0, 1]),
        (27, &[1, 0, 0, -1, 0, -1]),
        (43, &[1, 1, 0, -1, 0, -1]),
        (67, &[1, 0, 0, 0, 1, 0, -1]),
        (107, &[1, 0, 0, -1, 0, -1, 0, -1]),
        (255, &[1, 0, 0, 0, 0, 0, 0, 0, -1]),
    ];
    for (number, digits) in table {
        let number = &[number][usize::from(number == 0)..];
        assert_eq!(recoded_modified(number), bytes(digits), "{:?}", number);
        // The plain form is what clean makes of it, and reading it back gives the number.
        assert_eq!(cleaned(&bytes(digits)), recoded(number));
        let mut size = [7; 2];
        assert_eq!(read_back(&bytes(digits), &mut size), Ok((0, number.len())));
        assert_eq!(size[..number.len()], *number);
    }
}

/// 3 * 2^k leads with 1 1, 2^k - 1 with 1 0 0 from k = 3 on, and the form of the longest number has a digit more than
/// it has bits.
#[test]
fn modified_forms_of_every_length() {
    for k in 0..NUMBER_BITS - 1 {
        let mut number = vec![0; (k + 2 + 7) / 8];
        for place in [k, k + 1] {
            number[place / 8] |= 1 << (place % 8);
        }
        let digits = [vec![0; k], vec![1, 1]].concat();
        assert_eq!(recoded_modified(&number), digits);
    }
    for k in 3..=NUMBER_BITS {
        let digits = recoded_modified(&ones(k));
        assert_eq!(digits, [vec![0xFF], vec![0; k - 1], vec![1]].concat());
        assert_eq!(digits, recoded(&ones(k)));
    }
    let mut out = [7; NUMBER_BITS];
    let small = refusal(ROOM_TOO_SMALL, RECODE_ROOM);
    assert_eq!(recode_modified(&[0xFF; NUMBER_BYTES], &mut out), Err(small));
    assert_eq!(out, [7; NUMBER_BITS]);
}

/// The numbers that are recoded by hand, for all widths; from width 7 on 43 is a digit.
#[test]
fn wide_recoding() {
    let table: [(u32, u8, &[i8]); 16] = [
        (3, 3, &[3]),
        (3, 7, &[1, 0, 0, -1]),
        (3, 25, &[3, 0, 0, 1]),
        (3, 27, &[3, 0, 0, 3]),
        (3, 43, &[1, 0, 0, -3, 0, 0, 3]),
        (4, 7, &[7]),
        (4, 15, &[1, 0, 0, 0, -1]),
        (4, 25, &[1, 0, 0, 0, 0, -7]),
        (4, 43, &[3, 0, 0, 0, -5]),
        (5, 15, &[15]),
        (5, 43, &[1, 0, 0, 0, 0, 11]),
        (6, 43, &[1, 0, 0, 0, 0, 0, -21]),
        (7, 43, &[43]),
        (8, 43, &[43]),
        (8, 127, &[127]),
        (8, 129, &[1, 0, 0, 0, 0, 0, 0, 0, -127]),
    ];
    for (width, number, digits) in table {
        assert_eq!(recoded_wide(&[number], width), bytes(digits), "{} {}", number, width);
        assert_eq!(cleaned_wide(&bytes(digits), width), bytes(digits));
        assert_eq!(value_wide(&bytes(digits), width), i64::from(number));
    }
    for width in NAF_WIDTHS {
        assert_eq!(recoded_wide(&[], width), Vec::<u8>::new());
        assert_eq!(recoded_wide(&[1], width), [1]);
        assert_eq!(recoded_wide(&[2], width), [0, 1]);
    }
    for number in 0..=255 {
        let number = &[number][usize::from(number == 0)..];
        assert_eq!(recoded_wide(number, 2), recoded(number));
    }
}

/// The example of Hankerson, Menezes and Vanstone, "Guide to Elliptic Curve Cryptography": the width-w NAFs
/// of 1122334455 for w from 2 to 6.
#[test]
fn textbook_example() {
    const NUMBER: u32 = 1_122_334_455;
    let table: [(u32, &[i8]); 5] = [
        (
            2,
            &[
                1, 0, 0, 0, 1, 0, -1, 0, 0, -1, 0, 1, 0, -1, 0, -1, 0, 0, 0, -1, 0, 0, -1, 0, 0, 0, 0, -1, 0, 0, -1,
            ],
        ),
        (
            3,
            &[
                1, 0, 0, 0, 0, 0, 3, 0, 0, -1, 0, 0, 1, 0, 0, 3, 0, 0, 0, -1, 0, 0, -1, 0, 0, 0, 0, -1, 0, 0, -1,
            ],
        ),
        (
            4,
            &[
                1, 0, 0, 0, 0, 1, 0, 0, 0, 7, 0, 0, 0, 0, 5, 0, 0, 0, 7, 0, 0, 0, 7, 0, 0, 0, -1, 0, 0, 0, 7,
            ],
        ),
        (
            5,
            &[
                1, 0, 0, 0, 0, -15, 0, 0, 0, 0, -9, 0, 0, 0, 0, 0, 11, 0, 0, 0, 0, 0, 0, -9, 0, 0, 0, 0, 0, 0, 0, -9,
            ],
        ),
        (
            6,
            &[
                1, 0, 0, 0, 0, 0, 0, 0, 0, 23, 0, 0, 0, 0, 0, 11, 0, 0, 0, 0, 0, 0, -9, 0, 0, 0, 0, 0, 0, 0, -9,
            ],
        ),
    ];
    for (width, digits) in table {
        assert_eq!(
            recoded_wide(&NUMBER.to_le_bytes(), width),
            bytes(digits),
            "width {}",
            width
        );
        // By plain integers: the value, and how far apart the nonzero digits are.
        let value = digits.iter().fold(0, |value, &digit| 2 * value + i64::from(digit));
        assert_eq!(value, i64::from(NUMBER));
        let places: Vec<usize> = (0..digits.len()).filter(|&place| digits[place] != 0).collect();
        assert!(places.windows(2).all(|pair| pair[1] - pair[0] >= width as usize));
        let is_digit = |digit: i8| digit == 0 || (digit % 2 != 0 && digit.unsigned_abs() < 1 << (width - 1));
        assert!(digits[0] != 0 && digits.iter().all(|&digit| is_digit(digit)));
        assert_eq!(value_wide(&bytes(digits), width), i64::from(NUMBER));
    }
}

/// Of all bytes, 0 and the odd ones of size below 2^(w-1) are digits of width w; 80 is of no width.
#[test]
fn which_bytes_are_wide_digits() {
    for width in NAF_WIDTHS {
        let mut digits = 0;
        for byte in 0..=255u8 {
            let size = i32::from(byte as i8).abs();
            let is_digit = size == 0 || (size % 2 == 1 && size < 1 << (width - 1));
            digits += usize::from(is_digit);
            // Below it, and above it, digits.
            let string = [1, 0, byte, 0, 0xFF, byte];
            let expected = match is_digit {
                true => None,
                false => Some(refusal(NOT_A_DIGIT, 2)),
            };
            let mut out = [7; 20];
            assert_eq!(
                clean_wide(&string, width, &mut out).err(),
                expected,
                "{} {}",
                byte,
                width
            );
            assert_eq!(
                read_back_wide(&string, width, &mut out).err(),
                expected,
                "{} {}",
                byte,
                width
            );
            assert_eq!(out == [7; 20], !is_digit);
        }
        assert_eq!(digits, 1 + (1 << (width - 1)));
    }
}

#[test]
fn wide_cleaning() {
    // The sign is not that of the top digit: 2 - 3.
    assert_eq!(value_wide(&bytes(&[1, -3]), 3), -1);
    assert_eq!(cleaned_wide(&bytes(&[1, -3]), 3), bytes(&[-1]));
    assert_eq!(value_wide(&bytes(&[-1, 3]), 3), 1);
    assert_eq!(cleaned_wide(&bytes(&[-1, 3]), 3), bytes(&[1]));
    assert_eq!(value_wide(&bytes(&[1, 0, 0, -127]), 8), -119);
    // In strings shorter than the width, too.
    assert_eq!(cleaned_wide(&bytes(&[1, 1]), 3), bytes(&[3]));
    assert_eq!(cleaned_wide(&bytes(&[1, 1]), 2), bytes(&[1, 0, -1]));
    assert_eq!(cleaned_wide(&bytes(&[3, 3]), 3), bytes(&[1, 0, 0, 1]));
    assert_eq!(cleaned_wide(&bytes(&[-3, -3]), 3), bytes(&[-1, 0, 0, -1]));
    assert_eq!(cleaned_wide(&bytes(&[1, 1, 1]), 8), bytes(&[7]));
    assert_eq!(cleaned_wide(&bytes(&[0, 0, 5]), 4), bytes(&[5]));
    for width in NAF_WIDTHS {
        assert_eq!(cleaned_wide(&[], width), Vec::<u8>::new());
        assert_eq!(cleaned_wide(&[0; STRING_DIGITS], width), Vec::<u8>::new());
        assert_eq!(read_back_wide(&[], width, &mut []), Ok((0, 0)));
        assert_eq!(read_back_wide(&[0; STRING_DIGITS], width, &mut []), Ok((0, 0)));
    }
}

#[test]
fn cleaning() {
    assert_eq!(cleaned(&bytes(&[1, 1])), bytes(&[1, 0, -1]));
    assert_eq!(cleaned(&bytes(&[-1, 1])), bytes(&[-1]));
    assert_eq!(cleaned(&bytes(&[0, 0, 1])), bytes(&[1]));
    assert_eq!(cleaned(&bytes(&[1, -1, -1])), bytes(&[1]));
    assert_eq!(cleaned(&bytes(&[1, 1, 1])), bytes(&[1, 0, 0, -1]));
    assert_eq!(cleaned(&[]), Vec::<u8>::new());
    assert_eq!(cleaned(&[0; STRING_DIGITS]), Vec::<u8>::new());
}

#[test]
fn plans_for_43() {
    for (method, width, steps) in [(1, 0, 8), (2, 2, 8), (3, 3, 8), (4, 0, 9), (6, 0, 8)] {
        assert_eq!(planned(&[43], method, width).len(), STEP_BYTES * steps);
    }
    assert_eq!(
        values(&[43], &planned(&[43], 4, 0)),
        [1, 2, 4, 3, 6, 12, 11, 22, 44, 43]
    );
}

/// Method 4's rule on 1 1 0 -1 0 -1; the plans of numbers whose two forms are the same; the first few numbers.
#[test]
fn plans_by_modified_naf() {
    let (add, subtract) = (|j, k| step(0, j, k), |j, k| step(1, j, k));
    let steps = [
        add(0, 0),
        add(1, 0),
        add(2, 2),
        add(3, 3),
        subtract(4, 0),
        add(5, 5),
        add(6, 6),
        subtract(7, 0),
    ];
    assert_eq!(planned(&[43], 6, 0), steps.concat());
    assert_eq!(values(&[43], &steps.concat()), [1, 2, 3, 6, 12, 11, 22, 44, 43]);
    assert_eq!(forecast(&[43], 6, 0), Ok(counts(5, 1, 2)));
    assert_eq!(planned(&[1], 6, 0), Vec::<u8>::new());
    assert_eq!(planned(&[2], 6, 0), add(0, 0));
    assert_eq!(planned(&[3], 6, 0), [add(0, 0), add(1, 0)].concat());
    assert_eq!(planned(&[6], 6, 0), [add(0, 0), add(1, 0), add(2, 2)].concat());
    for number in [5, 7, 15, 27, 67, 255] {
        assert_eq!(planned(&[number], 6, 0), planned(&[number], 4, 0));
    }
    assert_eq!(values(&[25], &planned(&[25], 6, 0)), [1, 2, 3, 6, 12, 24, 25]);
}

#[test]
fn plan_for_3() {
    assert_eq!(planned(&[3], 1, 0), [0, 0, 0, 0, 0, 0, 1, 0, 0, 0]);
}

/// 2^k - 1.
fn ones(k: usize) -> Vec<u8> {
    let mut number = vec![0; (k + 7) / 8];
    for place in 0..k {
        number[place / 8] |= 1 << (place % 8);
    }
    number
}

#[test]
fn one_below_a_power_of_two() {
    for k in 2..=NUMBER_BITS {
        let number = ones(k);
        assert_eq!(planned(&number, 1, 0).len(), STEP_BYTES * (2 * k - 2));
        assert_eq!(planned(&number, 4, 0).len(), STEP_BYTES * (k + 1));
        // 3 is 1 1, of two digits.
        let steps = if k == 2 { 2 } else { k + 1 };
        assert_eq!(planned(&number, 6, 0).len(), STEP_BYTES * steps);
    }
}

#[test]
fn longest_number() {
    let number = [0xFF; NUMBER_BYTES];
    let digits = recoded(&number);
    assert_eq!(digits.len(), NUMBER_BITS + 1);
    assert_eq!((digits[0], digits[NUMBER_BITS]), (0xFF, 0x01));
    let mut out = [7; NUMBER_BITS];
    assert_eq!(recode(&number, &mut out), Err(refusal(ROOM_TOO_SMALL, NUMBER_BITS + 1)));
    assert_eq!(out, [7; NUMBER_BITS]);
}

#[test]
fn number_too_long() {
    let mut padded = [0xFF; NUMBER_BYTES + 1];
    padded[NUMBER_BYTES] = 0;
    for number in [[0; NUMBER_BYTES + 1], [0xFF; NUMBER_BYTES + 1], padded] {
        assert_eq!(recode(&number, &mut []), Err(refusal(NUMBER_TOO_LONG, 0)));
        assert_eq!(recode_modified(&number, &mut []), Err(refusal(NUMBER_TOO_LONG, 0)));
        assert_eq!(plan(&number, 9, 9, &mut []), Err(refusal(NUMBER_TOO_LONG, 0)));
        assert_eq!(forecast(&number, 9, 9), Err(refusal(NUMBER_TOO_LONG, 0)));
        assert_eq!(check(&number, &[1], &mut []), Err(refusal(NUMBER_TOO_LONG, 0)));
        let (mut recoder, result) = Recoder::start(&number);
        assert_eq!(result, Err(refusal(NUMBER_TOO_LONG, 0)));
        assert_eq!(recoder, Recoder::start(&[]).0);
        assert_eq!((recoder.take(), recoder), (None, Recoder::start(&[]).0));
    }
}

/// Refused whatever is wrong besides; only the length is tested before.
#[test]
fn highest_byte_is_zero() {
    let refused = refusal(HIGHEST_BYTE_IS_ZERO, 0);
    let mut longest = [0xFF; NUMBER_BYTES];
    longest[NUMBER_BYTES - 1] = 0;
    for number in [
        &[0][..],
        &[0, 0, 0],
        &[1, 0],
        &[43, 0],
        &[43, 0, 0],
        &[0, 1, 0],
        &[0; NUMBER_BYTES],
        &longest,
    ] {
        for room in [0, 1000] {
            let mut out = vec![7; room];
            assert_eq!(recode(number, &mut out), Err(refused));
            assert_eq!(recode_modified(number, &mut out), Err(refused));
            for (method, width) in [(1, 0), (4, 0), (6, 0), (9, 9)] {
                assert_eq!(plan(number, method, width, &mut out), Err(refused));
                assert_eq!(forecast(number, method, width), Err(refused));
            }
            for steps in [vec![], vec![0; STEP_BYTES - 1], step(0, 0, 0), step(2, 0, 0)] {
                assert_eq!(check(number, &steps, &mut out), Err(refused));
            }
            assert_eq!(out, vec![7; room]);
        }
        let (mut recoder, result) = Recoder::start(number);
        assert_eq!(result, Err(refused));
        assert_eq!(recoder, Recoder::start(&[]).0);
        assert_eq!((recoder.take(), recoder), (None, Recoder::start(&[]).0));
    }
    // A zero byte below the highest is no fault.
    assert_eq!(forecast(&[0, 1], 1, 0).unwrap().total(), 8);
}

#[test]
fn longest_digit_string() {
    let digits = cleaned(&[1; STRING_DIGITS]);
    assert_eq!(digits.len(), STRING_DIGITS + 1);
    assert_eq!(digits[0], 0xFF);
    assert!(digits[1..STRING_DIGITS].iter().all(|&digit| digit == 0));
    assert_eq!(digits[STRING_DIGITS], 1);
    let mut out = [7; CLEAN_ROOM];
    assert_eq!(clean(&digits, &mut out), Err(refusal(STRING_TOO_LONG, 0)));
    assert_eq!(read_back(&digits, &mut out), Err(refusal(STRING_TOO_LONG, 0)));
    assert_eq!(
        clean(&[9; STRING_DIGITS + 1], &mut out),
        Err(refusal(STRING_TOO_LONG, 0))
    );
    assert_eq!(clean(&[9; STRING_DIGITS], &mut out), Err(refusal(NOT_A_DIGIT, 0)));
    assert_eq!(out, [7; CLEAN_ROOM]);
    assert_eq!(read_back(&[0xFF; STRING_DIGITS], &mut out), Ok((1, READ_BACK_ROOM)));
    assert_eq!(out[..READ_BACK_ROOM], [0xFF; READ_BACK_ROOM]);
    assert!(out[READ_BACK_ROOM..].iter().all(|&byte| byte == 7));
}

/// For each width: the largest digits, which are longest once cleaned if a 1 stands below as many of them as
/// the width; what is written is then longer than a string may be.
#[test]
fn longest_wide_strings() {
    let too_long = refusal(STRING_TOO_LONG, 0);
    for width in NAF_WIDTHS {
        let w = width as usize;
        let largest = (1u8 << (w - 1)) - 1;
        // With width 2 a digit is no larger than 1, so that there is one bit less.
        let bits = STRING_DIGITS + w - 1 - usize::from(w == 2);
        // 2^(w-1) - 1 at each place: that, 2^STRING_DIGITS times, less that.
        let digits = cleaned_wide(&vec![largest; STRING_DIGITS], width);
        assert_eq!(digits.len(), STRING_DIGITS + 1);
        assert_eq!((digits[0], digits[STRING_DIGITS]), (largest.wrapping_neg(), largest));
        assert!(digits[1..STRING_DIGITS].iter().all(|&digit| digit == 0));
        let mut size = [7; READ_BACK_WIDE_ROOM + 1];
        let minus = vec![largest.wrapping_neg(); STRING_DIGITS];
        let length = (bits + 7) / 8;
        assert_eq!(read_back_wide(&minus, width, &mut size), Ok((1, length)));
        assert_eq!((size[0], size[length]), (largest.wrapping_neg(), 7));
        assert_eq!(
            read_back_wide(&minus, width, &mut size[..length - 1]),
            Err(refusal(ROOM_TOO_SMALL, length))
        );

        // 7 7 7 7 1, which is 1 0 0 0 -3 0 0 0 3, and the like.
        let mut string = vec![0; STRING_DIGITS];
        string[STRING_DIGITS - w - 1] = 1;
        string[STRING_DIGITS - w..].fill(largest);
        let longest = cleaned_wide(&string, width);
        assert_eq!(longest.len(), bits + 1);
        assert_eq!(longest.last(), Some(&1));
        let mut out = vec![7; longest.len() - 1];
        let small = refusal(ROOM_TOO_SMALL, longest.len());
        assert_eq!(clean_wide(&string, width, &mut out), Err(small));
        assert!(out.iter().all(|&byte| byte == 7));

        for string in [longest, digits, vec![0; STRING_DIGITS + 1], vec![2; STRING_DIGITS + 1]] {
            assert_eq!(clean_wide(&string, width, &mut out), Err(too_long));
            assert_eq!(read_back_wide(&string, width, &mut out), Err(too_long));
        }
        assert!(out.iter().all(|&byte| byte == 7));
    }
    assert_eq!(CLEAN_WIDE_ROOM, STRING_DIGITS + 8);
    assert_eq!(READ_BACK_WIDE_ROOM, STRING_DIGITS / 8 + 1);
}

/// All ones have one digit more than they have bits, by every width.
#[test]
fn longest_number_wide() {
    for width in NAF_WIDTHS {
        let digits = recoded_wide(&[0xFF; NUMBER_BYTES], width);
        assert_eq!((digits.len(), digits[0], digits[NUMBER_BITS]), (RECODE_ROOM, 0xFF, 1));
        let mut out = [7; NUMBER_BITS];
        let small = refusal(ROOM_TOO_SMALL, RECODE_ROOM);
        assert_eq!(recode_wide(&[0xFF; NUMBER_BYTES], width, &mut out), Err(small));
        assert_eq!(out, [7; NUMBER_BITS]);
    }
}

/// Recode: 1, 13, 3, 6. Clean and read back: 3, 5, 4, 6. Each is given beside all that come later.
#[test]
fn wide_refusals() {
    let (long, padded) = (refusal(NUMBER_TOO_LONG, 0), refusal(HIGHEST_BYTE_IS_ZERO, 0));
    let no_width = refusal(METHOD_OR_WIDTH, 0);
    let widths = [0, 1, 2, 8, 9, 10, 256, 257, 258, 1 << 31, u32::MAX];
    for width in widths {
        let is_width = NAF_WIDTHS.contains(&width);
        for number in [[0; NUMBER_BYTES + 1], [0xFF; NUMBER_BYTES + 1]] {
            assert_eq!(recode_wide(&number, width, &mut []), Err(long));
        }
        for number in [&[0][..], &[43, 0], &[0; NUMBER_BYTES]] {
            assert_eq!(recode_wide(number, width, &mut []), Err(padded));
        }
        // The empty number, and an empty string, need no room.
        let expected = if is_width { Ok(0) } else { Err(no_width) };
        assert_eq!(recode_wide(&[], width, &mut []), expected);
        assert_eq!(clean_wide(&[], width, &mut []), expected);
        assert_eq!(read_back_wide(&[], width, &mut []).map(|(_, length)| length), expected);

        let expected = if is_width { refusal(ROOM_TOO_SMALL, 1) } else { no_width };
        assert_eq!(recode_wide(&[1], width, &mut []), Err(expected));
        assert_eq!(clean_wide(&[1], width, &mut []), Err(expected));
        assert_eq!(read_back_wide(&[1], width, &mut []), Err(expected));
        let expected = match is_width {
            true => refusal(STRING_TOO_LONG, 0),
            false => no_width,
        };
        assert_eq!(clean_wide(&[2; STRING_DIGITS + 1], width, &mut []), Err(expected));
        assert_eq!(read_back_wide(&[2; STRING_DIGITS + 1], width, &mut []), Err(expected));
        let expected = if is_width { refusal(NOT_A_DIGIT, 1) } else { no_width };
        assert_eq!(clean_wide(&[1, 2, 2], width, &mut []), Err(expected));
        assert_eq!(read_back_wide(&[1, 2, 2], width, &mut []), Err(expected));
    }
}

#[test]
fn reading_back_zero() {
    let mut out = [7; 4];
    assert_eq!(read_back(&[], &mut out), Ok((0, 0)));
    assert_eq!(read_back(&[0; STRING_DIGITS], &mut out), Ok((0, 0)));
    assert_eq!(out, [7; 4]);
}

#[test]
fn empty_plan() {
    let mut space = [7; RECORD_BYTES + 1];
    assert_eq!(check(&[2], &[], &mut space), Err(refusal(WRONG_END, 0)));
    assert_eq!(check(&[1], &[], &mut space), accepted(counts(0, 0, 0), 1));
    assert_eq!(space[..2], [0, 1]);
    assert!(space[2..RECORD_BYTES].iter().all(|&byte| byte == 0));
    assert_eq!(space[RECORD_BYTES], 7);
    assert_eq!(
        check(&[1], &[], &mut space[..RECORD_BYTES - 1]),
        Err(refusal(WORK_SPACE_TOO_SHORT, 0))
    );
}

#[test]
fn values_below_zero() {
    let steps = [step(0, 0, 0), step(1, 0, 1), step(1, 1, 2)].concat();
    assert_eq!(values(&[3], &steps), [1, 2, -1, 3]);
    let answer = check(&[3], &steps, &mut [0; work_space(3)]);
    assert_eq!(answer, accepted(counts(1, 0, 2), 2));
}

/// Values decide, not positions: doublings at two positions, and steps near them that are none.
#[test]
fn equal_and_opposite_values() {
    let (add, subtract) = (|j, k| step(0, j, k), |j, k| step(1, j, k));
    for (steps, chain, expected, hidden) in [
        (
            vec![add(0, 0), add(0, 0), add(1, 2)],
            vec![1, 2, 2, 4],
            counts(3, 0, 0),
            [1, 0],
        ),
        (
            vec![add(0, 0), subtract(0, 1), subtract(0, 2)],
            vec![1, 2, -1, 2],
            counts(2, 0, 1),
            [0, 1],
        ),
        // -1 twice, added: -2; then 1 - (-2) = 3.
        (
            vec![add(0, 0), subtract(0, 1), subtract(0, 1), add(2, 3), subtract(0, 4)],
            vec![1, 2, -1, -1, -2, 3],
            counts(2, 0, 3),
            [1, 0],
        ),
        // -1 - 1 = -2, the negative value first.
        (
            vec![add(0, 0), subtract(0, 1), subtract(2, 0), subtract(0, 3)],
            vec![1, 2, -1, -2, 3],
            counts(2, 0, 2),
            [0, 1],
        ),
        // 2 and -1, and 2 and 1, are neither equal nor opposite.
        (
            vec![add(0, 0), subtract(0, 1), add(1, 2), subtract(1, 3), subtract(1, 2)],
            vec![1, 2, -1, 1, 1, 3],
            counts(1, 1, 3),
            [0, 0],
        ),
        // A value below zero at one position, then opposite ones at two.
        (
            vec![add(0, 0), subtract(0, 1), add(2, 2), subtract(1, 3)],
            vec![1, 2, -1, -2, 4],
            counts(3, 0, 1),
            [0, 1],
        ),
    ] {
        let number = [*chain.last().unwrap() as u8];
        let steps = steps.concat();
        assert_eq!(values(&number, &steps), chain);
        let mut space = vec![7; work_space(chain.len() - 1) + 9];
        let answer = check(&number, &steps, &mut space);
        assert_eq!(answer.map(|accepted| accepted.counts), Ok(expected), "{:?}", chain);
        assert_eq!(space[work_space(chain.len() - 1)..], [7; 9]);
        assert_eq!(hidden_doublings(&steps, &space), hidden, "{:?}", chain);
    }
    // Added, opposite values are zero, and so are equal ones subtracted, wherever they stand.
    let zero = Err(refusal(VALUE_IS_ZERO, 3));
    for steps in [
        vec![add(0, 0), subtract(0, 1), add(0, 2)],
        vec![add(0, 0), subtract(0, 1), add(2, 0)],
        vec![add(0, 0), add(0, 0), subtract(1, 2)],
        vec![add(0, 0), add(0, 0), subtract(2, 1)],
    ] {
        assert_eq!(check(&[4], &steps.concat(), &mut [7; work_space(3)]), zero);
    }
    // No counts where the end is wrong.
    let steps = [add(0, 0), add(0, 0), add(1, 2)].concat();
    assert_eq!(check(&[5], &steps, &mut [7; work_space(3)]), Err(refusal(WRONG_END, 3)));
}

#[test]
fn minus_the_number() {
    let steps = [step(0, 0, 0), step(0, 1, 0), step(1, 0, 2)].concat();
    assert_eq!(check(&[2], &steps, &mut [0; work_space(3)]), Err(refusal(WRONG_END, 3)));
}

#[test]
fn largest_values() {
    let doublings: Vec<u8> = (0..VALUE_BITS as u16).flat_map(|i| step(0, i, i)).collect();
    let mut space = vec![7; work_space(VALUE_BITS)];
    assert_eq!(
        check(&[2], &doublings, &mut space),
        Err(refusal(VALUE_TOO_LARGE, VALUE_BITS))
    );
    let (filled, last) = space.split_at(work_space(VALUE_BITS - 1));
    let record = &filled[filled.len() - RECORD_BYTES..];
    assert!(record[..VALUE_BYTES].iter().all(|&byte| byte == 0));
    assert_eq!(record[VALUE_BYTES], 0x80);
    assert_eq!(last, [7; RECORD_BYTES]);
    let sound = &doublings[..STEP_BYTES * (VALUE_BITS - 1)];
    assert_eq!(check(&[2], sound, &mut space), Err(refusal(WRONG_END, VALUE_BITS - 1)));
}

/// The largest size counts, wherever it stands and whatever its sign is; not the number, nor the last value.
#[test]
fn largest_size() {
    let (add, subtract) = (|j, k| step(0, j, k), |j, k| step(1, j, k));
    for (steps, chain, bits) in [
        (vec![], vec![1], 1),
        (vec![add(0, 0)], vec![1, 2], 2),
        (vec![add(0, 0), subtract(1, 0)], vec![1, 2, 1], 2),
        // The last is the largest.
        (
            vec![add(0, 0), add(1, 1), add(2, 2), add(3, 2)],
            vec![1, 2, 4, 8, 12],
            4,
        ),
        // 7, of 3 bits, by NAF.
        (
            vec![add(0, 0), add(1, 1), add(2, 2), subtract(3, 0)],
            vec![1, 2, 4, 8, 7],
            4,
        ),
        // The largest in the middle, and a small end.
        (
            vec![add(0, 0), add(1, 1), add(2, 2), add(3, 3), subtract(4, 0), add(1, 0)],
            vec![1, 2, 4, 8, 16, 15, 3],
            5,
        ),
        // Largest below zero.
        (
            vec![add(0, 0), subtract(0, 1), subtract(2, 1), add(3, 3), add(1, 2)],
            vec![1, 2, -1, -3, -6, 1],
            3,
        ),
        // Then a value above zero of as many bits, and of more.
        (
            vec![
                add(0, 0),
                subtract(0, 1),
                subtract(2, 1),
                add(3, 3),
                subtract(0, 4),
                add(5, 0),
            ],
            vec![1, 2, -1, -3, -6, 7, 8],
            4,
        ),
    ] {
        let number = [*chain.last().unwrap() as u8];
        let steps = steps.concat();
        assert_eq!(values(&number, &steps), chain);
        let mut space = vec![7; work_space(chain.len() - 1)];
        let answer = check(&number, &steps, &mut space);
        assert_eq!(answer.map(|accepted| accepted.largest_bits), Ok(bits), "{:?}", chain);
    }
    assert_eq!(
        planned(&[7], 4, 0),
        [add(0, 0), add(1, 1), add(2, 2), subtract(3, 0)].concat()
    );
}

/// As many bits as a value may have, and back to a number.
#[test]
fn largest_size_at_the_limit() {
    const TOP: u16 = VALUE_BITS as u16 - 1;
    const HIGHEST: u16 = NUMBER_BITS as u16 - 1;
    let doublings = |to: u16| (0..to).flat_map(|i| step(0, i, i)).collect::<Vec<u8>>();
    let mut space = vec![7; work_space(PLAN_STEPS)];
    let mut bits = |number: &[u8], steps: &[Vec<u8>]| {
        let answer = check(number, &steps.concat(), &mut space);
        answer.map(|accepted| accepted.largest_bits)
    };
    // 2^TOP, which is no number.
    let wrong_end = Err(refusal(WRONG_END, VALUE_BITS - 1));
    assert_eq!(bits(&[2], &[doublings(TOP)]), wrong_end);
    // Less 2^(TOP - 1), less 2^(TOP - 2) and so on: the highest power of two that is one.
    let mut down = vec![doublings(TOP)];
    for (latest, place) in (TOP..).zip((HIGHEST..TOP).rev()) {
        down.push(step(1, latest, place));
    }
    let mut number = [0; NUMBER_BYTES];
    number[NUMBER_BYTES - 1] = 0x80;
    assert_eq!(bits(&number, &down), Ok(VALUE_BITS));
    assert_eq!(bits(&number, &[doublings(HIGHEST)]), Ok(NUMBER_BITS));
    // All ones, above zero and below, then 2; the same with one bit less.
    for (top, expected) in [(TOP, VALUE_BITS), (TOP - 1, VALUE_BITS - 1)] {
        for ones in [
            [step(1, top, 0), step(0, top, top + 1)],
            [step(1, 0, top), step(1, top + 1, top)],
        ] {
            let steps = [doublings(top), ones.concat(), step(0, 0, 0)];
            assert_eq!(bits(&[2], &steps), Ok(expected));
        }
    }
}

#[test]
fn longest_plan() {
    let steps = step(0, 0, 0).repeat(PLAN_STEPS + 1);
    let mut space = vec![0; work_space(PLAN_STEPS + 1)];
    assert_eq!(check(&[2], &steps, &mut space), Err(refusal(PLAN_LENGTH, 0)));
    assert_eq!(
        check(&[2], &steps[..PLAN_ROOM], &mut space),
        accepted(counts(PLAN_STEPS, 0, 0), 2)
    );
    assert_eq!(
        check(&[2], &steps[..PLAN_ROOM - 1], &mut []),
        Err(refusal(PLAN_LENGTH, 0))
    );
}

#[test]
fn own_position() {
    for bad in [step(0, 1, 0), step(0, 0, 1), step(2, 0, 0), step(255, 0, 0)] {
        let mut space = [7; work_space(1)];
        assert_eq!(check(&[2], &bad, &mut space), Err(refusal(MALFORMED_STEP, 1)));
        assert_eq!(space[RECORD_BYTES..], [7; RECORD_BYTES]);
        assert_eq!(space[..2], [0, 1]);
    }
    let zero = step(1, 0, 0);
    assert_eq!(
        check(&[2], &zero, &mut [7; work_space(1)]),
        Err(refusal(VALUE_IS_ZERO, 1))
    );
}

#[test]
fn window_tables() {
    let widest = *WINDOW_WIDTHS.end();
    // Below 2^d the table of method 2 stops at the number.
    for number in 1..1u8 << widest {
        let steps = planned(&[number], 2, widest);
        assert_eq!(steps.len(), STEP_BYTES * (usize::from(number) - 1));
    }
    // 2 by method 3, width 2: the whole table, then a doubling of position 0.
    let steps = [step(0, 0, 0), step(0, 1, 0), step(0, 0, 0)].concat();
    assert_eq!(planned(&[2], 3, 2), steps);
    assert_eq!(planned(&[1], 3, widest), Vec::<u8>::new());
    assert_eq!(planned(&[3], 3, widest).len(), STEP_BYTES * 2);
    let largest = (1u8 << widest) - 1;
    assert_eq!(planned(&[largest], 3, widest).len(), STEP_BYTES * (1 << (widest - 1)));
}

/// The table of method 5 is method 3's for one bit less, cut at the number if that is odd and in it.
#[test]
fn plans_by_wide_naf() {
    let (add, subtract) = (|j, k| step(0, j, k), |j, k| step(1, j, k));
    for width in NAF_WIDTHS {
        assert_eq!(planned(&[1], 5, width), Vec::<u8>::new());
        // Odd and below 2^(w-1): nothing but the table, as method 3 has it.
        for number in (1..1u8 << (width - 1)).step_by(2) {
            let steps = planned(&[number], 5, width);
            let position = if number == 1 { 0 } else { (usize::from(number) + 1) / 2 };
            assert_eq!(steps.len(), STEP_BYTES * position, "{} by width {}", number, width);
            if WINDOW_WIDTHS.contains(&(width - 1)) {
                assert_eq!(steps, planned(&[number], 3, width - 1));
            }
        }
        // Even and below 2^(w-1): the whole table, then the doublings.
        for number in (2..1u8 << (width - 1)).step_by(2) {
            let table = if width == 2 { 0 } else { 1 << (width - 2) };
            let doublings = number.trailing_zeros() as usize;
            let steps = planned(&[number], 5, width);
            assert_eq!(
                steps.len(),
                STEP_BYTES * (table + doublings),
                "{} by width {}",
                number,
                width
            );
            let reached = values(&[number], &steps);
            assert_eq!(reached[table], (1 << (width - 1)) - 1);
        }
    }
    assert_eq!(planned(&[2], 5, 3), [add(0, 0), add(1, 0), add(0, 0)].concat());
    let table = [add(0, 0), add(1, 0), add(2, 1), add(3, 1)].concat();
    assert_eq!(planned(&[6], 5, 4), [&table[..], &add(2, 2)].concat());
    // 3 0 0 0 -5.
    let scan = [add(2, 2), add(5, 5), add(6, 6), add(7, 7), subtract(8, 3)].concat();
    assert_eq!(planned(&[43], 5, 4), [table, scan].concat());
    assert_eq!(values(&[43], &planned(&[43], 5, 4)), [1, 2, 3, 5, 7, 6, 12, 24, 48, 43]);
    // 1 0 0 -3 0 0 3.
    assert_eq!(
        values(&[43], &planned(&[43], 5, 3)),
        [1, 2, 3, 2, 4, 8, 5, 10, 20, 40, 43]
    );
    // With width 2 it is method 4.
    for number in 1..=255 {
        assert_eq!(planned(&[number], 5, 2), planned(&[number], 4, 0));
    }
}

#[test]
fn methods_and_widths() {
    for method in [0, 1, 2, 3, 4, 5, 6, 7, 257, 261, 262, u32::MAX] {
        for width in (0..=NAF_WIDTHS.end() + 2).chain([256, 257, 258, u32::MAX]) {
            let allowed = match method {
                1 | 4 | 6 => width == 0,
                2 | 3 => WINDOW_WIDTHS.contains(&width),
                5 => NAF_WIDTHS.contains(&width),
                _ => false,
            };
            assert_eq!(forecast(&[5], method, width).is_ok(), allowed);
            if !allowed {
                assert_eq!(forecast(&[5], method, width), Err(refusal(METHOD_OR_WIDTH, 0)));
                assert_eq!(plan(&[5], method, width, &mut []), Err(refusal(METHOD_OR_WIDTH, 0)));
            }
            assert_eq!(forecast(&[], method, width), Err(refusal(NUMBER_IS_ZERO, 0)));
            assert_eq!(forecast(&[0], method, width), Err(refusal(HIGHEST_BYTE_IS_ZERO, 0)));
        }
    }
}
