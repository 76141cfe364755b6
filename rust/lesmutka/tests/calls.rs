//! The cases of docs/RULES.md through the safe calls, and what the calls leave in memory.
use lesmutka::*;

type Recode = for<'a> fn(&[u8], &'a mut [i8]) -> Result<&'a [i8], Refusal>;

/// The two calls that recode.
const RECODES: [Recode; 2] = [recode, recode_words];

fn digits_of(number: &[u8]) -> Vec<i8> {
    let [mut digits, by_words] = RECODES.map(|recode| recode(number, &mut [7; RECODE_ROOM]).unwrap().to_vec());
    assert_eq!(digits, by_words);
    digits.reverse();
    digits
}

#[test]
fn recoding() {
    assert_eq!(digits_of(&[]), []);
    assert_eq!(digits_of(&[1]), [1]);
    assert_eq!(digits_of(&[3]), [1, 0, -1]);
    assert_eq!(digits_of(&[7]), [1, 0, 0, -1]);
    assert_eq!(digits_of(&[15]), [1, 0, 0, 0, -1]);
    assert_eq!(digits_of(&[25]), [1, 0, -1, 0, 0, 1]);
    assert_eq!(digits_of(&[27]), [1, 0, 0, -1, 0, -1]);
    assert_eq!(digits_of(&[43]), [1, 0, -1, 0, -1, 0, -1]);
    assert_eq!(digits_of(&[0xff; NUMBER_BYTES]).len(), RECODE_ROOM);
}

#[test]
fn recoding_refused() {
    for recode in RECODES {
        let mut room = [7; RECODE_ROOM - 1];
        assert_eq!(
            recode(&[0xff; NUMBER_BYTES], &mut room),
            Err(Refusal::RoomTooSmall { needed: RECODE_ROOM })
        );
        assert_eq!(recode(&[0; NUMBER_BYTES + 1], &mut room), Err(Refusal::NumberTooLong));
        assert_eq!(room, [7; RECODE_ROOM - 1]);
    }
}

#[test]
fn only_the_answer_is_written() {
    for recode in RECODES {
        let mut room = [7; 5];
        assert_eq!(recode(&[3], &mut room).unwrap(), [-1, 0, 1]);
        assert_eq!(room, [-1, 0, 1, 7, 7]);
    }
}

/// Both recode into every room up to one more than is needed: the same answer, and the same bytes left.
#[test]
fn the_two_recodings_agree() {
    let mut noise = Noise(2);
    for bytes in 0..=NUMBER_BYTES + 1 {
        let other: Vec<u8> = (0..bytes).map(|_| noise.byte()).collect();
        for number in [vec![0xff; bytes], vec![0x55; bytes], vec![0xaa; bytes], other] {
            for room in 0..=8 * bytes + 2 {
                let [plain, by_words] = RECODES.map(|recode| {
                    let mut out = vec![7; room];
                    let length = recode(&number, &mut out).map(<[i8]>::len);
                    (length, out)
                });
                assert_eq!(plain, by_words, "{:x?} into {}", number, room);
            }
        }
    }
}

/// The width-w NAF of a number, most significant digit first.
fn wide_digits_of(number: &[u8], width: u32) -> Vec<i8> {
    let mut room = [7; RECODE_ROOM];
    let mut digits = recode_wide(number, width, &mut room).unwrap().to_vec();
    assert!(room[digits.len()..].iter().all(|&digit| digit == 7));
    digits.reverse();
    digits
}

#[test]
fn wide_recoding() {
    for (width, digits) in [
        (2, &[1, 0, -1, 0, -1, 0, -1][..]),
        (3, &[1, 0, 0, -3, 0, 0, 3]),
        (4, &[3, 0, 0, 0, -5]),
        (5, &[1, 0, 0, 0, 0, 11]),
        (6, &[1, 0, 0, 0, 0, 0, -21]),
        (7, &[43]),
        (8, &[43]),
    ] {
        assert_eq!(wide_digits_of(&[43], width), digits);
        assert_eq!(wide_digits_of(&[], width), []);
        assert_eq!(wide_digits_of(&[1], width), [1]);
        // One digit more than there are bits.
        let ones = wide_digits_of(&[0xff; NUMBER_BYTES], width);
        assert_eq!((ones.len(), ones[0], ones[RECODE_ROOM - 1]), (RECODE_ROOM, 1, -1));
    }
    let mut noise = Noise(3);
    for bytes in 0..=NUMBER_BYTES {
        let number: Vec<u8> = (0..bytes).map(|_| noise.byte()).collect();
        assert_eq!(wide_digits_of(trimmed(&number), 2), digits_of(trimmed(&number)));
    }
}

#[test]
fn wide_recoding_refused() {
    let mut room = [7; RECODE_ROOM];
    for width in [2, 8, 0, 1, 9, 10, 258, u32::MAX] {
        // Beside a width that is none and no room.
        let too_long = recode_wide(&[0; NUMBER_BYTES + 1], width, &mut []);
        assert_eq!(too_long, Err(Refusal::NumberTooLong));
        assert_eq!(recode_wide(&[43, 0], width, &mut []), Err(Refusal::HighestByteIsZero));
    }
    for width in [0, 1, 9, 10, 258, 1 << 31, u32::MAX] {
        for room in [&mut [][..], &mut room] {
            assert_eq!(recode_wide(&[43], width, room), Err(Refusal::MethodOrWidth));
            assert_eq!(recode_wide(&[], width, room), Err(Refusal::MethodOrWidth));
        }
    }
    let small = Err(Refusal::RoomTooSmall { needed: 5 });
    assert_eq!(recode_wide(&[43], 4, &mut room[..4]), small);
    assert_eq!(room, [7; RECODE_ROOM]);
}

/// The modified NAF of a number, most significant digit first.
fn modified_digits_of(number: &[u8]) -> Vec<i8> {
    let mut room = [7; RECODE_ROOM];
    let mut digits = recode_modified(number, &mut room).unwrap().to_vec();
    assert!(room[digits.len()..].iter().all(|&digit| digit == 7));
    digits.reverse();
    digits
}

#[test]
fn modified_recoding() {
    for (number, digits) in [
        (&[][..], &[][..]),
        (&[1], &[1]),
        (&[2], &[1, 0]),
        (&[3], &[1, 1]),
        (&[5], &[1, 0, 1]),
        (&[6], &[1, 1, 0]),
        (&[7], &[1, 0, 0, -1]),
        (&[11], &[1, 1, 0, -1]),
        (&[25], &[1, 1, 0, 0, 1]),
        (&[27], &[1, 0, 0, -1, 0, -1]),
        (&[43], &[1, 1, 0, -1, 0, -1]),
    ] {
        assert_eq!(modified_digits_of(number), digits);
    }
    let ones = modified_digits_of(&[0xff; NUMBER_BYTES]);
    assert_eq!((ones.len(), ones[0], ones[RECODE_ROOM - 1]), (RECODE_ROOM, 1, -1));
    // The canonical string with another lead, of which clean makes that again; read back it is the number.
    let mut noise = Noise(4);
    let mut replaced = [0; 2];
    for bytes in 0..=NUMBER_BYTES {
        for high in [0x80, 0xaa, 0xab, 0xc0, 0xd5, 0xd6, 0xff, noise.byte() | 1] {
            let mut number: Vec<u8> = (0..bytes).map(|_| noise.byte()).collect();
            if let Some(top) = number.last_mut() {
                *top = high;
            }
            let (canonical, modified) = (digits_of(&number), modified_digits_of(&number));
            let expected = match canonical.strip_prefix(&[1, 0, -1]) {
                Some(rest) => [&[1, 1], rest].concat(),
                None => canonical.clone(),
            };
            assert_eq!(modified, expected, "{:x?}", number);
            replaced[usize::from(modified != canonical)] += 1;
            let lowest_first: Vec<i8> = modified.iter().rev().copied().collect();
            let mut room = [7; CLEAN_ROOM];
            let cleaned = clean(&lowest_first, &mut room).unwrap();
            assert!(cleaned.iter().rev().eq(&canonical), "{:x?}", number);
            let mut room = [7; READ_BACK_ROOM];
            let value = read_back(&lowest_first, &mut room).unwrap();
            assert_eq!((value.is_negative, value.size), (false, &number[..]));
        }
    }
    assert!(replaced[0] > 100 && replaced[1] > 100, "{:?}", replaced);
}

#[test]
fn modified_recoding_refused() {
    let mut room = [7; RECODE_ROOM];
    for number in [[0; NUMBER_BYTES + 1], [0xff; NUMBER_BYTES + 1]] {
        assert_eq!(recode_modified(&number, &mut []), Err(Refusal::NumberTooLong));
        assert_eq!(recode_modified(&number, &mut room), Err(Refusal::NumberTooLong));
    }
    for number in [&[0][..], &[43, 0], &[0; NUMBER_BYTES]] {
        assert_eq!(recode_modified(number, &mut []), Err(Refusal::HighestByteIsZero));
        assert_eq!(recode_modified(number, &mut room), Err(Refusal::HighestByteIsZero));
    }
    // 43 has a digit less than its canonical string.
    let small = Err(Refusal::RoomTooSmall { needed: 6 });
    assert_eq!(recode_modified(&[43], &mut room[..5]), small);
    let small = Err(Refusal::RoomTooSmall { needed: RECODE_ROOM });
    assert_eq!(recode_modified(&[0xff; NUMBER_BYTES], &mut room[1..]), small);
    assert_eq!(room, [7; RECODE_ROOM]);
    assert_eq!(recode_modified(&[43], &mut room[..6]).unwrap().len(), 6);
    assert_eq!(recode_modified(&[], &mut []), Ok(&[][..]));
}

#[test]
fn digits_one_by_one() {
    let longest = [[0xff; NUMBER_BYTES], [0x55; NUMBER_BYTES], [0xaa; NUMBER_BYTES]];
    let [ones, odd, even] = &longest;
    for number in [&[][..], &[1], &[43], ones, odd, even] {
        let mut taken = digits(number).unwrap();
        let all: Vec<i8> = taken.by_ref().collect();
        for recode in RECODES {
            assert_eq!(recode(number, &mut [7; RECODE_ROOM]).unwrap(), all);
        }
        assert_eq!(taken.next(), None);
        assert_eq!(taken.next(), None);
    }
    assert_eq!(digits(&[0; NUMBER_BYTES + 1]).unwrap_err(), Refusal::NumberTooLong);
}

#[test]
fn a_clone_goes_on_alone() {
    let mut first = digits(&[43]).unwrap();
    assert_eq!(first.next(), Some(-1));
    let second = first.clone();
    assert_eq!(first.by_ref().count(), 6);
    assert_eq!((first.len(), second.len()), (0, 6));
    assert_eq!(second.collect::<Vec<_>>(), [0, -1, 0, -1, 0, 1]);
}

/// The number without its high zero bytes, which no call takes.
fn trimmed(number: &[u8]) -> &[u8] {
    let length = number.iter().rposition(|&byte| byte != 0).map_or(0, |top| top + 1);
    &number[..length]
}

/// As many digits are left as recode writes, less those taken.
fn digits_left(number: &[u8]) {
    let number = trimmed(number);
    let mut room = [7; RECODE_ROOM];
    let length = recode(number, &mut room).unwrap().len();
    let mut taken = digits(number).unwrap();
    for left in (0..=length).rev() {
        assert_eq!(taken.size_hint(), (left, Some(left)), "{:x?}", number);
        assert_eq!(taken.next().is_some(), left > 0, "{:x?}", number);
    }
    assert_eq!(taken.len(), 0);
}

#[test]
fn how_many_digits_are_left() {
    for number in 0..5000u16 {
        digits_left(&number.to_le_bytes());
    }
    // Each power of two, one less, one more, and a third of it: where the length changes.
    for bit in 0..8 * NUMBER_BYTES {
        let mut power = [0; NUMBER_BYTES];
        power[bit / 8] = 1 << (bit % 8);
        digits_left(&power);
        let mut less = [0; NUMBER_BYTES];
        less[..bit / 8].fill(0xff);
        less[bit / 8] = power[bit / 8] - 1;
        digits_left(&less);
        let third = less.map(|byte| byte & 0x55);
        digits_left(&third);
        digits_left(&less.map(|byte| byte & 0xaa));
        let mut more = third;
        more[0] += 1;
        digits_left(&more);
        power[0] |= 1;
        digits_left(&power);
    }
    let mut noise = Noise(1);
    for _ in 0..3000 {
        let length = noise.next() as usize % (NUMBER_BYTES + 1);
        let number: Vec<u8> = (0..length).map(|_| noise.byte()).collect();
        digits_left(&number);
    }
}

/// Bytes without a pattern (xorshift), some of them runs of 0 or 1.
struct Noise(u64);

impl Noise {
    fn next(&mut self) -> u64 {
        self.0 ^= self.0 << 13;
        self.0 ^= self.0 >> 7;
        self.0 ^= self.0 << 17;
        self.0 >> 8
    }

    fn byte(&mut self) -> u8 {
        let byte = self.next() as u8;
        [0x00, 0xff, 0x55, byte, byte, byte][self.next() as usize % 6]
    }
}

#[test]
fn a_recoder_put_together_by_hand() {
    let mut recoder = sys::Recoder {
        words: [u64::MAX; NUMBER_BYTES / 8 + 1],
    };
    // It stands for the first power of two that is no number: only its top digit is 1.
    for _ in 0..8 * NUMBER_BYTES {
        assert_eq!(unsafe { sys::lesmutka_take(&mut recoder) }, 0);
    }
    assert_eq!(unsafe { sys::lesmutka_take(&mut recoder) }, 1);
    assert_eq!(unsafe { sys::lesmutka_take(&mut recoder) }, sys::DONE);
}

#[test]
fn cleaning() {
    let mut room = [7; CLEAN_ROOM];
    assert_eq!(clean(&[1, 1], &mut room).unwrap(), [-1, 0, 1]);
    assert_eq!(clean(&[1, -1], &mut room).unwrap(), [-1]);
    assert_eq!(clean(&[1, 0, 0], &mut room).unwrap(), [1]);
    assert_eq!(clean(&[-1, -1, 1], &mut room).unwrap(), [1]);
    assert_eq!(clean(&[], &mut []).unwrap(), []);
    let cleaned = clean(&[1; STRING_DIGITS], &mut room).unwrap().to_vec();
    assert_eq!(cleaned.len(), CLEAN_ROOM);
    assert_eq!((cleaned[0], cleaned[STRING_DIGITS]), (-1, 1));
    assert!(cleaned[1..STRING_DIGITS].iter().all(|&digit| digit == 0));
    assert_eq!(clean(&cleaned, &mut room), Err(Refusal::StringTooLong));
    assert_eq!(read_back(&cleaned, &mut []), Err(Refusal::StringTooLong));
    assert_eq!(clean(&[0, 1, 2, 3], &mut room), Err(Refusal::NotADigit { place: 2 }));
    assert_eq!(
        clean(&[1; STRING_DIGITS], &mut [7; STRING_DIGITS]),
        Err(Refusal::RoomTooSmall { needed: CLEAN_ROOM })
    );
}

#[test]
fn reading_back() {
    let mut room = [7; READ_BACK_ROOM];
    let value = read_back(&[-1, 0, -1, 0, -1, 0, 1], &mut room).unwrap();
    assert_eq!((value.is_negative, value.size), (false, &[43][..]));
    let value = read_back(&[0, 0, 0, 0, 0, 0, 0, 0, -1], &mut room).unwrap();
    assert_eq!((value.is_negative, value.size), (true, &[0, 1][..]));
    let value = read_back(&[0, 0], &mut []).unwrap();
    assert_eq!((value.is_negative, value.size), (false, &[][..]));
}

#[test]
fn wide_cleaning() {
    let mut room = [7; CLEAN_WIDE_ROOM];
    assert_eq!(clean_wide(&[1, 1], 2, &mut room).unwrap(), [-1, 0, 1]);
    assert_eq!(clean_wide(&[1, 1], 3, &mut room).unwrap(), [3]);
    assert_eq!(clean_wide(&[3, 3], 3, &mut room).unwrap(), [1, 0, 0, 1]);
    assert_eq!(clean_wide(&[-3, 1], 3, &mut room).unwrap(), [-1]);
    assert_eq!(clean_wide(&[5, 0, 0], 4, &mut room).unwrap(), [5]);
    assert_eq!(clean_wide(&[], 8, &mut []).unwrap(), []);
    for width in LEAST_WIDTH..=LARGEST_WIDTH {
        // As many of the largest digits as the width, above a 1: the longest once it is cleaned.
        let largest = ((1u32 << (width - 1)) - 1) as i8;
        let mut string = [0; STRING_DIGITS];
        let top = STRING_DIGITS - width as usize;
        string[top - 1] = 1;
        string[top..].fill(largest);
        let cleaned = clean_wide(&string, width, &mut room).unwrap().to_vec();
        assert_eq!(cleaned.len(), STRING_DIGITS + width as usize - usize::from(width == 2));
        assert_eq!(clean_wide(&cleaned, width, &mut room), Err(Refusal::StringTooLong));
        assert_eq!(read_back_wide(&cleaned, width, &mut []), Err(Refusal::StringTooLong));
        let small = Err(Refusal::RoomTooSmall { needed: cleaned.len() });
        assert_eq!(clean_wide(&string, width, &mut room[..cleaned.len() - 1]), small);
    }
}

#[test]
fn wide_reading_back() {
    let mut room = [7; READ_BACK_WIDE_ROOM];
    for (digits, width, text) in [
        (&[-5, 0, 0, 0, 3][..], 4, "0x2b"),
        (&[-3, 1], 3, "-0x01"),
        (&[3, -1], 3, "0x01"),
        (&[-127, 0, 0, 1], 8, "-0x77"),
        (&[0, 0, 0, 0, 0, 0, 0, 0, -3], 3, "-0x0300"),
        (&[0, 0], 5, "0"),
        (&[], 5, "0"),
    ] {
        assert_eq!(read_back_wide(digits, width, &mut room).unwrap().to_string(), text);
    }
    let largest = read_back_wide(&[127; STRING_DIGITS], 8, &mut room).unwrap();
    assert_eq!((largest.is_negative, largest.size.len()), (false, READ_BACK_WIDE_ROOM));
    let value = read_back_wide(&[-127; STRING_DIGITS], 8, &mut room[1..]);
    let needed = READ_BACK_WIDE_ROOM;
    assert_eq!(value, Err(Refusal::RoomTooSmall { needed }));
}

/// Which digits a width has, and the order of the refusals: 3, 5, 4, 6.
#[test]
fn wide_digits_refused() {
    for width in LEAST_WIDTH..=LARGEST_WIDTH {
        for digit in i8::MIN..=i8::MAX {
            let is_digit = digit == 0 || (digit % 2 != 0 && u32::from(digit.unsigned_abs()) < 1 << (width - 1));
            let string = [1, 0, digit, digit, 1];
            let expected = match is_digit {
                true => None,
                false => Some(Refusal::NotADigit { place: 2 }),
            };
            assert_eq!(clean_wide(&string, width, &mut [7; 13]).err(), expected);
            assert_eq!(read_back_wide(&string, width, &mut [7; 2]).err(), expected);
            let before_room = expected.unwrap_or(Refusal::RoomTooSmall { needed: 1 });
            assert_eq!(
                read_back_wide(&string, width, &mut []).err().map(Refusal::number),
                Some(before_room.number())
            );
        }
        let too_long = [2; STRING_DIGITS + 1];
        assert_eq!(clean_wide(&too_long, width, &mut []), Err(Refusal::StringTooLong));
        assert_eq!(read_back_wide(&too_long, width, &mut []), Err(Refusal::StringTooLong));
    }
    for width in [0, 1, 9, 10, 258, 1 << 31, u32::MAX] {
        for string in [&[][..], &[1], &[2], &[2; STRING_DIGITS + 1]] {
            assert_eq!(clean_wide(string, width, &mut []), Err(Refusal::MethodOrWidth));
            assert_eq!(read_back_wide(string, width, &mut []), Err(Refusal::MethodOrWidth));
        }
    }
}

#[test]
fn planning() {
    let mut room = [7; PLAN_ROOM];
    for (method, steps) in [
        (Method::Binary, 8),
        (Method::FixedWindows(2), 8),
        (Method::SlidingWindows(3), 8),
        (Method::Naf, 9),
        (Method::WideNaf(2), 9),
        (Method::WideNaf(4), 9),
        (Method::ModifiedNaf, 8),
    ] {
        let plan = plan(&[43], method, &mut room).unwrap();
        assert_eq!(plan.counts.total(), steps);
        assert_eq!(forecast(&[43], method), Ok(plan.counts));
        let mut space = [7; work_space(9)];
        let accepted = Accepted {
            counts: plan.counts,
            largest_bits: 6,
        };
        assert_eq!(check(&[43], plan.bytes, &mut space), Ok(accepted));
    }
    let three = plan(&[3], Method::Binary, &mut room).unwrap();
    assert_eq!(three.bytes, [0, 0, 0, 0, 0, 0, 1, 0, 0, 0]);
    // 3 0 0 0 -5, behind a table of 3, 5 and 7.
    let wide = plan(&[43], Method::WideNaf(4), &mut room).unwrap().steps();
    let texts: Vec<String> = wide.map(|step| step.to_string()).collect();
    let expected = "add(0,0) add(1,0) add(2,1) add(3,1) add(2,2) add(5,5) add(6,6) add(7,7) subtract(8,3)";
    assert_eq!(texts.join(" "), expected);
    for width in LEAST_WIDTH..=LARGEST_WIDTH {
        assert_eq!(plan(&[1], Method::WideNaf(width), &mut []).unwrap().bytes, []);
    }
    // 1 1 0 -1 0 -1
    let modified = plan(&[43], Method::ModifiedNaf, &mut room).unwrap().steps();
    let texts: Vec<String> = modified.map(|step| step.to_string()).collect();
    let expected = "add(0,0) add(1,0) add(2,2) add(3,3) subtract(4,0) add(5,5) add(6,6) subtract(7,0)";
    assert_eq!(texts.join(" "), expected);
    assert_eq!(plan(&[1], Method::ModifiedNaf, &mut []).unwrap().bytes, []);
}

/// By the modified NAF 2^L - 1 takes one bit more than it has from L = 3 on, and no other number does.
#[test]
fn bits_of_plans_by_modified_naf() {
    let mut room = [7; PLAN_ROOM];
    let mut space = [7; work_space(PLAN_STEPS)];
    let mut bits = |number: &[u8]| {
        let plan = plan(number, Method::ModifiedNaf, &mut room).unwrap();
        check(number, plan.bytes, &mut space).unwrap().largest_bits
    };
    for number in 1..5000u16 {
        let length = 16 - number.leading_zeros() as usize;
        let is_ones = length > 2 && (number + 1).is_power_of_two();
        let bytes = number.to_le_bytes();
        assert_eq!(bits(trimmed(&bytes)), length + usize::from(is_ones), "{}", number);
    }
    for bytes in 1..=NUMBER_BYTES {
        assert_eq!(bits(&vec![0xff; bytes]), 8 * bytes + 1);
        let mut number = vec![0xff; bytes];
        number[0] = 0xfe;
        assert_eq!(bits(&number), 8 * bytes);
    }
}

#[test]
fn planning_refused() {
    let mut room = [7; 4];
    assert_eq!(
        plan(&[0; NUMBER_BYTES + 1], Method::Binary, &mut room),
        Err(Refusal::NumberTooLong)
    );
    assert_eq!(
        plan(&[0; 3], Method::Binary, &mut room),
        Err(Refusal::HighestByteIsZero)
    );
    assert_eq!(plan(&[], Method::Binary, &mut room), Err(Refusal::NumberIsZero));
    assert_eq!(
        plan(&[3], Method::FixedWindows(7), &mut room),
        Err(Refusal::MethodOrWidth)
    );
    assert_eq!(
        plan(&[3], Method::SlidingWindows(0), &mut room),
        Err(Refusal::MethodOrWidth)
    );
    for width in [0, 1, 9, u32::MAX] {
        assert_eq!(
            plan(&[3], Method::WideNaf(width), &mut room),
            Err(Refusal::MethodOrWidth)
        );
    }
    for (method, width) in [(6, 1), (6, 2), (6, 8), (7, 0), (262, 0)] {
        assert_eq!(sys::plan(&[3], method, width, &mut room).refusal, 3);
        assert_eq!(sys::forecast(&[3], method, width).refusal, 3);
    }
    for method in [Method::Naf, Method::ModifiedNaf] {
        assert_eq!(plan(&[2], method, &mut room), Err(Refusal::RoomTooSmall { needed: 5 }));
    }
    assert_eq!(room, [7; 4]);
}

/// A plan of doublings.
fn doublings(steps: usize) -> Vec<u8> {
    (0..steps)
        .flat_map(|i| [0, i as u8, (i >> 8) as u8, i as u8, (i >> 8) as u8])
        .collect()
}

#[test]
fn checking() {
    let mut space = vec![7; work_space(PLAN_STEPS)];
    let (record, less) = (work_space(0), work_space(0) - 1);
    let empty = Accepted {
        counts: Counts::default(),
        largest_bits: 1,
    };
    assert_eq!(check(&[1], &[], &mut space[..record]), Ok(empty));
    assert_eq!(
        check(&[2], &[], &mut space[..record]),
        Err(Refusal::WrongEnd { steps: 0 })
    );
    assert_eq!(check(&[1], &[], &mut space[..less]), Err(Refusal::WorkSpaceTooShort));
    assert_eq!(check(&[1], &[0; STEP_BYTES - 1], &mut space), Err(Refusal::PlanLength));
    assert_eq!(
        check(&[1], &[0; PLAN_ROOM + STEP_BYTES], &mut space),
        Err(Refusal::PlanLength)
    );
    assert_eq!(
        check(&[1], &[0, 1, 0, 0, 0], &mut space),
        Err(Refusal::MalformedStep { step: 1 })
    );
    assert_eq!(
        check(&[1], &[1, 0, 0, 0, 0], &mut space),
        Err(Refusal::ValueIsZero { step: 1 })
    );
    let bits = 8 * VALUE_BYTES;
    assert_eq!(
        check(&[1], &doublings(bits - 1), &mut space),
        Err(Refusal::WrongEnd { steps: bits - 1 })
    );
    assert_eq!(
        check(&[1], &doublings(bits), &mut space),
        Err(Refusal::ValueTooLarge { step: bits })
    );
    // 1, 2, -1, 3
    let through_minus_one = [0, 0, 0, 0, 0, 1, 0, 0, 1, 0, 1, 1, 0, 2, 0];
    let Accepted { counts, largest_bits } = check(&[3], &through_minus_one, &mut space).unwrap();
    assert_eq!((counts.doublings, counts.additions, counts.subtractions), (1, 0, 2));
    assert_eq!(largest_bits, 2);
    // a plan that ends at -1 is no plan for 1
    let end = Err(Refusal::WrongEnd { steps: 2 });
    assert_eq!(check(&[1], &through_minus_one[..10], &mut space), end);
}

/// The limits by their numbers, each with what the calls answer there and just beyond.
#[test]
fn limits_by_number() {
    let linked = limits();
    assert_eq!((linked.number_bytes, linked.string_digits), (48, 768));
    assert_eq!((linked.plan_steps, linked.step_bytes), (960, 5));
    assert_eq!((linked.value_bytes, linked.record_bytes), (49, 50));
    assert_eq!(
        (RECODE_ROOM, CLEAN_ROOM, READ_BACK_ROOM, PLAN_ROOM),
        (385, 769, 96, 4800)
    );
    assert_eq!((LEAST_WIDTH, LARGEST_WIDTH), (2, 8));
    assert_eq!((CLEAN_WIDE_ROOM, READ_BACK_WIDE_ROOM), (776, 97));
    assert_eq!(std::mem::size_of::<sys::Recoder>(), 7 * 8);

    for recode in RECODES {
        let mut room = [7; 1000];
        let ones = recode(&[0xff; 48], &mut room).unwrap();
        assert_eq!((ones.len(), ones[0], ones[384]), (385, -1, 1));
        assert!(ones[1..384].iter().all(|&digit| digit == 0));
        let small = Err(Refusal::RoomTooSmall { needed: 385 });
        assert_eq!(recode(&[0xff; 48], &mut room[..384]), small);
    }
    let mut room = [7; 1000];
    assert_eq!(recode_modified(&[0xff; 48], &mut room).unwrap().len(), 385);
    for number in [[0; 49], [0xff; 49]] {
        assert_eq!(recode(&number, &mut room), Err(Refusal::NumberTooLong));
        assert_eq!(recode_words(&number, &mut room), Err(Refusal::NumberTooLong));
        assert_eq!(digits(&number).unwrap_err(), Refusal::NumberTooLong);
        assert_eq!(forecast(&number, Method::Naf), Err(Refusal::NumberTooLong));
        assert_eq!(plan(&number, Method::Naf, &mut []), Err(Refusal::NumberTooLong));
        assert_eq!(check(&number, &[], &mut []), Err(Refusal::NumberTooLong));
    }

    let cleaned = clean(&[1; 768], &mut room).unwrap().to_vec();
    assert_eq!((cleaned.len(), cleaned[0], cleaned[768]), (769, -1, 1));
    assert!(cleaned[1..768].iter().all(|&digit| digit == 0));
    let mut size = [7; 97];
    let value = read_back(&[-1; 768], &mut size).unwrap();
    assert_eq!((value.is_negative, value.size), (true, &[0xff; 96][..]));
    for string in [&cleaned[..], &[0; 769]] {
        assert_eq!(clean(string, &mut room), Err(Refusal::StringTooLong));
        assert_eq!(read_back(string, &mut []), Err(Refusal::StringTooLong));
    }

    let mut space = [7; 50 * 962];
    let top = check(&[1], &doublings(391), &mut space);
    assert_eq!(top, Err(Refusal::WrongEnd { steps: 391 }));
    let record = &space[50 * 391..50 * 392];
    assert!(record[..49].iter().all(|&byte| byte == 0) && record[49] == 0x80);
    assert_eq!(space[50 * 392..], [7; 50 * 570]);
    let above = check(&[1], &doublings(392), &mut space);
    assert_eq!(above, Err(Refusal::ValueTooLarge { step: 392 }));

    // 2^391 on the way, and 2 at the end.
    let reached = [doublings(391), vec![0; 5]].concat();
    assert_eq!(check(&[2], &reached, &mut space).unwrap().largest_bits, 392);

    let steps = |bytes: usize| vec![0; bytes];
    assert_eq!(check(&[2], &steps(4800), &mut space).unwrap().counts.total(), 960);
    assert_eq!(check(&[2], &steps(4805), &mut space), Err(Refusal::PlanLength));
    for r in [0, 1, 2, 391, 960] {
        let number = if r == 0 { [1] } else { [2] };
        let exact = 50 * (r + 1);
        let accepted = check(&number, &steps(5 * r), &mut space[..exact]).unwrap();
        assert_eq!(accepted.counts.total(), r);
        let short = check(&number, &steps(5 * r), &mut space[..exact - 1]);
        assert_eq!(short, Err(Refusal::WorkSpaceTooShort));
    }
}

/// Spellings by their bytes, handed to every call: with a highest byte of zero they are refused, whatever
/// else is wrong, and nothing that was lent changes.
#[test]
fn one_spelling() {
    let mut top_zero = [0xff; 48];
    top_zero[47] = 0;
    let mut too_long = [0xff; 49];
    too_long[48] = 0;
    for (number, refusal) in [
        (&[0x2b, 0][..], 13),
        (&[0x2b, 0, 0], 13),
        (&[1, 0], 13),
        (&[0], 13),
        (&[0, 0], 13),
        (&[0; 48], 13),
        (&top_zero, 13),
        (&too_long, 1),
        (&[0; 49], 1),
    ] {
        refused_by_every_call(number, refusal);
    }
    // The same numbers without these bytes are taken.
    for number in [&[0x2b][..], &[1], &top_zero[..47]] {
        let mut room = [7; 385];
        assert!(recode(number, &mut room).is_ok());
        assert!(recode_words(number, &mut room).is_ok());
        assert!(recode_modified(number, &mut room).is_ok());
        assert!(digits(number).is_ok());
        assert!(forecast(number, Method::Naf).is_ok());
    }
    // Zero has no bytes.
    assert_eq!(recode(&[], &mut []), Ok(&[][..]));
    assert_eq!(recode_words(&[], &mut []), Ok(&[][..]));
    assert_eq!(recode_modified(&[], &mut []), Ok(&[][..]));
    assert_eq!(digits(&[]).unwrap().next(), None);
    assert_eq!(forecast(&[], Method::Naf), Err(Refusal::NumberIsZero));
    assert_eq!(plan(&[], Method::Naf, &mut []), Err(Refusal::NumberIsZero));
    assert_eq!(check(&[], &[0], &mut []), Err(Refusal::NumberIsZero));
    // A zero byte below the highest is one like any other.
    assert_eq!(forecast(&[0, 1], Method::Naf).unwrap().total(), 8);
}

/// Each call refuses the number with this refusal at place 0, into enough room and beside every fault that
/// is tested later. Both the fields of the answer and the safe call say so.
fn refused_by_every_call(number: &[u8], refusal: usize) {
    let safe = match refusal {
        1 => Refusal::NumberTooLong,
        _ => Refusal::HighestByteIsZero,
    };
    let counts = sys::Counts {
        refusal,
        place: 0,
        doublings: 0,
        additions: 0,
        subtractions: 0,
    };
    let accepted = sys::Accepted {
        refusal,
        place: 0,
        doublings: 0,
        additions: 0,
        subtractions: 0,
        largest_bits: 0,
    };
    for room in [0, 5000] {
        let mut out = vec![7; room];
        let length = sys::Length {
            refusal,
            place: 0,
            length: 0,
        };
        assert_eq!(sys::recode(number, &mut out), length, "{:x?}", number);
        assert_eq!(sys::recode_words(number, &mut out), length, "{:x?}", number);
        for width in [2, 8, 0, 9] {
            assert_eq!(sys::recode_wide(number, width, &mut out), length, "{:x?}", number);
        }
        assert_eq!(sys::recode_modified(number, &mut out), length, "{:x?}", number);
        for (method, width) in [
            (1, 0),
            (2, 6),
            (3, 6),
            (4, 0),
            (5, 4),
            (6, 0),
            (0, 0),
            (4, 1),
            (5, 0),
            (6, 1),
            (7, 0),
        ] {
            assert_eq!(sys::plan(number, method, width, &mut out), counts, "{:x?}", number);
            assert_eq!(sys::forecast(number, method, width), counts, "{:x?}", number);
        }
        // A plan for 2, for 1, and for none: part of a step, an unknown operation.
        for steps in [&[0; 5][..], &[], &[0; 4], &[2, 0, 0, 0, 0]] {
            assert_eq!(sys::check(number, steps, &mut out), accepted, "{:x?}", number);
        }
        assert_eq!(plan(number, Method::Naf, &mut out), Err(safe));
        assert_eq!(check(number, &[0; 5], &mut out), Err(safe));
        assert_eq!(out, vec![7; room], "{:x?}", number);
    }
    assert_eq!(recode(number, &mut [7; 385]), Err(safe));
    assert_eq!(recode_words(number, &mut [7; 385]), Err(safe));
    assert_eq!(recode_wide(number, 4, &mut [7; 385]), Err(safe));
    assert_eq!(recode_modified(number, &mut [7; 385]), Err(safe));
    assert_eq!(forecast(number, Method::Naf), Err(safe));
    assert_eq!(digits(number).unwrap_err(), safe);
    // The recoder is that of zero.
    let mut recoder = sys::Recoder { words: [7; 7] };
    let started = sys::Started { refusal, place: 0 };
    assert_eq!(sys::start(number, &mut recoder), started, "{:x?}", number);
    assert_eq!(recoder.words, [0; 7], "{:x?}", number);
    assert_eq!(sys::take(&mut recoder), None, "{:x?}", number);
    assert_eq!(recoder.words, [0; 7], "{:x?}", number);
}

#[test]
fn the_bytes_of_records() {
    let mut space = [7; 4 * RECORD_BYTES + 1];
    check(&[3], &[0, 0, 0, 0, 0, 1, 0, 0, 1, 0, 1, 1, 0, 2, 0], &mut space).unwrap();
    let mut expected = Vec::new();
    for (sign, size) in [(0, 1), (0, 2), (1, 1), (0, 3)] {
        expected.extend([sign, size]);
        expected.extend([0; VALUE_BYTES - 1]);
    }
    expected.push(7);
    assert_eq!(&space[..], &expected[..]);
}

#[test]
fn a_refusal_prints_number_place_and_words() {
    let refusal = recode(&[3], &mut []).unwrap_err();
    assert_eq!(
        refusal.to_string(),
        "refused 6, place 3: the output needs this many bytes"
    );
}

// As in the crate: without std, only from Rust 1.81 on.
#[cfg(any(lesmutka_core_error, feature = "std"))]
#[test]
fn refusals_and_parse_errors_are_errors() {
    fn words(error: &dyn std::error::Error) -> String {
        error.to_string()
    }
    assert_eq!(words(&Refusal::NumberIsZero), "refused 2, place 0: the number is zero");
    assert_eq!(
        words(&"five".parse::<Method>().unwrap_err()),
        "a method is binary, fixed and a width of 1 to 6, sliding and a width of 1 to 6, naf, wide-naf and \
         a width of 2 to 8, or modified-naf; 1 to 6 may stand for the names"
    );
    assert_eq!(
        words(&"add".parse::<Step>().unwrap_err()),
        "a step is add(j,k) or subtract(j,k), j and k from 0 to 65535"
    );
}

#[test]
fn where_a_plan_ends() {
    let refusal = check(&[2], &[], &mut [7; RECORD_BYTES]).unwrap_err();
    assert_eq!((refusal.number(), refusal.place()), (12, 0));
    assert_eq!(Refusal::WrongEnd { steps: 9 }.place(), 9);
}

#[test]
fn a_step_as_bytes() {
    for (step, bytes) in [
        (Step::Add(0, 0), [0, 0, 0, 0, 0]),
        (Step::Add(1, 0x0203), [0, 1, 0, 3, 2]),
        (Step::Subtract(0xfffe, 7), [1, 0xfe, 0xff, 7, 0]),
    ] {
        assert_eq!(step.to_bytes(), bytes);
        assert_eq!(Step::from_bytes(bytes), Some(step));
    }
    for operation in 2..=255 {
        assert_eq!(Step::from_bytes([operation, 0, 0, 0, 0]), None);
    }
}

#[test]
fn a_step_as_text() {
    for (step, text) in [
        (Step::Add(0, 0), "add(0,0)"),
        (Step::Subtract(2, 0), "subtract(2,0)"),
        (Step::Add(65535, 1000), "add(65535,1000)"),
    ] {
        assert_eq!(step.to_string(), text);
        assert_eq!(text.parse(), Ok(step));
    }
    for text in [
        "",
        "add",
        "add()",
        "add(0)",
        "add(,)",
        "add(0,)",
        "add(,0)",
        "add(0,0",
        "add0,0)",
        "add(0,0))",
        "add((0,0)",
        "add(0,0,0)",
        "add(0,0) ",
        " add(0,0)",
        "add (0,0)",
        "add(0, 0)",
        "add(+1,0)",
        "add(-1,0)",
        "add(0x1,0)",
        "add(a,0)",
        "add(65536,0)",
        "add(0,65536)",
        "add(4294967296,0)",
        "add(18446744073709551616,0)",
        "Add(0,0)",
        "sub(0,0)",
        "double(0,0)",
        "(0,0)",
    ] {
        assert!(text.parse::<Step>().is_err(), "{:?}", text);
    }
    assert_eq!("add(00,0010)".parse(), Ok(Step::Add(0, 10)));
}

#[test]
fn which_steps_double() {
    let value = |is_negative, size| Value { is_negative, size };
    let (plus, minus) = (|size| value(false, size), |size| value(true, size));
    // Whatever the positions are.
    for (j, k) in [(0, 0), (300, 300), (1, 0), (256, 0), (0, 65535)] {
        let (add, subtract) = (Step::Add(j, k), Step::Subtract(j, k));
        for size in [&[1][..], &[0x2b], &[0, 1], &[0xff; VALUE_BYTES]] {
            for (first, second) in [(plus(size), plus(size)), (minus(size), minus(size))] {
                assert!(add.is_doubling(first, second));
                assert!(!subtract.is_doubling(first, second));
            }
            for (first, second) in [(plus(size), minus(size)), (minus(size), plus(size))] {
                assert!(!add.is_doubling(first, second));
                assert!(subtract.is_doubling(first, second));
            }
        }
        assert!(add.is_doubling(plus(&[]), plus(&[])) && subtract.is_doubling(plus(&[]), plus(&[])));
        assert!(!add.is_doubling(plus(&[]), plus(&[1])) && !subtract.is_doubling(plus(&[]), plus(&[1])));
        // Sizes that differ in the lowest byte, in the highest, in one between, in length.
        for (size, other) in [
            (&[1][..], &[2][..]),
            (&[1, 2, 3], &[0, 2, 3]),
            (&[1, 2, 3], &[1, 2, 4]),
            (&[1, 2, 3], &[1, 5, 3]),
            (&[1, 2], &[1, 2, 3]),
        ] {
            for first in [plus(size), minus(size)] {
                for second in [plus(other), minus(other)] {
                    for step in [add, subtract] {
                        assert!(!step.is_doubling(first, second) && !step.is_doubling(second, first));
                    }
                }
            }
        }
    }
}

/// The counts, counted step by step over the values that the check of the plan left.
fn counted(steps: Steps<'_>, space: &[u8]) -> Counts {
    let values: Vec<Value<'_>> = records(space, steps.len()).collect();
    let mut counts = Counts::default();
    for step in steps {
        let (Step::Add(j, k) | Step::Subtract(j, k)) = step;
        let is_doubling = step.is_doubling(values[usize::from(j)], values[usize::from(k)]);
        match step {
            _ if is_doubling => counts.doublings += 1,
            Step::Add(..) => counts.additions += 1,
            Step::Subtract(..) => counts.subtractions += 1,
        }
    }
    counts
}

/// Doublings at two positions, and what is near: the counts, the values, and nothing past the records.
#[test]
fn hidden_doublings() {
    let counts = |doublings, additions, subtractions| Counts {
        doublings,
        additions,
        subtractions,
    };
    for (text, number, values, expected) in [
        (
            "add(0,0) add(0,0) add(1,2)",
            4,
            "0x01 0x02 0x02 0x04",
            Ok(counts(3, 0, 0)),
        ),
        (
            "add(0,0) subtract(0,1) subtract(0,2)",
            2,
            "0x01 0x02 -0x01 0x02",
            Ok(counts(2, 0, 1)),
        ),
        (
            "add(0,0) subtract(0,1) subtract(0,1) add(3,2) subtract(0,4)",
            3,
            "0x01 0x02 -0x01 -0x01 -0x02 0x03",
            Ok(counts(2, 0, 3)),
        ),
        (
            "add(0,0) subtract(0,1) subtract(2,0) subtract(0,3)",
            3,
            "0x01 0x02 -0x01 -0x02 0x03",
            Ok(counts(2, 0, 2)),
        ),
        (
            "add(0,0) add(1,0) subtract(2,1) add(3,1)",
            3,
            "0x01 0x02 0x03 0x01 0x03",
            Ok(counts(1, 2, 1)),
        ),
        (
            "add(0,0) add(0,0) add(1,2)",
            5,
            "0x01 0x02 0x02 0x04",
            Err(Refusal::WrongEnd { steps: 3 }),
        ),
        (
            "add(0,0) add(0,0) subtract(1,2)",
            4,
            "0x01 0x02 0x02",
            Err(Refusal::ValueIsZero { step: 3 }),
        ),
        (
            "add(0,0) subtract(0,1) add(0,2)",
            4,
            "0x01 0x02 -0x01",
            Err(Refusal::ValueIsZero { step: 3 }),
        ),
    ] {
        let mut room = [7; PLAN_ROOM];
        let bytes = read_steps(text.as_bytes(), &mut room).unwrap();
        let steps = bytes.len() / STEP_BYTES;
        let mut guarded = vec![7; 5 + work_space(steps) + 5];
        let space = &mut guarded[5..5 + work_space(steps)];
        let answer = check(&[number], bytes, space);
        assert_eq!(answer.map(|accepted| accepted.counts), expected, "{}", text);
        let filled = values.split(' ').count();
        let left: Vec<String> = records(space, filled - 1).map(|value| value.to_string()).collect();
        assert_eq!(left.join(" "), values, "{}", text);
        if let Ok(counts) = expected {
            assert_eq!(counted(Plan { bytes, counts }.steps(), space), counts, "{}", text);
        }
        assert!(guarded[..5].iter().all(|&byte| byte == 7), "{}", text);
        assert!(
            guarded[5 + work_space(filled - 1)..].iter().all(|&byte| byte == 7),
            "{}",
            text
        );
    }
}

/// The bit length of the largest size that the check of a plan of this many steps left.
fn largest_bits(space: &[u8], steps: usize) -> usize {
    let bits = |value: Value<'_>| match value.size.split_last() {
        Some((top, below)) => 8 * below.len() + 8 - top.leading_zeros() as usize,
        None => 0,
    };
    records(space, steps).map(bits).max().unwrap()
}

/// The bits of the largest size: at the end, on the way, below zero; a refusal has none.
#[test]
fn the_largest_size() {
    let wrong_end = |steps| Err(Refusal::WrongEnd { steps });
    for (text, number, values, expected) in [
        ("", 1, "0x01", Ok(1)),
        ("", 2, "0x01", wrong_end(0)),
        ("add(0,0)", 2, "0x01 0x02", Ok(2)),
        ("add(0,0) subtract(1,0)", 1, "0x01 0x02 0x01", Ok(2)),
        ("add(0,0) add(1,1)", 4, "0x01 0x02 0x04", Ok(3)),
        (
            "add(0,0) add(1,1) add(2,2) subtract(3,0)",
            7,
            "0x01 0x02 0x04 0x08 0x07",
            Ok(4),
        ),
        (
            "add(0,0) add(1,1) add(2,2) subtract(3,0)",
            8,
            "0x01 0x02 0x04 0x08 0x07",
            wrong_end(4),
        ),
        (
            "add(0,0) add(1,1) add(2,2) add(0,0)",
            2,
            "0x01 0x02 0x04 0x08 0x02",
            Ok(4),
        ),
        (
            "add(0,0) subtract(0,1) subtract(2,1) add(3,3) add(1,2)",
            1,
            "0x01 0x02 -0x01 -0x03 -0x06 0x01",
            Ok(3),
        ),
        (
            "add(0,0) subtract(0,1) subtract(2,1) add(3,3) add(1,2)",
            6,
            "0x01 0x02 -0x01 -0x03 -0x06 0x01",
            wrong_end(5),
        ),
    ] {
        let mut room = [7; PLAN_ROOM];
        let bytes = read_steps(text.as_bytes(), &mut room).unwrap();
        let steps = bytes.len() / STEP_BYTES;
        let mut space = vec![7; work_space(steps)];
        let raw = sys::check(&[number], bytes, &mut space);
        assert_eq!(raw.largest_bits, expected.unwrap_or(0), "{}", text);
        let answer = check(&[number], bytes, &mut space);
        assert_eq!(answer.map(|accepted| accepted.largest_bits), expected, "{}", text);
        let left: Vec<String> = records(&space, steps).map(|value| value.to_string()).collect();
        assert_eq!(left.join(" "), values, "{}", text);
        if let Ok(bits) = expected {
            assert_eq!(largest_bits(&space, steps), bits, "{}", text);
        }
    }
}

/// 2^k on the way for every k that a value may have, then one less, so of fewer bits, and 2 at the end.
#[test]
fn largest_sizes_of_every_length() {
    let step = |operation, j: usize, k: usize| {
        let [j, k] = [j, k].map(|position| (position as u16).to_le_bytes());
        [operation, j[0], j[1], k[0], k[1]]
    };
    let mut space = vec![7; work_space(PLAN_STEPS)];
    for k in 1..8 * VALUE_BYTES {
        let mut plan = doublings(k);
        plan.extend(step(1, k, 0));
        plan.extend(step(0, 0, 0));
        let accepted = check(&[2], &plan, &mut space).unwrap();
        assert_eq!(accepted.largest_bits, k + 1);
        assert_eq!(accepted.counts.total(), k + 2);
    }
}

#[test]
fn the_steps_of_a_plan() {
    let mut room = [7; PLAN_ROOM];
    let steps = plan(&[43], Method::Naf, &mut room).unwrap().steps();
    let texts: Vec<String> = steps.map(|step| step.to_string()).collect();
    let expected = "add(0,0) add(1,1) subtract(2,0) add(3,3) add(4,4) subtract(5,0) add(6,6) add(7,7) subtract(8,0)";
    assert_eq!(texts.join(" "), expected);
    for &method in Method::ALL {
        let plan = plan(&[0xb7; NUMBER_BYTES], method, &mut room).unwrap();
        assert_eq!(plan.steps().len(), plan.counts.total());
        let mut space = vec![7; work_space(plan.counts.total())];
        let accepted = check(&[0xb7; NUMBER_BYTES], plan.bytes, &mut space).unwrap();
        assert_eq!(accepted.counts, plan.counts);
        assert_eq!(accepted.largest_bits, largest_bits(&space, plan.counts.total()));
        assert_eq!(counted(plan.steps(), &space), plan.counts);
        let bytes: Vec<u8> = plan.steps().flat_map(Step::to_bytes).collect();
        assert_eq!(bytes, plan.bytes);
    }
}

#[test]
fn steps_from_both_ends() {
    let mut room = [7; PLAN_ROOM];
    let mut steps = plan(&[3], Method::Naf, &mut room).unwrap().steps();
    assert_eq!(steps.next_back(), Some(Step::Subtract(2, 0)));
    assert_eq!(steps.next(), Some(Step::Add(0, 0)));
    assert_eq!(steps.len(), 1);
    assert_eq!(steps.next_back(), Some(Step::Add(1, 1)));
    assert_eq!((steps.next(), steps.next_back(), steps.len()), (None, None, 0));
}

#[test]
fn steps_of_a_plan_put_together_by_hand() {
    let by_hand = |bytes| Plan {
        bytes,
        counts: Counts::default(),
    };
    // An unknown operation, and a step cut short.
    let bytes = [0, 0, 0, 0, 0, 2, 0, 0, 0, 0, 1, 1, 0, 0, 0];
    assert_eq!(by_hand(&bytes).steps().len(), 1);
    assert!(by_hand(&bytes).steps().rev().eq([Step::Add(0, 0)]));
    assert!(by_hand(&bytes[10..]).steps().eq([Step::Subtract(1, 0)]));
    assert_eq!(by_hand(&bytes[..4]).steps().len(), 0);
    assert_eq!(by_hand(&[]).steps().next(), None);
}

#[test]
fn the_values_of_a_work_space() {
    // 1, 2, -1, 3
    let plan = [0, 0, 0, 0, 0, 1, 0, 0, 1, 0, 1, 1, 0, 2, 0];
    let mut space = [7; work_space(4)];
    check(&[3], &plan, &mut space).unwrap();
    let texts = |values: Records<'_>| values.map(|value| value.to_string()).collect::<Vec<_>>();
    assert_eq!(texts(records(&space, 3)), ["0x01", "0x02", "-0x01", "0x03"]);
    assert_eq!(records(&space, 3).len(), 4);
    assert_eq!(texts(records(&space, 0)), ["0x01"]);
    // The record above was not filled.
    let above = records(&space, 4).next_back().unwrap();
    assert_eq!((above.is_negative, above.size), (true, &[7; VALUE_BYTES][..]));
    // A space that is shorter ends them early.
    assert_eq!(records(&space, usize::MAX).len(), 5);
    assert_eq!(records(&space[..work_space(2)], 3).len(), 3);
    assert_eq!(texts(records(&space[..work_space(2) - 1], 3)), ["0x01", "0x02"]);
    assert_eq!(records(&[], 3).next(), None);
    // A record of zeros, which no check leaves.
    assert_eq!(texts(records(&[0; RECORD_BYTES], 0)), ["0"]);
}

#[test]
fn the_largest_values_of_a_work_space() {
    let steps = 8 * VALUE_BYTES - 1;
    let mut space = vec![7; work_space(steps)];
    let end = Err(Refusal::WrongEnd { steps });
    assert_eq!(check(&[1], &doublings(steps), &mut space), end);
    let mut values = records(&space, steps);
    assert_eq!(values.len(), 8 * VALUE_BYTES);
    assert_eq!(values.nth(8).unwrap().size, [0, 1]);
    let last = values.next_back().unwrap();
    assert_eq!((last.size.len(), last.size[VALUE_BYTES - 1]), (VALUE_BYTES, 0x80));
}

#[test]
fn a_value_as_text() {
    for (is_negative, size, text) in [
        (true, &[0x2b][..], "-0x2b"),
        (false, &[0x2b], "0x2b"),
        (false, &[5], "0x05"),
        (false, &[0xcd, 0xab, 1], "0x01abcd"),
        (true, &[0, 1], "-0x0100"),
        (false, &[], "0"),
    ] {
        assert_eq!(Value { is_negative, size }.to_string(), text);
    }
}

/// All choices are those that the linked library does not refuse with 3, in the same order.
#[test]
fn all_methods() {
    let mut taken = Vec::new();
    for number in (0..=20).chain([257, u32::MAX]) {
        for width in (0..=40).chain([257, u32::MAX]) {
            let refusal = sys::forecast(&[43], number, width).refusal;
            let method = Method::try_from((number, width));
            if refusal == 0 {
                let method = method.unwrap();
                assert_eq!((method.number(), method.width()), (number, width));
                taken.push(method);
            } else {
                assert_eq!((refusal, method), (3, Err(Refusal::MethodOrWidth)));
            }
        }
    }
    assert_eq!(taken, Method::ALL);
    assert_eq!(taken.len(), 22);
}

#[test]
fn a_method_as_text() {
    for &method in Method::ALL {
        let number = [method.number(), method.width()].map(|number| number.to_string());
        assert_eq!(method.to_string().parse(), Ok(method));
        assert_eq!(number.join(" ").parse(), Ok(method));
    }
    for (text, method) in [
        ("binary", Method::Binary),
        ("1", Method::Binary),
        ("fixed 6", Method::FixedWindows(6)),
        ("2 6", Method::FixedWindows(6)),
        ("sliding 4", Method::SlidingWindows(4)),
        ("3 4", Method::SlidingWindows(4)),
        (" 003\x0b00000000000004\n", Method::SlidingWindows(4)),
        ("  sliding \t 4 ", Method::SlidingWindows(4)),
        ("naf", Method::Naf),
        ("naf 0", Method::Naf),
        ("NAF", Method::Naf),
        ("4", Method::Naf),
        ("wide-naf 2", Method::WideNaf(2)),
        ("Wide-NAF 8", Method::WideNaf(8)),
        ("5 4", Method::WideNaf(4)),
        ("modified-naf", Method::ModifiedNaf),
        ("Modified-NAF 0", Method::ModifiedNaf),
        ("6", Method::ModifiedNaf),
    ] {
        assert_eq!(text.parse(), Ok(method), "{:?}", text);
    }
    assert_eq!(Method::Naf.to_string(), "naf");
    assert_eq!(Method::SlidingWindows(4).to_string(), "sliding 4");
    assert_eq!(Method::WideNaf(4).to_string(), "wide-naf 4");
    assert_eq!(Method::ModifiedNaf.to_string(), "modified-naf");
    assert_eq!(
        (Method::FixedWindows(3).name(), Method::Binary.name()),
        ("fixed", "binary")
    );
    for text in [
        "",
        " ",
        "0",
        "5",
        "7",
        "6 4",
        "262",
        "257",
        "4294967297",
        "nafs",
        "naf 1",
        "naf 4",
        "wide-naf",
        "wide-naf 1",
        "wide-naf 9",
        "wide naf 4",
        "wide 4",
        "modified-naf 2",
        "modified naf",
        "modified",
        "binary 1",
        "fixed",
        "fixed 0",
        "fixed 7",
        "sliding",
        "sliding 7",
        "sliding4",
        "sliding,4",
        "sliding x",
        "sliding -4",
        "sliding +4",
        "sliding 4294967300",
        "sliding 4 4",
        "3",
        "+3 4",
        "4 sliding",
    ] {
        assert!(text.parse::<Method>().is_err(), "{:?}", text);
    }
}

#[test]
fn counts_add_up() {
    let counts = |doublings, additions, subtractions| Counts {
        doublings,
        additions,
        subtractions,
    };
    let (a, b) = (counts(6, 0, 3), counts(10, 200, 3000));
    assert_eq!(a + b, counts(16, 200, 3003));
    let mut sum = a;
    sum += b;
    assert_eq!(sum, a + b);
    assert_eq!([a, b, a].iter().sum::<Counts>(), counts(22, 200, 3006));
    assert_eq!([a, b].into_iter().sum::<Counts>(), a + b);
    assert_eq!([a; 0].iter().sum::<Counts>(), Counts::default());
    assert_eq!((a.total(), b.total(), Counts::default().total()), (9, 3210, 0));
    assert_eq!(a.to_string(), "6 doublings, 0 additions, 3 subtractions");
}

#[test]
fn an_accepted_plan_as_text() {
    for (largest_bits, text) in [
        (1, "0 doublings, 0 additions, 0 subtractions; at most 1 bits"),
        (392, "0 doublings, 0 additions, 0 subtractions; at most 392 bits"),
    ] {
        let counts = Counts::default();
        assert_eq!(Accepted { counts, largest_bits }.to_string(), text);
    }
}

#[test]
fn a_work_space_never_overflows() {
    assert_eq!(work_space(0), RECORD_BYTES);
    assert_eq!(work_space(PLAN_STEPS), RECORD_BYTES * (PLAN_STEPS + 1));
    let most = usize::MAX / RECORD_BYTES - 1;
    assert_eq!(work_space(most), RECORD_BYTES * (most + 1));
    assert_eq!(work_space(most + 1), usize::MAX);
    assert_eq!(work_space(usize::MAX), usize::MAX);
}

#[test]
fn reading_hexadecimal() {
    for (text, bytes) in [
        ("0", &[0][..]),
        ("2b", &[0x2b]),
        ("2B", &[0x2b]),
        ("0x2b", &[0x2b]),
        ("0X2b", &[0x2b]),
        ("12b", &[0x2b, 1]),
        ("0x12b", &[0x2b, 1]),
        ("002b", &[0x2b, 0]),
        ("00x", &[]),
        ("0x", &[]),
        ("", &[]),
        ("x2b", &[]),
        ("0x0x2b", &[]),
        ("2g", &[]),
        ("2b ", &[]),
        ("-2b", &[]),
    ] {
        let mut room = [7; 4];
        let expected = if bytes.is_empty() { None } else { Some(bytes) };
        assert_eq!(hexadecimal(text.as_bytes(), &mut room), expected, "{:?}", text);
        // Only the answer is written.
        let mut left = [7; 4];
        left[..bytes.len()].copy_from_slice(bytes);
        assert_eq!(room, left, "{:?}", text);
    }
    // Room for the digits is enough, and a byte less is not.
    assert_eq!(hexadecimal(b"0x123", &mut [7; 2]), Some(&[0x23, 1][..]));
    let mut room = [7; 1];
    assert_eq!(hexadecimal(b"0x123", &mut room), None);
    assert_eq!(hexadecimal(b"001", &mut room), None);
    assert_eq!(room, [7]);
}

#[test]
fn reading_decimal() {
    for (text, answer) in [
        ("0", Ok(&[][..])),
        ("000", Ok(&[])),
        ("43", Ok(&[43])),
        ("0043", Ok(&[43])),
        ("299", Ok(&[0x2b, 1])),
        ("65536", Ok(&[0, 0, 1])),
        ("", Err(0)),
        ("x", Err(0)),
        ("4x3", Err(1)),
        ("43 ", Err(2)),
        ("-43", Err(0)),
        ("+43", Err(0)),
        ("0x2b", Err(1)),
        ("2b", Err(1)),
    ] {
        let mut room = [7; 4];
        assert_eq!(
            decimal(text.as_bytes(), &mut room).map_err(|e| e.digits),
            answer,
            "{:?}",
            text
        );
        // The room that the text needs is written, the rest stays.
        let mut left = [7; 4];
        if let Ok(bytes) = answer {
            left[..text_room(text.len())].fill(0);
            left[..bytes.len()].copy_from_slice(bytes);
        }
        assert_eq!(room, left, "{:?}", text);
    }
    let mut room = [7; 2];
    assert_eq!(decimal(b"1234", &mut room), Ok(&[0xd2, 4][..]));
    let mut room = [7; 1];
    assert_eq!(decimal(b"123", &mut room), Err(NotDecimal { digits: 3 }));
    assert_eq!(decimal(b"00000", &mut room), Err(NotDecimal { digits: 5 }));
    assert_eq!(decimal(b"12345x", &mut room), Err(NotDecimal { digits: 5 }));
    assert_eq!(room, [7]);
    assert_eq!(decimal(b"", &mut []), Err(NotDecimal { digits: 0 }));
}

/// A refusal that this crate does not know, of a library that is newer.
#[test]
fn other_refusals() {
    let answer = sys::Counts {
        refusal: 77,
        place: 5,
        doublings: 0,
        additions: 0,
        subtractions: 0,
    };
    let refusal = Counts::try_from(answer).unwrap_err();
    assert_eq!(refusal, Refusal::Other { number: 77, place: 5 });
    assert_eq!(refusal.to_string(), "refused 77, place 5: no such refusal");
    let answer = sys::Accepted {
        refusal: 77,
        place: 5,
        doublings: 0,
        additions: 0,
        subtractions: 0,
        largest_bits: 0,
    };
    assert_eq!(Accepted::try_from(answer), Err(refusal));
}

#[test]
fn digits_and_steps_from_text() {
    let mut room = [7; 4];
    assert_eq!(read_digits(b" 1 0\t-1 ", &mut room), Ok(&[-1, 0, 1][..]));
    assert_eq!(room, [-1, 0, 1, 7]);
    assert_eq!(read_digits(b"2 -0 11 x", &mut room), Ok(&[2, 2, 2, 2][..]));
    assert_eq!(
        read_digits(b"1 1 1 1 1", &mut room),
        Err(Refusal::RoomTooSmall { needed: 5 })
    );
    let mut room = [7; 11];
    assert_eq!(
        read_steps(b"add(0,0)\nsubtract(258,65535)", &mut room),
        Ok(&[0, 0, 0, 0, 0, 1, 2, 1, 255, 255][..])
    );
    assert_eq!(room[10], 7);
    assert_eq!(read_steps(b"add(0,65536)", &mut room), Ok(&[2, 0, 0, 0, 0][..]));
    assert_eq!(
        read_steps(b"add(0,0) x add(0,0)", &mut room),
        Err(Refusal::RoomTooSmall { needed: 15 })
    );
    assert_eq!(
        read_steps(&b"x ".repeat(PLAN_STEPS + 1), &mut room),
        Err(Refusal::PlanLength)
    );
}

#[test]
fn room_for_text() {
    assert_eq!([0, 1, 2, 3, 77, 78].map(text_room), [0, 1, 1, 2, 39, 39]);
    assert_eq!(text_room(usize::MAX), usize::MAX / 2 + 1);
    // The largest number, written in decimal: its bytes do not fill the room that the text needs.
    let text = (0..8 * NUMBER_BYTES).fold(vec![0], |digits: Vec<u8>, _| twice_and_one(&digits));
    let text: Vec<u8> = text.iter().rev().map(|digit| digit + b'0').collect();
    let mut room = vec![7; text_room(text.len())];
    assert_eq!(decimal(&text, &mut room), Ok(&[0xff; NUMBER_BYTES][..]));
    assert_eq!(
        hexadecimal(&[b'f'; 2 * NUMBER_BYTES], &mut room),
        Some(&[0xff; NUMBER_BYTES][..])
    );
}

/// Twice a decimal number and one, lowest digit first.
fn twice_and_one(digits: &[u8]) -> Vec<u8> {
    let mut carry = 1;
    let mut sum: Vec<u8> = Vec::new();
    for digit in digits {
        carry += 2 * digit;
        sum.push(carry % 10);
        carry /= 10;
    }
    if carry > 0 {
        sum.push(carry);
    }
    sum
}
