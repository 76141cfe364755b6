//! Small numbers against plain integers and brute force.

use reference::generate::{below_power_of_two, bit_length, hidden_doublings, methods, modified_corners, Generator};
use reference::limits::*;
use reference::refusal::HIGHEST_BYTE_IS_ZERO;
use reference::*;
use std::collections::HashMap;

/// The bytes of a number, the highest not zero.
fn spelled(number: u64) -> Vec<u8> {
    let mut bytes = Vec::new();
    let mut rest = number;
    while rest > 0 {
        bytes.push((rest % 256) as u8);
        rest /= 256;
    }
    bytes
}

fn recoded(number: u64) -> Vec<i8> {
    let mut out = [0; 70];
    let length = recode(&spelled(number), &mut out).unwrap();
    out[..length].iter().map(|&digit| digit as i8).collect()
}

fn recoded_wide(number: u64, width: u32) -> Vec<i8> {
    let mut out = [0; 70];
    let length = recode_wide(&spelled(number), width, &mut out).unwrap();
    out[..length].iter().map(|&digit| digit as i8).collect()
}

fn recoded_modified(number: u64) -> Vec<i8> {
    let mut out = [0; 70];
    let length = recode_modified(&spelled(number), &mut out).unwrap();
    out[..length].iter().map(|&digit| digit as i8).collect()
}

fn value(digits: &[i8]) -> i64 {
    digits
        .iter()
        .rev()
        .fold(0, |value, &digit| 2 * value + i64::from(digit))
}

fn weight(digits: &[i8]) -> usize {
    digits.iter().filter(|&&digit| digit != 0).count()
}

#[test]
fn recode_is_the_non_adjacent_form() {
    for number in 0..5000 {
        let digits = recoded(number);
        assert_eq!(value(&digits), number as i64);
        assert!(digits.iter().all(|digit| (-1..=1).contains(digit)));
        assert!(digits.windows(2).all(|pair| pair[0] == 0 || pair[1] == 0));
        assert_ne!(digits.last(), Some(&0));
    }
}

/// Whether digits, lowest first, lead with these, most significant first.
fn leads_with(digits: &[i8], lead: &[i8]) -> bool {
    digits.iter().rev().take(lead.len()).eq(lead)
}

/// Whether digits, lowest first, are as Corollary 3 of document 004 says, with 1 at the top: a digit other than 0 has a 0
/// below it, or it is the top one and the one below it is 1.
fn is_of_corollary_3(digits: &[i8]) -> bool {
    let lower = match digits {
        [lower @ .., 1, 1] => &digits[..lower.len() + 1],
        [.., 1] => digits,
        _ => return false,
    };
    lower.windows(2).all(|pair| pair[0] == 0 || pair[1] == 0)
}

/// All strings of this many digits whose top one is 1, lowest first.
fn all_strings(length: u32) -> impl Iterator<Item = Vec<i8>> {
    (0..3usize.pow(length - 1)).map(move |mut index| {
        let mut digits = Vec::new();
        for _ in 1..length {
            digits.push((index % 3) as i8 - 1);
            index /= 3;
        }
        digits.push(1);
        digits
    })
}

/// Every number below 2^12: the modified form has the value, is the NAF unless that leads with 1 0 -1, and has as many
/// digits as the number has bits, or one more. No other string is such a form of the same value.
///
/// Corollary 3 says that there is one such string without excluding the lead 1 0 -1. Then the NAF that leads with it is
/// another one: 3 is 1 1 and 1 0 -1.
#[test]
fn modified_forms_of_small_numbers() {
    const BITS: u32 = 12;
    let mut by_value: HashMap<i64, Vec<Vec<i8>>> = HashMap::new();
    for digits in (1..=BITS + 1)
        .flat_map(all_strings)
        .filter(|digits| is_of_corollary_3(digits))
    {
        by_value.entry(value(&digits)).or_default().push(digits);
    }
    assert_eq!(recoded_modified(0), []);
    let mut replaced = 0;
    for number in 1..1u64 << BITS {
        let (naf, form) = (recoded(number), recoded_modified(number));
        assert_eq!(value(&form), number as i64);
        assert!(
            is_of_corollary_3(&form) && !leads_with(&form, &[1, 0, -1]),
            "{}",
            number
        );
        let bits = 64 - number.leading_zeros() as usize;
        assert!(form.len() == bits || form.len() == bits + 1, "{}", number);

        let mut all = by_value[&(number as i64)].clone();
        match leads_with(&naf, &[1, 0, -1]) {
            true => {
                let kept = naf.len() - 3;
                assert_eq!(
                    (&form[..kept], &form[kept..]),
                    (&naf[..kept], &[1, 1][..]),
                    "{}",
                    number
                );
                assert_eq!(all.len(), 2, "{}", number);
                all.retain(|digits| !leads_with(digits, &[1, 0, -1]));
                replaced += 1;
            }
            false => assert_eq!(form, naf),
        }
        assert_eq!(all, [form], "{}", number);
    }
    // One number in three, as L'_12 - L''_12 of document 004 says.
    assert_eq!(replaced, ((1 << BITS) - 1) / 3);
}

/// For each length up to this one, and each value up to that one: the fewest nonzero digits of a signed digit string of
/// just this length, its top digit 1, that has this value. None if there is no such string. The lowest digit leaves a
/// string of one digit less.
fn fewest_nonzero(longest: usize, most: usize) -> Vec<Vec<Option<usize>>> {
    let mut fewest = vec![vec![None; most + 1]; 2];
    fewest[1][1] = Some(1);
    for length in 2..=longest {
        let shorter: &Vec<Option<usize>> = &fewest[length - 1];
        let row = (0..=most).map(|value| match value % 2 {
            0 => shorter[value / 2],
            _ => [value / 2, value / 2 + 1]
                .iter()
                .filter_map(|&rest| *shorter.get(rest)?)
                .min()
                .map(|nonzero| nonzero + 1),
        });
        let row = row.collect();
        fewest.push(row);
    }
    fewest
}

/// Every number up to 2^12: no signed digit string of its value whose top digit is 1 has a smaller sum of length and
/// nonzero digits than the modified form; those too long to be looked at have a greater length alone. The form is also
/// optimal as document 004 defines it: of all strings with the fewest nonzero digits, none is shorter.
#[test]
fn modified_forms_are_optimal() {
    const MOST: usize = 1 << 12;
    const LONGEST: usize = 24;
    let fewest = fewest_nonzero(LONGEST, MOST);
    // As all strings of a few digits have it.
    for length in 1..=9 {
        let mut found: Vec<Option<usize>> = vec![None; 1 << length];
        for digits in all_strings(length) {
            let nonzero = &mut found[value(&digits) as usize];
            *nonzero = Some(nonzero.map_or(weight(&digits), |least| least.min(weight(&digits))));
        }
        assert_eq!(fewest[length as usize][..found.len()], found);
    }
    let mut shorter = 0;
    for number in 1..=MOST {
        let form = recoded_modified(number as u64);
        let strings = || {
            fewest
                .iter()
                .enumerate()
                .filter_map(|(length, all)| Some((length, all[number]?)))
        };
        let sum = form.len() + weight(&form);
        assert!(sum <= LONGEST, "{}", number);
        assert_eq!(
            strings().map(|(length, nonzero)| length + nonzero).min(),
            Some(sum),
            "{}",
            number
        );
        let least = strings().map(|(_, nonzero)| nonzero).min();
        assert_eq!(least, Some(weight(&form)), "{}", number);
        let shortest = strings().find(|&(_, nonzero)| Some(nonzero) == least);
        assert_eq!(shortest, Some((form.len(), weight(&form))), "{}", number);
        // Where the form is not the NAF, that has a greater sum.
        let naf = recoded(number as u64);
        shorter += usize::from(naf.len() + weight(&naf) > sum);
        assert_eq!(naf.len() + weight(&naf) > sum, naf != form);
    }
    assert_eq!(shorter, (MOST - 1) / 3);
}

/// By method 6 a number takes no more steps than by methods 4 and 1: one fewer than by 4 exactly if its NAF leads with
/// 1 0 -1, and as many otherwise.
#[test]
fn steps_by_the_modified_form() {
    let mut generator = Generator::new(20);
    let mut numbers: Vec<Vec<u8>> = (1..=1 << 12).map(spelled).collect();
    numbers.extend((1..=NUMBER_BITS).flat_map(modified_corners));
    numbers.extend((0..2000).map(|_| generator.number()));
    let mut fewer = [0; 2];
    for number in numbers {
        let counts = match forecast(&number, 6, 0) {
            Ok(counts) => counts,
            Err(_) => continue,
        };
        let mut out = [0; RECODE_ROOM];
        let length = recode(&number, &mut out).unwrap();
        let naf: Vec<i8> = out[..length].iter().map(|&digit| digit as i8).collect();
        let is_replaced = leads_with(&naf, &[1, 0, -1]);
        let by_naf = forecast(&number, 4, 0).unwrap();
        assert_eq!(
            counts.total() + usize::from(is_replaced),
            by_naf.total(),
            "{:x?}",
            number
        );
        assert!(
            counts.total() <= forecast(&number, 1, 0).unwrap().total(),
            "{:x?}",
            number
        );
        // One doubling less, and the first subtraction is an addition.
        let [more, less] = if is_replaced { [1, 1] } else { [0, 0] };
        assert_eq!(counts.doublings + less, by_naf.doublings);
        assert_eq!(counts.additions, by_naf.additions + more);
        assert_eq!(counts.subtractions + less, by_naf.subtractions);
        let length = recode_modified(&number, &mut out).unwrap();
        assert_eq!(counts.doublings, length - 1);
        fewer[usize::from(is_replaced)] += 1;
    }
    assert!(fewer[0] > 5_000 && fewer[1] > 3_000, "{:?}", fewer);
}

/// Whether digits, lowest first, are a width-w NAF: each nonzero one is odd with size below 2^(w-1), any two
/// of them are at least w places apart, and the top one is not 0.
fn is_naf(digits: &[i8], width: u32) -> bool {
    let nonzero: Vec<usize> = (0..digits.len()).filter(|&place| digits[place] != 0).collect();
    let is_digit = |place: &usize| digits[*place] % 2 != 0 && i32::from(digits[*place]).abs() < 1 << (width - 1);
    nonzero.iter().all(is_digit)
        && nonzero.windows(2).all(|pair| pair[1] - pair[0] >= width as usize)
        && digits.last() != Some(&0)
}

/// All width-w NAFs of at most this many places, each put together from its lowest nonzero digit up.
fn all_nafs(width: u32, places: usize) -> Vec<Vec<i8>> {
    let mut all = vec![Vec::new()];
    let half = 1i32 << (width - 1);
    for lowest in 0..places {
        let next = lowest + width as usize;
        let rests = all_nafs(width, places.saturating_sub(next));
        for digit in (1 - half..half).filter(|digit| digit % 2 != 0) {
            for rest in &rests {
                let mut digits = vec![0; lowest];
                digits.push(digit as i8);
                if !rest.is_empty() {
                    digits.resize(next, 0);
                    digits.extend(rest);
                }
                all.push(digits);
            }
        }
    }
    all
}

/// Every number up to 2^12, by every width: the form and the value. No other width-w NAF has the value, also
/// below zero: of all of up to 14 places, no two do.
#[test]
fn wide_nafs_of_small_numbers() {
    const MOST: i64 = 1 << 12;
    for width in NAF_WIDTHS {
        let mut by_value = HashMap::new();
        for digits in all_nafs(width, 14) {
            assert!(is_naf(&digits, width), "{:?}", digits);
            let other = by_value.insert(value(&digits), digits.clone());
            assert_eq!(other, None, "{:?} by width {}", digits, width);
        }
        for number in -MOST..=MOST {
            let mut digits = recoded_wide(number.unsigned_abs(), width);
            assert!(is_naf(&digits, width), "{} by width {}", number, width);
            assert_eq!(value(&digits), number.abs());
            if number < 0 {
                digits.iter_mut().for_each(|digit| *digit = -*digit);
            }
            assert_eq!(by_value.get(&number), Some(&digits), "{} by width {}", number, width);
        }
    }
}

/// With width 2 the digits are those of the plain form.
#[test]
fn width_two_is_the_plain_form() {
    for number in 0..1 << 16 {
        assert_eq!(recoded_wide(number, 2), recoded(number));
    }
}

/// All strings of a few digits: clean gives the width-w NAF of the value, read back the value.
#[test]
fn wide_strings_of_few_digits() {
    for (width, most) in [(2, 9), (3, 6), (4, 5), (5, 4), (6, 3), (7, 2), (8, 2)] {
        let half = 1i32 << (width - 1);
        let all: Vec<i8> = (1 - half..half)
            .filter(|digit| *digit == 0 || digit % 2 != 0)
            .map(|digit| digit as i8)
            .collect();
        let mut signs = [0; 2];
        for index in 0..all.len().pow(most) {
            let mut rest = index;
            let mut digits = Vec::new();
            for _ in 0..most {
                digits.push(all[rest % all.len()]);
                rest /= all.len();
            }
            let total = value(&digits);
            let mut naf = recoded_wide(total.unsigned_abs(), width);
            if total < 0 {
                naf.iter_mut().for_each(|digit| *digit = -*digit);
            }
            let bytes: Vec<u8> = digits.iter().map(|&digit| digit as u8).collect();
            let expected: Vec<u8> = naf.iter().map(|&digit| digit as u8).collect();
            let mut out = [9; 24];
            assert_eq!(clean_wide(&bytes, width, &mut out), Ok(expected.len()));
            assert_eq!(out[..expected.len()], expected, "{:?} by width {}", digits, width);
            assert_eq!(out[expected.len()..], [9; 24][expected.len()..]);

            let mut out = [0; 8];
            let (sign, _) = read_back_wide(&bytes, width, &mut out).unwrap();
            let size = i64::from_le_bytes(out);
            assert_eq!(total, if sign == 1 { -size } else { size });
            // The sign of the top digit is not that of the value.
            let top = i64::from(digits[digits.len() - 1]);
            signs[0] += usize::from(top * total < 0);
            signs[1] += usize::from(top * total > 0);
        }
        assert_eq!(signs[0] > 0, width > 2, "width {}", width);
        assert!(signs[1] > 0, "width {}", width);
    }
}

/// Of all strings of up to two bytes, each number has one that is taken.
#[test]
fn one_spelling_each() {
    let mut spellings = vec![0; 1 << 16];
    for length in 0..=2 {
        for (value, times) in spellings.iter_mut().enumerate().take(1 << (8 * length)) {
            let bytes = &value.to_le_bytes()[..length];
            let recoded = recode(bytes, &mut [0; 20]);
            let (_, started) = Recoder::start(bytes);
            assert_eq!(recoded.map(|_| ()), started);
            match recoded {
                Ok(_) => *times += 1,
                Err(refusal) => assert_eq!((refusal.number, refusal.place), (HIGHEST_BYTE_IS_ZERO, 0)),
            }
            let planned = forecast(bytes, 4, 0);
            assert_eq!(planned.is_ok(), recoded.is_ok() && value > 0);
        }
    }
    assert!(spellings.iter().all(|&times| times == 1));
}

/// All strings of nine digits: none of the same value has fewer nonzero ones,
/// and clean turns each into the same canonical string.
#[test]
fn recode_has_fewest_nonzero_digits() {
    for index in 0..3usize.pow(9) {
        let mut rest = index;
        let mut digits = [0i8; 9];
        for digit in &mut digits {
            *digit = (rest % 3) as i8 - 1;
            rest /= 3;
        }
        let total = value(&digits);
        let mut canonical = recoded(total.unsigned_abs());
        if total < 0 {
            for digit in &mut canonical {
                *digit = -*digit;
            }
        }
        assert!(weight(&canonical) <= weight(&digits));

        let bytes: Vec<u8> = digits.iter().map(|&digit| digit as u8).collect();
        let expected: Vec<u8> = canonical.iter().map(|&digit| digit as u8).collect();
        let mut out = [9; 12];
        assert_eq!(clean(&bytes, &mut out), Ok(expected.len()));
        assert_eq!(out[..expected.len()], expected);
        assert_eq!(out[expected.len()..], [9; 12][expected.len()..]);

        let mut out = [0; 8];
        let (sign, _) = read_back(&bytes, &mut out).unwrap();
        let size = i64::from_le_bytes(out);
        assert_eq!(total, if sign == 1 { -size } else { size });
    }
}

#[test]
fn plans_end_at_the_number() {
    for number in 1..2000i128 {
        let bytes = spelled(number as u64);
        for (method, width) in methods() {
            let mut out = [0; PLAN_ROOM];
            let counts = plan(&bytes, method, width, &mut out).unwrap();
            assert_eq!(forecast(&bytes, method, width), Ok(counts));
            let steps = &out[..STEP_BYTES * counts.total()];

            let mut values = vec![1i128];
            let mut counted = [0; 3];
            for step in steps.chunks(STEP_BYTES) {
                let j = usize::from(u16::from_le_bytes([step[1], step[2]]));
                let k = usize::from(u16::from_le_bytes([step[3], step[4]]));
                let (value, kind) = match step[0] {
                    0 if values[j] == values[k] => (2 * values[j], 0),
                    0 => (values[j] + values[k], 1),
                    1 if values[j] == -values[k] => (2 * values[j], 0),
                    1 => (values[j] - values[k], 2),
                    _ => unreachable!(),
                };
                values.push(value);
                counted[kind] += 1;
            }
            assert_eq!(values.last(), Some(&number));
            assert_eq!(counted, [counts.doublings, counts.additions, counts.subtractions]);

            let largest = values.iter().map(|value| value.unsigned_abs()).max().unwrap();
            let largest_bits = 128 - largest.leading_zeros() as usize;

            let mut space = vec![0; work_space(values.len() - 1)];
            let accepted = Accepted { counts, largest_bits };
            assert_eq!(check(&bytes, steps, &mut space), Ok(accepted));
            for (record, value) in space.chunks(RECORD_BYTES).zip(&values) {
                assert_eq!(record[0], u8::from(*value < 0));
                assert_eq!(record[1..17], value.unsigned_abs().to_le_bytes());
                assert!(record[17..].iter().all(|&byte| byte == 0));
            }
        }
    }
}

/// In the plan of a method a step doubles only if it adds a position to itself: no add step at two
/// positions has equal values, no subtract step opposite ones. So there, positions and values give the
/// same counts.
#[test]
fn own_plans_have_no_hidden_doublings() {
    let mut generator = Generator::new(10);
    let mut numbers: Vec<Vec<u8>> = (1..=2000).map(spelled).collect();
    numbers.extend([0x01, 0x55, 0x80, 0xAA, 0xFF].map(|byte| vec![byte; NUMBER_BYTES]));
    numbers.extend((0..500).map(|_| generator.number()));
    let mut long = 0;
    for number in numbers {
        for (method, width) in methods() {
            let mut out = [0; PLAN_ROOM];
            let counts = match plan(&number, method, width, &mut out) {
                Ok(counts) => counts,
                Err(_) => continue,
            };
            let steps = &out[..STEP_BYTES * counts.total()];
            let mut space = vec![0; work_space(counts.total())];
            let accepted = check(&number, steps, &mut space);
            assert_eq!(accepted.map(|accepted| accepted.counts), Ok(counts));
            let doubled = |step: &&[u8]| step[0] == 0 && step[1..3] == step[3..5];
            assert_eq!(steps.chunks(STEP_BYTES).filter(doubled).count(), counts.doublings);
            assert_eq!(
                hidden_doublings(steps, &space),
                [0, 0],
                "{:x?} by {} {}",
                number,
                method,
                width
            );
            long += usize::from(number.len() == NUMBER_BYTES);
        }
    }
    assert!(long > 500);
}

/// With width 2, method 5 gives method 4's plan.
#[test]
fn method_five_of_width_two() {
    let mut generator = Generator::new(14);
    let mut numbers: Vec<Vec<u8>> = (1..1 << 12).map(spelled).collect();
    numbers.extend((0..2000).map(|_| generator.number()));
    for number in numbers {
        let (mut wide, mut plain) = ([7; PLAN_ROOM], [7; PLAN_ROOM]);
        assert_eq!(plan(&number, 5, 2, &mut wide), plan(&number, 4, 0, &mut plain));
        assert_eq!(wide, plain, "{:x?}", number);
    }
}

/// The largest size in the plan of a method has as many bits as the number, with these exceptions. By
/// sliding windows, an even number of fewer bits than the width gets the whole table, which ends at
/// 2^width - 1; by the wide NAF, whose table is that of one bit less, likewise. By NAF, 2^L - 1 with L of 2 or
/// more is 2^L less 1; by the modified NAF likewise, with L of 3 or more; by the wide NAF, so is every odd number above
/// 2^L - 2^(w-1), if L is at least the width.
#[test]
fn largest_bits_of_own_plans() {
    let mut generator = Generator::new(11);
    let mut numbers: Vec<Vec<u8>> = (1..1 << 12).map(spelled).collect();
    // 2^L - 1 for each L.
    let ones = (1..=NUMBER_BITS).map(|bits| [vec![0xFF; (bits - 1) / 8], vec![0xFF >> ((8 - bits % 8) % 8)]].concat());
    numbers.extend(ones);
    // The border between the numbers with a bit more and those without, for each L and width.
    for bits in (9..=NUMBER_BITS).step_by(5) {
        numbers.extend((1..=129).step_by(2).map(|small| below_power_of_two(bits, small)));
    }
    numbers.extend((1..=NUMBER_BITS).flat_map(modified_corners));
    numbers.extend((0..500).map(|_| generator.number()));
    let mut seen = [0; 6];
    for number in numbers {
        for (method, width) in methods() {
            let mut out = [0; PLAN_ROOM];
            let counts = match plan(&number, method, width, &mut out) {
                Ok(counts) => counts,
                Err(_) => continue,
            };
            let bits = bit_length(&number);
            let is_ones = number.iter().map(|byte| byte.count_ones() as usize).sum::<usize>() == bits;
            let is_even = number[0] % 2 == 0;
            // 2^L less the number: how far it is below the first number of one bit more.
            let less = (1..=128).find(|&small| number == below_power_of_two(bits, small));
            let (kind, expected) = match (method, width as usize) {
                (3, width) if is_even && bits < width => (1, width),
                (4, _) if is_ones && bits > 1 => (2, bits + 1),
                (5, width) if is_even && bits < width - 1 => (3, width - 1),
                (5, width) if !is_even && bits >= width && less.map_or(false, |less| less < 1 << (width - 1)) => {
                    (4, bits + 1)
                }
                (6, _) if is_ones && bits > 2 => (5, bits + 1),
                _ => (0, bits),
            };
            let steps = &out[..STEP_BYTES * counts.total()];
            let accepted = check(&number, steps, &mut vec![0; work_space(counts.total())]);
            let largest_bits = accepted.map(|accepted| accepted.largest_bits);
            assert_eq!(largest_bits, Ok(expected), "{:x?} by {} {}", number, method, width);
            seen[kind] += 1;
        }
    }
    // The even numbers of fewer bits than each width, and each L.
    let even = |width: u32| ((1usize << width) / 4).saturating_sub(1);
    assert!(seen[1] >= WINDOW_WIDTHS.map(even).sum(), "{:?}", seen);
    assert!(seen[2] >= NUMBER_BITS - 1, "{:?}", seen);
    assert!(seen[3] >= NAF_WIDTHS.map(|width| even(width - 1)).sum(), "{:?}", seen);
    assert!(seen[4] > 5_000, "{:?}", seen);
    assert!(seen[5] >= NUMBER_BITS - 2, "{:?}", seen);
    println!("{:?}", seen);
}
