//! What Bosma, "Signed bits and fast exponentiation" (document 004), publishes: the table of section 2, the chains of
//! section 3, and the tables and formulas of sections 4 and 5, counted over the forms that this crate gives. The letters
//! are the paper's: without a mark for the binary form, ' for the non-adjacent form, '' for the modified one.

use reference::limits::*;
use reference::*;
use std::ops::{Add, Div, Mul, Sub};

/// The bytes of a number, the highest not zero.
fn spelled(number: u64) -> Vec<u8> {
    let bytes = number.to_le_bytes();
    let length = 8 - number.leading_zeros() as usize / 8;
    bytes[..length].to_vec()
}

type Form = fn(u64) -> Vec<i8>;

/// The three forms of a number, lowest digit first.
const FORMS: [Form; 3] = [binary, naf, modified];

fn binary(number: u64) -> Vec<i8> {
    let bits = 64 - number.leading_zeros();
    (0..bits).map(|place| (number >> place & 1) as i8).collect()
}

fn naf(number: u64) -> Vec<i8> {
    let mut out = [0; 70];
    let length = recode(&spelled(number), &mut out).unwrap();
    out[..length].iter().map(|&digit| digit as i8).collect()
}

fn modified(number: u64) -> Vec<i8> {
    let mut out = [0; 70];
    let length = recode_modified(&spelled(number), &mut out).unwrap();
    out[..length].iter().map(|&digit| digit as i8).collect()
}

fn weight(digits: &[i8]) -> usize {
    digits.iter().filter(|&&digit| digit != 0).count()
}

/// The digits as the paper writes them.
fn written(digits: &[i8]) -> String {
    let words: Vec<String> = digits.iter().rev().map(i8::to_string).collect();
    words.join(" ")
}

/// Section 2: binary form, non-adjacent form, modified non-adjacent form of 1 to 39.
const TABLE: [[&str; 3]; 39] = [
    ["1", "1", "1"],
    ["1 0", "1 0", "1 0"],
    ["1 1", "1 0 -1", "1 1"],
    ["1 0 0", "1 0 0", "1 0 0"],
    ["1 0 1", "1 0 1", "1 0 1"],
    ["1 1 0", "1 0 -1 0", "1 1 0"],
    ["1 1 1", "1 0 0 -1", "1 0 0 -1"],
    ["1 0 0 0", "1 0 0 0", "1 0 0 0"],
    ["1 0 0 1", "1 0 0 1", "1 0 0 1"],
    ["1 0 1 0", "1 0 1 0", "1 0 1 0"],
    ["1 0 1 1", "1 0 -1 0 -1", "1 1 0 -1"],
    ["1 1 0 0", "1 0 -1 0 0", "1 1 0 0"],
    ["1 1 0 1", "1 0 -1 0 1", "1 1 0 1"],
    ["1 1 1 0", "1 0 0 -1 0", "1 0 0 -1 0"],
    ["1 1 1 1", "1 0 0 0 -1", "1 0 0 0 -1"],
    ["1 0 0 0 0", "1 0 0 0 0", "1 0 0 0 0"],
    ["1 0 0 0 1", "1 0 0 0 1", "1 0 0 0 1"],
    ["1 0 0 1 0", "1 0 0 1 0", "1 0 0 1 0"],
    ["1 0 0 1 1", "1 0 1 0 -1", "1 0 1 0 -1"],
    ["1 0 1 0 0", "1 0 1 0 0", "1 0 1 0 0"],
    ["1 0 1 0 1", "1 0 1 0 1", "1 0 1 0 1"],
    ["1 0 1 1 0", "1 0 -1 0 -1 0", "1 1 0 -1 0"],
    ["1 0 1 1 1", "1 0 -1 0 0 -1", "1 1 0 0 -1"],
    ["1 1 0 0 0", "1 0 -1 0 0 0", "1 1 0 0 0"],
    ["1 1 0 0 1", "1 0 -1 0 0 1", "1 1 0 0 1"],
    ["1 1 0 1 0", "1 0 -1 0 1 0", "1 1 0 1 0"],
    ["1 1 0 1 1", "1 0 0 -1 0 -1", "1 0 0 -1 0 -1"],
    ["1 1 1 0 0", "1 0 0 -1 0 0", "1 0 0 -1 0 0"],
    ["1 1 1 0 1", "1 0 0 -1 0 1", "1 0 0 -1 0 1"],
    ["1 1 1 1 0", "1 0 0 0 -1 0", "1 0 0 0 -1 0"],
    ["1 1 1 1 1", "1 0 0 0 0 -1", "1 0 0 0 0 -1"],
    ["1 0 0 0 0 0", "1 0 0 0 0 0", "1 0 0 0 0 0"],
    ["1 0 0 0 0 1", "1 0 0 0 0 1", "1 0 0 0 0 1"],
    ["1 0 0 0 1 0", "1 0 0 0 1 0", "1 0 0 0 1 0"],
    ["1 0 0 0 1 1", "1 0 0 1 0 -1", "1 0 0 1 0 -1"],
    ["1 0 0 1 0 0", "1 0 0 1 0 0", "1 0 0 1 0 0"],
    ["1 0 0 1 0 1", "1 0 0 1 0 1", "1 0 0 1 0 1"],
    ["1 0 0 1 1 0", "1 0 1 0 -1 0", "1 0 1 0 -1 0"],
    ["1 0 0 1 1 1", "1 0 1 0 0 -1", "1 0 1 0 0 -1"],
];

#[test]
fn table_of_section_2() {
    for (number, row) in (1..).zip(TABLE) {
        assert_eq!(FORMS.map(|form| written(&form(number))), row, "{}", number);
    }
    // Zero, which the table does not have, has no digits.
    assert_eq!(FORMS.map(|form| form(0).len()), [0; 3]);
    // The example before it, of which the paper gives the first two forms.
    assert_eq!(
        FORMS.map(|form| written(&form(3190))),
        [
            "1 1 0 0 0 1 1 1 0 1 1 0",
            "1 0 -1 0 0 1 0 0 0 -1 0 -1 0",
            "1 1 0 0 1 0 0 0 -1 0 -1 0"
        ]
    );
}

/// The values of a plan, from position 0 on, by the check of it.
fn chain(number: u64, method: u32) -> Vec<u64> {
    let mut out = [0; PLAN_ROOM];
    let steps = plan(&spelled(number), method, 0, &mut out).unwrap().total();
    let mut space = vec![0; work_space(steps)];
    check(&spelled(number), &out[..STEP_BYTES * steps], &mut space).unwrap();
    let value = |record: &[u8]| u64::from_le_bytes(record[1..9].try_into().unwrap());
    space.chunks(RECORD_BYTES).map(value).collect()
}

/// The chains of section 3, from left to right: by the modified form, and by the binary one.
#[test]
fn chains_of_section_3() {
    assert_eq!(chain(43, 6), [1, 2, 3, 6, 12, 11, 22, 44, 43]);
    assert_eq!(chain(43, 1), [1, 2, 4, 5, 10, 20, 21, 42, 43]);
    assert_eq!(chain(43, 4).len(), 1 + 9);
    assert_eq!(chain(15, 6), [1, 2, 4, 8, 16, 15]);
    assert_eq!(chain(15, 1), [1, 2, 3, 6, 7, 14, 15]);
    assert_eq!(chain(23, 6), [1, 2, 3, 6, 12, 24, 23]);
    assert_eq!(chain(23, 1), [1, 2, 4, 5, 10, 11, 22, 23]);
    assert_eq!(chain(27, 6), [1, 2, 4, 8, 7, 14, 28, 27]);
    assert_eq!(chain(27, 1), [1, 2, 3, 6, 12, 13, 26, 27]);
    assert_eq!(chain(47, 6), [1, 2, 3, 6, 12, 24, 48, 47]);
    assert_eq!(chain(47, 1), [1, 2, 4, 5, 10, 11, 22, 23, 46, 47]);
    // "Outside numbers of this form", 2^k - 1, 23 is the first whose modified form gives a shorter chain.
    let is_shorter = |number: &u64| chain(*number, 6).len() < chain(*number, 1).len();
    let mut others = (1..100u64).filter(|number| !(number + 1).is_power_of_two());
    assert_eq!(others.find(is_shorter), Some(23));
}

/// A fraction, for formulas as the paper has them.
#[derive(Clone, Copy, Debug)]
struct Fraction(i64, i64);

impl PartialEq for Fraction {
    fn eq(&self, other: &Fraction) -> bool {
        self.0 * other.1 == other.0 * self.1
    }
}

impl Add for Fraction {
    type Output = Fraction;
    fn add(self, other: Fraction) -> Fraction {
        Fraction(self.0 * other.1 + other.0 * self.1, self.1 * other.1)
    }
}

impl Sub for Fraction {
    type Output = Fraction;
    fn sub(self, other: Fraction) -> Fraction {
        self + Fraction(-other.0, other.1)
    }
}

impl Mul for Fraction {
    type Output = Fraction;
    fn mul(self, other: Fraction) -> Fraction {
        Fraction(self.0 * other.0, self.1 * other.1)
    }
}

impl Div for Fraction {
    type Output = Fraction;
    fn div(self, other: Fraction) -> Fraction {
        Fraction(self.0 * other.1, self.1 * other.0)
    }
}

fn whole(number: i64) -> Fraction {
    Fraction(number, 1)
}

fn power(n: i64) -> Fraction {
    whole(1 << n)
}

/// (-1)^n.
fn sign(n: i64) -> Fraction {
    whole(if n % 2 == 0 { 1 } else { -1 })
}

/// How far the totals are counted; the paper prints the first 11, of sums the first 10.
const MOST: usize = 12;

/// A total for each n from 0 to MOST.
type Row = [i64; MOST + 1];

/// The totals of a form over the numbers below 2^MOST. None of more bits has a form of at most MOST digits.
#[derive(Clone, Copy)]
struct Totals {
    /// c: how many numbers have a form of n digits. s: their nonzero digits.
    numbers: Row,
    nonzero: Row,
    /// l and w: the digits, and the nonzero digits, of all numbers of n bits.
    lengths: Row,
    weights: Row,
}

fn totals(form: Form) -> Totals {
    let mut totals = Totals {
        numbers: [0; MOST + 1],
        nonzero: [0; MOST + 1],
        lengths: [0; MOST + 1],
        weights: [0; MOST + 1],
    };
    for number in 1..1u64 << MOST {
        let digits = form(number);
        if digits.len() <= MOST {
            totals.numbers[digits.len()] += 1;
            totals.nonzero[digits.len()] += weight(&digits) as i64;
        }
        let bits = binary(number).len();
        totals.lengths[bits] += digits.len() as i64;
        totals.weights[bits] += weight(&digits) as i64;
    }
    totals
}

/// The sum of a row up to each n, from a first term: C, S, L and W.
fn summed(row: Row, first: i64) -> Row {
    let mut sum = first;
    row.map(|term| {
        sum += term;
        sum
    })
}

/// A row is as printed from n = 1 on, and as the formula says from this n on.
fn agree(name: &str, row: Row, printed: &[i64], from: usize, formula: impl Fn(i64) -> Fraction) {
    assert_eq!(row[1..=printed.len()], *printed, "{}", name);
    for (n, &total) in row.iter().enumerate().skip(from) {
        assert_eq!(formula(n as i64), whole(total), "{} of {}", name, n);
    }
}

/// How many numbers have a form of n digits, c, and of at most n, C. The paper says "positive integers", but C counts
/// zero too, whose form is empty: C_n is 2^n, and all three begin with C_0 = 1. The formula for C'' is said to hold
/// from 0 on, but there it gives 3/2; it holds from 1 on.
#[test]
fn proposition_4() {
    let [binary, naf, modified] = FORMS.map(totals).map(|totals| totals.numbers);
    let printed = [1, 2, 4, 8, 16, 32, 64, 128, 256, 512, 1024];
    agree("c", binary, &printed, 1, |n| power(n - 1));
    let printed = [1, 1, 3, 5, 11, 21, 43, 85, 171, 341, 683];
    agree("c'", naf, &printed, 1, |n| {
        Fraction(2, 3) * power(n - 1) - sign(n) / whole(3)
    });
    // c''_1 is 1, outside the formula, as the paper says.
    let printed = [1, 2, 3, 7, 13, 27, 53, 107, 213, 427, 853];
    agree("c''", modified, &printed, 2, |n| {
        Fraction(5, 6) * power(n - 1) + sign(n) / whole(3)
    });

    let printed = [2, 4, 8, 16, 32, 64, 128, 256, 512, 1024];
    agree("C", summed(binary, 1), &printed, 0, power);
    let printed = [2, 3, 6, 11, 22, 43, 86, 171, 342, 683];
    agree("C'", summed(naf, 1), &printed, 0, |n| {
        Fraction(2, 3) * power(n) + Fraction(1, 2) - sign(n) / whole(6)
    });
    let printed = [2, 4, 7, 14, 27, 54, 107, 214, 427, 854];
    let formula = |n| Fraction(5, 6) * power(n) + Fraction(1, 2) + sign(n) / whole(6);
    agree("C''", summed(modified, 1), &printed, 1, formula);
    assert_eq!((summed(modified, 1)[0], formula(0)), (1, Fraction(3, 2)));

    // The recursions of the proof; that of c'' from 2 on.
    for n in 1..=MOST - 2 {
        assert_eq!(naf[n + 2], naf[n + 1] + 2 * naf[n]);
        assert_eq!(modified[n + 2] == modified[n + 1] + 2 * modified[n], n > 1);
    }
}

/// The nonzero digits in all forms of n digits, s, and of at most n, S; zero adds none. The formula for s'' holds from 2
/// on, as the paper says, those for S from 1 on.
#[test]
fn proposition_5() {
    let [binary, naf, modified] = FORMS.map(totals);
    let printed = [1, 3, 8, 20, 48, 112, 256, 576, 1280, 2816, 6144];
    agree("s", binary.nonzero, &printed, 1, |n| Fraction(n + 1, 2) * power(n - 1));
    let printed = [1, 1, 5, 9, 25, 53, 125, 273, 609, 1325, 2885];
    agree("s'", naf.nonzero, &printed, 1, |n| {
        Fraction(6 * n + 10, 27) * power(n - 1) + sign(n - 1) * Fraction(6 * n + 5, 27)
    });
    let printed = [1, 3, 5, 15, 31, 75, 163, 367, 799, 1747, 3771];
    agree("s''", modified.nonzero, &printed, 2, |n| {
        Fraction(15 * n + 34, 54) * power(n - 1) - sign(n - 1) * Fraction(6 * n + 5, 27)
    });

    let printed = [1, 4, 12, 32, 80, 192, 448, 1024, 2304, 5120];
    agree("S", summed(binary.nonzero, 0), &printed, 1, |n| {
        Fraction(n, 2) * power(n)
    });
    let printed = [1, 2, 7, 16, 41, 94, 219, 492, 1101, 2426];
    agree("S'", summed(naf.nonzero, 0), &printed, 1, |n| {
        Fraction(6 * n + 4, 27) * power(n) + sign(n - 1) * Fraction(3 * n + 4, 27)
    });
    let printed = [1, 4, 9, 24, 55, 130, 293, 660, 1459, 3206];
    agree("S''", summed(modified.nonzero, 0), &printed, 1, |n| {
        (Fraction(5 * n, 18) + Fraction(19, 54)) * power(n) - sign(n - 1) * Fraction(3 * n + 4, 27)
    });

    // The recursions of the proof.
    let (c, s) = (naf.numbers, naf.nonzero);
    for n in 1..=MOST - 2 {
        assert_eq!(s[n + 2], 2 * (s[n] + c[n]) + s[n + 1]);
        assert_eq!(modified.nonzero[n + 2], s[n] + c[n] + 2 * s[n + 1] + c[n + 1]);
    }
}

/// The part of the digits that is not 0, in all forms of n digits, g, and of at most n, G. The paper writes C_n in both
/// quotients; in those for g it is c_n that gives its formulas. In the formula for G' the last sign is wrong: the
/// denominator is 3 (2^(n+2) + 3 - (-1)^n), which is 18 C'_n, and the paper has + (-1)^n there.
#[test]
fn corollary_6() {
    let [binary, naf, modified] = FORMS.map(totals);
    for i in 2..=MOST {
        let n = i as i64;
        let part = |totals: Totals| Fraction(totals.nonzero[i], n * totals.numbers[i]);
        assert_eq!(part(binary), Fraction(1, 2) + Fraction(1, 2 * n));
        let formula = Fraction(1, 3) + Fraction(5, 9 * n) - sign(n) / (whole(3) * (power(n) - sign(n)));
        assert_eq!(part(naf), formula, "g' of {}", n);
        let formula = Fraction(1, 3)
            + Fraction(34, 45 * n)
            + sign(n) * (whole(1) - Fraction(3, 5 * n)) / (whole(3) * (whole(5) * power(n - 2) + sign(n)));
        assert_eq!(part(modified), formula, "g'' of {}", n);

        let part = |totals: Totals| Fraction(summed(totals.nonzero, 0)[i], n * summed(totals.numbers, 1)[i]);
        assert_eq!(part(binary), Fraction(1, 2));
        let with = |last: Fraction| {
            let top = whole(3) + sign(n) + (whole(1) + sign(n)) * Fraction(2, n);
            Fraction(1, 3) + Fraction(2, 9 * n) - top / (whole(3) * (power(n + 2) + whole(3) + last))
        };
        assert_eq!(part(naf), with(whole(0) - sign(n)), "G' of {}", n);
        assert_ne!(part(naf), with(sign(n)), "G' of {}, as printed", n);
        let top = whole(3) - sign(n) + (whole(19) - sign(n) * whole(7)) * Fraction(1, 5 * n);
        let formula =
            Fraction(1, 3) + Fraction(19, 45 * n) - top / (whole(3) * (whole(5) * power(n) + whole(3) + sign(n)));
        assert_eq!(part(modified), formula, "G'' of {}", n);
    }
}

/// The digits in the forms of all numbers of n bits, l, and of at most n, L; zero adds none.
#[test]
fn proposition_7() {
    let all = FORMS.map(totals);
    let [binary, naf, modified] = all.map(|totals| totals.lengths);
    let printed = [1, 4, 12, 32, 80, 192, 448, 1024, 2304, 5120, 11264];
    agree("l", binary, &printed, 1, |n| whole(n) * power(n - 1));
    let printed = [1, 5, 14, 37, 90, 213, 490, 1109, 2474, 5461, 11946];
    agree("l'", naf, &printed, 1, |n| {
        (whole(n) + Fraction(2, 3)) * power(n - 1) - Fraction(1, 2) - sign(n - 1) * Fraction(1, 6)
    });
    let printed = [1, 4, 13, 34, 85, 202, 469, 1066, 2389, 5290, 11605];
    agree("l''", modified, &printed, 1, |n| {
        (whole(n) + Fraction(1, 3)) * power(n - 1) - Fraction(1, 2) + sign(n - 1) * Fraction(1, 6)
    });

    let printed = [1, 5, 17, 49, 129, 321, 769, 1793, 4097, 9217];
    agree("L", summed(binary, 0), &printed, 0, |n| {
        whole(n - 1) * power(n) + whole(1)
    });
    let printed = [1, 6, 20, 57, 147, 360, 850, 1959, 4433, 9894];
    agree("L'", summed(naf, 0), &printed, 0, |n| {
        (whole(n) - Fraction(1, 3)) * power(n) - Fraction(n, 2) + Fraction(1, 4) + sign(n) / whole(12)
    });
    let printed = [1, 5, 18, 52, 137, 339, 808, 1874, 4263, 9553];
    agree("L''", summed(modified, 0), &printed, 0, |n| {
        (whole(n) - Fraction(2, 3)) * power(n) - Fraction(n, 2) + Fraction(3, 4) - sign(n) / whole(12)
    });

    // How many forms of n-bit numbers have n digits, and how many one more.
    let sums = summed(all[1].numbers, 1);
    for n in 2..=MOST {
        let digits = n as i64;
        assert_eq!(naf[n], digits * sums[n - 2] + (digits + 1) * (sums[n - 1] - 1));
        assert_eq!(modified[n], digits * sums[n - 1] + (digits + 1) * (sums[n - 2] - 1));
    }
}

/// The nonzero digits in the forms of all numbers of n bits, w, and of at most n, W; zero adds none.
#[test]
fn proposition_8() {
    let all = FORMS.map(totals);
    let [binary, naf, modified] = all.map(|totals| totals.weights);
    let printed = [1, 3, 8, 20, 48, 112, 256, 576, 1280, 2816, 6144];
    agree("w", binary, &printed, 1, |n| Fraction(n + 1, 4) * power(n));
    let printed = [1, 3, 7, 17, 39, 89, 199, 441, 967, 2105, 4551];
    for (name, row) in [("w'", naf), ("w''", modified)] {
        agree(name, row, &printed, 1, |n| {
            (Fraction(n, 3) + Fraction(7, 9)) * power(n - 1) + sign(n) / whole(9)
        });
    }

    let printed = [1, 4, 12, 32, 80, 192, 448, 1024, 2304, 5120];
    agree("W", summed(binary, 0), &printed, 1, |n| whole(n) * power(n - 1));
    let printed = [1, 4, 11, 28, 67, 156, 355, 796, 1763, 3868];
    for (name, row) in [("W'", naf), ("W''", modified)] {
        agree(name, summed(row, 0), &printed, 0, |n| {
            (Fraction(n, 3) + Fraction(4, 9)) * power(n) - Fraction(1, 2) + sign(n) / whole(18)
        });
    }

    // The relation of the proof.
    let s = all[1].nonzero;
    for n in 1..MOST {
        assert_eq!(2 * naf[n], s[n] - 1 + s[n + 1] - 1 + 2);
    }
}

/// The steps of a plan on average, over all numbers of n bits, m, and of at most n, M: one less than the digits and one
/// less than the nonzero digits, by methods 1, 4 and 6. M divides by C_n, so zero counts there, with -2 steps.
///
/// In the formulas for m' and m'' two fractions have changed places: the paper has 1/18 in m' and 5/18 in m''. It is
/// 5/18 in m' and 1/18 in m'', as follows from its own formulas for l, w and c.
#[test]
fn corollary_9() {
    let all = FORMS.map(totals);
    for i in 1..=MOST {
        let (n, count) = (i as i64, 1 << (i - 1));
        let steps = all.map(|totals| totals.lengths[i] + totals.weights[i] - 2 * count);
        for (steps, method) in steps.into_iter().zip([1, 4, 6]) {
            let planned = |number: i64| forecast(&spelled(number as u64), method, 0).unwrap().total() as i64;
            let sum: i64 = (count..2 * count).map(planned).sum();
            assert_eq!(sum, steps, "{} bits by method {}", n, method);
        }

        let [binary, naf, modified] = steps.map(|steps| Fraction(steps, count));
        assert_eq!(binary, Fraction(3, 2) * whole(n - 1));
        let of_naf = |with: Fraction| {
            Fraction(4, 3) * whole(n - 1) + Fraction(7, 9) - (Fraction(1, 2) + sign(n - 1) * with) / whole(count)
        };
        let of_modified = |with: Fraction| {
            Fraction(4, 3) * whole(n - 1) + Fraction(4, 9) - (Fraction(1, 2) - sign(n - 1) * with) / whole(count)
        };
        assert_eq!(naf, of_naf(Fraction(5, 18)), "m' of {}", n);
        assert_eq!(modified, of_modified(Fraction(1, 18)), "m'' of {}", n);
        assert_ne!(naf, of_naf(Fraction(1, 18)), "m' of {}, as printed", n);
        assert_ne!(modified, of_modified(Fraction(5, 18)), "m'' of {}, as printed", n);

        let [binary, naf, modified] = all.map(|totals| {
            let sum = summed(totals.lengths, 0)[i] + summed(totals.weights, 0)[i];
            whole(sum) / power(n) - whole(2)
        });
        assert_eq!(binary, Fraction(3, 2) * whole(n - 2) + whole(1) / power(n));
        let rest = Fraction(-n, 2) - Fraction(1, 4) + sign(n) * Fraction(5, 36);
        let formula = Fraction(4, 3) * whole(n - 2) + Fraction(7, 9) + rest / power(n);
        assert_eq!(naf, formula, "M' of {}", n);
        let rest = Fraction(-n, 2) + Fraction(1, 4) - sign(n) * Fraction(1, 36);
        let formula = Fraction(4, 3) * whole(n - 2) + Fraction(4, 9) + rest / power(n);
        assert_eq!(modified, formula, "M'' of {}", n);
    }
}
