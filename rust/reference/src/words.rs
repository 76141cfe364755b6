//! Unsigned arithmetic on fixed arrays of 64-bit words, least significant first.

use std::cmp::Ordering;

/// The number of bits up to the top one; 0 for zero.
pub(crate) fn bit_length<const N: usize>(words: &[u64; N]) -> usize {
    for i in (0..N).rev() {
        if words[i] != 0 {
            return 64 * i + 64 - words[i].leading_zeros() as usize;
        }
    }
    0
}

pub(crate) fn count_ones(words: &[u64]) -> usize {
    words.iter().map(|word| word.count_ones() as usize).sum()
}

pub(crate) fn compare<const N: usize>(a: &[u64; N], b: &[u64; N]) -> Ordering {
    a.iter().rev().cmp(b.iter().rev())
}

/// `a + b`; the caller makes sure that the sum fits.
pub(crate) fn add<const N: usize>(a: &[u64; N], b: &[u64; N]) -> [u64; N] {
    let mut sum = [0; N];
    let mut carry = false;
    for i in 0..N {
        let (partial, first) = a[i].overflowing_add(b[i]);
        let (word, second) = partial.overflowing_add(u64::from(carry));
        sum[i] = word;
        carry = first || second;
    }
    sum
}

/// `a - b`; the caller makes sure that `b` is not above `a`.
pub(crate) fn subtract<const N: usize>(a: &[u64; N], b: &[u64; N]) -> [u64; N] {
    let mut difference = [0; N];
    let mut borrow = false;
    for i in 0..N {
        let (partial, first) = a[i].overflowing_sub(b[i]);
        let (word, second) = partial.overflowing_sub(u64::from(borrow));
        difference[i] = word;
        borrow = first || second;
    }
    difference
}

/// `a + small * 2^place`; the caller makes sure that the sum fits.
pub(crate) fn add_at<const N: usize>(a: &mut [u64; N], small: u8, place: usize) {
    let mut carry = u128::from(small) << (place % 64);
    let mut i = place / 64;
    while carry != 0 {
        carry += u128::from(a[i]);
        a[i] = carry as u64;
        carry >>= 64;
        i += 1;
    }
}

/// `3 * a`; the caller makes sure that the product fits.
pub(crate) fn triple<const N: usize>(a: &[u64; N]) -> [u64; N] {
    let mut product = [0; N];
    let mut carry = 0;
    for i in 0..N {
        let wide = 3 * u128::from(a[i]) + carry;
        product[i] = wide as u64;
        carry = wide >> 64;
    }
    product
}

/// `a / 2`, rounded down.
pub(crate) fn halve<const N: usize>(a: &[u64; N]) -> [u64; N] {
    let mut half = [0; N];
    let mut from_above = 0;
    for i in (0..N).rev() {
        half[i] = a[i] >> 1 | from_above << 63;
        from_above = a[i] & 1;
    }
    half
}

/// Fills the words from bytes, least significant first; absent bytes are zero.
pub(crate) fn from_bytes<const N: usize>(bytes: &[u8]) -> [u64; N] {
    let mut words = [0; N];
    let mut whole = bytes.chunks_exact(8);
    let mut filled = 0;
    for (word, chunk) in words.iter_mut().zip(&mut whole) {
        let mut eight = [0; 8];
        eight.copy_from_slice(chunk);
        *word = u64::from_le_bytes(eight);
        filled += 1;
    }
    for &byte in whole.remainder().iter().rev() {
        words[filled] = words[filled] << 8 | u64::from(byte);
    }
    words
}

/// Writes the low bytes of the words over the whole of `bytes`.
pub(crate) fn to_bytes(words: &[u64], bytes: &mut [u8]) {
    for (chunk, word) in bytes.chunks_mut(8).zip(words) {
        chunk.copy_from_slice(&word.to_le_bytes()[..chunk.len()]);
    }
}
