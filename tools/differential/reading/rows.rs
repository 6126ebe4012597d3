//! Digit rows by their rule: the digit at each place is the only one that leaves a multiple of the next weight.

use crate::number::{self, Limbs};

/// Used places of a radix-2^w row.
pub fn used_places(w: usize) -> usize {
    match w {
        4 => 64,
        5 => 52,
        6 => 43,
        7 => 37,
        _ => 33,
    }
}

/// (rest - d) / 2^k, in five limbs.
fn without(rest: [u64; 5], d: i64, k: usize) -> [u64; 5] {
    let size = [d.unsigned_abs(), 0, 0, 0, 0];
    let left = if d < 0 { number::plus(rest, size) } else { number::minus(rest, size) };
    std::array::from_fn(|i| left[i] >> k | if i < 4 { left[i + 1] << (64 - k) } else { 0 })
}

/// The number's lowest w bits, read as -2^(w-1) to 2^(w-1)-1.
fn centred(rest: &[u64; 5], w: usize) -> i64 {
    let low = (rest[0] & ((1 << w) - 1)) as i64;
    if low >= 1 << (w - 1) { low - (1 << w) } else { low }
}

fn wide(s: &Limbs) -> [u64; 5] {
    [s[0], s[1], s[2], s[3], 0]
}

/// The NAF of width w, its first 256 places; below 2^255 there are no others.
pub fn naf(s: &Limbs, w: usize) -> [i8; 256] {
    let mut rest = wide(s);
    std::array::from_fn(|_| {
        let d = if rest[0] & 1 == 1 { centred(&rest, w) } else { 0 };
        rest = without(rest, d, 1);
        d as i8
    })
}

/// The radix-2^w row: centred digits, and at the last used place what is left.
pub fn radix(s: &Limbs, w: usize) -> [i8; 64] {
    let mut rest = wide(s);
    let last = used_places(w) - 1;
    std::array::from_fn(|i| {
        let d = if i < last { centred(&rest, w) } else { rest[0] as i64 };
        rest = without(rest, d, w);
        d as i8
    })
}

/// How many digits are not 0.
pub fn weight(row: &[i8]) -> u64 {
    row.iter().filter(|d| **d != 0).count() as u64
}

/// The scalar below 2^255 that has this row.
pub fn read(row: &[i8], w: usize, recode: impl Fn(&Limbs) -> Vec<i8>) -> Option<Limbs> {
    let step = if row.len() == 256 { 1 } else { w };
    let s = number::weighted(row, step)?;
    let small = s[3] >> 63 == 0;
    (small && recode(&s) == row).then_some(s)
}
