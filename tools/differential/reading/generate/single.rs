//! Cases of the group, recodings, readers, windows, lookups, single and double base.

use super::values::*;
use crate::calls::{odd_window, successive_window};
use crate::case::{Argument, Case};
use crate::number::{self, Limbs};
use crate::random::Random;
use crate::rows::{naf, radix, used_places};

pub fn case(r: &mut Random, code: u8, bad: &[u8]) -> Case {
    let arguments = match code {
        1 | 2 => {
            let (a, b) = (point(r, &[]), point(r, &[]));
            let spoilt = point(r, bad);
            if r.once_in(2) { vec![a, spoilt] } else { vec![spoilt, b] }
        }
        3 | 4 | 10..=12 => vec![point(r, bad)],
        5 => vec![scalar_bytes(r, bad), width(r, bad, 2)],
        6 => vec![scalar_bytes(r, bad)],
        7 => vec![scalar_bytes(r, bad), width(r, bad, 4)],
        8 | 9 => reader(r, code, bad),
        13..=15 => lookup(r, code, bad),
        16 => vec![point(r, bad), scalar_bytes(r, bad)],
        _ => {
            let (a, b) = (scalar_bytes(r, &[]), scalar_bytes(r, &[]));
            let spoilt = scalar_bytes(r, bad);
            let p = point(r, &bad.iter().copied().filter(|n| *n == 7).collect::<Vec<_>>());
            if r.once_in(2) { vec![a, p, spoilt] } else { vec![spoilt, p, b] }
        }
    };
    Case { code, arguments }
}

/// One element: 1 makes it not four limbs, 7 at or above L.
fn point(r: &mut Random, bad: &[u8]) -> Argument {
    let e = if bad.contains(&7) { large_element(r) } else { element(r) };
    let mut limbs = e.to_vec();
    if bad.contains(&1) {
        match r.below(4) {
            0 => limbs.clear(),
            1 => limbs.truncate(3),
            2 => limbs.push(0),
            _ => limbs.extend(e),
        }
    }
    Argument::Limbs(limbs)
}

/// One scalar: 1 makes it not 32 bytes, 6 at or above 2^255.
fn scalar_bytes(r: &mut Random, bad: &[u8]) -> Argument {
    let s = if bad.contains(&6) { large_scalar(r) } else { scalar(r) };
    let mut bytes = number::to_bytes(&s).to_vec();
    if bad.contains(&1) {
        match r.below(4) {
            0 => bytes.clear(),
            1 => bytes.truncate(31),
            2 => bytes.push(0),
            _ => bytes.extend([0; 32]),
        }
    }
    Argument::Bytes(bytes)
}

/// A width from the lowest to 8; 3 makes it another.
fn width(r: &mut Random, bad: &[u8], lowest: usize) -> Argument {
    let good = (lowest + r.below(9 - lowest)) as u64;
    let low = r.below(lowest) as u64;
    Argument::Number(if !bad.contains(&3) {
        good
    } else if r.once_in(3) {
        low
    } else {
        bad_width(r)
    })
}

fn row(code: u8, s: &Limbs, w: usize) -> Vec<i8> {
    if code == 8 { naf(s, w).to_vec() } else { radix(s, w).to_vec() }
}

/// A row and its width; 10 changes the row so that, but for chance, no scalar has it.
fn reader(r: &mut Random, code: u8, bad: &[u8]) -> Vec<Argument> {
    let lowest = if code == 8 { 2 } else { 4 };
    let mut w = lowest + r.below(9 - lowest);
    let mut digits = row(code, &scalar(r), w);
    if bad.contains(&10) {
        spoil(r, code, &mut digits, &mut w);
    }
    if bad.contains(&1) {
        let places = digits.len();
        match r.below(5) {
            0 => digits.clear(),
            1 => digits.truncate(places - 1),
            2 => digits.push(0),
            3 => digits.resize(320 - places, 0),
            _ => digits.extend(vec![0; places]),
        }
    }
    let width = if bad.contains(&3) { width(r, bad, lowest) } else { Argument::Number(w as u64) };
    vec![Argument::Digits(digits), width]
}

/// One digit changed, one moved, another width, a scalar that is too large, or no row at all.
fn spoil(r: &mut Random, code: u8, digits: &mut Vec<i8>, w: &mut usize) {
    let at = if code == 8 { r.below(256) } else { r.below(used_places(*w)) };
    match r.below(9) {
        0 => digits[at] = digits[at].wrapping_add(1),
        1 => digits[at] = digits[at].wrapping_neg(),
        2 => digits[at] = r.pick(&[-128, -127, -9, -8, 8, 9, 15, 16, 17, 127]),
        3 => {
            // one more at a place and the weight less at the one below: the same sum
            let below = at.max(1) - 1;
            digits[below + 1] = digits[below + 1].wrapping_add(1);
            digits[below] = digits[below].wrapping_sub(if code == 8 { 2 } else { (1u16 << *w) as i8 });
        }
        4 => *digits = row(code, &large_scalar(r), *w),
        5 => *w = if code == 8 { 2 + r.below(7) } else { 4 + r.below(5) },
        6 => digits.iter_mut().for_each(|d| *d = d.wrapping_neg()),
        7 => digits.iter_mut().for_each(|d| *d = r.next() as i8),
        _ => {
            let last = digits.len() - 1 - r.below(3);
            digits[last] = r.pick(&[-1, 1, 7, 8, -8]);
        }
    }
}

/// A window and a digit; 10 takes a digit outside, or an entry at or above L anywhere.
fn lookup(r: &mut Random, code: u8, bad: &[u8]) -> Vec<Argument> {
    let entries = if code == 15 { 64 } else { 8 };
    let p = element(r);
    let mut window = match r.below(3) {
        0 => flat(&(0..entries).map(|_| element(r)).collect::<Vec<_>>()),
        _ if code == 13 => successive_window(&p, entries),
        _ => odd_window(&p, entries),
    };
    let mut d = match code {
        13 => r.below(17) as i8 - 8,
        14 => 2 * r.below(16) as i8 - 15,
        _ => (2 * r.below(128) as i16 - 127) as i8,
    };
    if bad.contains(&10) {
        if r.once_in(2) {
            let at = 4 * r.below(entries);
            window[at..at + 4].copy_from_slice(&large_element(r));
        } else {
            d = match code {
                13 => r.pick(&[-128, -100, -9, 9, 10, 16, 127]),
                14 => r.pick(&[-128, -127, -17, -16, -2, 0, 2, 14, 16, 17, 127]),
                _ => r.pick(&[-128, -126, -2, 0, 2, 64, 126]),
            };
        }
    }
    if bad.contains(&1) {
        tear(r, &mut window, 5, 0);
    }
    vec![Argument::Limbs(window), Argument::Digit(d)]
}
