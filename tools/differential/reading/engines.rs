//! The sums and counts of 01's engines, each a plain sum of products modulo L and 01's formula.

use crate::answer::{Answer, Lent, Value};
use crate::case::Case;
use crate::lists::*;
use crate::number::{self, Limbs, ONE, ZERO};
use crate::rows::{self, naf, radix, used_places, weight};

/// What a done engine carries.
pub struct Sum {
    pub value: Limbs,
    pub additions: u64,
    pub doublings: u64,
}

/// The sum of scalar times point over the shorter list.
pub fn products(scalars: &[Limbs], points: &[Limbs]) -> Limbs {
    let terms = scalars.iter().zip(points).map(|(s, p)| number::multiplied(s, p));
    terms.fold(ZERO, |sum, term| number::added(&sum, &term))
}

/// The weight of the NAF rows of these scalars.
pub fn naf_weight(scalars: &[Limbs], w: usize) -> u64 {
    scalars.iter().map(|s| weight(&naf(s, w))).sum()
}

/// The sum of 2^j times entry (|d|-1)/2, negated for negative d, over the digits of a row that are not 0.
pub fn entries(row: &[i8], window: &[Limbs]) -> Limbs {
    let mut factors = vec![ZERO; window.len()];
    for (j, d) in row.iter().enumerate().filter(|(_, d)| **d != 0) {
        let entry = (d.unsigned_abs() as usize - 1) / 2;
        let power = POWERS[j];
        let signed = if *d < 0 { number::negated(&power) } else { power };
        factors[entry] = number::added(&factors[entry], &signed);
    }
    products(&factors, window)
}

static POWERS: std::sync::LazyLock<Vec<Limbs>> = std::sync::LazyLock::new(|| (0..256).map(number::power).collect());

/// Pippenger's width by the number of scalars, before points are looked at.
pub fn pippenger_width(scalars: usize) -> usize {
    match scalars {
        0..500 => 6,
        500..800 => 7,
        _ => 8,
    }
}

/// Pippenger's counts for a width: additions weight + c * 2 * (2^(w-1)-1) + c-1, doublings w * (c-1).
pub fn pippenger_counts(scalars: &[Limbs], w: usize) -> (u64, u64) {
    let c = used_places(w) as u64;
    let weight: u64 = scalars.iter().map(|s| weight(&radix(s, w))).sum();
    (weight + c * 2 * ((1 << (w - 1)) - 1) + c - 1, w as u64 * (c - 1))
}

/// Where the double base starts: the first place from 255 down where either row is not 0, or 0.
pub fn start_place(a: &[i8], b: &[i8]) -> u64 {
    (0..256).rev().find(|j| a[*j] != 0 || b[*j] != 0).unwrap_or(0) as u64
}

fn answered(number: u8, lent: [Lent; 2], sum: impl FnOnce() -> (Sum, [Lent; 2])) -> Answer {
    if number != 0 {
        return Answer::refused(number, Value::Element(ZERO), true, lent.to_vec());
    }
    let (sum, lent) = sum();
    Answer {
        number,
        value: Value::Element(sum.value),
        counts: Some((sum.additions, sum.doublings)),
        lent: lent.to_vec(),
    }
}

fn without_room(number: u8, sum: impl FnOnce() -> Sum) -> Answer {
    if number != 0 {
        return Answer::refused(number, Value::Element(ZERO), true, vec![]);
    }
    let sum = sum();
    Answer { number, value: Value::Element(sum.value), counts: Some((sum.additions, sum.doublings)), lent: vec![] }
}

fn room(digits: &[i8], limbs: &[u64]) -> [Lent; 2] {
    [Lent::Digits(digits.to_vec()), Lent::Limbs(limbs.to_vec())]
}

fn cleared_room(digits: &[i8], n: usize, limbs: &[u64], k: usize) -> [Lent; 2] {
    [Lent::Digits(cleared(digits, n)), Lent::Limbs(cleared(limbs, k))]
}

/// Single base: additions 71, doublings 252.
pub fn single(case: &Case) -> Answer {
    let (point, scalar) = (case.limbs(0), case.bytes(1));
    let number = lowest(&[
        (1, point.len() != 4 || scalar.len() != 32),
        (6, scalar_too_large(scalar)),
        (7, element_too_large(point)),
    ]);
    without_room(number, || Sum { value: products(&scalars(scalar), &elements(point)), additions: 71, doublings: 252 })
}

/// Double base: additions 7 + weight, doublings the start place + 2.
pub fn double(case: &Case) -> Answer {
    let (a, point, b) = (case.bytes(0), case.limbs(1), case.bytes(2));
    let number = lowest(&[
        (1, a.len() != 32 || b.len() != 32 || point.len() != 4),
        (6, scalar_too_large(a) || scalar_too_large(b)),
        (7, element_too_large(point)),
    ]);
    without_room(number, || {
        let (a, b) = (number::from_bytes(a), number::from_bytes(b));
        let (row_a, row_b) = (naf(&a, 5), naf(&b, 8));
        Sum {
            value: products(&[a, b], &[elements(point)[0], ONE]),
            additions: 7 + weight(&row_a) + weight(&row_b),
            doublings: start_place(&row_a, &row_b) + 2,
        }
    })
}

/// Radix-16 Straus: room 64m digits, 32m limbs; additions 71m, doublings 256.
pub fn straus(case: &Case) -> Answer {
    let (bytes, limbs, digits, windows) = (case.bytes(0), case.limbs(1), case.digits(2), case.limbs(3));
    let (s, p) = (scalars(bytes), elements(limbs));
    let m = s.len().min(p.len());
    let number = lowest(&[
        (1, torn(bytes.len(), 32) || torn(limbs.len(), 4)),
        (2, s.len() > MOST || p.len() > MOST),
        (5, digits.len() < 64 * m || windows.len() < 32 * m),
        (6, scalar_too_large(bytes)),
        (7, element_too_large(limbs)),
    ]);
    answered(number, room(digits, windows), || {
        let sum = Sum { value: products(&s, &p), additions: 71 * m as u64, doublings: 256 };
        (sum, cleared_room(digits, 64 * m, windows, 32 * m))
    })
}

/// NAF Straus: room 256m digits, 32m limbs; additions 7m + weight, doublings 256 + m.
pub fn straus_optional(case: &Case) -> Answer {
    let (bytes, limbs, flags) = (case.bytes(0), case.limbs(1), case.bytes(2));
    let (digits, windows) = (case.digits(3), case.limbs(4));
    let (s, p) = (scalars(bytes), elements(limbs));
    let m = s.len().min(p.len());
    let number = lowest(&[
        (1, torn(bytes.len(), 32) || torn(limbs.len(), 4) || flags.len() != p.len()),
        (2, s.len() > MOST || p.len() > MOST),
        (5, digits.len() < 256 * m || windows.len() < 32 * m),
        (6, scalar_too_large(bytes)),
        (7, point_refused(limbs, flags)),
        (8, absent(flags)),
    ]);
    answered(number, room(digits, windows), || {
        let additions = 7 * m as u64 + naf_weight(&s[..m], 5);
        let sum = Sum { value: products(&s, &p), additions, doublings: 256 + m as u64 };
        (sum, cleared_room(digits, 256 * m, windows, 32 * m))
    })
}

/// Pippenger: room 64m digits and 2^(w-1) buckets; an absent point past the last scalar is ignored.
pub fn pippenger(case: &Case) -> Answer {
    let (bytes, limbs, flags) = (case.bytes(0), case.limbs(1), case.bytes(2));
    let (digits, buckets) = (case.digits(3), case.limbs(4));
    let (s, p) = (scalars(bytes), elements(limbs));
    let m = s.len().min(p.len());
    let w = pippenger_width(s.len());
    let need = 4 << (w - 1);
    let number = lowest(&[
        (1, torn(bytes.len(), 32) || torn(limbs.len(), 4) || flags.len() != p.len()),
        (2, s.len() > MOST || p.len() > MOST),
        (5, digits.len() < 64 * m || buckets.len() < need),
        (6, scalar_too_large(bytes)),
        (7, point_refused(limbs, flags)),
        (8, absent(&flags[..flags.len().min(s.len())])),
    ]);
    answered(number, room(digits, buckets), || {
        let (additions, doublings) = pippenger_counts(&s[..m], w);
        let sum = Sum { value: products(&s, &p), additions, doublings };
        (sum, cleared_room(digits, 64 * m, buckets, need))
    })
}

/// Precomputed Straus: tables as they stand with rows of width 8, dynamic pairs with rows of width 5.
pub fn mixed(case: &Case) -> Answer {
    let (tables, fixed, dynamic) = (case.limbs(0), case.bytes(1), case.bytes(2));
    let (limbs, flags, digits, windows) = (case.limbs(3), case.bytes(4), case.digits(5), case.limbs(6));
    let (f, s, p) = (scalars(fixed), scalars(dynamic), elements(limbs));
    let sp = tables.len() / 256;
    let number = lowest(&[
        (1, torn(tables.len(), 256) || torn(fixed.len(), 32) || torn(dynamic.len(), 32)),
        (1, torn(limbs.len(), 4) || flags.len() != p.len()),
        (2, f.len() > MOST || s.len() > MOST || p.len() > MOST || sp > MOST_STATIC),
        (5, digits.len() < 256 * (f.len() + s.len()) || windows.len() < 32 * s.len()),
        (6, scalar_too_large(fixed) || scalar_too_large(dynamic)),
        (7, point_refused(limbs, flags)),
        (8, absent(flags)),
        (9, f.len() > sp || s.len() != p.len()),
        (10, element_too_large(tables)),
    ]);
    answered(number, room(digits, windows), || {
        let n = s.len();
        let tables = elements(tables);
        let still = f.iter().enumerate().map(|(i, s)| entries(&rows::naf(s, 8), &tables[64 * i..64 * i + 64]));
        let sum = Sum {
            value: still.fold(products(&s, &p), |sum, term| number::added(&sum, &term)),
            additions: 7 * n as u64 + naf_weight(&s, 5) + naf_weight(&f, 8),
            doublings: 256 + n as u64,
        };
        (sum, cleared_room(digits, 256 * (f.len() + n), windows, 32 * n))
    })
}
