//! The engines against the Rust's, in value, counts, None and panics.

use reading::answer::Answer;
use reading::case::Case;
use reading::engines::{entries, naf_weight, pippenger_counts, pippenger_width, products, start_place};
use reading::lists::{element_too_large, elements, point_refused, scalars, torn};
use reading::number::{self, Limbs, ONE};
use reading::rows::{naf, radix, weight};

use super::{ASSERT, Check, Found, LARGE, MANY, NONE, ROOM, WINDOWS};
use super::{any_large, array, arrays, flat, large, named, same};
use crate::side::{End, Side};

/// What 256 places of the NAF of a scalar add up to: from 2^255 up a digit at place 256 is lost.
fn naf_effective(s: &Limbs, w: usize) -> Limbs {
    if !large(s) {
        return number::modulo(s);
    }
    let sum = number::weighted(&naf(s, w), 1);
    // a lost digit is worth 2^256, and then the rest is below 0
    sum.map_or_else(|| number::added(&number::modulo(s), &number::negated(&number::power(256))), |n| number::modulo(&n))
}

/// What radix-16 digits add up to when lookups give the identity beyond 8.
fn radix_effective(s: &Limbs) -> Limbs {
    let row = radix(s, 4);
    if row[63] <= 8 {
        return number::modulo(s);
    }
    let top = number::multiplied(&[row[63] as u64, 0, 0, 0], &number::power(252));
    number::added(&number::modulo(s), &number::negated(&top))
}

pub fn single(side: &Side, case: &Case, said: &Answer) -> Check {
    let (point, scalar) = (case.limbs(0), case.bytes(1));
    if point.len() != 4 || scalar.len() != 32 || element_too_large(point) {
        return Ok(Found::NotRun);
    }
    let (p, s) = (elements(point)[0], number::from_bytes(scalar));
    let got = side.run(|| (side.variable_base)(p, array(scalar)));
    let names = named(&[(said.number == 6 || large(&s), LARGE)]);
    if large(&s) && side.checked {
        return same(side, got, End::Panic, names);
    }
    same(side, got, End::Done(number::multiplied(&radix_effective(&s), &p), 71, 252), names)
}

pub fn double(side: &Side, case: &Case, said: &Answer) -> Check {
    let (a, point, b) = (case.bytes(0), case.limbs(1), case.bytes(2));
    if a.len() != 32 || b.len() != 32 || point.len() != 4 || element_too_large(point) {
        return Ok(Found::NotRun);
    }
    let p = elements(point)[0];
    let got = side.run(|| (side.double_base)(array(a), p, array(b)));
    let (sa, sb) = (number::from_bytes(a), number::from_bytes(b));
    let (row_a, row_b) = (naf(&sa, 5), naf(&sb, 8));
    let value = products(&[naf_effective(&sa, 5), naf_effective(&sb, 8)], &[p, ONE]);
    let due = End::Done(value, 7 + weight(&row_a) + weight(&row_b), start_place(&row_a, &row_b) + 2);
    same(side, got, due, named(&[(said.number == 6 || large(&sa) || large(&sb), LARGE)]))
}

/// Whole lists of scalars and points below L.
fn whole(bytes: &[u8], limbs: &[u64]) -> bool {
    !torn(bytes.len(), 32) && !torn(limbs.len(), 4)
}

pub fn straus(side: &Side, case: &Case, said: &Answer) -> Check {
    let (bytes, limbs) = (case.bytes(0), case.limbs(1));
    if !whole(bytes, limbs) || element_too_large(limbs) {
        return Ok(Found::NotRun);
    }
    let p = elements(limbs);
    let got = side.run(|| (side.straus)(&arrays(bytes), &p));
    let s = scalars(bytes);
    let m = s.len().min(p.len());
    let names = named(&[
        (said.number == 2, MANY),
        (said.number == 5, ROOM),
        (said.number == 6 || any_large(bytes), LARGE),
        (p.len() > m, WINDOWS),
    ]);
    if any_large(bytes) && side.checked {
        return same(side, got, End::Panic, names);
    }
    let effective: Vec<Limbs> = s.iter().map(radix_effective).collect();
    same(side, got, End::Done(products(&effective, &p), 7 * p.len() as u64 + 64 * m as u64, 256), names)
}

/// Points as options, where flags are 0 and 1 and present points below L.
fn options(limbs: &[u64], flags: &[u8]) -> Option<Vec<Option<Limbs>>> {
    let points = elements(limbs);
    if flags.len() != points.len() || point_refused(limbs, flags) {
        return None;
    }
    Some(points.into_iter().zip(flags).map(|(p, flag)| (*flag == 1).then_some(p)).collect())
}

pub fn straus_optional(side: &Side, case: &Case, said: &Answer) -> Check {
    let (bytes, limbs, flags) = (case.bytes(0), case.limbs(1), case.bytes(2));
    let Some(points) = options(limbs, flags).filter(|_| whole(bytes, limbs)) else { return Ok(Found::NotRun) };
    let got = side.run_optional(|| (side.straus_optional)(&arrays(bytes), &points));
    let Some(p) = points.iter().copied().collect::<Option<Vec<_>>>() else {
        return same(side, got, End::Nothing, vec![NONE]);
    };
    let s = scalars(bytes);
    let m = s.len().min(p.len());
    let names = named(&[
        (said.number == 2, MANY),
        (said.number == 5, ROOM),
        (said.number == 6 || any_large(bytes), LARGE),
        (p.len() > m, WINDOWS),
    ]);
    let effective: Vec<Limbs> = s.iter().map(|s| naf_effective(s, 5)).collect();
    let n = p.len() as u64;
    same(side, got, End::Done(products(&effective, &p), 7 * n + naf_weight(&s[..m], 5), 256 + n), names)
}

pub fn pippenger(side: &Side, case: &Case, said: &Answer) -> Check {
    let (bytes, limbs, flags) = (case.bytes(0), case.limbs(1), case.bytes(2));
    let Some(points) = options(limbs, flags).filter(|_| whole(bytes, limbs)) else { return Ok(Found::NotRun) };
    let got = side.run_optional(|| (side.pippenger)(&arrays(bytes), &points));
    let s = scalars(bytes);
    let m = s.len().min(points.len());
    let Some(p) = points[..m].iter().copied().collect::<Option<Vec<_>>>() else {
        return same(side, got, End::Nothing, vec![NONE]);
    };
    let w = pippenger_width(s.len());
    let names =
        named(&[(said.number == 2, MANY), (said.number == 5, ROOM), (said.number == 6 || any_large(bytes), LARGE)]);
    let (additions, doublings) = pippenger_counts(&s[..m], w);
    same(side, got, End::Done(products(&s[..m], &p), additions, doublings), names)
}

pub fn tables(side: &Side, case: &Case, said: &Answer) -> Check {
    let points = case.limbs(0);
    if torn(points.len(), 4) || element_too_large(points) {
        return Ok(Found::NotRun);
    }
    let p = elements(points);
    let n = p.len() as u64;
    let got = side.run(|| flat((side.tables)(&p)));
    let due = p.iter().flat_map(|p| reading::calls::odd_window(p, 64)).collect();
    let names = named(&[(said.number == 2, MANY), (said.number == 5, ROOM)]);
    same(side, got, End::Done(due, 63 * n, n), names)
}

pub fn mixed(side: &Side, case: &Case, said: &Answer) -> Check {
    let (limbs, fixed, dynamic) = (case.limbs(0), case.bytes(1), case.bytes(2));
    let (points, flags) = (case.limbs(3), case.bytes(4));
    let refused = torn(limbs.len(), 256) || torn(fixed.len(), 32) || !whole(dynamic, points);
    if refused || element_too_large(limbs) {
        return Ok(Found::NotRun);
    }
    let Some(points) = options(points, flags) else { return Ok(Found::NotRun) };
    let table = elements(limbs);
    let got = side.run_optional(|| (side.mixed)(&table, &arrays(fixed), &arrays(dynamic), &points));
    let Some(p) = points.iter().copied().collect::<Option<Vec<_>>>() else {
        return same(side, got, End::Nothing, vec![NONE]);
    };
    let (f, s) = (scalars(fixed), scalars(dynamic));
    if f.len() > table.len() / 64 || s.len() != p.len() {
        return same(side, got, End::Panic, vec![ASSERT]);
    }
    let names = named(&[
        (said.number == 2, MANY),
        (said.number == 5, ROOM),
        (said.number == 6 || any_large(fixed) || any_large(dynamic), LARGE),
    ]);
    let effective: Vec<Limbs> = s.iter().map(|s| naf_effective(s, 5)).collect();
    let still = f.iter().enumerate().map(|(i, s)| entries(&naf(s, 8), &table[64 * i..64 * i + 64]));
    let value = still.fold(products(&effective, &p), |sum, term| number::added(&sum, &term));
    let n = p.len() as u64;
    same(side, got, End::Done(value, 7 * n + naf_weight(&s, 5) + naf_weight(&f, 8), 256 + n), names)
}
