//! Every call of docs/REPLAY.md: the whole answer to a case.

use crate::answer::{Answer, Value};
use crate::batch;
use crate::case::Case;
use crate::engines;
use crate::lists::*;
use crate::number::{self, Limbs, ZERO};
use crate::rows::{self, naf, radix};

/// The answer that 01 gives.
pub fn answer(case: &Case) -> Answer {
    match case.code {
        1..=4 => group(case),
        5 => recoded(case, 2..=8, 256, |s, w| naf(s, w).to_vec()),
        6 => recoded(case, 4..=4, 64, |s, w| radix(s, w).to_vec()),
        7 => recoded(case, 4..=8, 64, |s, w| radix(s, w).to_vec()),
        8 => read(case, 2..=8, 256, |s, w| naf(s, w).to_vec()),
        9 => read(case, 4..=8, 64, |s, w| radix(s, w).to_vec()),
        10 => window(case, 8, successive_window),
        11 => window(case, 8, odd_window),
        12 => window(case, 64, odd_window),
        13..=15 => lookup(case),
        16 => engines::single(case),
        17 => engines::double(case),
        18 => engines::straus(case),
        19 => engines::straus_optional(case),
        20 => batch::new(case),
        21 => engines::mixed(case),
        22 => engines::pippenger(case),
        23 => batch::prepare(case),
        24 => batch::set(case),
        25 => batch::clear(case),
        _ => batch::total(case),
    }
}

/// An answer without counts and without lent memory.
fn plain(number: u8, empty: Value, value: impl FnOnce() -> Value) -> Answer {
    if number != 0 {
        return Answer::refused(number, empty, false, vec![]);
    }
    Answer { number, value: value(), counts: None, lent: vec![] }
}

/// add, subtract, negate, double.
fn group(case: &Case) -> Answer {
    let lists: Vec<&[u64]> = (0..case.arguments.len()).map(|i| case.limbs(i)).collect();
    let number =
        lowest(&[(1, lists.iter().any(|list| list.len() != 4)), (7, lists.iter().any(|list| element_too_large(list)))]);
    plain(number, Value::Element(ZERO), || {
        let e: Vec<Limbs> = lists.iter().map(|list| elements(list)[0]).collect();
        Value::Element(match case.code {
            1 => number::added(&e[0], &e[1]),
            2 => number::added(&e[0], &number::negated(&e[1])),
            3 => number::negated(&e[0]),
            _ => number::multiplied(&e[0], &[2, 0, 0, 0]),
        })
    })
}

type Widths = std::ops::RangeInclusive<u64>;

fn recoded(case: &Case, widths: Widths, places: usize, row: impl Fn(&Limbs, usize) -> Vec<i8>) -> Answer {
    let scalar = case.bytes(0);
    let w = if case.arguments.len() == 2 { case.number(1) } else { 4 };
    let number =
        lowest(&[(1, scalar.len() != 32), (3, !widths.contains(&w)), (6, scalars(scalar).iter().any(above_row_bound))]);
    plain(number, Value::Row(vec![0; places]), || Value::Row(row(&number::from_bytes(scalar), w as usize)))
}

fn read(case: &Case, widths: Widths, places: usize, row: impl Fn(&Limbs, usize) -> Vec<i8>) -> Answer {
    let (digits, w) = (case.digits(0), case.number(1));
    let sound = digits.len() == places && widths.contains(&w);
    let scalar = if sound { rows::read(digits, w as usize, |s| row(s, w as usize)) } else { None };
    let number = lowest(&[(1, digits.len() != places), (3, !widths.contains(&w)), (10, scalar.is_none())]);
    plain(number, Value::Scalar([0; 32]), || Value::Scalar(number::to_bytes(&scalar.unwrap())))
}

/// n entries: 1P, 2P, 3P, ..
pub fn successive_window(p: &Limbs, n: usize) -> Vec<u64> {
    (0..n as u64).flat_map(|k| number::multiplied(p, &[k + 1, 0, 0, 0])).collect()
}

/// n entries: 1P, 3P, 5P, ..
pub fn odd_window(p: &Limbs, n: usize) -> Vec<u64> {
    (0..n as u64).flat_map(|k| number::multiplied(p, &[2 * k + 1, 0, 0, 0])).collect()
}

fn window(case: &Case, entries: usize, built: fn(&Limbs, usize) -> Vec<u64>) -> Answer {
    let point = case.limbs(0);
    let number = lowest(&[(1, point.len() != 4), (7, element_too_large(point))]);
    plain(number, Value::Window(vec![0; 4 * entries]), || Value::Window(built(&elements(point)[0], entries)))
}

/// The entry that a digit names, by its kind of window: none outside it.
pub fn entry(code: u8, d: i8) -> Option<usize> {
    let size = d.unsigned_abs() as usize;
    match code {
        13 if (1..=8).contains(&size) => Some(size - 1),
        14 if size % 2 == 1 && size <= 15 => Some((size - 1) / 2),
        15 if size % 2 == 1 && size <= 127 => Some((size - 1) / 2),
        _ => None,
    }
}

fn lookup(case: &Case) -> Answer {
    let (window, d) = (case.limbs(0), case.digit(1));
    let length = if case.code == 15 { 256 } else { 32 };
    let identity = case.code == 13 && d == 0;
    let named = entry(case.code, d);
    let number =
        lowest(&[(1, window.len() != length), (10, element_too_large(window) || named.is_none() && !identity)]);
    plain(number, Value::Element(ZERO), || {
        let found = named.map_or(ZERO, |k| elements(window)[k]);
        Value::Element(if d < 0 { number::negated(&found) } else { found })
    })
}
