//! Static tables and prepared batches: memory that calls build, edit and total.

use crate::answer::{Answer, Lent, Value};
use crate::calls::odd_window;
use crate::case::Case;
use crate::engines::entries;
use crate::lists::*;
use crate::number::{self, Limbs, ZERO};
use crate::rows::{naf, weight};

fn memory(digits: &[i8], windows: &[u64]) -> Vec<Lent> {
    vec![Lent::Digits(digits.to_vec()), Lent::Limbs(windows.to_vec())]
}

fn done(counts: (u64, u64), lent: Vec<Lent>) -> Answer {
    Answer { number: 0, value: Value::Nothing, counts: Some(counts), lent }
}

/// Static tables, exactly 256 limbs a point: 63 additions and 1 doubling a point.
pub fn new(case: &Case) -> Answer {
    let (points, tables) = (case.limbs(0), case.limbs(1));
    let p = elements(points);
    let number = lowest(&[
        (1, torn(points.len(), 4)),
        (2, p.len() > MOST_STATIC),
        (5, tables.len() != 256 * p.len()),
        (7, element_too_large(points)),
    ]);
    if number != 0 {
        return Answer::refused(number, Value::Nothing, true, vec![Lent::Limbs(tables.to_vec())]);
    }
    let built = p.iter().flat_map(|p| odd_window(p, 64)).collect();
    done((63 * p.len() as u64, p.len() as u64), vec![Lent::Limbs(built)])
}

/// Preparing: a row of width 5 and a window a slot; 7n additions, n doublings.
pub fn prepare(case: &Case) -> Answer {
    let (bytes, limbs, flags) = (case.bytes(0), case.limbs(1), case.bytes(2));
    let (digits, windows) = (case.digits(3), case.limbs(4));
    let (s, p) = (scalars(bytes), elements(limbs));
    let n = s.len();
    let number = lowest(&[
        (1, torn(bytes.len(), 32) || torn(limbs.len(), 4) || flags.len() != p.len()),
        (2, n > MOST || p.len() > MOST),
        (5, digits.len() != 256 * n || windows.len() != 32 * n),
        (6, scalar_too_large(bytes)),
        (7, point_refused(limbs, flags)),
        (8, absent(flags)),
        (9, n != p.len()),
    ]);
    if number != 0 {
        return Answer::refused(number, Value::Nothing, true, memory(digits, windows));
    }
    let rows: Vec<i8> = s.iter().flat_map(|s| naf(s, 5)).collect();
    let built: Vec<u64> = p.iter().flat_map(|p| odd_window(p, 8)).collect();
    done((7 * n as u64, n as u64), memory(&rows, &built))
}

/// What every call on prepared memory asks of it.
fn of_memory(digits: &[i8], windows: &[u64]) -> [(u8, bool); 2] {
    let slots = digits.len() / 256;
    [(1, torn(digits.len(), 256) || windows.len() != 32 * slots), (2, slots > MOST)]
}

/// One slot set to a scalar and a point.
fn edited(digits: &[i8], windows: &[u64], slot: usize, s: &Limbs, p: &Limbs) -> Answer {
    let (mut rows, mut built) = (digits.to_vec(), windows.to_vec());
    rows[256 * slot..256 * slot + 256].copy_from_slice(&naf(s, 5));
    built[32 * slot..32 * slot + 32].copy_from_slice(&odd_window(p, 8));
    done((7, 1), memory(&rows, &built))
}

pub fn set(case: &Case) -> Answer {
    let (digits, windows, slot, scalar) = (case.digits(0), case.limbs(1), case.number(2), case.bytes(3));
    let point = case.point(4);
    let [torn, many] = of_memory(digits, windows);
    let number = lowest(&[
        torn,
        many,
        (1, scalar.len() != 32),
        (4, slot >= (digits.len() / 256) as u64),
        (6, scalar_too_large(scalar)),
        (7, point.is_some_and(|p| element_too_large(&p))),
        (8, point.is_none()),
    ]);
    if number != 0 {
        return Answer::refused(number, Value::Nothing, true, memory(digits, windows));
    }
    edited(digits, windows, slot as usize, &number::from_bytes(scalar), &point.unwrap())
}

/// Clearing is setting scalar 0 and point 0.
pub fn clear(case: &Case) -> Answer {
    let (digits, windows, slot) = (case.digits(0), case.limbs(1), case.number(2));
    let [torn, many] = of_memory(digits, windows);
    let number = lowest(&[torn, many, (4, slot >= (digits.len() / 256) as u64)]);
    if number != 0 {
        return Answer::refused(number, Value::Nothing, true, memory(digits, windows));
    }
    edited(digits, windows, slot as usize, &ZERO, &ZERO)
}

/// The total of memory as it stands: additions the digits not 0, doublings 256.
pub fn total(case: &Case) -> Answer {
    let (digits, windows) = (case.digits(0), case.limbs(1));
    let [torn, many] = of_memory(digits, windows);
    let strange = |d: &i8| *d != 0 && (d % 2 == 0 || d.unsigned_abs() > 15);
    let number = lowest(&[torn, many, (10, digits.iter().any(strange) || element_too_large(windows))]);
    if number != 0 {
        return Answer::refused(number, Value::Element(ZERO), true, vec![]);
    }
    let tables = elements(windows);
    let slots = digits.chunks(256).zip(tables.chunks(8)).map(|(row, window)| entries(row, window));
    let value = slots.fold(ZERO, |sum, term| number::added(&sum, &term));
    Answer { number, value: Value::Element(value), counts: Some((weight(digits), 256)), lent: vec![] }
}
