//! Cases of prepared batches: preparing, edits, totals, and stories that carry memory from one to the next.

use super::lists::{OVER, Pairs, few, flatten};
use super::values::*;
use crate::answer::Lent;
use crate::calls::{self, odd_window};
use crate::case::{Argument, Case};
use crate::random::Random;
use crate::rows::naf;

pub fn case(r: &mut Random, code: u8, bad: &[u8]) -> Case {
    if code == 23 {
        return prepare(r, bad);
    }
    let (mut digits, mut windows) = memory(r, code, bad);
    let slots = digits.len() / 256;
    if bad.contains(&1) && (code != 24 || r.once_in(2)) {
        if r.once_in(2) { tear(r, &mut digits, 256, 0) } else { tear(r, &mut windows, 32, 0) }
    }
    let slot = slot(r, slots, bad);
    let mut arguments = vec![Argument::Digits(digits), Argument::Limbs(windows)];
    match code {
        24 => {
            let s = if bad.contains(&6) { large_scalar(r) } else { scalar(r) };
            let mut b = bytes(&[s]);
            if bad.contains(&1) && r.once_in(2) {
                tear(r, &mut b, 32, 0);
            }
            let p = if bad.contains(&7) { large_element(r) } else { element(r) };
            let behind = if r.once_in(2) { large_element(r) } else { element(r) };
            let present = !bad.contains(&8);
            let point = Argument::Point(present.then_some(p), if present { p } else { behind });
            arguments.extend([Argument::Number(slot), Argument::Bytes(b), point]);
        }
        25 => arguments.push(Argument::Number(slot)),
        _ => {}
    }
    Case { code, arguments }
}

fn slot(r: &mut Random, slots: usize, bad: &[u8]) -> u64 {
    if bad.contains(&4) || slots == 0 {
        return r.pick(&[slots as u64, slots as u64, slots as u64 + 1, 1 << 32, 1 << 56, u64::MAX]);
    }
    r.below(slots) as u64
}

/// Memory of a few slots: prepared, or whatever passes, or for edits whatever there is.
fn memory(r: &mut Random, code: u8, bad: &[u8]) -> (Vec<i8>, Vec<u64>) {
    let slots = match () {
        _ if bad.contains(&2) => OVER,
        _ if bad.contains(&4) => r.below(4),
        _ if code == 26 && !bad.contains(&10) => r.below(5),
        _ => 1 + r.below(4),
    };
    if slots > 100 {
        return (vec![r.pick(&[0, 1, -15]); 256 * slots], vec![r.next() >> 4; 32 * slots]);
    }
    let kind = r.below(if code == 26 { 2 } else { 3 });
    let mut digits = Vec::new();
    let mut windows = Vec::new();
    for _ in 0..slots {
        match kind {
            0 => {
                digits.extend(naf(&scalar(r), 5));
                windows.extend(odd_window(&element(r), 8));
            }
            1 => {
                let dense = r.once_in(2);
                digits.extend((0..256).map(|_| if dense || r.once_in(4) { 2 * r.below(16) as i8 - 15 } else { 0 }));
                windows.extend((0..8).flat_map(|_| element(r)));
            }
            _ => {
                digits.extend((0..256).map(|_| r.next() as i8));
                windows.extend((0..32).map(|_| r.next()));
            }
        }
    }
    if bad.contains(&10) && code == 26 {
        if r.once_in(2) {
            let at = r.below(digits.len());
            digits[at] = r.pick(&[-128, -127, -17, -16, -2, 2, 14, 16, 17, 127]);
        } else {
            let at = 4 * r.below(windows.len() / 4);
            windows[at..at + 4].copy_from_slice(&large_element(r));
        }
    }
    (digits, windows)
}

fn prepare(r: &mut Random, bad: &[u8]) -> Case {
    let pairs = Pairs::random(r, bad, true);
    prepare_pairs(r, &pairs, bad)
}

/// Preparing these lists into memory of exactly the need, or of another length where 5 is asked for.
pub fn prepare_pairs(r: &mut Random, pairs: &Pairs, bad: &[u8]) -> Case {
    let n = pairs.scalars.len();
    let (s, p, f) = flatten(r, pairs, bad, true);
    let (mut digits, mut limbs) = (256 * n, 32 * n);
    if bad.contains(&5) {
        if r.once_in(2) {
            digits = r.pick(&[digits.max(1) - 1, digits + 1, digits + 256]);
        } else {
            limbs = r.pick(&[limbs.max(1) - 1, limbs + 1, limbs + 32]);
        }
        if (digits, limbs) == (256 * n, 32 * n) {
            digits += 1;
        }
    }
    let (d, l) = (digit_room(r, digits), limb_room(r, limbs));
    let arguments =
        vec![Argument::Bytes(s), Argument::Limbs(p), Argument::Bytes(f), Argument::Digits(d), Argument::Limbs(l)];
    Case { code: 23, arguments }
}

/// A batch prepared, edited at random, refused edits among them, and totalled after each.
pub fn story(r: &mut Random) -> Vec<Case> {
    let n = 1 + few(r).min(5);
    let pairs = Pairs::new(r, n, n);
    let mut cases = vec![prepare_pairs(r, &pairs, &[])];
    let mut memory = left(&cases[0]);
    for _ in 0..1 + r.below(6) {
        let bad: Vec<u8> = if r.once_in(4) { vec![r.pick(&[4, 6, 7, 8])] } else { vec![] };
        let code = if r.once_in(3) { 25 } else { 24 };
        let mut edit = case(r, code, &bad);
        edit.arguments[0] = memory[0].clone();
        edit.arguments[1] = memory[1].clone();
        edit.arguments[2] = Argument::Number(slot(r, n, &bad));
        memory = left(&edit);
        cases.push(edit);
        cases.push(Case { code: 26, arguments: memory.clone() });
    }
    cases
}

/// The memory that a call leaves, to be lent to the next.
fn left(case: &Case) -> Vec<Argument> {
    let lent = calls::answer(case).lent.into_iter();
    lent.map(|list| match list {
        Lent::Digits(digits) => Argument::Digits(digits),
        Lent::Limbs(limbs) => Argument::Limbs(limbs),
    })
    .collect()
}
