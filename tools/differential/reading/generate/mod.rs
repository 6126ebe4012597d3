//! Cases: random ones by a seed, and the ends.

mod batches;
mod ends;
mod fixed;
mod lists;
mod single;
mod values;

pub use ends::ends;

use crate::case::Case;
use crate::random::Random;

/// Which numbers a call can give, in rising order.
pub fn refusals(code: u8) -> &'static [u8] {
    match code {
        1..=4 => &[1, 7],
        5 | 7 => &[1, 3, 6],
        6 => &[1, 6],
        8 | 9 => &[1, 3, 10],
        10..=12 => &[1, 7],
        13..=15 => &[1, 10],
        16 | 17 => &[1, 6, 7],
        18 => &[1, 2, 5, 6, 7],
        19 | 22 => &[1, 2, 5, 6, 7, 8],
        20 => &[1, 2, 5, 7],
        21 => &[1, 2, 5, 6, 7, 8, 9, 10],
        23 => &[1, 2, 5, 6, 7, 8, 9],
        24 => &[1, 2, 4, 6, 7, 8],
        25 => &[1, 2, 4],
        _ => &[1, 2, 10],
    }
}

/// A case of this call for which the conditions of these numbers hold, as far as they can hold together.
pub fn case(r: &mut Random, code: u8, bad: &[u8]) -> Case {
    match code {
        1..=17 => single::case(r, code, bad),
        18..=22 => lists::case(r, code, bad),
        _ => batches::case(r, code, bad),
    }
}

/// Random cases, one or a story of several.
pub fn random(r: &mut Random) -> Vec<Case> {
    if r.once_in(40) {
        return batches::story(r);
    }
    // engines and batches more often
    let code = if r.once_in(2) { 16 + r.below(11) as u8 } else { 1 + r.below(26) as u8 };
    let numbers = refusals(code);
    let mut bad = Vec::new();
    if r.once_in(3) {
        let at = r.below(numbers.len());
        bad.push(numbers[at]);
        if r.once_in(3) && at + 1 < numbers.len() {
            bad.push(numbers[at + 1]);
        }
        if r.once_in(6) {
            bad.push(r.pick(numbers));
        }
    }
    // 2 needs long lists: seldom
    if bad.contains(&2) && !r.once_in(20) {
        bad.retain(|n| *n != 2);
    }
    vec![case(r, code, &bad)]
}
