//! Cases of the engines over lists.

use super::fixed;
use super::values::*;
use crate::case::{Argument, Case};
use crate::engines::pippenger_width;
use crate::lists::MOST;
use crate::number::Limbs;
use crate::random::Random;

/// One more than any list may have.
pub const OVER: usize = MOST + 1;

/// Lists of pairs before they are flattened, so that any number can be made to hold.
pub struct Pairs {
    pub scalars: Vec<Limbs>,
    pub points: Vec<Limbs>,
    pub flags: Vec<u8>,
}

/// How many pairs: few, seldom some dozens.
pub fn few(r: &mut Random) -> usize {
    match r.below(20) {
        0 => 8 + r.below(30),
        1..=3 => 0,
        _ => 1 + r.below(5),
    }
}

impl Pairs {
    /// Lists of these lengths; those past the limit repeat one value.
    pub fn new(r: &mut Random, ns: usize, np: usize) -> Pairs {
        let (s, p) = (even_scalar(r), even_element(r));
        let long = ns.max(np) > MOST;
        Pairs {
            scalars: (0..ns).map(|_| if long { s } else { scalar(r) }).collect(),
            points: (0..np).map(|_| if long { p } else { element(r) }).collect(),
            flags: vec![1; np],
        }
    }

    /// Random lists: of one length mostly; where the shorter decides, of two.
    pub fn random(r: &mut Random, bad: &[u8], equal: bool) -> Pairs {
        let (mut ns, mut np) = (few(r), few(r));
        if equal || !r.once_in(4) {
            np = ns;
        }
        if r.once_in(1500) {
            ns = r.pick(&[499, 500, 799, 800, MOST - 1, MOST]);
            np = if equal || r.once_in(2) { ns } else { r.pick(&[0, 3, 499, 500, MOST]) };
        }
        if bad.contains(&2) {
            (ns, np) = r.pick(&[(OVER, OVER), (OVER, 1), (1, OVER), (0, OVER), (OVER, MOST)]);
        }
        if bad.iter().any(|n| [5, 6].contains(n)) {
            ns = ns.max(1);
        }
        if bad.iter().any(|n| [5, 7, 8].contains(n)) {
            np = np.max(1);
        }
        if equal && bad.contains(&9) && ns == np {
            if r.once_in(2) { ns += 1 } else { np += 1 }
        } else if equal && !bad.contains(&2) {
            (ns, np) = (ns.max(np), ns.max(np));
        }
        let mut pairs = Pairs::new(r, ns, np);
        pairs.spoil(r, bad);
        pairs
    }

    /// 6, 7 and 8 anywhere in the lists; wild limbs behind an absent flag.
    pub fn spoil(&mut self, r: &mut Random, bad: &[u8]) {
        if bad.contains(&6) && !self.scalars.is_empty() {
            let at = r.below(self.scalars.len());
            self.scalars[at] = large_scalar(r);
        }
        if self.points.is_empty() {
            return;
        }
        if bad.contains(&8) {
            let at = r.below(self.points.len());
            self.flags[at] = 0;
            self.points[at] = if r.once_in(2) { large_element(r) } else { element(r) };
        }
        if bad.contains(&7) {
            let at = r.below(self.points.len());
            if r.once_in(3) {
                self.flags[at] = r.pick(&[2, 3, 128, 255]);
            } else {
                self.points[at] = large_element(r);
                self.flags[at] = 1;
            }
        }
    }
}

/// Flat lists, one of them torn where 1 is asked for.
pub fn flatten(r: &mut Random, pairs: &Pairs, bad: &[u8], flagged: bool) -> (Vec<u8>, Vec<u64>, Vec<u8>) {
    let (mut s, mut p, mut f) = (bytes(&pairs.scalars), flat(&pairs.points), pairs.flags.clone());
    if bad.contains(&1) {
        match r.below(if flagged { 3 } else { 2 }) {
            0 => tear(r, &mut s, 32, 0),
            1 => tear(r, &mut p, 4, 0),
            _ if f.is_empty() || r.once_in(2) => f.push(1),
            _ => f.truncate(f.len() - 1),
        }
    }
    (s, p, f)
}

/// Room of what is needed, or a little more; 5 takes one off one of the two.
pub fn room(r: &mut Random, digits: usize, limbs: usize, bad: &[u8]) -> (Vec<i8>, Vec<u64>) {
    let (mut d, mut l) = (digits + r.pick(&[0, 0, 1, 5]), limbs + r.pick(&[0, 0, 1, 4]));
    if bad.contains(&5) {
        let first = r.once_in(2);
        if digits > 0 && (first || limbs == 0) {
            d = r.pick(&[digits - 1, digits - 1, digits / 2, 0]);
        } else if limbs > 0 {
            l = r.pick(&[limbs - 1, limbs - 1, limbs / 2, 0]);
        }
    }
    (digit_room(r, d), limb_room(r, l))
}

pub fn case(r: &mut Random, code: u8, bad: &[u8]) -> Case {
    let mut bad = bad.to_vec();
    if code == 22 && bad.contains(&8) && r.once_in(5) {
        // an absent point past the last scalar is ignored
        bad.retain(|n| *n != 8);
        return past_the_last(r);
    }
    match code {
        20 => fixed::tables(r, &bad),
        21 => fixed::mixed(r, &bad),
        _ => {
            let pairs = Pairs::random(r, &bad, false);
            engine(r, code, &pairs, &bad)
        }
    }
}

/// A case of an engine over these lists.
pub fn engine(r: &mut Random, code: u8, pairs: &Pairs, bad: &[u8]) -> Case {
    let (ns, np) = (pairs.scalars.len(), pairs.points.len());
    let m = ns.min(np);
    let (digits, limbs) = match code {
        18 => (64 * m, 32 * m),
        19 => (256 * m, 32 * m),
        _ => (64 * m, 4 << (pippenger_width(ns) - 1)),
    };
    let (s, p, f) = flatten(r, pairs, bad, code != 18);
    let (d, l) = room(r, digits, limbs, bad);
    let mut arguments = vec![Argument::Bytes(s), Argument::Limbs(p)];
    if code != 18 {
        arguments.push(Argument::Bytes(f));
    }
    arguments.extend([Argument::Digits(d), Argument::Limbs(l)]);
    Case { code, arguments }
}

fn past_the_last(r: &mut Random) -> Case {
    let ns = r.below(4);
    let np = ns + 1 + r.below(3);
    let mut pairs = Pairs::new(r, ns, np);
    for at in ns..np {
        pairs.flags[at] = r.below(2) as u8;
        if pairs.flags[at] == 0 && r.once_in(2) {
            pairs.points[at] = large_element(r);
        }
    }
    engine(r, 22, &pairs, &[])
}
