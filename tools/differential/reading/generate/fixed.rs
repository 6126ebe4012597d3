//! Cases of static tables and of precomputed Straus.

use super::lists::{OVER, Pairs, flatten, room};
use super::values::*;
use crate::calls::odd_window;
use crate::case::{Argument, Case};
use crate::lists::MOST_STATIC;
use crate::random::Random;

/// Static tables of a few points.
pub fn tables(r: &mut Random, bad: &[u8]) -> Case {
    let n = match () {
        _ if bad.contains(&2) => MOST_STATIC + 1,
        _ if bad.contains(&5) || bad.contains(&7) => 1 + r.below(3),
        _ if r.once_in(30) => MOST_STATIC,
        _ => r.below(4),
    };
    let mut pairs = Pairs::new(r, 0, n);
    if bad.contains(&7) {
        let at = r.below(n);
        pairs.points[at] = large_element(r);
    }
    let mut points = flat(&pairs.points);
    if bad.contains(&1) {
        tear(r, &mut points, 4, 0);
    }
    let need = 256 * n;
    let length = if bad.contains(&5) { r.pick(&[need - 1, need + 1, need + 256, 0]) } else { need };
    Case { code: 20, arguments: vec![Argument::Limbs(points), Argument::Limbs(limb_room(r, length))] }
}

/// Precomputed Straus: tables built, or any entries below L.
pub fn mixed(r: &mut Random, bad: &[u8]) -> Case {
    let unequal = bad.contains(&9);
    let pairs = Pairs::random(r, &bad.iter().copied().filter(|n| *n != 2 && *n != 9).collect::<Vec<_>>(), true);
    let mut pairs = pairs;
    let mut sp = if r.once_in(30) { 20 } else { r.below(4) };
    if bad.contains(&10) {
        sp = sp.max(1);
    }
    let mut sn = r.below(sp + 1);
    if bad.contains(&2) {
        match r.below(3) {
            0 => sp = MOST_STATIC + 1,
            1 => sn = OVER,
            _ => pairs = Pairs::new(r, OVER, OVER),
        }
    } else if unequal {
        match r.below(3) {
            0 => pairs.scalars.push(scalar(r)),
            1 => {
                pairs.points.push(element(r));
                pairs.flags.push(1);
            }
            _ => sn = sp + 1,
        }
    }
    engine_mixed(r, sp, sn, &pairs, bad)
}

/// A mixed case of sp tables, sn static scalars and these dynamic pairs.
pub fn engine_mixed(r: &mut Random, sp: usize, sn: usize, pairs: &Pairs, bad: &[u8]) -> Case {
    let p = element(r);
    let mut tables: Vec<u64> = if sp > 20 {
        vec![r.next() >> 4; 256 * sp]
    } else if r.once_in(3) {
        (0..64 * sp).flat_map(|_| element(r)).collect()
    } else {
        (0..sp).flat_map(|i| if i == 0 { odd_window(&p, 64) } else { odd_window(&element(r), 64) }).collect()
    };
    if bad.contains(&10) {
        let at = 4 * r.below(64 * sp);
        tables[at..at + 4].copy_from_slice(&large_element(r));
    }
    let mut fixed = Pairs::new(r, sn, 0);
    if bad.contains(&6) && sn > 0 {
        fixed.spoil(r, &[6]);
    }
    let mut torn = bad.to_vec();
    let mut statics = bytes(&fixed.scalars);
    if bad.contains(&1) && r.once_in(2) {
        torn.retain(|n| *n != 1);
        if r.once_in(2) { tear(r, &mut tables, 256, 0) } else { tear(r, &mut statics, 32, 0) }
    }
    let (s, limbs, f) = flatten(r, pairs, &torn, true);
    let ns = pairs.scalars.len();
    let (d, l) = room(r, 256 * (sn + ns), 32 * ns, bad);
    let arguments = vec![
        Argument::Limbs(tables),
        Argument::Bytes(statics),
        Argument::Bytes(s),
        Argument::Limbs(limbs),
        Argument::Bytes(f),
        Argument::Digits(d),
        Argument::Limbs(l),
    ];
    Case { code: 21, arguments }
}
