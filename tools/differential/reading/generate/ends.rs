//! The ends: every refusal alone and with the next higher, every width, the limits, and digits at their extremes.

use super::batches::prepare_pairs;
use super::fixed::{engine_mixed, tables};
use super::lists::{OVER, Pairs, engine};
use super::values::*;
use super::{case, refusals};
use crate::case::{Argument, Case};
use crate::lists::{MOST, MOST_STATIC};
use crate::number::{self, Limbs};
use crate::random::Random;
use crate::rows::{naf, radix};

/// A fixed list of cases; the same for the same seed.
pub fn ends(r: &mut Random) -> Vec<Case> {
    let mut cases = Vec::new();
    sheet(&mut cases);
    for code in 1..=26 {
        let numbers = refusals(code);
        for (i, n) in numbers.iter().enumerate() {
            cases.push(case(r, code, &[*n]));
            if let Some(next) = numbers.get(i + 1) {
                cases.push(case(r, code, &[*n, *next]));
            }
        }
    }
    recodings(&mut cases);
    lookups(r, &mut cases);
    limits(r, &mut cases);
    for code in 16..=26 {
        for _ in 0..8 {
            cases.push(case(r, code, &[]));
        }
    }
    widths(&mut cases);
    cases
}

fn small(list: &[u64]) -> Vec<Limbs> {
    list.iter().map(|x| [*x, 0, 0, 0]).collect()
}

fn pairs(scalars: &[Limbs], points: &[Limbs]) -> Pairs {
    Pairs { scalars: scalars.to_vec(), points: points.to_vec(), flags: vec![1; points.len()] }
}

/// The pairs of the bench sheet, through every engine over lists.
fn sheet(cases: &mut Vec<Case>) {
    let r = &mut Random::new(1);
    let minus = |k: u64| number::minus(number::L, [k, 0, 0, 0]);
    let lists = [
        pairs(&small(&[2, 5]), &small(&[3, 7])),
        pairs(&small(&[2]), &[minus(1)]),
        pairs(&[], &[]),
        pairs(&[number::L], &small(&[1])),
        pairs(&small(&[1, 1]), &small(&[1, 1])),
        pairs(&small(&[2, 5]), &small(&[3])),
        pairs(&small(&[]), &small(&[3])),
        pairs(&[minus(1)], &small(&[1])),
        Pairs { scalars: small(&[2]), points: small(&[3, 0]), flags: vec![1, 0] },
        Pairs { scalars: small(&[2, 1]), points: small(&[3, 0]), flags: vec![1, 0] },
        pairs(&[[0, 0, 0, 1 << 63]], &small(&[1])),
        pairs(&small(&[1]), &[number::L]),
    ];
    for list in &lists {
        for code in [18, 19, 22] {
            cases.push(engine(r, code, list, &[]));
        }
        cases.push(engine_mixed(r, 1, 1, list, &[]));
        cases.push(engine_mixed(r, 0, 0, list, &[]));
        cases.push(prepare_pairs(r, list, &[]));
    }
    let bytes = |x: u64| Argument::Bytes(number::to_bytes(&[x, 0, 0, 0]).to_vec());
    for (a, p, b) in [(2, 3, 4), (0, 0, 0), (1, 1, 0), (0, 1, 1), (16, 5, 129)] {
        cases.push(Case { code: 17, arguments: vec![bytes(a), Argument::Limbs(vec![p, 0, 0, 0]), bytes(b)] });
        cases.push(Case { code: 16, arguments: vec![Argument::Limbs(vec![p, 0, 0, 0]), bytes(a)] });
    }
}

/// Every end of scalars at every width, written and read; and the same scalar just too large.
fn recodings(cases: &mut Vec<Case>) {
    for s in scalar_ends() {
        let bytes = Argument::Bytes(number::to_bytes(&s).to_vec());
        for w in 2..=8u64 {
            cases.push(Case { code: 5, arguments: vec![bytes.clone(), Argument::Number(w)] });
        }
        for w in 4..=8u64 {
            cases.push(Case { code: 7, arguments: vec![bytes.clone(), Argument::Number(w)] });
        }
        cases.push(Case { code: 6, arguments: vec![bytes] });
    }
    let top = number::minus([0, 0, 0, 1 << 63], number::ONE);
    for s in [number::ZERO, number::ONE, number::L, top, [0, 0, 0, 1 << 63], [u64::MAX; 4]] {
        for w in 2..=8 {
            cases.push(Case {
                code: 8,
                arguments: vec![Argument::Digits(naf(&s, w).to_vec()), Argument::Number(w as u64)],
            });
        }
        for w in 4..=8 {
            cases.push(Case {
                code: 9,
                arguments: vec![Argument::Digits(radix(&s, w).to_vec()), Argument::Number(w as u64)],
            });
        }
    }
}

/// Every digit of the small windows and the ends of the large one, inside and just outside.
fn lookups(r: &mut Random, cases: &mut Vec<Case>) {
    let p = element(r);
    for (code, n) in [(13, 8), (14, 8), (15, 64)] {
        let window = if code == 13 { crate::calls::successive_window(&p, n) } else { crate::calls::odd_window(&p, n) };
        let ds: Vec<i8> =
            if code == 15 { vec![-128, -127, -126, -1, 0, 1, 125, 126, 127] } else { (-18..=18).collect() };
        for d in ds {
            cases.push(Case { code, arguments: vec![Argument::Limbs(window.clone()), Argument::Digit(d)] });
        }
    }
}

/// The most static points.
const S: usize = MOST_STATIC;

/// Pippenger's width goes by the scalars: counts that differ around 500 and 800, in both directions.
fn widths(cases: &mut Vec<Case>) {
    let r = &mut Random::new(4);
    for n in [500, 800] {
        for (ns, np) in [(n - 1, n), (n, n - 1), (3, n - 1), (3, n), (n - 1, 0), (n, 0)] {
            let mut list = Pairs::new(r, ns, np);
            list.scalars.fill(even_scalar(r));
            list.points.fill(even_element(r));
            cases.push(engine(r, 22, &list, &[]));
        }
    }
}

/// Long lists: where Pippenger's width changes, the limits, and one more.
fn limits(r: &mut Random, cases: &mut Vec<Case>) {
    for n in [499, 500, 799, 800, MOST] {
        let list = Pairs::new(r, n, n);
        cases.push(engine(r, 22, &list, &[]));
    }
    let whole = Pairs::new(r, MOST, MOST);
    cases.push(engine(r, 18, &whole, &[]));
    cases.push(engine(r, 19, &whole, &[]));
    for (ns, np) in [(OVER, MOST), (MOST, OVER), (OVER, OVER)] {
        let list = Pairs::new(r, ns, np);
        for code in [18, 19, 22] {
            cases.push(engine(r, code, &list, &[]));
        }
        cases.push(engine_mixed(r, 1, 1, &list, &[]));
        cases.push(prepare_pairs(r, &list, &[]));
    }
    for ns in [499, 500, 799, 800] {
        let mut list = Pairs::new(r, ns, 3);
        list.scalars.fill(even_scalar(r));
        cases.push(engine(r, 22, &list, &[]));
    }
    let mut even = Pairs::new(r, MOST, MOST);
    even.scalars.fill(even_scalar(r));
    even.points.fill(even_element(r));
    cases.push(engine_mixed(r, 1, 1, &even, &[]));
    cases.push(prepare_pairs(r, &even, &[]));
    let none = Pairs::new(r, 0, 0);
    for (sp, sn) in [(S, S), (S, S + 1), (S + 1, S + 1), (S, MOST), (S, OVER)] {
        cases.push(engine_mixed(r, sp, sn, &none, &[]));
    }
    cases.push(tables(r, &[2]));
    let many = flat(&Pairs::new(r, 0, S).points);
    cases.push(Case { code: 20, arguments: vec![Argument::Limbs(many), Argument::Limbs(vec![7; 256 * S])] });
    slots(r, cases);
}

/// Prepared memory of as many slots as there may be, and one more, of one digit and one limb throughout.
fn slots(r: &mut Random, cases: &mut Vec<Case>) {
    for k in [MOST, OVER] {
        let memory = [Argument::Digits(vec![-15; 256 * k]), Argument::Limbs(vec![r.next() >> 4; 32 * k])];
        for (code, slot) in [(24, k as u64 - 1), (24, k as u64), (25, 0), (25, k as u64), (26, 0)] {
            let mut arguments = memory.to_vec();
            if code != 26 {
                arguments.push(Argument::Number(slot));
            }
            if code == 24 {
                let p = element(r);
                arguments.extend([Argument::Bytes(bytes(&[scalar(r)])), Argument::Point(Some(p), p)]);
            }
            cases.push(Case { code, arguments });
        }
    }
}
