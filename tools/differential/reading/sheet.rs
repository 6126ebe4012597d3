//! The bench sheet's numbers, as document 01 prints them, against the reading.

use crate::answer::Value;
use crate::calls::answer;
use crate::case::{Argument, Case};
use crate::number::{self, L, Limbs, ONE};
use crate::rows::{naf, radix};

fn small(x: u64) -> Limbs {
    [x, 0, 0, 0]
}

fn minus(x: u64) -> Limbs {
    number::minus(L, small(x))
}

/// A row by its places that are not 0.
fn has(row: &[i8], places: &[(usize, i8)]) -> bool {
    row.iter().enumerate().all(|(i, d)| *d == places.iter().find(|(at, _)| *at == i).map_or(0, |(_, d)| *d))
}

/// R1 to R5 and N1 to N5.
fn rows() -> bool {
    let top = number::minus([0, 0, 0, 1 << 63], ONE);
    has(&radix(&small(7), 4), &[(0, 7)])
        && has(&radix(&small(8), 4), &[(0, -8), (1, 1)])
        && has(&radix(&top, 4), &[(0, -1), (63, 8)])
        && has(&radix(&small(127), 8), &[(0, 127)])
        && has(&radix(&small(128), 8), &[(0, -128), (1, 1)])
        && has(&radix(&top, 8), &[(0, -1), (31, -128), (32, 1)])
        && has(&radix(&small(15), 5), &[(0, 15)])
        && has(&radix(&small(16), 5), &[(0, -16), (1, 1)])
        && has(&naf(&small(15), 5), &[(0, 15)])
        && has(&naf(&small(16), 5), &[(4, 1)])
        && has(&naf(&small(17), 5), &[(0, -15), (5, 1)])
        && has(&naf(&small(3), 2), &[(0, -1), (2, 1)])
        && has(&naf(&small(129), 8), &[(0, -127), (8, 1)])
        && has(&naf(&top, 5), &[(0, -1), (255, 1)])
}

/// Number, value and counts of an engine over lists, with room enough.
fn engine(code: u8, s: &[Limbs], p: &[Limbs], flags: &[u8]) -> (u8, Limbs, (u64, u64)) {
    let mut arguments =
        vec![Argument::Bytes(s.iter().flat_map(number::to_bytes).collect()), Argument::Limbs(p.concat())];
    if code != 18 {
        arguments.push(Argument::Bytes(flags.to_vec()));
    }
    arguments.extend([Argument::Digits(vec![1; 1024]), Argument::Limbs(vec![1; 256])]);
    let said = answer(&Case { code, arguments });
    let Value::Element(value) = said.value else { unreachable!() };
    (said.number, value, said.counts.unwrap())
}

/// E1 to E9.
fn engines() -> bool {
    let pairs = (&[small(2), small(5)], &[small(3), small(7)]);
    let e1 = |code| engine(code, pairs.0, pairs.1, &[1, 1]);
    let straus = |s: &[Limbs], p: &[Limbs], flags: &[u8]| {
        let (number, value, _) = engine(19, s, p, flags);
        (number, value)
    };
    let double = answer(&Case {
        code: 17,
        arguments: vec![
            Argument::Bytes(number::to_bytes(&small(2)).to_vec()),
            Argument::Limbs(small(3).to_vec()),
            Argument::Bytes(number::to_bytes(&small(4)).to_vec()),
        ],
    });
    e1(19) == (0, small(41), (16, 258))
        && e1(18) == (0, small(41), (142, 256))
        && e1(22) == (0, small(41), (2710, 252))
        && straus(&[small(2)], &[minus(1)], &[1]) == (0, minus(2))
        && straus(&[], &[], &[]) == (0, small(0))
        && engine(22, &[], &[], &[]) == (0, small(0), (2708, 252))
        && straus(&[L], &[ONE], &[1]) == (0, small(0))
        && straus(&[ONE, ONE], &[ONE, ONE], &[1, 1]) == (0, small(2))
        && straus(&[small(2), small(5)], &[small(3)], &[1]) == (0, small(6))
        && straus(&[small(2)], &[small(3), small(0)], &[1, 0]) == (8, small(0))
        && engine(22, &[small(2)], &[small(3), small(0)], &[1, 0]).1 == small(6)
        && straus(&[[0, 0, 0, 1 << 63]], &[ONE], &[1]) == (6, small(0))
        && straus(&[ONE], &[L], &[1]) == (7, small(0))
        && (double.value, double.counts) == (Value::Element(small(10)), Some((9, 4)))
}

/// Whether the reading gives what the sheet prints.
pub fn holds() -> bool {
    rows() && engines()
}
