//! Scalars, elements, widths and room: random ones and their ends.

use crate::number::{self, L, Limbs, ONE, ZERO};
use crate::random::Random;

fn any(r: &mut Random) -> Limbs {
    std::array::from_fn(|_| r.next())
}

/// 2^k.
fn power(k: usize) -> Limbs {
    let mut out = ZERO;
    out[k / 64] = 1 << (k % 64);
    out
}

/// The ends of scalars below 2^255.
pub fn scalar_ends() -> Vec<Limbs> {
    let top = number::minus(power(255), ONE);
    let bytes = |b: u8, last: u8| {
        let mut all = [b; 32];
        all[31] = last;
        number::from_bytes(&all)
    };
    vec![
        ZERO,
        ONE,
        [2, 0, 0, 0],
        [7, 0, 0, 0],
        [8, 0, 0, 0],
        [15, 0, 0, 0],
        [16, 0, 0, 0],
        [17, 0, 0, 0],
        [127, 0, 0, 0],
        [128, 0, 0, 0],
        [129, 0, 0, 0],
        number::minus(L, ONE),
        L,
        number::plus(L, ONE),
        number::plus(L, L),
        power(252),
        power(254),
        number::minus(power(254), ONE),
        top,
        number::minus(top, [18, 0, 0, 0]),
        bytes(0x77, 0x77),
        bytes(0x88, 0x78),
        bytes(0x87, 0x77),
        bytes(0x7f, 0x7f),
        bytes(0x80, 0x7f),
        bytes(0x81, 0x7f),
        bytes(0xff, 0x3f),
        bytes(0x55, 0x55),
        bytes(0xaa, 0x2a),
    ]
}

/// A scalar below 2^255.
pub fn scalar(r: &mut Random) -> Limbs {
    let mut s = match r.below(8) {
        0 => r.pick(&scalar_ends()),
        1 => [r.next() % 300, 0, 0, 0],
        2 => {
            let (a, b) = (power(r.below(255)), power(r.below(255)));
            if r.once_in(2) { number::plus(a, b) } else { number::minus(a.max(b), ONE) }
        }
        3 => number::modulo(&any(r)),
        _ => any(r),
    };
    s[3] &= u64::MAX >> 1;
    s
}

/// A scalar at or above 2^255.
pub fn large_scalar(r: &mut Random) -> Limbs {
    match r.below(4) {
        0 => power(255),
        1 => [u64::MAX; 4],
        2 => number::plus(power(255), ONE),
        _ => {
            let mut s = any(r);
            s[3] |= 1 << 63;
            s
        }
    }
}

/// The ends of elements.
pub fn element_ends() -> Vec<Limbs> {
    vec![ZERO, ONE, [2, 0, 0, 0], number::minus(L, ONE), number::minus(L, [2, 0, 0, 0]), power(252), power(192)]
}

/// An element below L.
pub fn element(r: &mut Random) -> Limbs {
    match r.below(5) {
        0 => r.pick(&element_ends()),
        1 => [r.next() % 100, 0, 0, 0],
        _ => number::modulo(&any(r)),
    }
}

/// Limbs at or above L.
pub fn large_element(r: &mut Random) -> Limbs {
    match r.below(4) {
        0 => L,
        1 => number::plus(L, ONE),
        2 => [u64::MAX; 4],
        _ => {
            let mut e = any(r);
            e[3] |= 1 << 61;
            e
        }
    }
}

/// A scalar of one byte throughout and an element of one limb: lists of them are recorded in a few bytes.
pub fn even_scalar(r: &mut Random) -> Limbs {
    number::from_bytes(&[r.below(128) as u8; 32])
}

pub fn even_element(r: &mut Random) -> Limbs {
    [r.next() >> 4; 4]
}

/// A width outside of every kind.
pub fn bad_width(r: &mut Random) -> u64 {
    r.pick(&[0, 1, 9, 10, 16, 64, 255, 256, 261, 1 << 32, (1 << 32) + 5, u64::MAX - 3, u64::MAX])
}

pub fn bytes(list: &[Limbs]) -> Vec<u8> {
    list.iter().flat_map(number::to_bytes).collect()
}

pub fn flat(list: &[Limbs]) -> Vec<u64> {
    list.iter().flatten().copied().collect()
}

/// n digits of room: whatever where that is short, else one value.
pub fn digit_room(r: &mut Random, n: usize) -> Vec<i8> {
    if n <= 128 && r.once_in(2) {
        return (0..n).map(|_| r.next() as i8).collect();
    }
    vec![r.next() as i8; n]
}

/// n limbs of room.
pub fn limb_room(r: &mut Random, n: usize) -> Vec<u64> {
    if n <= 64 && r.once_in(2) {
        return (0..n).map(|_| r.next()).collect();
    }
    vec![r.next(); n]
}

/// A list made not whole by this many at its end, more or less.
pub fn tear<T: Clone>(r: &mut Random, list: &mut Vec<T>, part: usize, filler: T) {
    let k = 1 + r.below(part - 1);
    if list.len() >= k && r.once_in(2) {
        list.truncate(list.len() - k);
    } else {
        list.extend(vec![filler; k]);
    }
}
