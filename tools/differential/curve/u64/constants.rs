//! The curve's constants, computed while compiling from the definitions in RFC 8032 (and RFC 9496 for Ristretto).

use super::field::FieldElement51 as F;
use super::scalar::Scalar52;
use crate::backend::serial::curve_models::AffineNielsPoint;
use crate::edwards::{EdwardsBasepointTable, EdwardsPoint};
use crate::window::{LookupTable, NafLookupTable8};

/// d = -121665/121666.
pub(crate) const EDWARDS_D: F = F::ZERO.minus(F::small(121665).times(F::small(121666).inverse()));
pub(crate) const EDWARDS_D2: F = EDWARDS_D.plus(EDWARDS_D);

/// A square root of -1: 2 to the power (p-1)/4 = 2^253 - 5.
pub(crate) const SQRT_M1: F = F::small(2).power([u64::MAX - 4, u64::MAX, u64::MAX, u64::MAX >> 3]);

/// RFC 9496, 4.1; its square times -1-d is 1, which `probe::sound` looks at.
pub(crate) const INVSQRT_A_MINUS_D: F =
    number([0x786c8905cfaffca2, 0x16c27b91fe01d840, 0x9d2f16175a4172be, 0x99c8fdaa805d40ea]);

/// (A + 2)/4 with A = 486662 of the Montgomery form.
pub(crate) const APLUS2_OVER_FOUR: F = F::small(121666);

/// The Montgomery radix of our scalars is 1.
pub(crate) const R: Scalar52 = Scalar52::ONE;

/// The basepoint, y = 4/5 and the x of RFC 8032, 5.1.
pub const ED25519_BASEPOINT_POINT: EdwardsPoint = point(
    number([0x216936d3cd6e53fe, 0xc0a4e231fdd6dc5c, 0x692cc7609525a7b2, 0xc9562d608f25d51a]),
    F::small(4).times(F::small(5).inverse()),
);

/// The multiples 0 to 7 of a point of order 8.
pub const EIGHT_TORSION: [EdwardsPoint; 8] = multiples(
    point(F::ZERO, F::ONE),
    point(
        number([0x602a465ff9c6b5d7, 0x16cc66cdc721b544, 0xa3e6c38fec1a1dc7, 0x215eb9b93aba2ea3]),
        number([0x05fc536d880238b1, 0x3933c6d305acdfd5, 0xf098eff289f4c345, 0xb027b2c28f95e826]),
    ),
);

/// 1B, 3B, .. 127B.
pub(crate) static AFFINE_ODD_MULTIPLES_OF_BASEPOINT: NafLookupTable8<AffineNielsPoint> =
    NafLookupTable8(niels(multiples(ED25519_BASEPOINT_POINT, sum(ED25519_BASEPOINT_POINT, ED25519_BASEPOINT_POINT))));

/// Window i of the fixed-base table: 1 to 8 times 256^i B.
static TABLE: EdwardsBasepointTable = EdwardsBasepointTable(fixed_base());
pub static ED25519_BASEPOINT_TABLE: &EdwardsBasepointTable = &TABLE;

/// A number by its 64-bit words, highest first.
const fn number(words: [u64; 4]) -> F {
    let mut bytes = [0; 32];
    let mut i = 0;
    while i < 32 {
        bytes[i] = (words[3 - i / 8] >> (8 * (i % 8))) as u8;
        i += 1;
    }
    F::from_bytes(&bytes)
}

const fn point(x: F, y: F) -> EdwardsPoint {
    EdwardsPoint { X: x, Y: y, Z: F::ONE, T: x.times(y) }
}

/// The sum by RFC 8032, 5.1.4; it holds for equal points too.
const fn sum(p: EdwardsPoint, q: EdwardsPoint) -> EdwardsPoint {
    let a = p.Y.minus(p.X).times(q.Y.minus(q.X));
    let b = p.Y.plus(p.X).times(q.Y.plus(q.X));
    let c = p.T.times(EDWARDS_D2).times(q.T);
    let d = p.Z.plus(p.Z).times(q.Z);
    let (e, f, g, h) = (b.minus(a), d.minus(c), d.plus(c), b.plus(a));
    EdwardsPoint { X: e.times(f), Y: g.times(h), Z: f.times(g), T: e.times(h) }
}

/// first, first + step, first + 2 step, ..
const fn multiples<const N: usize>(first: EdwardsPoint, step: EdwardsPoint) -> [EdwardsPoint; N] {
    let mut out = [first; N];
    let mut i = 1;
    while i < N {
        out[i] = sum(out[i - 1], step);
        i += 1;
    }
    out
}

/// The same points as y+x, y-x, 2dxy; one inversion serves them all.
const fn niels<const N: usize>(points: [EdwardsPoint; N]) -> [AffineNielsPoint; N] {
    let empty = AffineNielsPoint { y_plus_x: F::ONE, y_minus_x: F::ONE, xy2d: F::ZERO };
    let mut out = [empty; N];
    let mut before = [F::ONE; N];
    let mut i = 1;
    while i < N {
        before[i] = before[i - 1].times(points[i - 1].Z);
        i += 1;
    }
    let mut inverse = before[N - 1].times(points[N - 1].Z).inverse();
    i = N;
    while i > 0 {
        i -= 1;
        let z = inverse.times(before[i]);
        inverse = inverse.times(points[i].Z);
        let (x, y) = (points[i].X.times(z), points[i].Y.times(z));
        out[i] = AffineNielsPoint { y_plus_x: y.plus(x), y_minus_x: y.minus(x), xy2d: x.times(y).times(EDWARDS_D2) };
    }
    out
}

const fn fixed_base() -> [LookupTable<AffineNielsPoint>; 32] {
    let mut base = ED25519_BASEPOINT_POINT;
    let mut out = [LookupTable(niels(multiples(base, base))); 32];
    let mut i = 1;
    while i < 32 {
        let mut k = 0;
        while k < 8 {
            base = sum(base, base);
            k += 1;
        }
        out[i] = LookupTable(niels(multiples(base, base)));
        i += 1;
    }
    out
}
