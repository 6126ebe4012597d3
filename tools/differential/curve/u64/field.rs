//! Numbers modulo p = 2^255 - 19 in four limbs, lowest first, always below p.

use core::ops::{Add, AddAssign, Mul, MulAssign, Neg, Sub, SubAssign};

use subtle::{Choice, ConditionallySelectable};

const P: [u64; 4] = [u64::MAX - 18, u64::MAX, u64::MAX, u64::MAX >> 1];

#[derive(Copy, Clone, Debug)]
pub struct FieldElement51([u64; 4]);

/// a - b, or a where that is below 0.
const fn less(a: [u64; 4], b: [u64; 4]) -> [u64; 4] {
    let mut out = [0; 4];
    let mut borrow = 0;
    let mut i = 0;
    while i < 4 {
        let t = (a[i] as i128) - (b[i] as i128) - borrow;
        out[i] = t as u64;
        borrow = (t < 0) as i128;
        i += 1;
    }
    if borrow == 0 { out } else { a }
}

/// a + k * b, which the callers keep below 2^256 + 38 * 2^64; what goes over 2^256 comes back as 38 times itself.
const fn fold(a: [u64; 4], b: [u64; 4], k: u64) -> [u64; 4] {
    let mut out = [0; 4];
    let mut carry = 0u128;
    let mut i = 0;
    while i < 4 {
        carry += a[i] as u128 + (b[i] as u128) * (k as u128);
        out[i] = carry as u64;
        carry >>= 64;
        i += 1;
    }
    if carry == 0 { out } else { fold(out, [carry as u64, 0, 0, 0], 38) }
}

impl FieldElement51 {
    pub(crate) const ZERO: FieldElement51 = FieldElement51([0; 4]);
    pub(crate) const ONE: FieldElement51 = FieldElement51([1, 0, 0, 0]);
    pub(crate) const MINUS_ONE: FieldElement51 = FieldElement51::ZERO.minus(FieldElement51::ONE);

    /// A small number.
    pub(crate) const fn small(n: u64) -> FieldElement51 {
        FieldElement51([n, 0, 0, 0])
    }

    /// The number below p: 2^256 holds at most two p and a little.
    const fn reduced(limbs: [u64; 4]) -> FieldElement51 {
        FieldElement51(less(less(limbs, P), P))
    }

    pub(crate) const fn plus(self, other: FieldElement51) -> FieldElement51 {
        FieldElement51::reduced(fold(self.0, other.0, 1))
    }

    pub(crate) const fn minus(self, other: FieldElement51) -> FieldElement51 {
        self.plus(FieldElement51(less(P, other.0)))
    }

    pub(crate) const fn times(self, other: FieldElement51) -> FieldElement51 {
        let mut wide = [0u64; 8];
        let mut i = 0;
        while i < 4 {
            let mut carry = 0u128;
            let mut j = 0;
            while j < 4 {
                carry += wide[i + j] as u128 + (self.0[i] as u128) * (other.0[j] as u128);
                wide[i + j] = carry as u64;
                carry >>= 64;
                j += 1;
            }
            wide[i + 4] = carry as u64;
            i += 1;
        }
        let low = [wide[0], wide[1], wide[2], wide[3]];
        let high = [wide[4], wide[5], wide[6], wide[7]];
        FieldElement51::reduced(fold(low, high, 38))
    }

    /// A power, the exponent in limbs.
    pub(crate) const fn power(self, exponent: [u64; 4]) -> FieldElement51 {
        let mut out = FieldElement51::ONE;
        let mut bit = 256;
        while bit > 0 {
            bit -= 1;
            out = out.times(out);
            if (exponent[bit / 64] >> (bit % 64)) & 1 == 1 {
                out = out.times(self);
            }
        }
        out
    }

    /// The inverse as the power p - 2.
    pub(crate) const fn inverse(self) -> FieldElement51 {
        self.power([P[0] - 2, P[1], P[2], P[3]])
    }

    /// The lowest 255 bits of 32 bytes, modulo p.
    pub(crate) const fn from_bytes(bytes: &[u8; 32]) -> FieldElement51 {
        let mut limbs = [0u64; 4];
        let mut i = 0;
        while i < 32 {
            limbs[i / 8] |= (bytes[i] as u64) << (8 * (i % 8));
            i += 1;
        }
        limbs[3] &= u64::MAX >> 1;
        FieldElement51::reduced(limbs)
    }

    pub(crate) fn to_bytes(self) -> [u8; 32] {
        core::array::from_fn(|i| (self.0[i / 8] >> (8 * (i % 8))) as u8)
    }

    pub(crate) fn negate(&mut self) {
        *self = -&*self;
    }

    pub(crate) fn square(&self) -> FieldElement51 {
        self.times(*self)
    }

    pub(crate) fn square2(&self) -> FieldElement51 {
        self.square().plus(self.square())
    }

    /// Squared k times.
    pub(crate) fn pow2k(&self, k: u32) -> FieldElement51 {
        (0..k).fold(*self, |x, _| x.square())
    }
}

impl<'b> Add<&'b FieldElement51> for &FieldElement51 {
    type Output = FieldElement51;
    fn add(self, other: &'b FieldElement51) -> FieldElement51 {
        self.plus(*other)
    }
}

impl<'b> Sub<&'b FieldElement51> for &FieldElement51 {
    type Output = FieldElement51;
    fn sub(self, other: &'b FieldElement51) -> FieldElement51 {
        self.minus(*other)
    }
}

impl<'b> Mul<&'b FieldElement51> for &FieldElement51 {
    type Output = FieldElement51;
    fn mul(self, other: &'b FieldElement51) -> FieldElement51 {
        self.times(*other)
    }
}

impl Neg for &FieldElement51 {
    type Output = FieldElement51;
    fn neg(self) -> FieldElement51 {
        FieldElement51::ZERO.minus(*self)
    }
}

impl<'b> AddAssign<&'b FieldElement51> for FieldElement51 {
    fn add_assign(&mut self, other: &'b FieldElement51) {
        *self = self.plus(*other);
    }
}

impl<'b> SubAssign<&'b FieldElement51> for FieldElement51 {
    fn sub_assign(&mut self, other: &'b FieldElement51) {
        *self = self.minus(*other);
    }
}

impl<'b> MulAssign<&'b FieldElement51> for FieldElement51 {
    fn mul_assign(&mut self, other: &'b FieldElement51) {
        *self = self.times(*other);
    }
}

impl ConditionallySelectable for FieldElement51 {
    fn conditional_select(a: &FieldElement51, b: &FieldElement51, choice: Choice) -> FieldElement51 {
        if choice.into() { *b } else { *a }
    }
}
