//! Numbers modulo L in four limbs, lowest first; Montgomery form with radix 1, so it is the number itself.

use subtle::Choice;

const L: [u64; 4] = [0x5812631a5cf5d3ed, 0x14def9dea2f79cd6, 0, 0x1000000000000000];

#[derive(Copy, Clone, Debug)]
pub struct Scalar52([u64; 4]);

/// a - b, and whether it went below 0.
fn less(a: [u64; 4], b: [u64; 4]) -> ([u64; 4], bool) {
    let mut borrow = false;
    let out = core::array::from_fn(|i| {
        let (x, first) = a[i].overflowing_sub(b[i]);
        let (y, second) = x.overflowing_sub(borrow as u64);
        borrow = first | second;
        y
    });
    (out, borrow)
}

/// a + b, below 2^256 where both are below 2^255.
fn more(a: [u64; 4], b: [u64; 4]) -> [u64; 4] {
    let mut carry = 0u128;
    core::array::from_fn(|i| {
        carry += a[i] as u128 + b[i] as u128;
        let low = carry as u64;
        carry >>= 64;
        low
    })
}

fn once(a: [u64; 4]) -> [u64; 4] {
    let (out, below) = less(a, L);
    if below { a } else { out }
}

impl Scalar52 {
    pub const ZERO: Scalar52 = Scalar52([0; 4]);
    pub(crate) const ONE: Scalar52 = Scalar52([1, 0, 0, 0]);

    /// 32 bytes as they stand, reduced or not.
    pub fn from_bytes(bytes: &[u8; 32]) -> Scalar52 {
        Scalar52(core::array::from_fn(|i| (0..8).fold(0, |limb, k| limb | (bytes[8 * i + k] as u64) << (8 * k))))
    }

    pub fn from_bytes_wide(bytes: &[u8; 64]) -> Scalar52 {
        let wide = core::array::from_fn(|i| (0..8).fold(0, |limb, k| limb | (bytes[8 * i + k] as u64) << (8 * k)));
        Scalar52::montgomery_reduce(&wide)
    }

    pub fn to_bytes(&self) -> [u8; 32] {
        core::array::from_fn(|i| (self.0[i / 8] >> (8 * (i % 8))) as u8)
    }

    pub fn add(a: &Scalar52, b: &Scalar52) -> Scalar52 {
        Scalar52(once(more(a.0, b.0)))
    }

    pub fn sub(a: &Scalar52, b: &Scalar52) -> Scalar52 {
        let (out, below) = less(a.0, b.0);
        Scalar52(if below { more(out, L) } else { out })
    }

    pub fn mul(a: &Scalar52, b: &Scalar52) -> Scalar52 {
        Scalar52::montgomery_reduce(&Scalar52::mul_internal(a, b))
    }

    /// The product in eight limbs.
    pub fn mul_internal(a: &Scalar52, b: &Scalar52) -> [u64; 8] {
        let mut wide = [0u64; 8];
        for i in 0..4 {
            let mut carry = 0u128;
            for j in 0..4 {
                carry += wide[i + j] as u128 + (a.0[i] as u128) * (b.0[j] as u128);
                wide[i + j] = carry as u64;
                carry >>= 64;
            }
            wide[i + 4] = carry as u64;
        }
        wide
    }

    /// Eight limbs modulo L, a bit at a time.
    pub fn montgomery_reduce(wide: &[u64; 8]) -> Scalar52 {
        let mut out = [0; 4];
        for bit in (0..512).rev() {
            out = once(more(out, out));
            out = once(more(out, [(wide[bit / 64] >> (bit % 64)) & 1, 0, 0, 0]));
        }
        Scalar52(out)
    }

    pub fn montgomery_mul(a: &Scalar52, b: &Scalar52) -> Scalar52 {
        Scalar52::mul(a, b)
    }

    pub fn montgomery_square(&self) -> Scalar52 {
        Scalar52::mul(self, self)
    }

    pub fn as_montgomery(&self) -> Scalar52 {
        Scalar52::mul(self, &Scalar52::ONE)
    }

    pub fn from_montgomery(&self) -> Scalar52 {
        *self
    }

    pub fn conditional_add_l(&mut self, choice: Choice) {
        if choice.into() {
            self.0 = more(self.0, L);
        }
    }

    /// Half of it; the bit that falls out.
    pub fn shr1_assign(&mut self) -> u64 {
        let low = self.0[0] & 1;
        self.0 = core::array::from_fn(|i| self.0[i] >> 1 | if i < 3 { self.0[i + 1] << 63 } else { 0 });
        low
    }
}
