//! Plain whole numbers: four limbs lowest first, products and remainders modulo L, and wide sums of digits.

pub type Limbs = [u64; 4];

/// L = 2^252 + 27742317777372353535851937790883648493.
pub const L: Limbs = [0x5812631a5cf5d3ed, 0x14def9dea2f79cd6, 0, 0x1000000000000000];

pub const ZERO: Limbs = [0; 4];
pub const ONE: Limbs = [1, 0, 0, 0];

/// a < b.
pub fn below(a: &[u64], b: &[u64]) -> bool {
    a.iter().rev().lt(b.iter().rev())
}

/// 32 bytes, lowest first, as a number.
pub fn from_bytes(bytes: &[u8]) -> Limbs {
    std::array::from_fn(|i| u64::from_le_bytes(bytes[8 * i..8 * i + 8].try_into().unwrap()))
}

pub fn to_bytes(a: &Limbs) -> [u8; 32] {
    std::array::from_fn(|i| a[i / 8].to_le_bytes()[i % 8])
}

/// a + b in as many limbs as a; what goes over is dropped.
pub fn plus<const N: usize>(a: [u64; N], b: [u64; N]) -> [u64; N] {
    let mut carry = 0u128;
    std::array::from_fn(|i| {
        carry = (carry >> 64) + a[i] as u128 + b[i] as u128;
        carry as u64
    })
}

/// a - b, for b at most a.
pub fn minus<const N: usize>(a: [u64; N], b: [u64; N]) -> [u64; N] {
    let mut borrow = 0;
    std::array::from_fn(|i| {
        let t = a[i] as i128 - b[i] as i128 - borrow;
        borrow = (t < 0) as i128;
        t as u64
    })
}

/// The product of two numbers below 2^256.
pub fn product(a: &Limbs, b: &Limbs) -> [u64; 8] {
    let mut out = [0u64; 8];
    for i in 0..4 {
        let mut carry = 0u128;
        for j in 0..4 {
            carry = (carry >> 64) + out[i + j] as u128 + a[i] as u128 * b[j] as u128;
            out[i + j] = carry as u64;
        }
        out[i + 4] = (carry >> 64) as u64;
    }
    out
}

/// The remainder modulo L by long division: a limb at a time, its quotient digit guessed from the top and mended.
pub fn modulo(wide: &[u64]) -> Limbs {
    let mut rest: [u64; 5] = [0; 5];
    for limb in wide.iter().rev() {
        // rest < L, so rest * 2^64 + limb < L * 2^64
        rest = [*limb, rest[0], rest[1], rest[2], rest[3]];
        // L lies a little above 2^252: this guess is never below the digit and above it by little
        let top = (rest[4] as u128) << 64 | rest[3] as u128;
        let mut digit = (top >> 60).min(u64::MAX as u128) as u64;
        let mut taken = times(digit);
        while below(&rest, &taken) {
            digit -= 1;
            taken = times(digit);
        }
        rest = minus(rest, taken);
    }
    [rest[0], rest[1], rest[2], rest[3]]
}

/// digit * L.
fn times(digit: u64) -> [u64; 5] {
    let mut carry = 0u128;
    std::array::from_fn(|i| {
        carry = (carry >> 64) + if i < 4 { L[i] as u128 * digit as u128 } else { 0 };
        carry as u64
    })
}

/// a * b modulo L.
pub fn multiplied(a: &Limbs, b: &Limbs) -> Limbs {
    modulo(&product(a, b))
}

/// a + b modulo L, both below L.
pub fn added(a: &Limbs, b: &Limbs) -> Limbs {
    modulo(&plus([a[0], a[1], a[2], a[3], 0], [b[0], b[1], b[2], b[3], 0]))
}

/// L - a modulo L, a below L.
pub fn negated(a: &Limbs) -> Limbs {
    modulo(&minus(L, *a))
}

/// 2^j modulo L.
pub fn power(j: usize) -> Limbs {
    let mut wide = [0u64; 10];
    wide[j / 64] = 1 << (j % 64);
    modulo(&wide)
}

/// The sum of digits times 2^(w i), where it is a number from 0 to 2^256 - 1.
pub fn weighted(digits: &[i8], w: usize) -> Option<Limbs> {
    let mut up = [0u64; 10];
    let mut down = [0u64; 10];
    for (i, d) in digits.iter().enumerate() {
        let side = if *d < 0 { &mut down } else { &mut up };
        let mut term = [0u64; 10];
        let wide = (d.unsigned_abs() as u128) << (w * i % 64);
        term[w * i / 64] = wide as u64;
        term[w * i / 64 + 1] = (wide >> 64) as u64;
        *side = plus(*side, term);
    }
    if below(&up, &down) {
        return None;
    }
    let sum = minus(up, down);
    if sum[4..] == [0; 6] { Some([sum[0], sum[1], sum[2], sum[3]]) } else { None }
}
