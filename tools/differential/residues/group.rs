//! Residues modulo L in four limbs, lowest first, and the count of what is done with them.

use std::cell::Cell;

/// L, the order of the basepoint (RFC 8032).
const ORDER: [u64; 4] = [0x5812631a5cf5d3ed, 0x14def9dea2f79cd6, 0, 0x1000000000000000];

thread_local! {
    static ADDITIONS: Cell<u64> = const { Cell::new(0) };
    static DOUBLINGS: Cell<u64> = const { Cell::new(0) };
}

/// Starts both counts at 0.
pub fn start() {
    ADDITIONS.set(0);
    DOUBLINGS.set(0);
}

/// Additions and doublings since the start.
pub fn counts() -> (u64, u64) {
    (ADDITIONS.get(), DOUBLINGS.get())
}

/// A residue; 0 is the identity.
#[derive(Copy, Clone, Default, Debug, PartialEq, Eq)]
pub struct Residue(pub [u64; 4]);

impl Residue {
    /// The sum, one addition.
    pub fn plus(self, other: Residue) -> Residue {
        ADDITIONS.set(ADDITIONS.get() + 1);
        sum(self, other)
    }

    /// The difference, one addition.
    pub fn minus(self, other: Residue) -> Residue {
        ADDITIONS.set(ADDITIONS.get() + 1);
        sum(self, other.negated())
    }

    /// Twice the residue, one doubling.
    pub fn doubled(self) -> Residue {
        DOUBLINGS.set(DOUBLINGS.get() + 1);
        sum(self, self)
    }

    /// The inverse, not counted.
    pub fn negated(self) -> Residue {
        if self.0 == [0; 4] { self } else { Residue(less(ORDER, self.0).0) }
    }
}

/// a - b in four limbs, and whether it went below 0.
fn less(a: [u64; 4], b: [u64; 4]) -> ([u64; 4], bool) {
    let mut out = [0; 4];
    let mut borrow = false;
    for i in 0..4 {
        let (x, first) = a[i].overflowing_sub(b[i]);
        let (y, second) = x.overflowing_sub(borrow as u64);
        out[i] = y;
        borrow = first | second;
    }
    (out, borrow)
}

/// The sum modulo L of two residues; it stays below 2^254 before L is taken off.
fn sum(a: Residue, b: Residue) -> Residue {
    let mut out = [0; 4];
    let mut carry = 0u128;
    for i in 0..4 {
        carry += a.0[i] as u128 + b.0[i] as u128;
        out[i] = carry as u64;
        carry >>= 64;
    }
    let (smaller, below) = less(out, ORDER);
    Residue(if below { out } else { smaller })
}
