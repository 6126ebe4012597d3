//! The curve's five coordinate systems, each a wrapper of one residue.

use core::ops::{Add, AddAssign, Neg, Sub};

use crate::group::Residue;
use crate::traits::Identity;
use subtle::{Choice, ConditionallySelectable};

macro_rules! wrappers {
    ($($name:ident)*) => { $(
        #[derive(Copy, Clone, Default, Debug)]
        pub struct $name(pub Residue);

        impl Identity for $name {
            fn identity() -> $name {
                $name(Residue::default())
            }
        }
    )* };
}

wrappers!(EdwardsPoint ProjectivePoint CompletedPoint ProjectiveNielsPoint AffineNielsPoint);

macro_rules! table_entries {
    ($($name:ident)*) => { $(
        impl ConditionallySelectable for $name {
            fn conditional_select(a: &$name, b: &$name, choice: Choice) -> $name {
                if choice.into() { *b } else { *a }
            }
        }

        impl Neg for &$name {
            type Output = $name;
            fn neg(self) -> $name {
                $name(self.0.negated())
            }
        }

        impl<'a> Add<&'a $name> for &EdwardsPoint {
            type Output = CompletedPoint;
            fn add(self, entry: &'a $name) -> CompletedPoint {
                CompletedPoint(self.0.plus(entry.0))
            }
        }

        impl<'a> Sub<&'a $name> for &EdwardsPoint {
            type Output = CompletedPoint;
            fn sub(self, entry: &'a $name) -> CompletedPoint {
                CompletedPoint(self.0.minus(entry.0))
            }
        }
    )* };
}

table_entries!(ProjectiveNielsPoint AffineNielsPoint);

impl EdwardsPoint {
    pub fn as_projective_niels(&self) -> ProjectiveNielsPoint {
        ProjectiveNielsPoint(self.0)
    }

    pub fn as_affine_niels(&self) -> AffineNielsPoint {
        AffineNielsPoint(self.0)
    }

    pub fn double(&self) -> EdwardsPoint {
        EdwardsPoint(self.0.doubled())
    }

    pub fn mul_by_pow_2(&self, k: u32) -> EdwardsPoint {
        (0..k).fold(*self, |point, _| point.double())
    }
}

impl Add for EdwardsPoint {
    type Output = EdwardsPoint;
    fn add(self, other: EdwardsPoint) -> EdwardsPoint {
        EdwardsPoint(self.0.plus(other.0))
    }
}

impl AddAssign for EdwardsPoint {
    fn add_assign(&mut self, other: EdwardsPoint) {
        *self = *self + other;
    }
}

impl CompletedPoint {
    pub fn as_extended(&self) -> EdwardsPoint {
        EdwardsPoint(self.0)
    }

    pub fn as_projective(&self) -> ProjectivePoint {
        ProjectivePoint(self.0)
    }
}

impl ProjectivePoint {
    pub fn double(&self) -> CompletedPoint {
        CompletedPoint(self.0.doubled())
    }

    pub fn as_extended(&self) -> EdwardsPoint {
        EdwardsPoint(self.0)
    }
}
