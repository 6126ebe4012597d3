//! The crate's private engines on the curve, made visible; residue p is the point pB.

extern crate std;

use alloc::vec::Vec;
use std::sync::LazyLock;

use crate::backend::serial::curve_models::{AffineNielsPoint, ProjectiveNielsPoint};
use crate::backend::serial::scalar_mul::{
    pippenger::Pippenger, precomputed_straus::VartimePrecomputedStraus, straus::Straus, variable_base,
    vartime_double_base,
};
use crate::constants;
use crate::edwards::EdwardsBasepointTable;
use crate::field::FieldElement;
use crate::scalar::Scalar;
use crate::traits::{
    BasepointTable, Identity, MultiscalarMul, ValidityCheck, VartimeMultiscalarMul, VartimePrecomputedMultiscalarMul,
};
use crate::window::{LookupTable, NafLookupTable5, NafLookupTable8};

pub use crate::edwards::EdwardsPoint as Point;

/// An encoded point.
pub type Encoded = [u8; 32];

static POWERS: LazyLock<Vec<Point>> = LazyLock::new(|| {
    core::iter::successors(Some(constants::ED25519_BASEPOINT_POINT), |p| Some(p.double())).take(256).collect()
});

/// nB by adding the powers 2^i B, apart from every engine.
pub fn base_multiple(n: &[u8; 32]) -> Point {
    let taken = (0..256).filter(|i| n[i / 8] >> (i % 8) & 1 == 1);
    taken.fold(Point::identity(), |sum, i| sum + POWERS[i])
}

pub fn encode(p: &Point) -> Encoded {
    p.compress().to_bytes()
}

/// A scalar as it stands, from L up too; the highest bit is 0.
fn scalar(bytes: &[u8; 32]) -> Scalar {
    Scalar::from_bits(*bytes)
}

fn scalars(list: &[[u8; 32]]) -> Vec<Scalar> {
    list.iter().map(scalar).collect()
}

pub fn single(p: &Point, s: &[u8; 32]) -> Point {
    variable_base::mul(p, &scalar(s))
}

pub fn double_base(a: &[u8; 32], p: &Point, b: &[u8; 32]) -> Point {
    vartime_double_base::mul(&scalar(a), p, &scalar(b))
}

pub fn straus(s: &[[u8; 32]], p: &[Point]) -> Point {
    Straus::multiscalar_mul(scalars(s), p)
}

pub fn straus_optional(s: &[[u8; 32]], p: &[Option<Point>]) -> Option<Point> {
    Straus::optional_multiscalar_mul(scalars(s), p.iter().copied())
}

pub fn pippenger(s: &[[u8; 32]], p: &[Option<Point>]) -> Option<Point> {
    Pippenger::optional_multiscalar_mul(scalars(s), p.iter().copied())
}

pub fn mixed(points: &[Point], fixed: &[[u8; 32]], s: &[[u8; 32]], p: &[Option<Point>]) -> Option<Point> {
    VartimePrecomputedStraus::new(points).optional_mixed_multiscalar_mul(scalars(fixed), scalars(s), p.iter().copied())
}

fn projective(entries: &[ProjectiveNielsPoint]) -> Vec<Encoded> {
    entries.iter().map(|e| encode(&(&Point::identity() + e).as_extended())).collect()
}

pub fn window(p: &Point) -> Vec<Encoded> {
    projective(&LookupTable::<ProjectiveNielsPoint>::from(p).0)
}

pub fn window5(p: &Point) -> Vec<Encoded> {
    projective(&NafLookupTable5::<ProjectiveNielsPoint>::from(p).0)
}

pub fn window8(p: &Point) -> Vec<Encoded> {
    let table = NafLookupTable8::<AffineNielsPoint>::from(p);
    table.0.iter().map(|e| encode(&(&Point::identity() + e).as_extended())).collect()
}

/// Our own files against published numbers: the constants, and the first multiples of B as encoded.
pub fn sound() -> bool {
    let minus_one = FieldElement::MINUS_ONE;
    let root = constants::SQRT_M1.square() == minus_one;
    let inverse_root = constants::INVSQRT_A_MINUS_D.square();
    let ristretto = &inverse_root * &(&minus_one - &constants::EDWARDS_D) == FieldElement::ONE;
    let base = constants::ED25519_BASEPOINT_POINT;
    let encoded = constants::ED25519_BASEPOINT_COMPRESSED;
    let torsion = &constants::EIGHT_TORSION;
    let order8 = torsion[1].is_small_order() && torsion[4] != Point::identity() && torsion.iter().all(|t| t.is_valid());
    let tables = EdwardsBasepointTable::create(&base);
    let seven = scalar(&core::array::from_fn(|_| 0x77));
    root && ristretto
        && base.is_valid()
        && base.is_torsion_free()
        && base.compress() == encoded
        && encoded.decompress() == Some(base)
        && constants::RISTRETTO_BASEPOINT_POINT.compress() == constants::RISTRETTO_BASEPOINT_COMPRESSED
        && order8
        && &tables * &seven == constants::ED25519_BASEPOINT_TABLE * &seven
        && &tables * &seven == base_multiple(seven.as_bytes())
        && odd_multiples()
}

/// The constant table of odd multiples is the one that the crate would build.
fn odd_multiples() -> bool {
    let built = NafLookupTable8::<AffineNielsPoint>::from(&constants::ED25519_BASEPOINT_POINT);
    built.0 == constants::AFFINE_ODD_MULTIPLES_OF_BASEPOINT.0
}

/// What the crate does where its comments say otherwise, and where the curve has more than residues.
pub fn comments() -> std::string::String {
    let order = constants::BASEPOINT_ORDER;
    let canonical: Option<Scalar> = Scalar::from_canonical_bytes(order.to_bytes()).into();
    let torsion = variable_base::mul(&constants::EIGHT_TORSION[1], &order);
    let five = constants::EIGHT_TORSION[5];
    std::format!(
        "from_canonical_bytes(L): {}; L times a point of order 8 is 5 times it: {}",
        if canonical.is_some() { "Some" } else { "None" },
        torsion == five
    )
}
