//! The crate's private recodings, windows and engines, made visible over plain arrays.

use crate::backend::serial::curve_models::{AffineNielsPoint, EdwardsPoint, ProjectiveNielsPoint};
use crate::group::Residue;
use crate::pippenger::Pippenger;
use crate::precomputed_straus::VartimePrecomputedStraus;
use crate::scalar::Scalar;
use crate::straus::Straus;
use crate::traits::{MultiscalarMul, VartimeMultiscalarMul, VartimePrecomputedMultiscalarMul};
use crate::window::{LookupTable, NafLookupTable5, NafLookupTable8};

pub use crate::group::{counts, start};

type Limbs = [u64; 4];

fn point(limbs: &Limbs) -> EdwardsPoint {
    EdwardsPoint(Residue(*limbs))
}

fn optional(points: &[Option<Limbs>]) -> Vec<Option<EdwardsPoint>> {
    points.iter().map(|p| p.map(|limbs| point(&limbs))).collect()
}

fn scalars(bytes: &[[u8; 32]]) -> Vec<Scalar> {
    bytes.iter().map(|b| Scalar { bytes: *b }).collect()
}

pub fn non_adjacent_form(bytes: [u8; 32], w: usize) -> [i8; 256] {
    Scalar { bytes }.non_adjacent_form(w)
}

pub fn as_radix_16(bytes: [u8; 32]) -> [i8; 64] {
    Scalar { bytes }.as_radix_16()
}

pub fn as_radix_2w(bytes: [u8; 32], w: usize) -> [i8; 64] {
    Scalar { bytes }.as_radix_2w(w)
}

pub fn used_places(w: usize) -> usize {
    Scalar::to_radix_2w_size_hint(w)
}

pub fn lookup_table(p: Limbs) -> Vec<Limbs> {
    LookupTable::<ProjectiveNielsPoint>::from(&point(&p)).0.iter().map(|e| e.0.0).collect()
}

pub fn naf_lookup_table5(p: Limbs) -> Vec<Limbs> {
    NafLookupTable5::<ProjectiveNielsPoint>::from(&point(&p)).0.iter().map(|e| e.0.0).collect()
}

pub fn naf_lookup_table8(p: Limbs) -> Vec<Limbs> {
    NafLookupTable8::<AffineNielsPoint>::from(&point(&p)).0.iter().map(|e| e.0.0).collect()
}

fn entries<const N: usize>(window: &[Limbs]) -> [ProjectiveNielsPoint; N] {
    core::array::from_fn(|i| ProjectiveNielsPoint(Residue(window[i])))
}

pub fn select(window: &[Limbs], d: i8) -> Limbs {
    LookupTable(entries::<8>(window)).select(d).0.0
}

pub fn select_naf5(window: &[Limbs], d: usize) -> Limbs {
    NafLookupTable5(entries::<8>(window)).select(d).0.0
}

pub fn select_naf8(window: &[Limbs], d: usize) -> Limbs {
    NafLookupTable8(entries::<64>(window)).select(d).0.0
}

pub fn variable_base(p: Limbs, bytes: [u8; 32]) -> Limbs {
    crate::variable_base::mul(&point(&p), &Scalar { bytes }).0.0
}

pub fn double_base(a: [u8; 32], p: Limbs, b: [u8; 32]) -> Limbs {
    crate::vartime_double_base::mul(&Scalar { bytes: a }, &point(&p), &Scalar { bytes: b }).0.0
}

pub fn straus(s: &[[u8; 32]], p: &[Limbs]) -> Limbs {
    let points: Vec<EdwardsPoint> = p.iter().map(point).collect();
    Straus::multiscalar_mul(scalars(s), points).0.0
}

pub fn straus_optional(s: &[[u8; 32]], p: &[Option<Limbs>]) -> Option<Limbs> {
    Straus::optional_multiscalar_mul(scalars(s), optional(p)).map(|q| q.0.0)
}

pub fn pippenger(s: &[[u8; 32]], p: &[Option<Limbs>]) -> Option<Limbs> {
    Pippenger::optional_multiscalar_mul(scalars(s), optional(p)).map(|q| q.0.0)
}

/// The static tables that the crate builds.
pub fn tables(p: &[Limbs]) -> Vec<Limbs> {
    let points: Vec<EdwardsPoint> = p.iter().map(point).collect();
    let built = VartimePrecomputedStraus::new(points);
    built.static_lookup_tables.iter().flat_map(|t| t.0).map(|e| e.0.0).collect()
}

/// The mixed sum over static tables as they stand, 64 entries each.
pub fn mixed(tables: &[Limbs], fixed: &[[u8; 32]], s: &[[u8; 32]], p: &[Option<Limbs>]) -> Option<Limbs> {
    let static_lookup_tables =
        tables.chunks(64).map(|t| NafLookupTable8(core::array::from_fn(|i| AffineNielsPoint(Residue(t[i]))))).collect();
    VartimePrecomputedStraus { static_lookup_tables }
        .optional_mixed_multiscalar_mul(scalars(fixed), scalars(s), optional(p))
        .map(|q| q.0.0)
}
