//! What 01's table of numbers asks of lent lists; each is judged by itself, and the lowest number is given.

use crate::number::{self, L, Limbs};

/// Scalars, points or slots in any one list; static points.
pub const MOST: usize = 1024;
pub const MOST_STATIC: usize = 64;

/// The lowest number that applies, else 0.
pub fn lowest(conditions: &[(u8, bool)]) -> u8 {
    conditions.iter().filter(|(_, holds)| *holds).map(|(number, _)| *number).min().unwrap_or(0)
}

/// The whole scalars of a list.
pub fn scalars(bytes: &[u8]) -> Vec<Limbs> {
    bytes.chunks_exact(32).map(number::from_bytes).collect()
}

/// The whole elements of a list.
pub fn elements(limbs: &[u64]) -> Vec<Limbs> {
    limbs.chunks_exact(4).map(|e| e.try_into().unwrap()).collect()
}

/// 1: a list that does not come in parts of this many.
pub fn torn(length: usize, part: usize) -> bool {
    !length.is_multiple_of(part)
}

/// 6 for recodings and the row reader.
pub fn above_row_bound(s: &Limbs) -> bool {
    s[3] >> 63 == 1
}

/// 6 for engines, preparing and edits.
pub fn above_scalar_bound(s: &Limbs) -> bool {
    s[3] >> 63 == 1
}

/// 6 anywhere in a list.
pub fn scalar_too_large(bytes: &[u8]) -> bool {
    scalars(bytes).iter().any(above_scalar_bound)
}

/// 7 for an element that stands without a flag; 10 for a table entry.
pub fn element_too_large(limbs: &[u64]) -> bool {
    elements(limbs).iter().any(|e| !number::below(e, &L))
}

/// 7 for points with flags: another flag, or a present point at or above L.
pub fn point_refused(limbs: &[u64], flags: &[u8]) -> bool {
    let large = elements(limbs).iter().zip(flags).any(|(p, flag)| *flag == 1 && !number::below(p, &L));
    large || flags.iter().any(|flag| *flag > 1)
}

/// 8: an absent point among these.
pub fn absent(flags: &[u8]) -> bool {
    flags.contains(&0)
}

/// The list with its first n elements zeros.
pub fn cleared<T: Clone + Default>(list: &[T], n: usize) -> Vec<T> {
    let mut out = list.to_vec();
    out[..n].fill(T::default());
    out
}
