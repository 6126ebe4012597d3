//! The basepoint is the residue 1, so its odd multiples are 1, 3, .. 127.

use crate::group::Residue;
use crate::models::AffineNielsPoint;
use crate::window::NafLookupTable8;

pub(crate) const AFFINE_ODD_MULTIPLES_OF_BASEPOINT: NafLookupTable8<AffineNielsPoint> = odd_multiples();

const fn odd_multiples() -> NafLookupTable8<AffineNielsPoint> {
    let mut entries = [AffineNielsPoint(Residue([1, 0, 0, 0])); 64];
    let mut i = 1;
    while i < 64 {
        entries[i] = AffineNielsPoint(Residue([2 * i as u64 + 1, 0, 0, 0]));
        i += 1;
    }
    NafLookupTable8(entries)
}
