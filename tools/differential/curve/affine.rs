//! A point by its two coordinates, and its encoding (RFC 8032, 5.1.2).

use super::CompressedEdwardsY;
use crate::field::FieldElement;

#[derive(Copy, Clone)]
pub(crate) struct AffinePoint {
    pub(super) x: FieldElement,
    pub(super) y: FieldElement,
}

impl AffinePoint {
    /// y in 255 bits, and the lowest bit of x on top.
    pub(crate) fn compress(self) -> CompressedEdwardsY {
        let mut bytes = self.y.to_bytes();
        bytes[31] |= self.x.is_negative().unwrap_u8() << 7;
        CompressedEdwardsY(bytes)
    }
}
