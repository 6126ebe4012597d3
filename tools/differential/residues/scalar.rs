//! A scalar of 32 bytes; its recodings are cut out of the crate's scalar.rs at build time.

use core::ops::Index;

#[derive(Copy, Clone)]
pub struct Scalar {
    pub(crate) bytes: [u8; 32],
}

impl Index<usize> for Scalar {
    type Output = u8;
    fn index(&self, at: usize) -> &u8 {
        &self.bytes[at]
    }
}

include!("../text/recodings.rs");
