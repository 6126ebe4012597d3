//! Head of the 64-bit arithmetic.
pub mod constants;
pub mod field;
pub mod scalar;
