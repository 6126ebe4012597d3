//! Head of the serial backend.
pub mod curve_models;
pub mod scalar_mul;
pub mod u64;
