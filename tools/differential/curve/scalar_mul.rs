//! Head of the engines.
pub mod pippenger;
pub mod precomputed_straus;
pub mod straus;
pub mod variable_base;
pub mod vartime_double_base;
