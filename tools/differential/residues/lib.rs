//! The Rust engines over a group of residues modulo L that counts additions and doublings.
//!
//! Modules with a `#[path]` are the crate's own files, laid beside this folder at build time; the rest stands for what
//! they lean on. The root has the crate's module names, since the files name each other by them.
extern crate alloc;

mod group;
mod models;
pub mod probe;
pub(crate) mod scalar;

pub(crate) mod constants;

pub(crate) mod edwards {
    pub use crate::models::EdwardsPoint;
}

pub(crate) mod backend {
    pub(crate) mod serial {
        pub(crate) use crate::models as curve_models;
    }
}

#[path = "../text/src/traits.rs"]
pub(crate) mod traits;
#[path = "../text/src/window.rs"]
pub(crate) mod window;

#[path = "../text/src/backend/serial/scalar_mul/pippenger.rs"]
pub(crate) mod pippenger;
#[path = "../text/src/backend/serial/scalar_mul/precomputed_straus.rs"]
pub(crate) mod precomputed_straus;
#[path = "../text/src/backend/serial/scalar_mul/straus.rs"]
pub(crate) mod straus;
#[path = "../text/src/backend/serial/scalar_mul/variable_base.rs"]
pub(crate) mod variable_base;
#[path = "../text/src/backend/serial/scalar_mul/vartime_double_base.rs"]
pub(crate) mod vartime_double_base;
