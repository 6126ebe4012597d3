//! The two builds of the Rust engines over residues, and how a call of either ends.

use std::panic::{AssertUnwindSafe, catch_unwind};

use reading::number::Limbs;

type Bytes = [u8; 32];

/// One build: the same functions, with the crate's debug assertions or without.
pub struct Side {
    pub name: &'static str,
    pub checked: bool,
    pub start: fn(),
    pub counts: fn() -> (u64, u64),
    pub non_adjacent_form: fn(Bytes, usize) -> [i8; 256],
    pub as_radix_16: fn(Bytes) -> [i8; 64],
    pub as_radix_2w: fn(Bytes, usize) -> [i8; 64],
    pub used_places: fn(usize) -> usize,
    pub lookup_table: fn(Limbs) -> Vec<Limbs>,
    pub naf_lookup_table5: fn(Limbs) -> Vec<Limbs>,
    pub naf_lookup_table8: fn(Limbs) -> Vec<Limbs>,
    pub select: fn(&[Limbs], i8) -> Limbs,
    pub select_naf5: fn(&[Limbs], usize) -> Limbs,
    pub select_naf8: fn(&[Limbs], usize) -> Limbs,
    pub variable_base: fn(Limbs, Bytes) -> Limbs,
    pub double_base: fn(Bytes, Limbs, Bytes) -> Limbs,
    pub straus: fn(&[Bytes], &[Limbs]) -> Limbs,
    pub straus_optional: fn(&[Bytes], &[Option<Limbs>]) -> Option<Limbs>,
    pub pippenger: fn(&[Bytes], &[Option<Limbs>]) -> Option<Limbs>,
    pub tables: fn(&[Limbs]) -> Vec<Limbs>,
    pub mixed: fn(&[Limbs], &[Bytes], &[Bytes], &[Option<Limbs>]) -> Option<Limbs>,
}

macro_rules! side {
    ($build:ident, $name:expr, $checked:expr) => {{
        use $build::probe::*;
        Side {
            name: $name,
            checked: $checked,
            start,
            counts,
            non_adjacent_form,
            as_radix_16,
            as_radix_2w,
            used_places,
            lookup_table,
            naf_lookup_table5,
            naf_lookup_table8,
            select,
            select_naf5,
            select_naf8,
            variable_base,
            double_base,
            straus,
            straus_optional,
            pippenger,
            tables,
            mixed,
        }
    }};
}

pub fn sides() -> [Side; 2] {
    [side!(residues_checked, "debug", true), side!(residues_plain, "optimised", false)]
}

/// How a call of the Rust ends; a value with the additions and doublings made.
#[derive(Clone, Debug, PartialEq)]
pub enum End<T> {
    Panic,
    Nothing,
    Done(T, u64, u64),
}

impl Side {
    /// Runs a call that always has a value.
    pub fn run<T>(&self, call: impl FnOnce() -> T) -> End<T> {
        self.run_optional(|| Some(call()))
    }

    /// Runs a call that may answer None.
    pub fn run_optional<T>(&self, call: impl FnOnce() -> Option<T>) -> End<T> {
        (self.start)();
        match catch_unwind(AssertUnwindSafe(call)) {
            Err(_) => End::Panic,
            Ok(None) => End::Nothing,
            Ok(Some(value)) => {
                let (additions, doublings) = (self.counts)();
                End::Done(value, additions, doublings)
            }
        }
    }
}
