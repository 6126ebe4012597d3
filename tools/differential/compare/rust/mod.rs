//! The plain reading against the Rust's own answers over residues.
//!
//! For each case it is said beforehand how the Rust must end, by the reading and the differences that docs/DIFFERENCES.md
//! names; anything else is a finding. Where the Rust has no such call (not whole lists, elements at or above L, other
//! flags) it is not run.

mod engines;
mod parts;

pub use parts::unprepared;

use reading::answer::Answer;
use reading::case::Case;
use reading::lists::scalars;
use reading::number::Limbs;

use crate::side::{End, Side};

/// What a comparison found: not run, or the names of the differences that had to occur and did.
pub enum Found {
    NotRun,
    Same(Vec<&'static str>),
}

type Check = Result<Found, String>;

fn same<T: PartialEq + std::fmt::Debug>(side: &Side, got: End<T>, due: End<T>, names: Vec<&'static str>) -> Check {
    if got == due { Ok(Found::Same(names)) } else { Err(format!("{}: {got:?}, due {due:?}", side.name)) }
}

/// Refused by 01 and done by the Rust, or done with other counts: which names apply.
fn named(list: &[(bool, &'static str)]) -> Vec<&'static str> {
    list.iter().filter(|(holds, _)| *holds).map(|(_, name)| *name).collect()
}

const ROOM: &str = "5: the Rust takes its own room";
const MANY: &str = "2: the Rust has no limit";
const LARGE: &str = "6: asserted in debug builds or not at all";
const WIDTH: &str = "3: widths asserted in debug builds only";
const DIGIT: &str = "10: lookup digits asserted in debug builds only";
const WINDOWS: &str = "counts: the Rust builds a window for points past the last scalar";
const NONE: &str = "8: the Rust answers None";
const ASSERT: &str = "9: the Rust panics";

pub fn compare(side: &Side, case: &Case, said: &Answer) -> Check {
    match case.code {
        5..=7 => parts::recoding(side, case, said),
        8 | 9 => parts::reader(side, case, said),
        10..=12 => parts::window(side, case, said),
        13..=15 => parts::lookup(side, case),
        16 => engines::single(side, case, said),
        17 => engines::double(side, case, said),
        18 => engines::straus(side, case, said),
        19 => engines::straus_optional(side, case, said),
        20 => engines::tables(side, case, said),
        21 => engines::mixed(side, case, said),
        22 => engines::pippenger(side, case, said),
        23..=25 => parts::prepared(side, case, said),
        26 => parts::total(side, case, said),
        _ => Ok(Found::NotRun),
    }
}

fn array(bytes: &[u8]) -> [u8; 32] {
    bytes.try_into().unwrap()
}

fn arrays(bytes: &[u8]) -> Vec<[u8; 32]> {
    bytes.chunks_exact(32).map(array).collect()
}

fn large(s: &Limbs) -> bool {
    s[3] >> 63 == 1
}

fn any_large(bytes: &[u8]) -> bool {
    scalars(bytes).iter().any(large)
}

fn flat(list: Vec<Limbs>) -> Vec<u64> {
    list.into_iter().flatten().collect()
}
