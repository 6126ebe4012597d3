//! The plain reading on the curve itself: residue p goes in as pB, and the answer is the residue times B, encoded.

use curve25519_dalek::probe::{self, Encoded, Point};
use reading::answer::{Answer, Value};
use reading::calls::odd_window;
use reading::case::Case;
use reading::lists::{elements, scalars};
use reading::number::{self, Limbs};

use crate::rust::unprepared;

fn onto(p: &Limbs) -> Point {
    probe::base_multiple(&number::to_bytes(p))
}

pub fn encoded(p: &Limbs) -> Encoded {
    probe::encode(&onto(p))
}

fn all(limbs: &[u64]) -> Vec<Point> {
    elements(limbs).iter().map(onto).collect()
}

fn optional(limbs: &[u64], flags: &[u8]) -> Vec<Option<Point>> {
    elements(limbs).iter().zip(flags).map(|(p, flag)| (*flag == 1).then(|| onto(p))).collect()
}

fn arrays(bytes: &[u8]) -> Vec<[u8; 32]> {
    scalars(bytes).iter().map(number::to_bytes).collect()
}

fn array(bytes: &[u8]) -> [u8; 32] {
    bytes.try_into().unwrap()
}

/// How many terms a list engine sums.
fn terms(case: &Case) -> usize {
    match case.code {
        18 | 19 | 22 => (case.bytes(0).len() / 32).min(case.limbs(1).len() / 4),
        21 => (case.bytes(1).len() + case.bytes(2).len()) / 32,
        26 => case.digits(0).len() / 256,
        _ => 1,
    }
}

/// Whether the case was run on the curve, and whether it sums several points; an error where the curve says otherwise.
pub fn compare(case: &Case, said: &Answer) -> Result<Option<bool>, String> {
    if said.number != 0 {
        return Ok(None);
    }
    let point = |i| onto(&elements(case.limbs(i))[0]);
    let got = match case.code {
        1 => point(0) + point(1),
        2 => point(0) - point(1),
        3 => -point(0),
        4 => point(0) + point(0),
        10 => return windows(said, probe::window(&point(0))),
        11 => return windows(said, probe::window5(&point(0))),
        12 => return windows(said, probe::window8(&point(0))),
        16 => probe::single(&point(0), &array(case.bytes(1))),
        17 => probe::double_base(&array(case.bytes(0)), &point(1), &array(case.bytes(2))),
        18 => probe::straus(&arrays(case.bytes(0)), &all(case.limbs(1))),
        19 => present(probe::straus_optional(&arrays(case.bytes(0)), &optional(case.limbs(1), case.bytes(2))))?,
        21 => {
            // the curve builds its tables from points, so ours must be built ones
            let tables = elements(case.limbs(0));
            let firsts: Vec<Limbs> = tables.chunks(64).map(|t| t[0]).collect();
            if !firsts.iter().flat_map(|p| odd_window(p, 64)).eq(case.limbs(0).iter().copied()) {
                return Ok(None);
            }
            let fixed: Vec<Point> = firsts.iter().map(onto).collect();
            let points = optional(case.limbs(3), case.bytes(4));
            present(probe::mixed(&fixed, &arrays(case.bytes(1)), &arrays(case.bytes(2)), &points))?
        }
        22 => present(probe::pippenger(&arrays(case.bytes(0)), &optional(case.limbs(1), case.bytes(2))))?,
        26 => {
            let Some((s, p)) = unprepared(case.digits(0), case.limbs(1)) else { return Ok(None) };
            let bytes: Vec<[u8; 32]> = s.iter().map(number::to_bytes).collect();
            let points: Vec<Option<Point>> = p.iter().map(|p| Some(onto(p))).collect();
            present(probe::straus_optional(&bytes, &points))?
        }
        _ => return Ok(None),
    };
    let Value::Element(value) = &said.value else { return Ok(None) };
    let multi = terms(case) >= 2;
    if probe::encode(&got) == encoded(value) { Ok(Some(multi)) } else { Err("another point".into()) }
}

fn present(p: Option<Point>) -> Result<Point, String> {
    p.ok_or("None on the curve".to_string())
}

fn windows(said: &Answer, got: Vec<Encoded>) -> Result<Option<bool>, String> {
    let Value::Window(limbs) = &said.value else { return Ok(None) };
    let due: Vec<Encoded> = elements(limbs).iter().map(encoded).collect();
    if got == due { Ok(Some(false)) } else { Err("another window".into()) }
}
