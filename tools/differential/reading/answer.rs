//! What a call leaves, and the line that shows it.

use crate::number::Limbs;

/// What an answer carries besides counts.
#[derive(Clone, Debug, PartialEq)]
pub enum Value {
    Nothing,
    Element(Limbs),
    Scalar([u8; 32]),
    Row(Vec<i8>),
    Window(Vec<u64>),
}

/// A list that a call may write, after the call.
#[derive(Clone, Debug, PartialEq)]
pub enum Lent {
    Digits(Vec<i8>),
    Limbs(Vec<u64>),
}

#[derive(Clone, Debug, PartialEq)]
pub struct Answer {
    pub number: u8,
    pub value: Value,
    pub counts: Option<(u64, u64)>,
    pub lent: Vec<Lent>,
}

impl Answer {
    /// What a refused call leaves: zeros, and lent memory as it was.
    pub fn refused(number: u8, value: Value, counts: bool, lent: Vec<Lent>) -> Answer {
        let value = match value {
            Value::Nothing => Value::Nothing,
            Value::Element(_) => Value::Element([0; 4]),
            Value::Scalar(_) => Value::Scalar([0; 32]),
            Value::Row(row) => Value::Row(vec![0; row.len()]),
            Value::Window(limbs) => Value::Window(vec![0; limbs.len()]),
        };
        Answer { number, value, counts: counts.then_some((0, 0)), lent }
    }

    /// The line of docs/REPLAY.md.
    pub fn line(&self) -> String {
        let value = match &self.value {
            Value::Nothing => "-".to_string(),
            Value::Element(limbs) => hex(&limb_bytes(limbs)),
            Value::Scalar(bytes) => hex(bytes),
            Value::Row(row) => hex(&digit_bytes(row)),
            Value::Window(limbs) => hex(&limb_bytes(limbs)),
        };
        let counts = match self.counts {
            Some((additions, doublings)) => format!("{additions} {doublings}"),
            None => "- -".to_string(),
        };
        let mut line = format!("{} {value} {counts}", self.number);
        for list in &self.lent {
            let (n, bytes) = match list {
                Lent::Digits(digits) => (digits.len(), digit_bytes(digits)),
                Lent::Limbs(limbs) => (limbs.len(), limb_bytes(limbs)),
            };
            let shown = if bytes.len() <= 64 { hex(&bytes) } else { format!("#{:016x}", checksum(&bytes)) };
            line += &format!(" {n}:{shown}");
        }
        line
    }
}

fn limb_bytes(limbs: &[u64]) -> Vec<u8> {
    limbs.iter().flat_map(|limb| limb.to_le_bytes()).collect()
}

fn digit_bytes(digits: &[i8]) -> Vec<u8> {
    digits.iter().map(|d| *d as u8).collect()
}

pub fn hex(bytes: &[u8]) -> String {
    const SIGNS: &[u8; 16] = b"0123456789abcdef";
    bytes.iter().flat_map(|b| [SIGNS[(b >> 4) as usize] as char, SIGNS[(b & 15) as usize] as char]).collect()
}

/// s and t run over the bytes modulo 4294967291; t stands above s.
fn checksum(bytes: &[u8]) -> u64 {
    const P: u64 = 4_294_967_291;
    let (mut s, mut t) = (1, 0);
    for b in bytes {
        s = (s + *b as u64 + 1) % P;
        t = (t + s) % P;
    }
    t << 32 | s
}
