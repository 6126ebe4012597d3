//! Cases as docs/REPLAY.md records them.

use std::collections::HashMap;
use std::hash::Hash;

use crate::number::Limbs;

#[derive(Clone, Debug, PartialEq)]
pub enum Argument {
    Bytes(Vec<u8>),
    Digits(Vec<i8>),
    Limbs(Vec<u64>),
    Number(u64),
    Digit(i8),
    Point(Option<Limbs>, Limbs),
}

use Argument::*;

#[derive(Clone, Debug, PartialEq)]
pub struct Case {
    pub code: u8,
    pub arguments: Vec<Argument>,
}

/// What each call takes: b bytes, d digits, l limbs, n a number, x a digit, p an optional point.
const FORMS: [(&str, &str); 26] = [
    ("group::add", "ll"),
    ("group::subtract", "ll"),
    ("group::negate", "l"),
    ("group::double", "l"),
    ("scalar::non_adjacent_form", "bn"),
    ("radix::as_radix_16", "b"),
    ("radix::as_radix_2w", "bn"),
    ("reader::read_naf", "dn"),
    ("reader::read_radix", "dn"),
    ("window::lookup_table", "l"),
    ("window::naf_lookup_table5", "l"),
    ("window::naf_lookup_table8", "l"),
    ("lookup::select", "lx"),
    ("lookup::select_naf5", "lx"),
    ("lookup::select_naf8", "lx"),
    ("variable_base::mul", "lb"),
    ("vartime_double_base::mul", "blb"),
    ("straus::multiscalar_mul", "bldl"),
    ("straus::optional_multiscalar_mul", "blbdl"),
    ("precomputed_straus::new", "ll"),
    ("precomputed_straus::optional_mixed_multiscalar_mul", "lbblbdl"),
    ("pippenger::optional_multiscalar_mul", "blbdl"),
    ("batch::prepare", "blbdl"),
    ("batch::set", "dlnbp"),
    ("batch::clear", "dln"),
    ("batch::total", "dl"),
];

pub fn name(code: u8) -> &'static str {
    FORMS[code as usize - 1].0
}

/// The code of a call by its name, and what it takes.
pub fn form(name: &str) -> Option<(u8, &'static str)> {
    let at = FORMS.iter().position(|(n, _)| *n == name)?;
    Some((at as u8 + 1, FORMS[at].1))
}

impl Case {
    pub fn bytes(&self, i: usize) -> &[u8] {
        let Bytes(list) = &self.arguments[i] else { panic!("argument {i} of {self:?}") };
        list
    }

    pub fn digits(&self, i: usize) -> &[i8] {
        let Digits(list) = &self.arguments[i] else { panic!("argument {i} of {self:?}") };
        list
    }

    pub fn limbs(&self, i: usize) -> &[u64] {
        let Limbs(list) = &self.arguments[i] else { panic!("argument {i} of {self:?}") };
        list
    }

    pub fn number(&self, i: usize) -> u64 {
        let Number(n) = self.arguments[i] else { panic!("argument {i} of {self:?}") };
        n
    }

    pub fn digit(&self, i: usize) -> i8 {
        let Digit(d) = self.arguments[i] else { panic!("argument {i} of {self:?}") };
        d
    }

    pub fn point(&self, i: usize) -> Option<Limbs> {
        let Point(p, _) = &self.arguments[i] else { panic!("argument {i} of {self:?}") };
        *p
    }

    /// The case as recorded; a list of one value is written once. In short, lists may also be written by their exceptions.
    pub fn write(&self, out: &mut Vec<u8>, short: bool) {
        out.push(self.code);
        for argument in &self.arguments {
            match argument {
                Bytes(list) => write_list(out, list, short, |x| vec![x]),
                Digits(list) => write_list(out, list, short, |x| vec![x as u8]),
                Limbs(list) => write_list(out, list, short, |x| x.to_le_bytes().to_vec()),
                Number(n) => out.extend(n.to_le_bytes()),
                Digit(d) => out.push(*d as u8),
                Point(p, behind) => {
                    out.push(p.is_some() as u8);
                    p.unwrap_or(*behind).iter().for_each(|limb| out.extend(limb.to_le_bytes()));
                }
            }
        }
    }
}

fn write_list<T: Copy + Eq + Hash>(out: &mut Vec<u8>, list: &[T], short: bool, bytes: impl Fn(T) -> Vec<u8>) {
    out.extend((list.len() as u32).to_le_bytes());
    let repeated = list.len() > 1 && list.iter().all(|x| *x == list[0]);
    if short && !repeated && write_exceptions(out, list, &bytes) {
        return;
    }
    out.push(repeated as u8);
    let written = if repeated { &list[..1] } else { list };
    written.iter().for_each(|x| out.extend(bytes(*x)));
}

/// Mode 2 where it is shorter: the commonest element, and (place, element) for each other.
fn write_exceptions<T: Copy + Eq + Hash>(out: &mut Vec<u8>, list: &[T], bytes: &impl Fn(T) -> Vec<u8>) -> bool {
    let mut times = HashMap::new();
    list.iter().for_each(|x| *times.entry(*x).or_insert(0usize) += 1);
    let Some(most) = times.values().max() else { return false };
    let base = *list.iter().find(|x| times[x] == *most).unwrap();
    let size = bytes(base).len();
    let others = list.len() - most;
    if size + 4 + others * (size + 4) >= list.len() * size {
        return false;
    }
    out.push(2);
    out.extend(bytes(base));
    out.extend((others as u32).to_le_bytes());
    for (i, x) in list.iter().enumerate().filter(|(_, x)| **x != base) {
        out.extend((i as u32).to_le_bytes());
        out.extend(bytes(*x));
    }
    true
}

/// Reads cases one after another; the second part says which one is malformed.
pub fn read(mut input: &[u8]) -> (Vec<Case>, Option<usize>) {
    let mut cases = Vec::new();
    while !input.is_empty() {
        match read_one(&mut input) {
            Some(case) => cases.push(case),
            None => return (cases.clone(), Some(cases.len() + 1)),
        }
    }
    (cases, None)
}

fn read_one(input: &mut &[u8]) -> Option<Case> {
    let code = take(input, 1)?[0];
    let form = FORMS.get((code as usize).checked_sub(1)?)?.1;
    let arguments = form.chars().map(|kind| read_argument(input, kind)).collect::<Option<Vec<_>>>()?;
    Some(Case { code, arguments })
}

fn read_argument(input: &mut &[u8], kind: char) -> Option<Argument> {
    let limb = |b: &[u8]| u64::from_le_bytes(b.try_into().unwrap());
    Some(match kind {
        'b' => Bytes(read_list(input, 32_832, 1, |b| b[0])?),
        'd' => Digits(read_list(input, 525_056, 1, |b| b[0] as i8)?),
        'l' => Limbs(read_list(input, 33_024, 8, limb)?),
        'n' => Number(limb(take(input, 8)?)),
        'x' => Digit(take(input, 1)?[0] as i8),
        _ => {
            let flag = take(input, 1)?[0];
            let bytes = take(input, 32)?;
            let limbs = std::array::from_fn(|i| limb(&bytes[8 * i..8 * i + 8]));
            match flag {
                0 => Point(None, limbs),
                1 => Point(Some(limbs), limbs),
                _ => return None,
            }
        }
    })
}

fn read_list<T: Clone>(input: &mut &[u8], most: usize, size: usize, element: impl Fn(&[u8]) -> T) -> Option<Vec<T>> {
    let n = u32::from_le_bytes(take(input, 4)?.try_into().unwrap()) as usize;
    let mode = take(input, 1)?[0];
    if n > most {
        return None;
    }
    match mode {
        0 => Some(take(input, n * size)?.chunks(size).map(element).collect()),
        1 => Some(vec![element(take(input, size)?); n]),
        2 => {
            let list = vec![element(take(input, size)?); n];
            read_exceptions(input, list, size, element)
        }
        _ => None,
    }
}

/// Exceptions at places of the list, rising from one to the next.
fn read_exceptions<T>(
    input: &mut &[u8],
    mut list: Vec<T>,
    size: usize,
    element: impl Fn(&[u8]) -> T,
) -> Option<Vec<T>> {
    let number = |input: &mut &[u8]| Some(u32::from_le_bytes(take(input, 4)?.try_into().unwrap()) as usize);
    let mut from = 0;
    for _ in 0..number(input)? {
        let at = number(input)?;
        *list.get_mut(at).filter(|_| at >= from)? = element(take(input, size)?);
        from = at + 1;
    }
    Some(list)
}

fn take<'a>(input: &mut &'a [u8], n: usize) -> Option<&'a [u8]> {
    let (head, tail) = input.split_at_checked(n)?;
    *input = tail;
    Some(head)
}
