//! Lists and numbers in the short form of cases/README.md.

use crate::number::{self, L, Limbs};

pub type Read<T> = Result<T, String>;

pub fn usize_of(text: &str) -> Read<usize> {
    text.trim().parse().map_err(|_| format!("no number: {text}"))
}

/// What lists hold: one of them by its number, and those by name.
pub trait Unit: Copy {
    fn single(text: &str) -> Read<Self>;
    fn named(name: &str, value: &Limbs) -> Option<Vec<Self>>;
}

impl Unit for u8 {
    fn single(text: &str) -> Read<u8> {
        text.trim().parse().map_err(|_| format!("no byte: {text}"))
    }

    fn named(name: &str, value: &Limbs) -> Option<Vec<u8>> {
        (name == "s").then(|| number::to_bytes(value).to_vec())
    }
}

impl Unit for i8 {
    fn single(text: &str) -> Read<i8> {
        text.trim().parse().map_err(|_| format!("no digit: {text}"))
    }

    fn named(_: &str, _: &Limbs) -> Option<Vec<i8>> {
        None
    }
}

impl Unit for u64 {
    fn single(text: &str) -> Read<u64> {
        if text.trim() == "max" { Ok(u64::MAX) } else { text.trim().parse().map_err(|_| format!("no limb: {text}")) }
    }

    fn named(name: &str, value: &Limbs) -> Option<Vec<u64>> {
        let multiples = |n: u64, step: u64| {
            (0..n).flat_map(|k| number::multiplied(value, &[1 + step * k, 0, 0, 0])).collect::<Vec<u64>>()
        };
        match name {
            "p" => Some(value.to_vec()),
            "all8" => Some(multiples(8, 1)),
            "odd8" => Some(multiples(8, 2)),
            "odd64" => Some(multiples(64, 2)),
            _ => None,
        }
    }
}

/// Splits at a sign that stands in no bracket.
fn split(text: &str, sign: char) -> Vec<&str> {
    let (mut depth, mut from, mut out) = (0, 0, Vec::new());
    for (i, c) in text.char_indices() {
        match c {
            '(' | '{' | '[' => depth += 1,
            ')' | '}' | ']' => depth -= 1,
            _ if c == sign && depth == 0 => {
                out.push(&text[from..i]);
                from = i + 1;
            }
            _ => {}
        }
    }
    out.push(&text[from..]);
    out
}

/// Terms joined by +; `same` is the list that was lent.
pub fn list<T: Unit>(text: &str, was: Option<&[T]>) -> Read<Vec<T>> {
    if text.trim() == "none" {
        return Ok(Vec::new());
    }
    let mut out = Vec::new();
    for part in split(text, '+') {
        out.extend(term(part.trim(), was)?);
    }
    Ok(out)
}

/// [N*]unit, then any of [..N], its first N, and {PLACE: LIST}, that list from that place on.
fn term<T: Unit>(text: &str, was: Option<&[T]>) -> Read<Vec<T>> {
    let bad = || format!("no list: {text}");
    if let Some(inner) = text.strip_suffix('}') {
        let open = split_last(inner, '{').ok_or_else(bad)?;
        let (place, part) = inner[open + 1..].split_once(':').ok_or_else(bad)?;
        let (mut out, part, at) = (term(inner[..open].trim(), was)?, list(part, None)?, usize_of(place)?);
        out.get_mut(at..at + part.len()).ok_or_else(bad)?.copy_from_slice(&part);
        return Ok(out);
    }
    if let Some(inner) = text.strip_suffix(']') {
        let (front, n) = inner.rsplit_once("[..").ok_or_else(bad)?;
        let mut out = term(front.trim(), was)?;
        out.truncate(usize_of(n)?);
        return Ok(out);
    }
    if let [n, unit] = split(text, '*')[..] {
        return Ok(term(unit.trim(), was)?.repeat(usize_of(n)?));
    }
    match text.strip_suffix(')').and_then(|inner| inner.split_once('(')) {
        Some(("", inner)) => list(inner, was),
        Some((name, inner)) => T::named(name, &number(inner)?).ok_or_else(bad),
        None if text == "same" => was.map(<[T]>::to_vec).ok_or_else(bad),
        None => Ok(vec![T::single(text)?]),
    }
}

/// Where the last bracket of a text opens that the text does not close.
fn split_last(text: &str, open: char) -> Option<usize> {
    let mut depth = 0;
    for (i, c) in text.char_indices().rev() {
        match c {
            '}' => depth += 1,
            _ if c == open && depth == 0 => return Some(i),
            '{' => depth -= 1,
            _ => {}
        }
    }
    None
}

/// A number below 2^256: L, 2^K, `ones` for 2^256-1, decimal or after 0x, joined by + and -.
pub fn number(text: &str) -> Read<Limbs> {
    let text = text.replace(' ', "");
    let mut sum = number::ZERO;
    let mut from = 0;
    for to in (1..=text.len()).filter(|i| *i == text.len() || ['+', '-'].contains(&(text.as_bytes()[*i] as char))) {
        let part = &text[from..to];
        let (value, less) = (atom(part.trim_start_matches(['+', '-']))?, part.starts_with('-'));
        sum = if less { number::minus(sum, value) } else { number::plus(sum, value) };
        from = to;
    }
    Ok(sum)
}

fn atom(text: &str) -> Read<Limbs> {
    let bad = |_| format!("no number: {text}");
    if text == "L" {
        return Ok(L);
    }
    if text == "ones" {
        return Ok([u64::MAX; 4]);
    }
    if let Some(k) = text.strip_prefix("2^") {
        let k: usize = k.parse().map_err(bad)?;
        return Ok(std::array::from_fn(|i| if i == k / 64 { 1 << (k % 64) } else { 0 }));
    }
    if let Some(digits) = text.strip_prefix("0x") {
        let padded = format!("{digits:0>64}");
        let mut out = number::ZERO;
        for (i, limb) in out.iter_mut().enumerate() {
            *limb = u64::from_str_radix(&padded[48 - 16 * i..64 - 16 * i], 16).map_err(bad)?;
        }
        return Ok(out);
    }
    Ok([text.parse().map_err(bad)?, 0, 0, 0])
}
