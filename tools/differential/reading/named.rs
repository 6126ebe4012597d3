//! Cases with names: a line of cases/*.txt has the name, the call, its arguments and what is due, each in a short form.
//!
//! The form is that of cases/README.md.

use crate::answer::{Answer, Lent, Value};
use crate::case::{Argument, Case, form};
use crate::lists::{cleared, elements};
use crate::number;
use crate::short::{Read, Unit, list, number, usize_of};

/// A case, where it stands, and the answer that its line says is due.
pub struct Named {
    pub name: String,
    pub case: Case,
    pub due: Answer,
}

/// What a call carries and may write: e an element, s a scalar, r a row, w a window, c counts, and each list by its place.
fn shape(code: u8) -> &'static str {
    match code {
        5..=7 => "r",
        8 | 9 => "s",
        10..=12 => "w",
        16 | 17 | 26 => "ec",
        18 => "ec23",
        19 | 22 => "ec34",
        20 => "c1",
        21 => "ec56",
        23 => "c34",
        24 | 25 => "c01",
        _ => "e",
    }
}

/// The case of a line; a line that is empty or starts with # has none.
pub fn read(line: &str) -> Read<Option<Named>> {
    if line.trim().is_empty() || line.starts_with('#') {
        return Ok(None);
    }
    let parts: Vec<&str> = line.split('|').map(str::trim).collect();
    let [name, call, arguments, due] = parts[..] else { return Err("a case has four parts".into()) };
    let (code, kinds) = form(call).ok_or(format!("no call {call}"))?;
    let texts: Vec<&str> = arguments.split(';').collect();
    if texts.len() != kinds.len() {
        return Err(format!("{call} takes {} arguments", kinds.len()));
    }
    let arguments = kinds.chars().zip(texts).map(|(kind, text)| argument(kind, text)).collect::<Read<Vec<_>>>()?;
    let case = Case { code, arguments };
    let due = answer(&case, due)?;
    Ok(Some(Named { name: name.into(), case, due }))
}

fn argument(kind: char, text: &str) -> Read<Argument> {
    let text = text.trim();
    Ok(match kind {
        'b' => Argument::Bytes(list(text, None)?),
        'd' => Argument::Digits(list(text, None)?),
        'l' => Argument::Limbs(list(text, None)?),
        'n' => Argument::Number(u64::single(text)?),
        'x' => Argument::Digit(i8::single(text)?),
        _ if text == "absent" => Argument::Point(None, number::ZERO),
        _ => {
            let p = elements(&list::<u64>(text, None)?)[0];
            Argument::Point(Some(p), p)
        }
    })
}

/// What is due: `refused N`, zeros and every list as it was; or `done` and the parts that the call has.
fn answer(case: &Case, text: &str) -> Read<Answer> {
    let lists: Vec<usize> = shape(case.code).chars().filter_map(|c| c.to_digit(10)).map(|i| i as usize).collect();
    let counts = shape(case.code).contains('c');
    if let Some(number) = text.strip_prefix("refused ") {
        let number = number.trim().parse().map_err(|_| format!("no number: {number}"))?;
        let lent = lists.iter().map(|i| lent(case, *i, "same")).collect::<Read<_>>()?;
        return Ok(Answer::refused(number, carried(case.code, None)?, counts, lent));
    }
    let mut parts = text.strip_prefix("done ").ok_or("due is `refused` or `done`")?.split(';').map(str::trim);
    let mut next = || parts.next().ok_or("a part of what is due is missing");
    let value = if shape(case.code).starts_with('c') { Value::Nothing } else { carried(case.code, Some(next()?))? };
    let counts = if counts { Some(pair(next()?)?) } else { None };
    let lent = lists.iter().map(|i| lent(case, *i, next()?)).collect::<Read<_>>()?;
    if parts.next().is_some() {
        return Err("more is due than the call has".into());
    }
    Ok(Answer { number: 0, value, counts, lent })
}

/// What an answer carries, in its short form; zeros where it is refused.
fn carried(code: u8, text: Option<&str>) -> Read<Value> {
    let size = |n: usize| format!("{n}*0");
    Ok(match shape(code).chars().next() {
        Some('e') => Value::Element(number(text.unwrap_or("0"))?),
        Some('s') => Value::Scalar(number::to_bytes(&number(text.unwrap_or("0"))?)),
        Some('r') => Value::Row(list(text.unwrap_or(&size(if code == 5 { 256 } else { 64 })), None)?),
        Some('w') => Value::Window(list(text.unwrap_or(&size(if code == 12 { 256 } else { 32 })), None)?),
        _ => Value::Nothing,
    })
}

/// Additions and doublings.
fn pair(text: &str) -> Read<(u64, u64)> {
    let (a, d) = text.split_once(',').ok_or(format!("no counts: {text}"))?;
    Ok((u64::single(a)?, u64::single(d)?))
}

/// A list after the call: `cleared N` has zeros in its first N, `same` is what was lent.
fn lent(case: &Case, i: usize, text: &str) -> Read<Lent> {
    let zeros = text.strip_prefix("cleared ").map(usize_of).transpose()?;
    Ok(match (&case.arguments[i], zeros) {
        (Argument::Digits(was), Some(n)) => Lent::Digits(cleared(was, n)),
        (Argument::Limbs(was), Some(n)) => Lent::Limbs(cleared(was, n)),
        (Argument::Digits(was), None) => Lent::Digits(list(text, Some(was))?),
        (Argument::Limbs(was), None) => Lent::Limbs(list(text, Some(was))?),
        _ => return Err(format!("argument {i} is not written")),
    })
}
