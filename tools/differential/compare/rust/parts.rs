//! Recodings, row reader, windows, lookups, and what preparing and edits leave, against the Rust's rows and windows.

use reading::answer::{Answer, Value};
use reading::calls::entry;
use reading::case::Case;
use reading::lists::{element_too_large, elements};
use reading::number::{self, L, Limbs, ZERO};
use reading::rows::{naf, radix};

use super::{Check, DIGIT, Found, LARGE, WIDTH, array, arrays, flat, large, named, same};
use crate::side::{End, Side};

/// Rows: as said; widths and sizes that only debug builds look at, or none.
pub fn recoding(side: &Side, case: &Case, said: &Answer) -> Check {
    if case.bytes(0).len() != 32 {
        return Ok(Found::NotRun);
    }
    let (bytes, s) = (array(case.bytes(0)), number::from_bytes(case.bytes(0)));
    let w = if case.code == 6 { 4 } else { case.number(1) };
    // wilder widths may not end
    if w > 16 {
        return Ok(Found::NotRun);
    }
    let w = w as usize;
    let got = side.run(|| match case.code {
        5 => (side.non_adjacent_form)(bytes, w).to_vec(),
        6 => (side.as_radix_16)(bytes).to_vec(),
        _ => (side.as_radix_2w)(bytes, w).to_vec(),
    });
    if said.number == 3 {
        let panics = side.checked || case.code == 7 && w < 4;
        return match got {
            End::Panic if panics => Ok(Found::Same(vec![WIDTH])),
            End::Done(..) if !panics => Ok(Found::Same(vec![WIDTH])),
            other => Err(format!("{}: {other:?} for width {w}", side.name)),
        };
    }
    let due = if case.code == 5 { naf(&s, w).to_vec() } else { radix(&s, w).to_vec() };
    let names = named(&[(said.number == 6 || large(&s), LARGE)]);
    if large(&s) && side.checked && case.code != 5 && w == 4 {
        return same(side, got, End::Panic, names);
    }
    if case.code != 5 && (side.used_places)(w) != reading::rows::used_places(w) {
        return Err(format!("{}: used places of width {w}", side.name));
    }
    same(side, got, End::Done(due, 0, 0), names)
}

/// A row that is read back is the Rust's row of that scalar; a row that is refused is not the Rust's row of its sum.
pub fn reader(side: &Side, case: &Case, said: &Answer) -> Check {
    if ![0, 10].contains(&said.number) {
        return Ok(Found::NotRun);
    }
    let (digits, w) = (case.digits(0), case.number(1) as usize);
    let rust_row = |bytes: [u8; 32]| match case.code {
        8 => side.run(|| (side.non_adjacent_form)(bytes, w).to_vec()),
        _ => side.run(|| (side.as_radix_2w)(bytes, w).to_vec()),
    };
    let sum = number::weighted(digits, if case.code == 8 { 1 } else { w }).filter(|s| !large(s));
    match (&said.value, sum) {
        (Value::Scalar(bytes), _) if said.number == 0 => {
            same(side, rust_row(*bytes), End::Done(digits.to_vec(), 0, 0), vec![])
        }
        (_, Some(s)) if rust_row(number::to_bytes(&s)) == End::Done(digits.to_vec(), 0, 0) => {
            Err(format!("{}: the Rust has this row", side.name))
        }
        (_, Some(_)) => Ok(Found::Same(vec![])),
        (_, None) => Ok(Found::NotRun),
    }
}

pub fn window(side: &Side, case: &Case, said: &Answer) -> Check {
    let Value::Window(due) = &said.value else { unreachable!() };
    if said.number != 0 {
        return Ok(Found::NotRun);
    }
    let p = elements(case.limbs(0))[0];
    let (got, counts) = match case.code {
        10 => (side.run(|| flat((side.lookup_table)(p))), (7, 0)),
        11 => (side.run(|| flat((side.naf_lookup_table5)(p))), (7, 1)),
        _ => (side.run(|| flat((side.naf_lookup_table8)(p))), (63, 1)),
    };
    same(side, got, End::Done(due.clone(), counts.0, counts.1), vec![])
}

/// Lookups; outside of a window the debug build panics, the optimised one gives the identity (radix 16), the entry
/// number |d|/2 (NAF), or panics past the window's end.
pub fn lookup(side: &Side, case: &Case) -> Check {
    let (limbs, d) = (case.limbs(0), case.digit(1));
    let length = if case.code == 15 { 256 } else { 32 };
    if limbs.len() != length || element_too_large(limbs) {
        return Ok(Found::NotRun);
    }
    let list = elements(limbs);
    let size = d.unsigned_abs() as usize;
    let got = side.run(|| match case.code {
        13 => (side.select)(&list, d),
        14 => (side.select_naf5)(&list, size),
        _ => (side.select_naf8)(&list, size),
    });
    let inside = entry(case.code, d).is_some() || case.code == 13 && d == 0;
    let names = named(&[(!inside, DIGIT)]);
    let found = match case.code {
        13 => Some(entry(13, d).map_or(ZERO, |k| list[k])),
        _ => list.get(size / 2).copied(),
    };
    let due = match found {
        Some(e) if inside || !side.checked => {
            let negated = case.code == 13 && d < 0;
            End::Done(if negated { number::negated(&e) } else { e }, 0, 0)
        }
        _ => End::Panic,
    };
    same(side, got, due, names)
}

/// The rows and windows that preparing and edits put into memory are the Rust's.
pub fn prepared(side: &Side, case: &Case, said: &Answer) -> Check {
    if said.number != 0 {
        return Ok(Found::NotRun);
    }
    let (s, p, first) = match case.code {
        23 => (arrays(case.bytes(0)), elements(case.limbs(1)), 0),
        24 => (vec![array(case.bytes(3))], vec![case.point(4).unwrap()], case.number(2) as usize),
        _ => (vec![[0; 32]], vec![ZERO], case.number(2) as usize),
    };
    let got = side.run(|| {
        let rows: Vec<i8> = s.iter().flat_map(|s| (side.non_adjacent_form)(*s, 5)).collect();
        let windows: Vec<Limbs> = p.iter().flat_map(|p| (side.naf_lookup_table5)(*p)).collect();
        (rows, flat(windows))
    });
    let [reading::answer::Lent::Digits(digits), reading::answer::Lent::Limbs(windows)] = &said.lent[..] else {
        return Err("two lists are lent".into());
    };
    let n = s.len();
    let rows = digits[256 * first..256 * (first + n)].to_vec();
    let built = windows[32 * first..32 * (first + n)].to_vec();
    let (additions, doublings) = said.counts.unwrap();
    same(side, got, End::Done((rows, built), additions, doublings), vec![])
}

/// Scalars and points of memory that preparing could have written.
pub fn unprepared(digits: &[i8], windows: &[u64]) -> Option<(Vec<Limbs>, Vec<Limbs>)> {
    let rows = digits.chunks(256).map(|row| reading::rows::read(row, 5, |s| naf(s, 5).to_vec()));
    let s = rows.collect::<Option<Vec<_>>>()?;
    let p: Vec<Limbs> = windows.chunks(32).map(|window| elements(window)[0]).collect();
    let built = p.iter().flat_map(|p| reading::calls::odd_window(p, 8)).eq(windows.iter().copied());
    (built && p.iter().all(|p| number::below(p, &L))).then_some((s, p))
}

/// The total of prepared memory is what the Rust's NAF Straus gives for its pairs; it counts the windows besides.
pub fn total(side: &Side, case: &Case, said: &Answer) -> Check {
    let (Value::Element(value), 0) = (&said.value, said.number) else { return Ok(Found::NotRun) };
    let Some((s, p)) = unprepared(case.digits(0), case.limbs(1)) else { return Ok(Found::NotRun) };
    let bytes: Vec<[u8; 32]> = s.iter().map(number::to_bytes).collect();
    let points: Vec<Option<Limbs>> = p.iter().copied().map(Some).collect();
    let got = side.run_optional(|| (side.straus_optional)(&bytes, &points));
    let (additions, doublings) = said.counts.unwrap();
    let n = p.len() as u64;
    same(side, got, End::Done(*value, additions + 7 * n, doublings + n), vec![])
}
