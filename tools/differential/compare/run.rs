//! One run: cases by a seed, each through every comparison, and what was compared.

use std::collections::BTreeMap;

use reading::answer::{Answer, Value};
use reading::calls;
use reading::case::{Case, name};
use reading::generate;
use reading::lists::elements;
use reading::random::Random;

use crate::rust::{self, Found};
use crate::side::{Side, sides};
use crate::sodium::Sodium;
use crate::{onto_curve, replay};

/// How many cases go to the program at once.
const CHUNK: usize = 500;
/// The curve is slow: all cases up to this many, then one in eight; lists up to this long.
const ON_CURVE: usize = 20_000;
const LONGEST: usize = 12;

#[derive(Default)]
struct Counts {
    cases: u64,
    numbers: BTreeMap<u8, u64>,
    replay: u64,
    debug: u64,
    optimised: u64,
    curve: u64,
    sodium: u64,
}

struct Run {
    program: Option<String>,
    sides: [Side; 2],
    sodium: Option<Sodium>,
    calls: BTreeMap<u8, Counts>,
    names: BTreeMap<&'static str, u64>,
    cases: Vec<String>,
    multi: u64,
    seen: usize,
    differ: u64,
}

/// Compares n cases; true where none differ.
pub fn run(n: usize, seed: u64, program: Option<String>) -> bool {
    let mut run = Run::new(program);
    let r = &mut Random::new(seed);
    let mut cases: Vec<Case> = generate::ends(r);
    cases.truncate(n);
    let mut left = n - cases.len();
    loop {
        while left > 0 && cases.len() < CHUNK {
            let mut more = generate::random(r);
            more.truncate(left);
            left -= more.len();
            cases.extend(more);
        }
        if cases.is_empty() {
            break;
        }
        let rest = cases.split_off(cases.len().min(CHUNK));
        run.chunk(&cases);
        cases = rest;
    }
    run.malformed();
    run.report(n);
    run.differ == 0
}

/// Compares the cases of a list, each with its name, without the library; true where none differ.
pub fn agree(cases: &[Case], names: Vec<String>) -> bool {
    let mut run = Run::new(None);
    run.cases = names;
    run.chunk(cases);
    run.report(cases.len());
    run.differ == 0
}

impl Run {
    fn new(program: Option<String>) -> Run {
        std::panic::set_hook(Box::new(|_| {}));
        let mut run = Run {
            program,
            sides: sides(),
            sodium: Sodium::find(),
            calls: BTreeMap::new(),
            names: BTreeMap::new(),
            cases: Vec::new(),
            multi: 0,
            seen: 0,
            differ: 0,
        };
        if !curve25519_dalek::probe::sound() {
            run.say("our curve files against published numbers".into());
        }
        if !reading::sheet::holds() {
            run.say("the plain reading against the bench sheet of document 01".into());
        }
        run
    }

    fn say(&mut self, what: String) {
        self.differ += 1;
        if self.differ <= 20 {
            let name = self.seen.checked_sub(1).and_then(|i| self.cases.get(i)).map_or("", String::as_str);
            println!("DIFFERS: {name} {what}");
        }
    }

    fn chunk(&mut self, cases: &[Case]) {
        let said: Vec<Answer> = cases.iter().map(calls::answer).collect();
        if let Some(program) = self.program.clone() {
            match replay::lines(&program, replay::recorded(cases)) {
                Ok(lines) => self.lines(cases, &said, &lines),
                Err(text) => self.say(text),
            }
        }
        for (case, said) in cases.iter().zip(&said) {
            self.seen += 1;
            let counts = self.calls.entry(case.code).or_default();
            counts.cases += 1;
            *counts.numbers.entry(said.number).or_default() += 1;
            self.residues(case, said);
            if short(case) && (self.seen <= ON_CURVE || self.seen.is_multiple_of(8)) {
                self.curve(case, said);
            }
        }
    }

    /// The program's lines against the plain reading.
    fn lines(&mut self, cases: &[Case], said: &[Answer], lines: &[String]) {
        for (i, (case, said)) in cases.iter().zip(said).enumerate() {
            let due = said.line();
            match lines.get(i) {
                Some(line) if *line == due => self.calls.entry(case.code).or_default().replay += 1,
                Some(line) => self.say(format!(
                    "{}: replay {}\n  due {}\n  case {}",
                    name(case.code),
                    cut(line),
                    cut(&due),
                    shown(case)
                )),
                None => self.say(format!("{}: replay has no line", name(case.code))),
            }
        }
        if lines.len() > cases.len() {
            self.say("replay has more lines than cases".into());
        }
    }

    /// Malformed input: the lines up to it, and then the one that says where.
    fn malformed(&mut self) {
        let Some(program) = self.program.clone() else { return };
        let r = &mut Random::new(9);
        let cases = [generate::case(r, 16, &[]), generate::case(r, 19, &[])];
        let due = [calls::answer(&cases[0]).line(), "malformed at case 2".into()];
        for input in replay::malformed(&cases) {
            let shown = cut(&reading::answer::hex(&input));
            match replay::lines(&program, input) {
                Ok(lines) if lines == due => {}
                Ok(lines) => self.say(format!("malformed input: replay {}\n  input {shown}", cut(&lines.join(" | ")))),
                Err(text) => self.say(text),
            }
        }
    }

    fn residues(&mut self, case: &Case, said: &Answer) {
        for i in 0..2 {
            let found = rust::compare(&self.sides[i], case, said);
            let counts = self.calls.entry(case.code).or_default();
            match found {
                Ok(Found::NotRun) => {}
                Ok(Found::Same(names)) => {
                    *(if i == 0 { &mut counts.debug } else { &mut counts.optimised }) += 1;
                    names.into_iter().for_each(|name| *self.names.entry(name).or_default() += 1);
                }
                Err(text) => self.say(format!("{}: {}\n  case {}", name(case.code), cut(&text), shown(case))),
            }
        }
    }

    fn curve(&mut self, case: &Case, said: &Answer) {
        let run = std::panic::catch_unwind(|| onto_curve::compare(case, said)).unwrap_or(Err("panics".into()));
        let counts = self.calls.entry(case.code).or_default();
        match run {
            Ok(None) => {}
            Ok(Some(multi)) => {
                counts.curve += 1;
                self.multi += multi as u64;
            }
            Err(text) => self.say(format!("{} on the curve: {text}\n  case {}", name(case.code), shown(case))),
        }
        if case.code == 16 && said.number == 0 {
            self.others(case, said);
        }
    }

    /// Single base by libsodium; it refuses where the point or the answer is the identity.
    fn others(&mut self, case: &Case, said: &Answer) {
        let (Some(sodium), Value::Element(value)) = (&self.sodium, &said.value) else { return };
        let point = elements(case.limbs(0))[0];
        let got = sodium.multiply(case.bytes(1).try_into().unwrap(), &onto_curve::encoded(&point));
        let due = (*value != [0; 4]).then(|| onto_curve::encoded(value));
        if got == due {
            self.calls.entry(case.code).or_default().sodium += 1;
        } else {
            self.say(format!("libsodium\n  case {}", shown(case)));
        }
    }

    fn report(&self, n: usize) {
        let sum = |f: fn(&Counts) -> u64| self.calls.values().map(f).sum::<u64>();
        println!(
            "call, and its cases: all, by replay, by the debug and the optimised build, on the curve, by libsodium; answers by number"
        );
        for (code, c) in &self.calls {
            let numbers: Vec<String> = c.numbers.iter().map(|(n, times)| format!("{n}:{times}")).collect();
            println!(
                "{:<50}{:>7}{:>7}{:>7}{:>7}{:>7}{:>6}  {}",
                name(*code),
                c.cases,
                c.replay,
                c.debug,
                c.optimised,
                c.curve,
                c.sodium,
                numbers.join(" ")
            );
        }
        println!("differences that docs/DIFFERENCES.md names, in either build:");
        for (name, times) in &self.names {
            println!("  {times:>7} {name}");
        }
        println!(
            "replay {}, debug build {}, optimised build {}, curve {} ({} of several points), libsodium {}",
            sum(|c| c.replay),
            sum(|c| c.debug),
            sum(|c| c.optimised),
            sum(|c| c.curve),
            self.multi,
            sum(|c| c.sodium)
        );
        if self.program.is_none() {
            println!("without the library: only the plain reading and the Rust were compared");
        }
        println!("{n} compared, {} differ", self.differ);
    }
}

/// No list of more than a few points.
fn short(case: &Case) -> bool {
    use reading::case::Argument::*;
    case.arguments.iter().all(|a| !matches!(a, Bytes(b) if b.len() > 32 * LONGEST))
}

fn cut(text: &str) -> String {
    if text.len() > 400 { format!("{}..", &text[..400]) } else { text.to_string() }
}

/// The case as it is recorded, in hex.
fn shown(case: &Case) -> String {
    let mut bytes = Vec::new();
    case.write(&mut bytes, true);
    cut(&reading::answer::hex(&bytes))
}
