//! The comparison's program.
//!
//!     differential run N SEED [PROGRAM]   compare, PROGRAM being the Rattle `replay`
//!     differential fixed DIR CASES        write DIR/stdin and DIR/stdout, a fixed list of cases and their lines, those of CASES/*.txt last,
//!                                         and CASES/lines, which line is which case; compare it with the Rust
//!     differential answer                 the plain reading's lines for cases on standard input
//!     differential smallest               the smallest inputs of docs/DIFFERENCES.md, run

mod fixed;
mod onto_curve;
mod replay;
mod run;
mod rust;
mod side;
mod smallest;
mod sodium;

use std::io::{Read, Write};
use std::process::ExitCode;

use reading::calls;
use reading::case;

fn main() -> ExitCode {
    let words: Vec<String> = std::env::args().skip(1).collect();
    let words: Vec<&str> = words.iter().map(String::as_str).collect();
    let done = match words[..] {
        ["run", n, seed] => run::run(n.parse().unwrap(), seed.parse().unwrap(), None),
        ["run", n, seed, program] => run::run(n.parse().unwrap(), seed.parse().unwrap(), Some(program.to_string())),
        ["fixed", folder, cases] => fixed::fixed(folder, cases),
        ["answer"] => answer(),
        ["smallest"] => smallest::smallest(),
        _ => {
            eprintln!("usage: differential run N SEED [PROGRAM] | fixed DIR CASES | answer | smallest");
            false
        }
    };
    if done { ExitCode::SUCCESS } else { ExitCode::FAILURE }
}

fn answer() -> bool {
    let mut input = Vec::new();
    std::io::stdin().read_to_end(&mut input).unwrap();
    let (cases, malformed) = case::read(&input);
    let mut out = std::io::stdout().lock();
    for case in &cases {
        writeln!(out, "{}", calls::answer(case).line()).unwrap();
    }
    if let Some(k) = malformed {
        writeln!(out, "malformed at case {k}").unwrap();
    }
    malformed.is_none()
}
