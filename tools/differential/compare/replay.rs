//! The program under test: cases to its standard input, its lines from its standard output.

use std::io::Write;
use std::process::{Command, Stdio};

use reading::case::Case;

/// The cases as they are recorded, lists in the shortest of the three modes.
pub fn recorded(cases: &[Case]) -> Vec<u8> {
    let mut input = Vec::new();
    cases.iter().for_each(|case| case.write(&mut input, true));
    input
}

/// Inputs that stop inside their second case, or whose second case is none.
pub fn malformed(cases: &[Case]) -> Vec<Vec<u8>> {
    let whole = recorded(&cases[..1]);
    let next = recorded(&cases[1..2]);
    let tails = [
        vec![0],
        vec![27],
        vec![255],
        vec![6],
        vec![6, 32, 0, 0],
        vec![6, 1, 0, 0, 0, 3, 0],
        vec![6, 1, 0, 0, 0, 255, 0],
        vec![6, 1, 0, 0, 0, 2, 0],
        vec![6, 1, 0, 0, 0, 2, 0, 1, 0, 0, 0, 1, 0, 0, 0, 7],
        vec![6, 1, 0, 0, 0, 2, 0, 1, 0, 0, 0, 0, 0, 0, 0],
        vec![6, 1, 0, 0, 0, 2, 0, 2, 0, 0, 0, 0, 0, 0, 0, 7, 0, 0, 0, 0, 7],
        vec![6, 2, 0, 0, 0, 2, 0, 2, 0, 0, 0, 1, 0, 0, 0, 7, 0, 0, 0, 0, 7],
        vec![6, 0, 0, 0, 0, 2, 0, 0xff, 0xff, 0xff, 0xff],
        vec![3, 1, 0, 0, 0, 2, 9, 9, 9, 9, 9, 9, 9, 9, 1, 0, 0, 0, 0, 0, 0, 1, 7, 7, 7, 7, 7, 7, 7, 7],
        vec![6, 2, 0, 0, 0, 0, 0],
        vec![6, 0x41, 0x80, 0, 0, 1, 0],
        vec![6, 0xff, 0xff, 0xff, 0xff, 1, 0],
        vec![3, 1, 0, 0, 0, 0, 9, 9, 9, 9, 9, 9, 9],
        vec![3, 0x01, 0x81, 0, 0, 1, 0, 0, 0, 0, 0, 0, 0, 0],
        vec![8, 0x01, 0x03, 8, 0, 1, 0, 5, 0, 0, 0, 0, 0, 0, 0],
        vec![8, 0, 0, 0, 0, 0, 5, 0, 0, 0, 0, 0, 0],
        next[..next.len() - 1].to_vec(),
    ];
    tails.into_iter().map(|tail| [whole.clone(), tail].concat()).collect()
}

/// Its lines for these cases.
pub fn lines(program: &str, input: Vec<u8>) -> Result<Vec<String>, String> {
    let mut child = Command::new(program)
        .stdin(Stdio::piped())
        .stdout(Stdio::piped())
        .spawn()
        .map_err(|e| format!("{program}: {e}"))?;
    let mut pipe = child.stdin.take().unwrap();
    let writer = std::thread::spawn(move || pipe.write_all(&input));
    let output = child.wait_with_output().map_err(|e| format!("{program}: {e}"))?;
    // it may have stopped before it took all: then lines are missing
    let _ = writer.join();
    Ok(String::from_utf8_lossy(&output.stdout).lines().map(str::to_string).collect())
}
