//! The fixed list that the gate replays: a thousand cases of the generator, and then those with names.

use std::path::PathBuf;

use reading::case::{self, Case};
use reading::named::{self, Named};
use reading::random::Random;
use reading::{calls, generate};

use crate::run;

/// Cases of the generator, always the same, before those with names.
const FIRST: usize = 1000;

/// Compares the list with the reading and the Rust, and writes it with the lines due and which line is which case.
pub fn fixed(folder: &str, lists: &str) -> bool {
    let r = &mut Random::new(5_0_0);
    let mut cases: Vec<Case> = generate::ends(r);
    while cases.len() < FIRST {
        cases.extend(generate::random(r));
    }
    cases.truncate(FIRST);
    let (mut input, mut lines, mut places) = (Vec::new(), String::new(), String::new());
    for case in &cases {
        case.write(&mut input, false);
        lines += &(calls::answer(case).line() + "\n");
    }
    let mut names = vec![String::new(); FIRST];
    let (named, mut sound) = read(lists);
    for (place, Named { name, case, due }) in named {
        let said = calls::answer(&case);
        if said != due {
            println!("{place} {name}: due {}\n  the reading says {}", due.line(), said.line());
            sound = false;
        }
        case.write(&mut input, true);
        lines += &(due.line() + "\n");
        cases.push(case);
        places += &format!("{} {place} {name}\n", cases.len());
        names.push(format!("{place} {name}"));
    }
    assert!(case::read(&input) == (cases.clone(), None), "the list reads back");
    println!("{} cases, {} bytes in, {} bytes out", cases.len(), input.len(), lines.len());
    if !run::agree(&cases, names) || !sound {
        return false;
    }
    std::fs::create_dir_all(folder).unwrap();
    std::fs::write(format!("{folder}/stdin"), &input).unwrap();
    std::fs::write(format!("{folder}/stdout"), &lines).unwrap();
    std::fs::write(format!("{lists}/lines"), &places).unwrap();
    true
}

/// The cases of the lists in this folder, each with its file and line, by the files' names; false where a line is none.
fn read(lists: &str) -> (Vec<(String, Named)>, bool) {
    let entries = std::fs::read_dir(lists).unwrap_or_else(|e| panic!("{lists}: {e}"));
    let mut files: Vec<PathBuf> = entries.map(|entry| entry.unwrap().path()).collect();
    files.retain(|file| file.extension().is_some_and(|end| end == "txt"));
    files.sort();
    let (mut named, mut sound) = (Vec::new(), true);
    for file in files {
        let short = file.file_name().unwrap().to_string_lossy().into_owned();
        for (i, line) in std::fs::read_to_string(&file).unwrap().lines().enumerate() {
            let place = format!("{short}:{}", i + 1);
            match named::read(line) {
                Ok(Some(case)) => named.push((place, case)),
                Ok(None) => {}
                Err(text) => {
                    println!("{place}: {text}");
                    sound = false;
                }
            }
        }
    }
    (named, sound)
}
