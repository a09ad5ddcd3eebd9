//! Writes the fixed list of the oracle's answers, and what the sample programs have to print; with
//! `--check`, makes them anew and compares.

use host::answer::{answer, Limits};
use host::list::{self, Entry};
use host::sources::{self, Rng};
use host::{cases, print};
use std::iter::repeat_with;
use std::path::{Path, PathBuf};
use std::process::ExitCode;
use std::{fs, io};

const SEED: u64 = 7;

/// Sources by chance: whole ones, damaged ones, and accepted ones with many declarations.
const VALID: usize = 90;
const DAMAGED: usize = 90;
const LONG: usize = 8;

/// The program crates that have a sample, and whether they print layouts.
const SAMPLES: [(&str, bool); 2] = [("pdl_tables", false), ("pdl_layout", true)];

fn main() -> io::Result<ExitCode> {
    let arguments: Vec<String> = std::env::args().skip(1).collect();
    let entries: Vec<Entry> = sources().into_iter().map(entry).collect();
    match arguments.iter().map(String::as_str).collect::<Vec<_>>()[..] {
        [] => write(&entries).map(|()| ExitCode::SUCCESS),
        ["--check"] => check(&entries),
        _ => {
            eprintln!("usage: vectors [--check]");
            Ok(ExitCode::from(2))
        }
    }
}

fn sources() -> Vec<Vec<u8>> {
    let mut rng = Rng::new(SEED);
    let mut sources = cases::sources();
    for _ in 0..VALID {
        sources.push(sources::valid(&mut rng).into_bytes());
    }
    for _ in 0..DAMAGED {
        let [source, other] = [(); 2].map(|()| sources::valid(&mut rng).into_bytes());
        sources.push(sources::damaged(&mut rng, &source, &other));
    }
    let long = repeat_with(|| sources::declarations(&mut rng, 24).into_bytes());
    sources.extend(long.filter(|source| answer(source, &Limits::PROGRAM).is_ok()).take(LONG));
    sources
}

/// A source and its answer.
fn entry(source: Vec<u8>) -> Entry {
    let lines = print::program(&source, false).into_bytes();
    Entry { source, lines }
}

fn write(entries: &[Entry]) -> io::Result<()> {
    let head = format!(
        "# Answers of the unchanged front end of google/pdl (commit 7e69a237d0) under pest {}.\n\
         # Made by `cargo run --release --bin vectors` in host/, seed {SEED}; do not edit.\n\
         # Each entry: S, bytes of the source, bytes of the answer; the source; LF; the answer; LF.\n",
        env!("PEST_VERSION")
    );
    fs::write(list::path(), [head.into_bytes(), list::body(entries)].concat())?;
    for (program, layouts_wanted) in SAMPLES {
        fs::write(sample(program, "stdout"), sample_lines(program, layouts_wanted)?)?;
    }
    Ok(())
}

/// Compares the list, whose head may name another version of pest, and the samples.
fn check(entries: &[Entry]) -> io::Result<ExitCode> {
    let (mut passed, mut failed) = (0, 0);
    let mut count = |same: bool, what: &str, checks: usize| {
        if same {
            passed += checks;
        } else {
            println!("vectors: {what} is not what the oracle answers");
            failed += checks;
        }
    };
    let stored = fs::read(list::path())?;
    let same = list::without_head(&stored) == list::body(entries);
    count(same, "the fixed list", entries.len());
    for (program, layouts_wanted) in SAMPLES {
        let lines = sample_lines(program, layouts_wanted)?;
        count(fs::read_to_string(sample(program, "stdout"))? == lines, program, 1);
    }
    println!("{passed} passed, {failed} failed");
    Ok(ExitCode::from(u8::from(failed > 0)))
}

/// What a sample program has to print of its standard input.
fn sample_lines(program: &str, layouts_wanted: bool) -> io::Result<String> {
    Ok(print::program(&fs::read(sample(program, "stdin"))?, layouts_wanted))
}

fn sample(program: &str, file: &str) -> PathBuf {
    Path::new(env!("CARGO_MANIFEST_DIR")).join("../crates").join(program).join(file)
}
