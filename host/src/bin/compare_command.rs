//! Compares what the command `pdl` writes with `--raw` with the oracle's lines, byte for byte: the
//! examples, and descriptions of the size that people have.

use host::print;
use host::sources::{corpus, damaged, realistic, CONTROLLER, HEADS};
use host::tally::{asked, Asked, Tally};
use std::io::{self, Write};
use std::path::Path;
use std::process::{Command, ExitCode, Output, Stdio};
use std::{fs, thread};

/// How many descriptions of any usual length are made of each world, as many damaged copies, and the
/// seed, unless the arguments say otherwise.
const USUAL: Asked = Asked { count: 4, seed: 61 };

/// The length of a description that people have, in bytes.
const BYTES: usize = 385_041;

/// The views, each with whether it shows layouts.
const VIEWS: [(&str, bool); 2] = [("tables", false), ("layout", true)];

fn main() -> io::Result<ExitCode> {
    let asked = match asked(USUAL) {
        Ok(asked) => asked,
        Err(usage) => return Ok(usage),
    };
    // Where the command is not built, this does it.
    let built = command().arg("--version").stdout(Stdio::null()).status()?;
    let sources = sources(asked)?;
    let mut tally = Tally::default();
    tally.check(|| assert!(built.success(), "the command is not built"));
    for source in &sources {
        for (view, layouts_wanted) in VIEWS {
            tally.check(|| same(source, view, layouts_wanted));
        }
    }
    let bytes: usize = sources.iter().map(Vec::len).sum();
    println!("{} sources of {bytes} bytes are shown alike", sources.len());
    Ok(tally.verdict())
}

/// The repository that this host stands in.
fn repository() -> &'static Path {
    Path::new(concat!(env!("CARGO_MANIFEST_DIR"), "/.."))
}

fn command() -> Command {
    Command::new(repository().join("pdl"))
}

/// The examples, one large description of each world, more of them, and damaged ones.
fn sources(asked: Asked) -> io::Result<Vec<Vec<u8>>> {
    let mut sources = vec![];
    for example in ["scanner.pdl", "controller.pdl", "heads.pdl"] {
        sources.push(fs::read(repository().join("examples").join(example))?);
    }
    let mut rng = asked.rng(0);
    for world in [&CONTROLLER, &HEADS] {
        sources.push(realistic(&mut rng, world, BYTES).into_bytes());
    }
    for _ in 0..asked.count {
        for source in corpus(&mut rng).map(String::into_bytes) {
            sources.push(damaged(&mut rng, &source, b""));
            sources.push(source);
        }
    }
    Ok(sources)
}

fn same(source: &[u8], view: &str, layouts_wanted: bool) {
    let lines = print::without_limits(source, layouts_wanted);
    let Output { status, stdout, stderr } = shown(source, view).expect("the command runs");
    assert_eq!(String::from_utf8_lossy(&stderr), "");
    assert!(stdout == lines.as_bytes(), "{view} of {} bytes", source.len());
    assert_eq!(status.code(), Some(i32::from(is_refused(&lines))));
}

/// Whether a source, or a layout of it, is refused.
fn is_refused(lines: &str) -> bool {
    lines.lines().any(|line| match line.split(' ').collect::<Vec<_>>()[..] {
        ["R", ..] => true,
        ["L", _, number, ..] => number != "0",
        _ => false,
    })
}

/// What the command writes for programs of a source on its standard input.
fn shown(source: &[u8], view: &str) -> io::Result<Output> {
    let mut child = command()
        .args([view, "--raw"])
        .stdin(Stdio::piped())
        .stdout(Stdio::piped())
        .stderr(Stdio::piped())
        .spawn()?;
    let mut input = child.stdin.take().expect("standard input is a pipe");
    thread::scope(|scope| {
        // The command may end before it has read all.
        scope.spawn(move || drop(input.write_all(source)));
        child.wait_with_output()
    })
}
