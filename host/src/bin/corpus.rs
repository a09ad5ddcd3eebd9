//! Writes descriptions as people have them: one to standard output, or those of `examples/`, which
//! with `--check` are made anew and compared.

use host::sources::{realistic, Rng, World, CONTROLLER, HEADS};
use std::path::{Path, PathBuf};
use std::process::ExitCode;
use std::{fs, io};

/// The examples that are made: their names, their worlds, and how many bytes they have at most.
const EXAMPLES: [(&str, &World, usize); 2] =
    [("controller", &CONTROLLER, 62_000), ("heads", &HEADS, 31_000)];

/// The seed of the examples.
const SEED: u64 = 5;

const USAGE: &str = "usage: corpus controller|heads BYTES SEED > FILE
       corpus --examples
       corpus --check";

fn main() -> io::Result<ExitCode> {
    let arguments: Vec<String> = std::env::args().skip(1).collect();
    let arguments: Vec<&str> = arguments.iter().map(String::as_str).collect();
    match arguments[..] {
        ["--examples"] => write().map(|()| ExitCode::SUCCESS),
        ["--check"] => check(),
        [world, bytes, seed] => Ok(print(world, bytes, seed).unwrap_or_else(usage)),
        _ => Ok(usage()),
    }
}

fn usage() -> ExitCode {
    eprintln!("{USAGE}");
    ExitCode::from(2)
}

/// Prints one description, unless the words are wrong.
fn print(name: &str, bytes: &str, seed: &str) -> Option<ExitCode> {
    let (_, world, _) = EXAMPLES.into_iter().find(|(world, ..)| *world == name)?;
    let mut rng = Rng::new(seed.parse().ok()?);
    print!("{}", realistic(&mut rng, world, bytes.parse().ok()?));
    Some(ExitCode::SUCCESS)
}

/// The examples: where each stands, and its text.
fn examples() -> impl Iterator<Item = (PathBuf, String)> {
    let folder = Path::new(env!("CARGO_MANIFEST_DIR")).join("../examples");
    EXAMPLES.into_iter().map(move |(name, world, bytes)| {
        (folder.join(name).with_extension("pdl"), realistic(&mut Rng::new(SEED), world, bytes))
    })
}

fn write() -> io::Result<()> {
    examples().try_for_each(|(path, text)| fs::write(path, text))
}

fn check() -> io::Result<ExitCode> {
    let (mut passed, mut failed) = (0, 0);
    for (path, text) in examples() {
        match fs::read_to_string(&path)? == text {
            true => passed += 1,
            false => {
                println!("corpus: {} is not what is made", path.display());
                failed += 1;
            }
        }
    }
    println!("{passed} passed, {failed} failed");
    Ok(ExitCode::from(u8::from(failed > 0)))
}
