//! Reads a source from standard input and prints what 01's program prints; with `--layout`,
//! the layout of each packet, struct and group instead; with `--long`, without the program's
//! limits.

use host::print;
use std::io::{self, Read, Write};

fn main() -> io::Result<()> {
    let arguments: Vec<String> = std::env::args().skip(1).collect();
    let is_there = |word: &str| arguments.iter().any(|argument| argument == word);
    if arguments.iter().any(|argument| argument != "--layout" && argument != "--long") {
        eprintln!("usage: oracle [--long] [--layout] < source");
        std::process::exit(2);
    }
    let mut source = vec![];
    io::stdin().read_to_end(&mut source)?;
    let printed = if is_there("--long") { print::without_limits } else { print::program };
    io::stdout().write_all(printed(&source, is_there("--layout")).as_bytes())
}
