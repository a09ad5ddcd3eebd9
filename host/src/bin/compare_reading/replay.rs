//! The fixed list, and P1 to P9 with their like, through the port: the lines that 01's program
//! prints, byte for byte.

use host::answer::Limits;
use host::cases::READINGS;
use host::list::{self, Entry};
use host::reading::{Reading, Refusal};
use host::tally::Tally;
use host::{port, print};
use std::{fs, io};

pub fn check(tally: &mut Tally) -> io::Result<()> {
    let entries = list::entries(&fs::read(list::path())?);
    for Entry { source, lines } in &entries {
        tally.check(|| same(source, lines));
    }
    for (source, lines) in READINGS {
        tally.check(|| same(source.as_bytes(), lines.as_bytes()));
    }
    println!("replayed: {} of the fixed list, {} readings", entries.len(), READINGS.len());
    Ok(())
}

fn same(source: &[u8], lines: &[u8]) {
    let printed = print::answer(&program(source));
    let lines = std::str::from_utf8(lines).expect("lines in ASCII");
    assert_eq!(printed, lines, "{:?}", source.escape_ascii().to_string());
}

/// What 01's program makes of a source: its own limits, and the port's reading.
fn program(source: &[u8]) -> Result<Reading, Refusal> {
    let Limits { bytes, rows } = Limits::PROGRAM;
    if source.len() > bytes {
        return Err(Refusal::new(1, bytes as u64));
    }
    port::reading(source, rows)
}
