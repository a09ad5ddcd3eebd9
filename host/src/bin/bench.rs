//! Measures the port against the unchanged Rust, in one run: how long each takes to read a source
//! of 16 KiB, one of 1 MiB on many lines, and the same on one line.

use host::ast::SourceDatabase;
use host::parser::parse_inline;
use host::port;
use host::reading::{Refusal, ROW_WORDS};
use host::sources::{on_one_line, repeated};
use std::hint::black_box;
use std::time::{Duration, Instant};

const KIB: usize = 1024;
const MIB: usize = KIB * KIB;

/// How often 1 MiB is read by each, and a shorter source as much oftener; the shortest time counts.
const ROUNDS: usize = 9;

fn main() {
    let lines = repeated(MIB);
    let line = on_one_line(&lines);
    let mut runs = [
        Run::new("16 KiB", repeated(16 * KIB)),
        Run::new("1 MiB on many lines", lines),
        Run::new("1 MiB on one line", line),
    ];
    // In turns, so that what else the machine does falls on all alike.
    for _ in 0..ROUNDS {
        runs.iter_mut().for_each(Run::round);
    }
    println!(
        "{:22}{:>9}{:>8}{:>12}{:>12}{:>12}",
        "", "bytes", "lines", "port", "Rust", "port/Rust"
    );
    runs.iter().for_each(Run::print);
    let [short, long @ ..] = &runs;
    for run in long {
        println!(
            "from {} to {}, {} times the bytes: port {:.1} times the time, Rust {:.1}",
            short.name,
            run.name,
            run.source.len() / short.source.len(),
            ratio(run.port, short.port),
            ratio(run.rust, short.rust),
        );
    }
}

/// A source, tables with as many rows as it needs, and the shortest times of both.
struct Run {
    name: &'static str,
    source: String,
    tables: [Vec<u64>; 5],
    port: Duration,
    rust: Duration,
}

impl Run {
    fn new(name: &'static str, source: String) -> Run {
        let tables = [const { vec![] }; 5];
        let mut run = Run { name, source, tables, port: Duration::MAX, rust: Duration::MAX };
        run.lend();
        run
    }

    /// Makes each table as long as the port asks for.
    fn lend(&mut self) {
        loop {
            let Refusal { number, place, reason } = self.read();
            match number {
                0 => return,
                5 => {
                    let table = place as usize - 1;
                    self.tables[table] = vec![0; reason as usize * ROW_WORDS[table]];
                }
                _ => panic!("the port refuses {} with {number}", self.name),
            }
        }
    }

    fn read(&mut self) -> Refusal {
        let tables = self.tables.each_mut().map(Vec::as_mut_slice);
        port::read(black_box(self.source.as_bytes()), tables).refusal
    }

    /// Reads 1 MiB by each.
    fn round(&mut self) {
        for _ in 0..MIB / self.source.len() {
            self.port = self.port.min(self.by_port());
            self.rust = self.rust.min(self.by_rust());
        }
    }

    /// The port's time, over tables that were cleared.
    fn by_port(&mut self) -> Duration {
        self.tables.iter_mut().for_each(|table| table.fill(0));
        let start = Instant::now();
        let refusal = self.read();
        let time = start.elapsed();
        assert_eq!(refusal.number, 0, "the port refuses a source that it took");
        time
    }

    /// The Rust's time. Copying the source, and giving the tree back, are not counted.
    fn by_rust(&self) -> Duration {
        let mut database = SourceDatabase::new();
        let copy = self.source.clone();
        let start = Instant::now();
        let file = parse_inline(black_box(&mut database), "source", copy);
        let time = start.elapsed();
        assert!(file.is_ok(), "the Rust refuses a source that the port took");
        time
    }

    fn print(&self) {
        println!(
            "{:22}{:>9}{:>8}{:>9.3} ms{:>9.3} ms{:>12.3}",
            self.name,
            self.source.len(),
            self.source.lines().count(),
            self.port.as_secs_f64() * 1e3,
            self.rust.as_secs_f64() * 1e3,
            ratio(self.port, self.rust),
        );
    }
}

fn ratio(a: Duration, b: Duration) -> f64 {
    a.as_secs_f64() / b.as_secs_f64()
}
