//! Checks the oracle against itself, the unchanged Rust and the readings of document 01.

mod aligning;
mod moving;
mod reading;

use aligning::{CALL, DAMAGED, LAYOUT};
use host::aligner::{Aligner, Call, Room};
use host::answer::{answer, read, read_into, Limits, Words};
use host::cases::{self, APPENDED, INSERTED, LAYOUTS, READINGS};
use host::integer::convert;
use host::print;
use host::reading::Refusal;
use host::sources::{self, Rng, FRAMES};
use host::tally::{asked, Asked, Seen, Tally};
use reading::{ANSWER, CONDITIONAL, KINDS, TEST};
use std::process::ExitCode;

/// How many valid sources are made, and the seed, unless the arguments say otherwise.
const USUAL: Asked = Asked { count: 60_000, seed: 1 };

fn main() -> ExitCode {
    let asked = match asked(USUAL) {
        Ok(asked) => asked,
        Err(usage) => return usage,
    };
    let mut run = Run::default();
    run.readings();
    run.by_hand();
    run.valid(asked);
    run.damaged(asked);
    run.short();
    run.long(asked);
    run.alignments(asked);
    run.constructs(asked.count);
    run.tally.verdict()
}

#[derive(Default)]
struct Run {
    tally: Tally,
    constructs: Seen,
}

impl Run {
    /// P1 to P12 and their like.
    fn readings(&mut self) {
        for (source, lines) in READINGS {
            self.tally.check(|| {
                let answer = answer(source.as_bytes(), &Limits::PROGRAM);
                assert_eq!(print::answer(&answer), *lines, "{source:?}");
            });
        }
        for (rest, lines) in LAYOUTS {
            self.tally.check(|| {
                let reading = read(cases::headed(rest).as_bytes(), Limits::PROGRAM.bytes);
                assert_eq!(print::layouts(&reading.expect(rest)), *lines, "{rest:?}");
            });
        }
        APPENDED.iter().for_each(|case| self.tally.check(|| moving::append(case)));
        INSERTED.iter().for_each(|case| self.tally.check(|| moving::insert(case)));
        self.tally.check(lent_tables);
        self.tally.check(aligning::damaged_rows);
        self.tally.check(converter);
        self.tally.check(aligner);
        println!("readings: {} sources, {} layouts", READINGS.len(), LAYOUTS.len());
        println!("moved: {} pairs, {} cuts", APPENDED.len(), INSERTED.len());
    }

    fn source(&mut self, source: &[u8], seen: &mut Seen) {
        self.tally.check(|| reading::check(source, seen, &mut self.constructs));
    }

    /// The sources by hand, each group refused as it should be.
    fn by_hand(&mut self) {
        self.group("matched", &cases::matched(), &[0, 4]);
        self.group("mismatched", &cases::mismatched(), &[3]);
        self.group("not UTF-8", &cases::not_utf8(), &[2]);
        self.group("at limits", &cases::at_limits(), &[0, 1, 3, 4, 5]);
    }

    fn group(&mut self, name: &str, sources: &[Vec<u8>], numbers: &[u64]) {
        let mut seen = Seen::default();
        for source in sources {
            self.source(source, &mut seen);
        }
        self.tally.check(|| {
            let counts = numbers.iter().map(|number| seen.count(ANSWER, *number));
            assert_eq!(counts.sum::<u64>(), sources.len() as u64, "{name}");
            seen.require(ANSWER, numbers.iter().copied(), 1);
        });
        seen.print(&format!("by hand, {name}"));
    }

    /// No valid source may be refused for its grammar: the generator is checked, too.
    fn valid(&mut self, asked: Asked) {
        let count = asked.count;
        let mut rng = asked.rng(0);
        let mut seen = Seen::default();
        for _ in 0..count {
            let source = sources::valid(&mut rng);
            self.source(source.as_bytes(), &mut seen);
        }
        self.tally.check(|| {
            seen.require(ANSWER, [0], count * 3 / 4);
            seen.require(ANSWER, [4], count / 50);
            assert_eq!(seen.count(ANSWER, 2) + seen.count(ANSWER, 3), 0);
        });
        seen.print("valid");
    }

    fn damaged(&mut self, asked: Asked) {
        let count = asked.count;
        let mut rng = asked.rng(1);
        let mut seen = Seen::default();
        let mut other = String::new();
        for _ in 0..count {
            let source = sources::valid(&mut rng);
            let copy = sources::damaged(&mut rng, source.as_bytes(), other.as_bytes());
            self.source(&copy, &mut seen);
            other = source;
        }
        self.tally.check(|| {
            seen.require(ANSWER, [0, 2, 3], count / 12);
            seen.require(ANSWER, [4], count / 200);
        });
        seen.print("damaged");
    }

    fn short(&mut self) {
        for frame in FRAMES {
            let mut seen = Seen::default();
            for source in frame.sources() {
                self.source(source.as_bytes(), &mut seen);
            }
            self.tally.check(|| seen.require(ANSWER, [0, 3], 40));
            seen.print(&format!("short, {}", frame.name));
        }
    }

    /// Many declarations, and sources about as long as the program takes.
    fn long(&mut self, asked: Asked) {
        let count = asked.count / 200 + 100;
        let mut rng = asked.rng(2);
        let mut seen = Seen::default();
        for _ in 0..count {
            let declarations = 5 + rng.below(60);
            let source = sources::declarations(&mut rng, declarations);
            self.source(source.as_bytes(), &mut seen);
            let bytes = Limits::PROGRAM.bytes + rng.below(3) - 1;
            let source = sources::valid(&mut rng);
            let source = sources::padded(&mut rng, &source, bytes);
            self.source(source.as_bytes(), &mut seen);
        }
        self.tally.check(|| seen.require(ANSWER, [0, 1, 5], count / 8));
        self.tally.check(|| library_length(&mut rng));
        seen.print("long");
    }

    fn alignments(&mut self, asked: Asked) {
        let count = asked.count;
        let mut rng = asked.rng(3);
        let mut seen = Seen::default();
        for _ in 0..count {
            self.tally.check(|| aligning::calls(&mut rng, &mut seen));
            self.tally.check(|| {
                let source = sources::valid(&mut rng);
                if let Ok(reading) = read(source.as_bytes(), Limits::PROGRAM.bytes) {
                    aligning::feed_damaged(&mut rng, &reading, &mut seen);
                }
            });
        }
        self.tally.check(|| seen.require(CALL, [0, 10, 11, 12, 13], count / 10));
        self.tally.check(|| seen.require(DAMAGED, [0, 10, 12, 13, 14, 15, 16, 17], count / 300));
        seen.print("alignments");
    }

    /// Every kind of row was seen often, with and without a condition, and every layout.
    fn constructs(&mut self, count: usize) {
        for (name, last) in KINDS {
            self.tally.check(|| self.constructs.require(name, 1..=last, count / 100));
        }
        self.tally.check(|| self.constructs.require(CONDITIONAL, 1..=14, count / 200));
        self.tally.check(|| self.constructs.require(TEST, [0], count / 100));
        self.tally.check(|| self.constructs.require(LAYOUT, [0, 10, 12, 14, 15, 16], count / 100));
        self.constructs.print("constructs");
    }
}

/// The library takes a source of 1,048,576 bytes, and no longer one.
fn library_length(rng: &mut Rng) {
    let limits = Limits::library([usize::MAX; 5]);
    let full = sources::padded(rng, "big_endian_packets\npacket A{}", limits.bytes) + "\n";
    let full = full.as_bytes();
    assert!(answer(&full[..limits.bytes], &limits).is_ok());
    assert_eq!(answer(full, &limits), Err(Refusal::new(1, limits.bytes as u64)));
}

const P3: &[u8] = b"little_endian_packets\npacket A {x: 3 , y: 5}";

/// P3 in tables with words to spare, which stay, and in one that is a word too short.
fn lent_tables() {
    let mut tables = [20, 45, 3, 0, 7].map(|words| vec![9; words]);
    let words = read_into(P3, tables.each_mut().map(Vec::as_mut_slice));
    assert_eq!((words.refusal, words.counts), (Refusal::default(), [1, 2, 0, 0, 0]));
    assert_eq!((tables[0][0], &tables[0][17..]), (2, &[9; 3][..]));
    assert_eq!((tables[1][34], &tables[1][40..]), (5, &[9; 5][..]));
    tables[1].truncate(39);
    let before = tables.clone();
    let refusal = Refusal { number: 5, place: 2, reason: 2 };
    let words = read_into(P3, tables.each_mut().map(Vec::as_mut_slice));
    assert_eq!(words, Words { refusal, ..Words::default() });
    assert_eq!(tables, before);
}

/// P10, and the text that the Rust and 01 call by different reasons.
fn converter() {
    let texts: [(&[u8], Result<u64, u64>); 8] = [
        (b"+5", Ok(5)),
        (b"0x", Err(1)),
        (b"", Err(1)),
        (b"+", Err(2)),
        (b"0x+f", Ok(15)),
        (b"\xff", Err(2)),
        (b"18446744073709551616", Err(3)),
        (b"99999999999999999999x", Err(2)),
    ];
    for (text, number) in texts {
        assert_eq!(convert(text), number, "{text:?}");
    }
}

/// P11, P12, and the total that does not wrap.
fn aligner() {
    let bits = |widths: &[u64]| {
        let mut aligner = Aligner::new(Room::ENOUGH);
        let add = |(symbol, width): (u64, &u64)| aligner.call(Call::Bits { symbol, width: *width });
        let added: Result<(), u64> = (0..).zip(widths).try_for_each(add);
        added.and_then(|()| aligner.end()).map(|_| aligner.state().chunks)
    };
    assert_eq!(bits(&[60, 4]), Ok(vec![[1, 0, 2, 64, 0]]));
    assert_eq!(bits(&[60, 5]), Err(12));
    assert_eq!(bits(&[0]), Err(16));
    assert_eq!(bits(&[1, u64::MAX]), Err(12));
}
