//! P11, P12 and the layouts by hand, replayed through the port's entries.

use host::aligner::Call;
use host::answer::{read, Limits};
use host::cases::{headed, LAYOUTS};
use host::layout::Layout;
use host::port::{self, lay_out};
use host::print;
use host::reading::Refusal;
use host::tally::Tally;

/// Checks each, and says how many there were.
pub fn check(tally: &mut Tally) {
    tally.check(p11_and_p12);
    for (rest, lines) in LAYOUTS {
        tally.check(|| layout(rest, lines));
    }
    println!("readings: P11, P12, {} layouts", LAYOUTS.len());
}

/// The numbers of bit fields and then of the end, and the chunk rows, over 3 and 2 rows.
fn bits(widths: &[u64]) -> (Vec<u64>, Result<u64, u64>, Vec<u64>) {
    let mut aligner = port::Aligner::new(vec![0; 9], vec![0; 10]);
    let mut add = |(symbol, width): (u64, &u64)| aligner.call(Call::Bits { symbol, width: *width });
    let numbers = (1..).zip(widths).map(&mut add).collect();
    (numbers, aligner.end(), aligner.chunks)
}

fn p11_and_p12() {
    assert_eq!(bits(&[60, 4]), (vec![0, 0], Ok(1), vec![1, 0, 2, 64, 0, 0, 0, 0, 0, 0]));
    assert_eq!(bits(&[60, 5]), (vec![0, 12], Err(16), vec![0; 10]));
    assert_eq!(bits(&[0]), (vec![0], Err(16), vec![0; 10]));
}

fn layout(rest: &str, lines: &str) {
    let reading = read(headed(rest).as_bytes(), Limits::PROGRAM.bytes).expect(rest);
    assert_eq!(print::layouts_by(&reading, feed), lines, "{rest:?}");
}

/// The port's layout of a row, over tables that are large enough for every case.
fn feed(declarations: &[u64], fields: &[u64], row: u64) -> Result<Layout, Refusal> {
    let (mut placed, mut chunks) = ([0; 3 * 16], [0; 5 * 16]);
    let laid = lay_out(declarations, fields, row, &mut placed, &mut chunks);
    match laid.number {
        0 => Ok(Layout { placed: rows(&placed, laid.placed), chunks: rows(&chunks, laid.chunks) }),
        number => Err(Refusal::new(number, laid.place)),
    }
}

/// The first rows of a table.
fn rows<const N: usize>(table: &[u64], count: u64) -> Vec<[u64; N]> {
    let rows = table.chunks_exact(N).map(|row| row.try_into().expect("a row of N words"));
    rows.take(count as usize).collect()
}
