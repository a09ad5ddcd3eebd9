//! The UTF-8 test and the converter, on the port and on the oracle.

use host::integer;
use host::port;
use host::sources;
use host::tally::{Asked, Seen, Tally};

/// Under these names reasons are counted, and whether a text is UTF-8.
const REASON: &str = "reason";
const UTF8: &str = "UTF-8";

/// What the texts of numbers are made of.
const PIECES: &[&str] = &[
    "0", "0x", "0X", "+", "-", "9", "f", "F", "g", "_", " ", "x", "184467440737095516", "15", "16",
    "ffffffffffffffff", "10000000000000000", "\u{663}",
];

pub fn check(asked: Asked, tally: &mut Tally) {
    let count = asked.count;
    let mut rng = asked.rng(10);
    let mut seen = Seen::default();
    tally.check(|| {
        // P10.
        assert_eq!(port::convert(b"+5"), Ok(5));
        assert_eq!(port::convert(b"0x"), Err(integer::EMPTY));
        assert_eq!(port::convert(b""), Err(integer::EMPTY));
    });
    for _ in 0..count * 100 {
        let text: String = (0..rng.below(6)).map(|_| rng.pick(PIECES)).collect();
        tally.check(|| convert(text.as_bytes(), &mut seen));
    }
    for _ in 0..count * 20 {
        let [source, other] = [(); 2].map(|()| sources::valid(&mut rng).into_bytes());
        let copy = sources::damaged(&mut rng, &source, &other);
        tally.check(|| valid_prefix(&copy, &mut seen));
        let at = rng.below(copy.len() + 1);
        let end = (at + rng.below(6)).min(copy.len());
        tally.check(|| valid_prefix(&copy[at..end], &mut seen));
        tally.check(|| convert(&copy[at..end], &mut seen));
    }
    tally.check(|| {
        seen.require(REASON, [0, integer::EMPTY, integer::BAD_DIGIT, integer::TOO_LARGE], count);
        seen.require(UTF8, [0, 1], count);
    });
    seen.print("texts");
}

fn convert(text: &[u8], seen: &mut Seen) {
    let wanted = integer::convert(text);
    assert_eq!(port::convert(text), wanted, "{:?} converted", text.escape_ascii().to_string());
    seen.note(REASON, wanted.map_or_else(|reason| reason, |_| 0));
}

fn valid_prefix(text: &[u8], seen: &mut Seen) {
    let wanted = std::str::from_utf8(text).map_or_else(|error| error.valid_up_to(), str::len);
    let shown = text.escape_ascii().to_string();
    assert_eq!(port::valid_prefix(text), wanted, "the UTF-8 at the front of {shown:?}");
    seen.note(UTF8, u64::from(wanted == text.len()));
}
