//! Damaged copies of sources.

use super::rng::Rng;

/// What is put into a copy: parts of the grammar, other characters, and bytes that are no UTF-8.
const PIECES: &[&[u8]] = &[
    b" ",
    b"\n",
    b"\r",
    b"\x0c",
    b",",
    b":",
    b"=",
    b"..",
    b".",
    b"(",
    b")",
    b"[",
    b"]",
    b"{",
    b"}",
    b"\"",
    b"/",
    b"/*",
    b"*/",
    b"//",
    b"+",
    b"_",
    b"x",
    b"0x",
    b"0X1",
    b"8",
    b"if",
    b"_body_",
    b"enum ",
    b"packet",
    b"18446744073709551616",
    "é".as_bytes(),
    b"\xff",
    b"\xc3",
    b"\xed\xa0\x80",
    b"\xf4\x90\x80\x80",
];

/// A copy with one to three faults; `other` is what a splice goes on with.
pub fn damaged(rng: &mut Rng, source: &[u8], other: &[u8]) -> Vec<u8> {
    let mut copy = source.to_vec();
    for _ in 0..1 + rng.below(3) {
        damage(rng, &mut copy, other);
    }
    copy
}

fn damage(rng: &mut Rng, copy: &mut Vec<u8>, other: &[u8]) {
    let at = rng.below(copy.len() + 1);
    let end = (at + rng.below(4)).min(copy.len());
    match rng.below(8) {
        0 => drop(copy.drain(at..end)),
        1 => drop(copy.splice(at..at, rng.pick(PIECES).iter().copied())),
        2 => drop(copy.splice(at..end, rng.pick(PIECES).iter().copied())),
        3 if at < copy.len() => copy[at] ^= 1 << rng.below(8),
        4 if at < copy.len() => {
            let with = rng.below(copy.len());
            copy.swap(at, with);
        }
        5 => copy.truncate(at),
        6 => {
            copy.truncate(at);
            copy.extend(&other[rng.below(other.len() + 1)..]);
        }
        _ => {
            let again = copy[at..end].to_vec();
            copy.splice(at..at, again);
        }
    }
}
