//! Sources that are no UTF-8.

/// The bytes of each case, in a comment that stands after a whole declaration.
const IN_COMMENT: &[&[u8]] = &[
    b"\x80", b"\xbf\xbf", b"\xc0\x80", b"\xc1\xbf", b"\xc2", b"\xc2\x20", b"\xc3\xc3",
    b"\xe0\x9f\xbf", b"\xe2\x82", b"\xe2\x82\x20", b"\xed\xa0\x80", b"\xf0\x8f\xbf\xbf",
    b"\xf0\x9f\x98", b"\xf0\x9f\x98\xc0", b"\xf4\x90\x80\x80", b"\xf5\x80\x80\x80", b"\xfe",
    b"\xff",
];

/// All of them refused 2.
pub fn sources() -> Vec<Vec<u8>> {
    let comment = |bytes: &&[u8]| [b"big_endian_packets\npacket A{} // \xc3\xa9 ", *bytes].concat();
    let mut sources: Vec<Vec<u8>> = IN_COMMENT.iter().map(comment).collect();
    sources.extend([
        b"\xff".to_vec(),
        b"little_endian_packets\xff\n".to_vec(),
        // A source that would not match, or has a bad integer, is refused for its bytes first.
        b"packet \xc3".to_vec(),
        b"big_endian_packets\nenum E : 0X8 { A = 1 } // \xe2\x82".to_vec(),
    ]);
    sources
}
