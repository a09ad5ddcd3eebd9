//! Sources with the answers that are decided: P1 to P9 of document 01, and what was read two
//! ways until it was decided.

/// A source that begins with the line `little_endian_packets`.
macro_rules! little {
    ($rest:expr) => {
        concat!("little_endian_packets\n", $rest)
    };
}

/// A source that begins with the line `big_endian_packets`.
macro_rules! big {
    ($rest:expr) => {
        concat!("big_endian_packets\n", $rest)
    };
}

/// A source and the lines that the program prints for it.
pub const READINGS: &[(&str, &str)] = &[
    // P1, P2.
    ("", "R 3 0 0\n"),
    ("little_endian_packets", "R 3 0 0\n"),
    (little!(""), "E 1 0 0 0 22 1 0\n"),
    // P3.
    (
        little!("packet A {x: 3 , y: 5}"),
        "E 1 0 0 0 22 1 0\n\
         D 2 22 1 0 44 1 22 29 1 0 0 0 0 0 2 0 0\n\
         F 12 32 1 10 37 1 15 32 1 0 0 0 0 1 3 0 0 0 0 0\n\
         F 12 39 1 17 43 1 21 39 1 0 0 0 0 1 5 0 0 0 0 0\n",
    ),
    // P4, P5.
    (big!("enum E : 8 { A = 0x }"), "R 3 19 0\n"),
    (big!("enum E : 0X10 { A = 1 }"), "R 4 28 2\n"),
    // P6.
    (
        big!("enum E : 18446744073709551615 { A = 1 }"),
        "E 2 0 0 0 19 1 0\n\
         D 1 19 1 0 58 1 39 24 1 0 0 1 18446744073709551615 0 1 0 0\n\
         T 1 51 1 32 56 1 37 51 1 1 0 0\n",
    ),
    (big!("enum E : 18446744073709551616 { A = 1 }"), "R 4 28 3\n"),
    // P7, P8, P9.
    (big!("packet/**/A {}"), "R 3 19 0\n"),
    (
        big!("packet A {x: 8ifb=1}"),
        "E 2 0 0 0 19 1 0\n\
         D 2 19 1 0 39 1 20 26 1 0 0 0 0 0 1 0 0\n\
         F 12 29 1 10 38 1 19 29 1 0 0 0 0 1 8 0 0 0 0 1\n\
         C 1 35 1 16 38 1 19 35 1 0 0 1\n",
    ),
    (big!("packet A {_payload_: [+ 2]}"), "R 3 19 0\n"),
    // A comment is atomic, and the first `*/` closes it.
    (little!("/*/**/"), "E 1 0 0 0 22 1 0\nM 1 22 1 0 28 1 6\n"),
    // An empty function text has its place.
    (
        little!("checksum C : 8 \"\""),
        "E 1 0 0 0 22 1 0\nD 5 22 1 0 39 1 17 31 1 38 0 1 8 0 0 0 0\n",
    ),
    // The number of a size modifier is never converted, and is never hexadecimal.
    (
        little!("packet A{_payload_:[+99999999999999999999]}"),
        "E 1 0 0 0 22 1 0\n\
         D 2 22 1 0 65 1 43 29 1 0 0 0 0 0 1 0 0\n\
         F 7 31 1 9 64 1 42 0 0 0 0 42 21 0 0 0 0 0 0 0\n",
    ),
    (little!("packet A{_payload_:[+0x2]}"), "R 3 22 0\n"),
    // Rows are in source order; the Rust converts the condition first.
    (
        little!("packet A{G { a = 1 } if b = 2}"),
        "E 1 0 0 0 22 1 0\n\
         D 2 22 1 0 52 1 30 29 1 0 0 0 0 0 1 0 0\n\
         F 14 31 1 9 51 1 29 31 1 0 0 0 0 0 0 0 0 0 1 2\n\
         C 1 35 1 13 40 1 18 35 1 0 0 1\n\
         C 1 46 1 24 51 1 29 46 1 0 0 2\n",
    ),
    (little!("packet A{x: 0X1 if b = 0X2}"), "R 4 45 2\n"),
    // A fixed field names the width, or the enum, first.
    (
        little!("packet A{_fixed_=5:8,_fixed_=T:E}"),
        "E 1 0 0 0 22 1 0\n\
         D 2 22 1 0 55 1 33 29 1 0 0 0 0 0 2 0 0\n\
         F 8 31 1 9 42 1 20 0 0 0 0 0 0 1 8 1 5 0 0 0\n\
         F 9 43 1 21 54 1 32 53 1 51 1 0 0 0 0 0 0 0 0 0\n",
    ),
    // A field without a condition ends after the blanks behind it; one with a condition, and
    // a range with braces, at its last byte.
    (
        little!("packet A{a /**/ , b if c=1 }"),
        "E 1 0 0 0 22 1 0\n\
         D 2 22 1 0 50 1 28 29 1 0 0 0 0 0 2 0 0\n\
         F 14 31 1 9 38 1 16 31 1 0 0 0 0 0 0 0 0 0 0 0\n\
         F 14 40 1 18 48 1 26 40 1 0 0 0 0 0 0 0 0 0 0 1\n\
         C 1 45 1 23 48 1 26 45 1 0 0 1\n\
         M 1 33 1 11 37 1 15\n",
    ),
    (
        little!("enum E:8{a=1..2 ,b=3..4{c=3 } }"),
        "E 1 0 0 0 22 1 0\n\
         D 1 22 1 0 53 1 31 27 1 0 0 1 8 0 3 0 0\n\
         T 2 31 1 9 38 1 16 31 1 1 2 0\n\
         T 2 39 1 17 51 1 29 39 1 3 4 1\n\
         T 4 46 1 24 49 1 27 46 1 3 0 0\n",
    ),
    // CR starts no line, and a line comment keeps it.
    ("little_endian_packets\r\n", "E 1 0 0 0 22 0 22\n"),
    (little!("// a\r\n"), "E 1 0 0 0 22 1 0\nM 2 22 1 0 27 1 5\n"),
    // `if` is no reserved word.
    (
        little!("packet A { if if if = if }"),
        "E 1 0 0 0 22 1 0\n\
         D 2 22 1 0 48 1 26 29 1 0 0 0 0 0 1 0 0\n\
         F 14 33 1 11 46 1 24 33 2 0 0 0 0 0 0 0 0 0 0 1\n\
         C 2 39 1 17 46 1 24 39 2 44 2 0\n",
    ),
];
