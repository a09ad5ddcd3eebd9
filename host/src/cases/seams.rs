//! Sources with more behind them or in them, and the answers that are decided, word by word.

/// A source, what is written behind it and a newline, and the lines of the whole.
pub const APPENDED: &[[&str; 3]] = &[
    // Nothing more.
    [
        "big_endian_packets\npacket A{}",
        "",
        "E 2 0 0 0 19 1 0\nD 2 19 1 0 29 1 10 26 1 0 0 0 0 0 0 0 0\n",
    ],
    // Offsets and lines grow, columns and absent names stay; the newline closes a line comment.
    [
        "little_endian_packets\n\npacket A{}// a",
        " packet B{_body_}",
        "E 1 0 0 0 22 1 0\n\
         D 2 23 2 0 33 2 10 30 1 0 0 0 0 0 0 0 0\n\
         D 2 39 3 1 55 3 17 46 1 0 0 0 0 0 1 0 0\n\
         F 6 48 3 10 54 3 16 0 0 0 0 0 0 0 0 0 0 0 0 0\n\
         M 2 33 2 10 37 2 14\n",
    ],
    // Present names of every kind.
    [
        "big_endian_packets\nstruct A{}",
        "struct B:C{_payload_:[+2],y:T[+3]}",
        "E 2 0 0 0 19 1 0\n\
         D 3 19 1 0 29 1 10 26 1 0 0 0 0 0 0 0 0\n\
         D 3 30 2 0 64 2 34 37 1 39 1 0 0 0 2 0 0\n\
         F 7 41 2 11 55 2 25 0 0 0 0 52 2 0 0 0 0 0 0 0\n\
         F 11 56 2 26 63 2 33 56 1 58 1 60 2 0 0 0 0 0 0 0\n",
    ],
    // First rows of 0 and a condition grow, each by the rows of the table that it points into.
    [
        "little_endian_packets\nenum E:8{a=1,b=2}packet P(a=1,b=2){x:8 if b=2}",
        "enum F:8{b=2}packet Q(c=d){y:8 if e=3}",
        "E 1 0 0 0 22 1 0\n\
         D 1 22 1 0 39 1 17 27 1 0 0 1 8 0 2 0 0\n\
         D 2 39 1 17 68 1 46 46 1 0 0 0 0 0 1 0 2\n\
         D 1 69 2 0 82 2 13 74 1 0 0 1 8 2 1 0 0\n\
         D 2 82 2 13 107 2 38 89 1 0 0 0 0 1 1 3 1\n\
         F 12 57 1 35 67 1 45 57 1 0 0 0 0 1 8 0 0 0 0 3\n\
         F 12 96 2 27 106 2 37 96 1 0 0 0 0 1 8 0 0 0 0 5\n\
         T 1 31 1 9 34 1 12 31 1 1 0 0\n\
         T 1 35 1 13 38 1 16 35 1 2 0 0\n\
         T 1 78 2 9 81 2 12 78 1 2 0 0\n\
         C 1 48 1 26 51 1 29 48 1 0 0 1\n\
         C 1 52 1 30 55 1 33 52 1 0 0 2\n\
         C 1 64 1 42 67 1 45 64 1 0 0 2\n\
         C 2 91 2 22 94 2 25 91 1 93 1 0\n\
         C 1 103 2 34 106 2 37 103 1 0 0 3\n",
    ],
    // So do a group's; without constraints, and without a condition, they stay 0.
    [
        "big_endian_packets\nstruct A{G{a=1}}",
        "struct B{G{b=2}if c=3,H}",
        "E 2 0 0 0 19 1 0\n\
         D 3 19 1 0 35 1 16 26 1 0 0 0 0 0 1 0 0\n\
         D 3 36 2 0 60 2 24 43 1 0 0 0 0 1 2 0 0\n\
         F 14 28 1 9 34 1 15 28 1 0 0 0 0 0 0 0 0 0 1 0\n\
         F 14 45 2 9 57 2 21 45 1 0 0 0 0 0 0 0 0 1 1 3\n\
         F 14 58 2 22 59 2 23 58 1 0 0 0 0 0 0 0 0 0 0 0\n\
         C 1 30 1 11 33 1 14 30 1 0 0 1\n\
         C 1 47 2 11 50 2 14 47 1 0 0 2\n\
         C 1 54 2 18 57 2 21 54 1 0 0 3\n",
    ],
    // An empty text is present. What stands before the old keyword counts, and a CR is no line.
    [
        "/**/big_endian_packets\r",
        "//\ntest T{\"\"}checksum C:8\"\"",
        "E 2 4 0 4 23 0 23\n\
         D 5 37 2 10 51 2 24 46 1 50 0 1 8 0 0 0 0\n\
         M 1 0 0 0 4 0 4\n\
         M 2 24 1 0 26 1 2\n",
    ],
];

/// A source up to a cut, what is put there between two newlines, the source behind the cut, and the
/// lines of the whole.
pub const INSERTED: &[[&str; 4]] = &[
    // Nothing but the newlines; a comment on the cut's line loses its column.
    [
        "little_endian_packets\npacket A{}",
        "",
        " // a\npacket B{}",
        "E 1 0 0 0 22 1 0\n\
         D 2 22 1 0 32 1 10 29 1 0 0 0 0 0 0 0 0\n\
         D 2 40 4 0 50 4 10 47 1 0 0 0 0 0 0 0 0\n\
         M 2 35 3 1 39 3 5\n",
    ],
    // A start on the cut's line and an end on another.
    [
        "little_endian_packets\npacket A{}",
        "\n//\n",
        "struct B{x:8\n}",
        "E 1 0 0 0 22 1 0\n\
         D 2 22 1 0 32 1 10 29 1 0 0 0 0 0 0 0 0\n\
         D 3 38 5 0 52 6 1 45 1 0 0 0 0 0 1 0 0\n\
         F 12 47 5 9 51 6 0 47 1 0 0 0 0 1 8 0 0 0 0 0\n\
         M 2 34 3 0 36 3 2\n",
    ],
    // The new rows go by those before the cut, the rows behind it by the new ones.
    [
        "big_endian_packets\nenum E:8{a=1,b=2}packet A(a=1,b=2){x:8 if b=2}",
        "enum G:8{g=6,h=7}packet C(g=7,h=8){z:8 if g=8}",
        "enum F:8{b=3}packet B(c=4){y:8 if d=5}",
        "E 2 0 0 0 19 1 0\n\
         D 1 19 1 0 36 1 17 24 1 0 0 1 8 0 2 0 0\n\
         D 2 36 1 17 65 1 46 43 1 0 0 0 0 0 1 0 2\n\
         D 1 66 2 0 83 2 17 71 1 0 0 1 8 2 2 0 0\n\
         D 2 83 2 17 112 2 46 90 1 0 0 0 0 1 1 3 2\n\
         D 1 113 3 0 126 3 13 118 1 0 0 1 8 4 1 0 0\n\
         D 2 126 3 13 151 3 38 133 1 0 0 0 0 2 1 6 1\n\
         F 12 54 1 35 64 1 45 54 1 0 0 0 0 1 8 0 0 0 0 3\n\
         F 12 101 2 35 111 2 45 101 1 0 0 0 0 1 8 0 0 0 0 6\n\
         F 12 140 3 27 150 3 37 140 1 0 0 0 0 1 8 0 0 0 0 8\n\
         T 1 28 1 9 31 1 12 28 1 1 0 0\n\
         T 1 32 1 13 35 1 16 32 1 2 0 0\n\
         T 1 75 2 9 78 2 12 75 1 6 0 0\n\
         T 1 79 2 13 82 2 16 79 1 7 0 0\n\
         T 1 122 3 9 125 3 12 122 1 3 0 0\n\
         C 1 45 1 26 48 1 29 45 1 0 0 1\n\
         C 1 49 1 30 52 1 33 49 1 0 0 2\n\
         C 1 61 1 42 64 1 45 61 1 0 0 2\n\
         C 1 92 2 26 95 2 29 92 1 0 0 7\n\
         C 1 96 2 30 99 2 33 96 1 0 0 8\n\
         C 1 108 2 42 111 2 45 108 1 0 0 8\n\
         C 1 135 3 22 138 3 25 135 1 0 0 4\n\
         C 1 147 3 34 150 3 37 147 1 0 0 5\n",
    ],
    // A cut behind a test declaration, which has no row.
    [
        "big_endian_packets\ntest T{\"\"}",
        "custom_field F\"\"",
        "checksum C:8\"\"",
        "E 2 0 0 0 19 1 0\n\
         D 6 30 2 0 46 2 16 43 1 45 0 0 0 0 0 0 0\n\
         D 5 47 3 0 61 3 14 56 1 60 0 1 8 0 0 0 0\n",
    ],
];
