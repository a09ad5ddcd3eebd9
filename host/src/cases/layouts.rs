//! Layouts that are decided: what document 01 says of feeding, field by field.

/// What follows the line `little_endian_packets`, and the lines of its layouts.
pub const LAYOUTS: &[(&str, &str)] = &[
    // P3, P11, P12.
    ("packet A {x: 3 , y: 5}", "L 0 0 0 0 2 1\nP 0 3 0\nP 1 5 3\nK 1 0 2 8 0\n"),
    ("packet A{a:60,b:4}", "L 0 0 0 0 2 1\nP 0 60 0\nP 1 4 60\nK 1 0 2 64 0\n"),
    ("packet A{a:60,b:5}", "L 0 12 1 0 0 0\n"),
    ("packet A{a:0}", "L 0 16 0 0 0 0\n"),
    // The total never wraps.
    ("packet A{a:1,b:18446744073709551615,c:8}", "L 0 12 1 0 0 0\n"),
    // Nothing to align: no fields, or fields that add nothing.
    ("packet A{}", "L 0 0 0 0 0 0\n"),
    ("packet A{_checksum_start_(x),_padding_[8]}", "L 0 0 0 0 0 0\n"),
    // All kinds of bit fields; a zero-width field goes with what follows it.
    (
        "packet A{_size_(a):1,_count_(a):2,_elementsize_(a):3,_fixed_=1:2,_reserved_:0,x:8}",
        "L 0 0 0 0 6 2\n\
         P 0 1 0\nP 1 2 1\nP 2 3 3\nP 3 2 6\nP 4 0 0\nP 5 8 0\n\
         K 1 0 4 8 0\nK 1 4 2 8 0\n",
    ),
    // Dynamic bytes, which have to start at a byte.
    (
        "packet A{x:8,y:8[4],_payload_,_body_,z:T[]}",
        "L 0 0 0 0 1 5\nP 0 8 0\n\
         K 1 0 1 8 0\nK 3 0 0 0 1\nK 3 0 0 0 2\nK 3 0 0 0 3\nK 3 0 0 0 4\n",
    ),
    ("packet A{x:3,_body_}", "L 0 10 1 0 0 0\n"),
    ("packet A{x:0,y:8[]}", "L 0 10 1 0 0 0\n"),
    ("packet A{x:8,y:3,z:4}", "L 0 16 1 0 0 0\n"),
    // Widths that the syntax does not tell, with bits staged or without.
    ("packet A{_fixed_=A:B}", "L 0 14 0 0 0 0\n"),
    ("packet A{x:1,y:T}", "L 0 14 1 0 0 0\n"),
    ("packet A{x:8,G{a=1}}", "L 0 14 1 0 0 0\n"),
    // A condition makes every kind dynamic.
    (
        "packet A{_checksum_start_(x)if a=1,_padding_[8]if a=1,x:3 if a=1,y:T if a=1,G if a=b}",
        "L 0 0 0 0 0 5\nK 3 0 0 0 0\nK 3 0 0 0 1\nK 3 0 0 0 2\nK 3 0 0 0 3\nK 3 0 0 0 4\n",
    ),
    ("packet A{x:3,_padding_[8]if a=1}", "L 0 10 1 0 0 0\n"),
    // Symbols and places are rows of the whole table; only packets, structs, groups are fed.
    (
        "enum E:8{A=1}packet B{x:8}struct C{}checksum D:8\"\"group F{y:4,z:4}struct G{v:8,w:1}",
        "L 1 0 0 0 1 1\nP 0 8 0\nK 1 0 1 8 0\n\
         L 2 0 0 0 0 0\n\
         L 4 0 0 0 2 1\nP 1 4 0\nP 2 4 4\nK 1 0 2 8 0\n\
         L 5 16 4 0 0 0\n",
    ),
];
