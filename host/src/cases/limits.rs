//! Sources at the program's limits and just beyond them.

use crate::answer::Limits;

/// Each table full and over-full, then what two limits say of one source, then the length.
pub fn sources() -> Vec<Vec<u8>> {
    let mut sources: Vec<String> = vec![];
    for (table, room) in Limits::PROGRAM.rows.into_iter().enumerate() {
        sources.extend([crowded(table, room), crowded(table, room + 1)]);
    }
    let rows = Limits::PROGRAM.rows.map(|room| room + 1);
    let [declarations, fields, _, _, comments] =
        std::array::from_fn(|table| crowded(table, rows[table]));
    let two = |first: &str, second: &str| first.to_owned() + &second[HEADER.len()..];
    sources.push(two(&comments, &fields));
    sources.push(two(&declarations, "big_endian_packets\nenum E:0X8{A=1}"));
    let mut sources: Vec<Vec<u8>> = sources.into_iter().map(String::into_bytes).collect();
    sources.extend(lengths());
    sources
}

const HEADER: &str = "big_endian_packets\n";

/// A source with so many rows in a table.
fn crowded(table: usize, rows: usize) -> String {
    match table {
        0 => format!("{HEADER}{}", "packet A{}".repeat(rows)),
        1 => format!("{HEADER}struct A{{{}}}", "_body_,".repeat(rows)),
        2 => {
            // The rows inside a range count like the others.
            let inside = "b=2,".repeat(rows - 1);
            format!("{HEADER}enum A:8{{a=1..2{{{inside}}}}}")
        }
        3 => {
            let last = rows - 1;
            format!("{HEADER}packet A{{G{{{}a=b}}if c=1}}", "a=1,".repeat(last - 1))
        }
        _ => format!("{HEADER}{}", "//\n".repeat(rows)),
    }
}

/// Sources of the program's length, one byte shorter, and longer, which nobody looks into.
fn lengths() -> [Vec<u8>; 4] {
    let bytes = Limits::PROGRAM.bytes;
    let full = |end: &str| {
        let inside = "x".repeat(bytes - HEADER.len() - "/**/".len() - end.len());
        format!("{HEADER}/*{inside}*/{end}").into_bytes()
    };
    let comment = full("");
    [
        full("packet A{x:8}"),
        comment[..bytes - 1].to_vec(),
        [&comment, &b"\n"[..]].concat(),
        [&comment, &b"\xff"[..]].concat(),
    ]
}
