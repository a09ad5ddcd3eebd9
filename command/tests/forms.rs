//! The forms for programs: the lines are those of the proved programs and of the stored answers, and the JSON says the same.

mod running;

use std::process::Command;

use running::{bytes_of, fed, repository, run_on, shown};
use serde_json::{json, Value};

/// Sources in which every construct, every kind of row and every refusal of a layout comes up.
fn sources() -> Vec<Vec<u8>> {
    let layouts = "little_endian_packets\nenum E : 8 { A = 0 } packet P { a: 1, b: 8[] } struct Q { a: 60, b: 5 } group R { c: 8, d: E }
        packet S { a: 8, b: 0 } packet T { a: 4, b: 4, c: 8[], d: 8 } struct U {}";
    let files =
        ["host/src/cases/constructs.pdl", "crates/pdl_tables/stdin", "crates/pdl_layout/stdin"];
    let mut sources: Vec<_> = files.iter().map(|file| bytes_of(file)).collect();
    let more = [
        layouts,
        "",
        "big_endian_packets\n",
        "big_endian_packets\nenum E : 0X10 { A = 1 }",
        "\u{e9}",
    ];
    sources.extend(more.map(|source| source.as_bytes().to_vec()));
    sources.push(b"little_endian_packets\n// \xff".to_vec());
    sources
}

/// The sources of the fixed list with their answers, but for those that the room of the programs decides.
fn answers() -> Vec<(Vec<u8>, String)> {
    let list = bytes_of("crates/replay_answers/stdin");
    let mut rest = &list[..];
    let mut entries = vec![];
    loop {
        let end = rest.iter().position(|byte| *byte == b'\n').expect("a line ends");
        let head = String::from_utf8(rest[..end].to_vec()).expect("a line of numbers is UTF-8");
        rest = &rest[end + 1..];
        let words: Vec<_> = head.split(' ').collect();
        if words[0] == "Z" {
            return entries;
        }
        if words[0] == "S" {
            let [source, answer]: [usize; 2] =
                [1, 2].map(|word| words[word].parse().expect("a length is a number"));
            let said = String::from_utf8(rest[source + 1..source + 1 + answer].to_vec()).unwrap();
            if !said.starts_with("R 1 ") && !said.starts_with("R 5 ") {
                entries.push((rest[..source].to_vec(), said));
            }
            rest = &rest[source + answer + 2..];
        }
    }
}

fn number(value: &Value) -> u64 {
    value.as_u64().unwrap_or_else(|| panic!("{value} is no number"))
}

/// The words of a place: its start and its end.
fn span(row: &Value) -> Vec<u64> {
    let place =
        |end: &str| ["offset", "line", "column"].map(|word| number(&row["place"][end][word]));
    [place("start"), place("end")].concat()
}

/// The words of a name, which is what its source has there.
fn name(source: &[u8], value: &Value) -> Vec<u64> {
    if value.is_null() {
        return vec![0, 0];
    }
    let (offset, length) = (number(&value["offset"]), number(&value["length"]));
    let text = &source[offset as usize..(offset + length) as usize];
    assert_eq!(value["text"], *String::from_utf8_lossy(text));
    vec![offset, length]
}

fn optional(value: &Value) -> Vec<u64> {
    value.as_u64().map_or(vec![0, 0], |number| vec![1, number])
}

fn rows(value: &Value) -> Vec<u64> {
    if value.is_null() {
        return vec![0, 0];
    }
    ["first", "count"].map(|word| number(&value[word])).to_vec()
}

/// Where a kind stands among the kinds, from 1.
fn kind(row: &Value, kinds: &str) -> u64 {
    let position = kinds.split(' ').position(|kind| row["kind"] == kind);
    position.unwrap_or_else(|| panic!("{} is no kind", row["kind"])) as u64 + 1
}

/// The first of these keys that a row has.
fn any<'v>(row: &'v Value, keys: &[&str]) -> &'v Value {
    keys.iter().map(|key| &row[*key]).find(|value| !value.is_null()).unwrap_or(&Value::Null)
}

const DECLARATIONS: &str = "enum packet struct group checksum custom_field";
const FIELDS: &str = "checksum_start padding size count element_size body payload fixed_scalar fixed_enum reserved array scalar typedef group";

fn declaration(source: &[u8], row: &Value) -> Vec<u64> {
    let kind = vec![kind(row, DECLARATIONS)];
    let other = name(source, any(row, &["parent", "function"]));
    let members = rows(&row[if kind == [1] { "tags" } else { "fields" }]);
    [
        kind,
        span(row),
        name(source, &row["id"]),
        other,
        optional(&row["width"]),
        members,
        rows(&row["constraints"]),
    ]
    .concat()
}

fn field(source: &[u8], row: &Value) -> Vec<u64> {
    let kind = vec![kind(row, FIELDS)];
    let a = name(source, any(row, &["id", "field_id", "enum_id", "group_id"]));
    let b = name(source, any(row, &["type_id", "tag_id"]));
    let c = name(source, &row["size_modifier"]);
    let (number_a, number_b) = match kind[0] {
        2 => (&row["size"], &Value::Null),
        11 => (&row["width"], &row["size"]),
        _ => (&row["width"], &row["value"]),
    };
    let condition = row["condition"].as_u64().map_or(0, |row| row + 1);
    [
        kind,
        span(row),
        a,
        b,
        c,
        optional(number_a),
        optional(number_b),
        rows(&row["constraints"]),
        vec![condition],
    ]
    .concat()
}

fn tag(source: &[u8], row: &Value) -> Vec<u64> {
    let or_0 = |value: &Value| value.as_u64().unwrap_or(0);
    let value = or_0(any(row, &["value"])).max(or_0(&row["range"]["start"]));
    let kind = vec![kind(row, "value range other inner")];
    [
        kind,
        span(row),
        name(source, &row["id"]),
        vec![value, or_0(&row["range"]["end"]), or_0(&row["inner"])],
    ]
    .concat()
}

fn constraint(source: &[u8], row: &Value) -> Vec<u64> {
    let value = vec![row["value"].as_u64().unwrap_or(0)];
    [
        vec![kind(row, "integer tag")],
        span(row),
        name(source, &row["id"]),
        name(source, &row["tag_id"]),
        value,
    ]
    .concat()
}

fn comment(source: &[u8], row: &Value) -> Vec<u64> {
    let words = [vec![kind(row, "block line")], span(row)].concat();
    assert_eq!(
        row["text"],
        *String::from_utf8_lossy(&source[words[1] as usize..words[4] as usize])
    );
    words
}

fn line(letter: &str, words: &[u64]) -> String {
    words.iter().fold(letter.to_owned(), |line, word| format!("{line} {word}")) + "\n"
}

/// The lines that the JSON of a source says.
fn lines_of_tables(source: &[u8], document: &Value) -> String {
    let order = &document["endianness"];
    let mut lines = line("E", &[vec![kind(order, "little big")], span(order)].concat());
    type Words = fn(&[u8], &Value) -> Vec<u64>;
    let tables: [(&str, &str, Words); 5] = [
        ("D", "declarations", declaration),
        ("F", "fields", field),
        ("T", "tags", tag),
        ("C", "constraints", constraint),
        ("M", "comments", comment),
    ];
    for (letter, table, words) in tables {
        for (index, row) in
            document[table].as_array().expect("a table is a list").iter().enumerate()
        {
            assert_eq!(row["row"], index);
            lines += &line(letter, &words(source, row));
        }
    }
    lines
}

/// The lines that the JSON of the layouts says.
fn lines_of_layouts(document: &Value) -> String {
    let mut lines = String::new();
    for layout in document["layouts"].as_array().expect("the layouts are a list") {
        let row = number(&layout["declaration"]);
        if let Some(refusal) = layout.get("refusal") {
            let [number, place, reason] =
                ["number", "place", "reason"].map(|word| number(&refusal[word]));
            lines += &line("L", &[row, number, place, reason, 0, 0]);
            continue;
        }
        let chunks = layout["chunks"].as_array().expect("the chunks are a list");
        let (mut placed, mut words, mut before) = (vec![], vec![], Some(0));
        for chunk in chunks {
            let first = if chunk["kind"] == "bits" { placed.len() as u64 } else { 0 };
            let fields = chunk["placed"].as_array().cloned().unwrap_or_default();
            assert_eq!(chunk["bit"], json!(before));
            for field in &fields {
                assert_eq!(
                    field["bit"].as_u64(),
                    before.map(|bits| bits + number(&field["offset"]))
                );
                placed.push(["field", "width", "offset"].map(|word| number(&field[word])));
            }
            before = before.zip(chunk["width"].as_u64()).map(|(bits, width)| bits + width);
            let [width, symbol] = ["width", "field"].map(|word| chunk[word].as_u64().unwrap_or(0));
            words.push([
                kind(chunk, "bits bytes dynamic"),
                first,
                fields.len() as u64,
                width,
                symbol,
            ]);
        }
        lines += &line("L", &[row, 0, 0, 0, placed.len() as u64, chunks.len() as u64]);
        lines.extend(placed.iter().map(|words| line("P", words)));
        lines.extend(words.iter().map(|words| line("K", words)));
    }
    lines
}

/// The line of a refused description, as its JSON says it, if it is refused.
fn line_of_refusal(document: &Value) -> Option<String> {
    let refusal = document.get("refusal")?;
    Some(line("R", &["number", "place", "reason"].map(|word| number(&refusal[word]))))
}

/// Holds the JSON of a source against its lines, in one view.
fn json_says(view: &str, source: &[u8], lines: &str) {
    let ran = run_on(&[view, "--json"], source);
    let document: Value = serde_json::from_str(&ran.out).expect("it is a document");
    assert_eq!(ran.err, "");
    let said = line_of_refusal(&document).unwrap_or_else(|| match view {
        "tables" => lines_of_tables(source, &document),
        _ => lines_of_layouts(&document),
    });
    assert_eq!(said, lines);
}

#[test]
fn lines_are_those_of_the_proved_programs() {
    for (view, program) in [("tables", "pdl_tables"), ("layout", "pdl_layout")] {
        for source in sources() {
            let proved = fed(Command::new(repository("target/bin").join(program)), &source);
            let ran = run_on(&[view, "--raw"], &source);
            assert_eq!((ran.out.as_str(), ran.err.as_str()), (proved.out.as_str(), ""));
            let refused =
                ran.out.lines().any(|line| match line.split(' ').collect::<Vec<_>>()[..] {
                    ["R", ..] => true,
                    ["L", _, number, ..] => number != "0",
                    _ => false,
                });
            assert_eq!(ran.status, i32::from(refused));
            json_says(view, &source, &ran.out);
        }
    }
}

#[test]
fn lines_are_those_of_the_stored_answers() {
    let answers = answers();
    assert!(answers.len() > 400);
    for (source, answer) in answers {
        let ran = run_on(&["--raw"], &source);
        assert_eq!(ran.out, answer);
        json_says("tables", &source, &answer);
        let layouts = run_on(&["layout", "--raw"], &source);
        json_says("layout", &source, &layouts.out);
    }
}

/// What no contract can say of the programs: how much they read, and what room they have.
#[test]
fn room_of_the_programs() {
    let said = |program: &str, source: String| {
        fed(Command::new(repository("target/bin").join(program)), source.as_bytes()).out
    };
    for program in ["pdl_tables", "pdl_layout"] {
        let longest = format!("{:16384}", "little_endian_packets\n");
        assert!(!said(program, longest.clone()).starts_with('R'));
        assert_eq!(said(program, longest + " "), "R 1 16384 0\n");
        let packets =
            |count: usize| format!("little_endian_packets\n{}", "packet A{}".repeat(count));
        assert!(!said(program, packets(40)).starts_with('R'));
        assert_eq!(said(program, packets(41)), "R 5 1 41\n");
        assert_eq!(run_on(&["--raw"], packets(41)).out.lines().count(), 42);
    }
}

#[test]
fn samples_of_the_programs() {
    for (view, program) in [("tables", "pdl_tables"), ("layout", "pdl_layout")] {
        let file = |name: &str| bytes_of(&format!("crates/{program}/{name}"));
        let ran = run_on(&[view, "--raw"], file("stdin"));
        assert_eq!(ran.out.as_bytes(), file("stdout"));
    }
}

#[test]
fn a_document_reads_as_the_manual_says() {
    let source = "little_endian_packets\npacket Lamp : Scan (kind = LAMP) { level: 6, _reserved_: 2, rest: 8[] }";
    let place = |offset: u64, column: u64| json!({ "offset": offset, "line": 1, "column": column });
    let text =
        |text: &str, offset: u64| json!({ "text": text, "offset": offset, "length": text.len() });
    let document: Value = serde_json::from_str(&shown(&["--json"], source)).unwrap();
    let lamp = json!({
        "row": 0, "kind": "packet", "place": { "start": place(22, 0), "end": place(93, 71) }, "id": text("Lamp", 29),
        "parent": text("Scan", 36), "constraints": { "first": 0, "count": 1 }, "fields": { "first": 0, "count": 3 }
    });
    assert_eq!(document["declarations"], json!([lamp]));
    let rest = json!({
        "row": 2, "kind": "array", "place": { "start": place(82, 60), "end": place(92, 70) }, "id": text("rest", 82), "width": 8,
        "type_id": null, "size_modifier": null, "size": null, "condition": null
    });
    assert_eq!(document["fields"][2], rest);
    let document: Value = serde_json::from_str(&shown(&["layout", "--json"], source)).unwrap();
    let level = json!({ "field": 0, "name": "level", "width": 6, "offset": 0, "bit": 0 });
    let reserved = json!({ "field": 1, "name": "_reserved_", "width": 2, "offset": 6, "bit": 6 });
    let chunks = json!([
        { "kind": "bits", "bit": 0, "width": 8, "placed": [level, reserved] },
        { "kind": "dynamic", "bit": 8, "width": null, "field": 2, "name": "rest" }
    ]);
    assert_eq!(
        document["layouts"],
        json!([{ "declaration": 0, "kind": "packet", "id": "Lamp", "chunks": chunks }])
    );
}

#[test]
fn a_document_of_a_refusal() {
    let ran = run_on(&["--json"], "big_endian_packets\nx");
    let says = "refused (3, place 19): the endianness line, a declaration or the end of the source is missing here";
    let refusal = json!({ "number": 3, "place": 19, "reason": 0, "says": says });
    let document =
        json!({ "refusal": refusal, "location": { "offset": 19, "line": 1, "column": 0 } });
    assert_eq!((ran.status, ran.out), (1, format!("{document}\n")));
}

#[test]
fn a_row_stands_on_a_line_of_its_own() {
    let source = bytes_of("examples/scanner.pdl");
    let (json, raw) = (shown(&["--json"], &source), shown(&["--raw"], &source));
    let rows = json.lines().filter(|line| line.starts_with("{\"row\":")).count();
    assert_eq!(rows + 1, raw.lines().count());
}

#[test]
fn rows_that_are_asked_for_keep_their_words() {
    let source = bytes_of("examples/scanner.pdl");
    let (all, lamp) = (shown(&["--raw"], &source), shown(&["--raw", "--only", "Lamp"], &source));
    let letters: String = lamp.lines().map(|line| &line[..1]).collect();
    assert_eq!(letters, "EDFFFF");
    assert!(lamp.lines().all(|line| all.lines().any(|other| other == line)));
    let document: Value =
        serde_json::from_str(&shown(&["--json", "--only", "Lamp"], &source)).unwrap();
    let rows: Vec<_> =
        document["fields"].as_array().unwrap().iter().map(|row| number(&row["row"])).collect();
    assert_eq!(rows, [8, 9, 10, 11]);
    assert_eq!(document["declarations"][0]["row"], 9);
    assert_eq!(document["comments"], json!([]));
    let layout = shown(&["layout", "--raw", "--only", "Lamp"], &source);
    assert_eq!(
        layout,
        "L 9 0 0 0 4 2\nP 8 16 0\nP 9 12 0\nP 10 1 12\nP 11 3 13\nK 1 0 1 16 0\nK 1 1 3 16 0\n"
    );
}
