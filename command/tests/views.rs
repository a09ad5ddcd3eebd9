//! The views for a person.

mod running;

use running::{bytes_of, held_against, repository, run, run_on, shown};

/// A description with every construct of the grammar.
const CONSTRUCTS: &str = "host/src/cases/constructs.pdl";

/// The lines of a table, by its title.
fn table<'v>(view: &'v str, title: &str) -> Vec<&'v str> {
    view.lines()
        .skip_while(|line| *line != title)
        .skip(1)
        .take_while(|line| !line.is_empty())
        .collect()
}

/// The cells of a table's line; no cell of the descriptions below has two spaces in it.
fn cells(line: &str) -> Vec<&str> {
    line.split("  ").map(str::trim).filter(|cell| !cell.is_empty()).collect()
}

/// A little endian description with this behind its first line.
fn little(rest: &str) -> String {
    format!("little_endian_packets\n{rest}")
}

#[test]
fn the_example_as_it_is_stored() {
    let mut command = running::command();
    command.current_dir(repository("")).arg("examples/scanner.pdl");
    let tables = running::fed(command, b"");
    assert_eq!((tables.status, tables.err.as_str()), (0, ""));
    held_against(&tables.out, "examples/scanner.tables");
    let mut command = running::command();
    command.current_dir(repository("")).args(["layout", "examples/scanner.pdl"]);
    let layout = running::fed(command, b"");
    // Some of its packets have fields whose width another declaration gives.
    assert_eq!((layout.status, layout.err.as_str()), (1, ""));
    held_against(&layout.out, "examples/scanner.layout");
}

#[test]
fn every_construct_as_it_is_stored() {
    let source = bytes_of(CONSTRUCTS);
    held_against(&shown(&["tables"], &source), "command/tests/stored/constructs.tables");
    let layout = run_on(&["layout"], &source);
    assert_eq!((layout.status, layout.err.as_str()), (1, ""));
    held_against(&layout.out, "command/tests/stored/constructs.layout");
}

#[test]
fn tables_are_shown_where_no_view_is_named() {
    let file = repository("examples/scanner.pdl").into_os_string();
    assert_eq!(run(&[&file]), run(&["tables".into(), file.clone()]));
    assert_eq!(
        run_on(&[] as &[&str], bytes_of(CONSTRUCTS)),
        run_on(&["tables"], bytes_of(CONSTRUCTS))
    );
}

#[test]
fn every_word_of_a_field_stands_in_its_column() {
    let source = little("packet P : Q (a = 1) { x: 7, Y { b = Z, c = 2 } if d = 3, y: 16[9], z: T[+5], _fixed_ = 6: 8, _padding_[4] }");
    let view = shown(&["tables"], source);
    let fields = table(&view, "Fields");
    let heads = [
        "row", "in", "kind", "name", "type", "width", "size or value", "constraints", "condition",
        "place",
    ];
    assert_eq!(cells(fields[0]), heads);
    assert_eq!(cells(fields[1]), ["0", "P", "scalar", "x", "7", "2:24 to 2:28"]);
    assert_eq!(cells(fields[2]), ["1", "P", "group", "Y", "b = Z, c = 2", "d = 3", "2:30 to 2:57"]);
    assert_eq!(cells(fields[3]), ["2", "P", "array", "y", "16", "9", "2:59 to 2:67"]);
    assert_eq!(cells(fields[4]), ["3", "P", "array", "z", "T", "+5", "2:69 to 2:77"]);
    assert_eq!(cells(fields[5]), ["4", "P", "fixed scalar", "_fixed_", "8", "6", "2:79 to 2:93"]);
    assert_eq!(cells(fields[6]), ["5", "P", "padding", "_padding_", "4", "2:95 to 2:108"]);
    let column = |line: &str, cell: &str| line.find(cell).map(|start| start + cell.len());
    assert_eq!(column(fields[1], " 7"), column(fields[0], "width"));
    assert_eq!(column(fields[3], " 9"), column(fields[0], "size or value"));
    assert_eq!(fields[4].find("T "), fields[0].find("type"));
}

#[test]
fn every_word_of_a_tag_stands_in_its_column() {
    let view = shown(&["tables"], little("enum E : 8 { A = 1, B = 2..9 { C = 3 }, D = .. }"));
    let tags = table(&view, "Tags");
    assert_eq!(
        cells(tags[0]),
        ["row", "in", "kind", "name", "value", "to", "tags inside", "place"]
    );
    assert_eq!(cells(tags[1]), ["0", "E", "value", "A", "1", "2:14 to 2:19"]);
    assert_eq!(cells(tags[2]), ["1", "E", "range", "B", "2", "9", "1", "2:21 to 2:39"]);
    assert_eq!(cells(tags[3]), ["2", "E", "inner", "C", "3", "2:32 to 2:37"]);
    assert_eq!(cells(tags[4]), ["3", "E", "other", "D", "2:41 to 2:47"]);
}

#[test]
fn lines_and_columns_count_from_one_and_in_characters() {
    let view = shown(&["tables"], "/* é日 */ big_endian_packets\n\n/* \u{1f39e} */ packet A {}");
    assert!(view.starts_with("standard input: big endian (line 1)\n"));
    assert_eq!(cells(table(&view, "Declarations")[1]), ["0", "packet", "A", "3:9 to 3:20"]);
    assert_eq!(cells(table(&view, "Comments")[1]), ["0", "block", "1:1 to 1:9", "/* é日 */"]);
}

#[test]
fn wide_characters_stand_in_line() {
    let view = shown(
        &["tables"],
        little("checksum A : 8 \"日本\"\nchecksum B : 8 \"xy\"\nchecksum C : 8 \"e\u{301}\""),
    );
    let lines = table(&view, "Declarations");
    // Columns of a terminal before the place: a wide character takes two, and a mark over a letter none.
    let before = |line: &str| line[..line.find(':').unwrap()].chars().count();
    assert_eq!(before(lines[1]) + 2, before(lines[2]));
    assert_eq!(before(lines[3]), before(lines[2]) + 1);
}

#[test]
fn what_a_terminal_would_obey_is_made_visible() {
    let source = little(
        "// \u{1b}[2J\u{7f}\u{9b}\u{202e}\u{200b}\u{feff}\0\nchecksum A : 8 \"\u{1b}]0;\t\n\"",
    );
    let view = shown(&["tables"], source);
    assert!(!view.chars().any(|c| c.is_control() && c != '\n'), "{view:?}");
    let says = "// \\u{1b}[2J\\u{7f}\\u{9b}\\u{202e}\\u{200b}\\u{feff}\\u{0}";
    assert_eq!(cells(table(&view, "Comments")[1]).last(), Some(&says));
    assert_eq!(cells(table(&view, "Declarations")[1])[3], "\"\\u{1b}]0;\\t\\n\"");
}

#[test]
fn a_long_comment_is_cut_between_characters() {
    let view =
        shown(&["tables"], little(&format!("/* {} */ // {}", "日".repeat(40), "x".repeat(57))));
    let comments = table(&view, "Comments");
    assert_eq!(cells(comments[1])[3], format!("/* {}...", "日".repeat(27)));
    assert_eq!(cells(comments[2])[3], format!("// {}", "x".repeat(57)));
}

#[test]
fn lines_that_end_in_cr_lf() {
    let view =
        shown(&["tables"], "little_endian_packets\r\n// a\r\npacket A {\r\n  x: 8,\r\n}\r\n");
    assert_eq!(
        cells(table(&view, "Declarations")[1]),
        ["0", "packet", "A", "field 0", "3:1 to 5:2"]
    );
    assert_eq!(cells(table(&view, "Comments")[1]), ["0", "line", "2:1 to 2:6", "// a"]);
    assert!(!view.contains('\r'));
}

#[test]
fn a_description_without_declarations() {
    let titles = ["Declarations", "Fields", "Tags", "Constraints", "Comments"]
        .map(|title| format!("\n{title}\n  none\n"));
    assert_eq!(
        shown(&["tables"], little("")),
        format!("standard input: little endian (line 1)\n{}", titles.concat())
    );
    let order = "little endian: the first byte of a chunk has its lowest bits";
    assert_eq!(
        shown(&["layout"], little("")),
        format!("standard input: {order}\n\nno packet, struct or group\n")
    );
}

#[test]
fn names_that_are_asked_for() {
    let source = little("// out\npacket A { /* in */ x: 8 if y = 1 }/* behind */ enum B : 8 { C = 1 } packet A {} packet D { z: 8 }");
    let view = shown(&["tables", "--only", "A"], &source);
    let rows = |title| {
        table(&view, title).iter().skip(1).map(|line| cells(line)[0].to_owned()).collect::<Vec<_>>()
    };
    assert_eq!(rows("Declarations"), ["0", "2"]);
    assert_eq!(rows("Fields"), ["0"]);
    assert_eq!(table(&view, "Tags"), ["  none"]);
    assert_eq!(rows("Constraints"), ["0"]);
    assert_eq!(rows("Comments"), ["1"]);
    let heads = |view: &str| {
        view.lines()
            .filter(|line| line.starts_with("packet"))
            .map(str::to_owned)
            .collect::<Vec<_>>()
    };
    let layout = shown(&["layout", "--only", "D", "--only", "A"], &source);
    let wanted = [
        "packet A (line 3): 1 chunk, no bits and dynamic bytes",
        "packet A (line 3): no chunks, no bits",
    ];
    assert_eq!(heads(&layout), [wanted[0], wanted[1], "packet D (line 3): 1 chunk, 8 bits"]);
}

#[test]
fn names_that_cannot_be_shown() {
    let source = little("enum B : 8 { C = 1 }");
    let ran = run_on(&["--only", "B", "--only", "\u{1b}", "layout"], &source);
    assert_eq!((ran.status, ran.out.as_str()), (2, ""));
    assert_eq!(ran.err, "pdl: standard input has no declaration `\\u{1b}`\n");
    let ran = run_on(&["layout", "--only", "B"], &source);
    assert_eq!((ran.status, ran.err.as_str()), (1, ""));
    let said = "enum B (line 2): refused (15)\n  only packets, structs and groups have a layout\n";
    assert!(ran.out.ends_with(said), "{}", ran.out);
    assert_eq!(run_on(&["tables", "--only", "B"], &source).status, 0);
}
