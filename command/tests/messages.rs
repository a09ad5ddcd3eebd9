//! The messages of refused descriptions.

mod running;

use std::os::unix::ffi::OsStrExt;

use running::{run, run_on, Folder};

/// What a person is told of a refused description, in every view.
fn said(source: impl AsRef<[u8]>) -> String {
    let ran = run_on(&["tables"], &source);
    assert_eq!((ran.status, ran.out.as_str()), (1, ""));
    assert_eq!(run_on(&["layout"], &source), ran);
    ran.err
}

#[test]
fn the_endianness_line_is_missing() {
    let wanted = "\
error[3]: the endianness line, a declaration or the end of the source is missing here
  --> standard input:2:7
  |
2 | /* */ packets
  |       ^ neither little_endian_packets nor big_endian_packets, with a blank behind it

";
    assert_eq!(said("// x\n/* */ packets\n"), wanted);
    assert!(said("").contains("--> standard input:1:1\n  |\n1 | \n  | ^ neither little"));
    assert!(said("\n\n").contains("--> standard input:3:1\n"));
}

#[test]
fn no_declaration_is_there() {
    let wanted = "\
error[3]: the endianness line, a declaration or the end of the source is missing here
  --> standard input:3:1
  |
3 | packet B { x 8 }
  | ^ neither a whole declaration nor the end
  |
  = 1 declaration before it can be read

";
    assert_eq!(said("big_endian_packets\npacket A {}\npacket B { x 8 }\npacket C {}"), wanted);
    assert!(said("big_endian_packets\nx").contains("  = no declarations before it can be read\n"));
}

#[test]
fn an_integer_does_not_convert() {
    let wanted = "\
error[4]: the integer does not fit 64 bits
  --> standard input:2:10
  |
2 | enum E : 18446744073709551616 { A = 1 }
  |          ^^^^^^^^^^^^^^^^^^^^

";
    assert_eq!(said("big_endian_packets\nenum E : 18446744073709551616 { A = 1 }"), wanted);
    let wanted = "\
error[4]: the integer has a digit that its base does not have; base 16 is written 0x
  --> standard input:2:10
  |
2 | enum E : 0X1F{A=1}
  |          ^^^^

";
    assert_eq!(said("big_endian_packets\nenum E : 0X1F{A=1}"), wanted);
}

#[test]
fn bytes_that_are_not_utf_8() {
    let wanted = "\
error[2]: this byte of the source is not UTF-8
  --> standard input:2:6
  |
2 | // é \\xff\\x80 \\u{1b} x
  |      ^^^^ the byte 0xff

";
    assert_eq!(said(b"little_endian_packets\n// \xc3\xa9 \xff\x80 \x1b x\nmore"), wanted);
    assert!(said(b"little_endian_packets\n// \xe2\x82")
        .contains("2 | // \\xe2\\x82\n  |    ^^^^ the byte 0xe2\n"));
    assert!(said(b"\x80").contains("1 | \\x80\n  | ^^^^ the byte 0x80\n"));
}

#[test]
fn a_mark_stands_below_what_it_marks() {
    // Wide characters, a tab, and a control character before it; columns are characters.
    let told = said(
        "big_endian_packets\r\n/* 日本 \u{1b} */ enum\tE : 99999999999999999999 { A = 1 }\r\n",
    );
    let wanted = "\
  --> standard input:2:21
  |
2 | /* 日本 \\u{1b} */ enum  E : 99999999999999999999 { A = 1 }
  |                             ^^^^^^^^^^^^^^^^^^^^
";
    assert!(told.contains(wanted), "{told}");
    let told = said("big_endian_packets\n\"\\t\" 日");
    assert!(told.contains("2 | \"\\t\" 日\n  | ^ neither"), "{told}");
    let told = said("big_endian_packets\n日本");
    assert!(told.contains("2 | 日本\n  | ^^ neither"), "{told}");
}

#[test]
fn a_long_line_is_cut_around_the_place() {
    let integer = "99999999999999999999";
    let told = said(format!(
        "big_endian_packets\n/*{}*/ enum E : {integer} {{ {} }}",
        "é".repeat(500_000 / 2),
        "A = 1, ".repeat(100)
    ));
    assert!(told.len() < 500, "{told}");
    let line = told.lines().find(|line| line.starts_with("2 | ")).unwrap();
    let mark = told.lines().find(|line| line.contains('^')).unwrap();
    assert!(line.starts_with("2 | ...éé") && line.ends_with("..."), "{line}");
    let before = |line: &str, what: char| line.chars().position(|c| c == what).unwrap();
    assert_eq!(before(line, '9'), before(mark, '^'));
    assert!(told.contains("standard input:2:250015\n"), "{told}");
}

#[test]
fn a_cut_splits_no_character() {
    for shift in 0..4 {
        let told = said(format!(
            "big_endian_packets\n{:shift$}/*{}*/ x {}",
            "",
            "\u{1f39e}".repeat(40),
            "\u{1f39e}".repeat(40)
        ));
        let line = told.lines().find(|line| line.starts_with("2 | ")).unwrap();
        assert!(!line.contains('\\'), "{line}");
        assert_eq!(line.matches("...").count(), 2, "{line}");
    }
}

#[test]
fn a_description_that_is_too_long() {
    let mut source = b"little_endian_packets\n".to_vec();
    source.resize(1_048_576, b' ');
    assert_eq!(run_on(&["tables"], &source).status, 0);
    source.push(b' ');
    assert_eq!(
        said(&source),
        "error[1]: standard input: the source has more than 1048576 bytes\n\n"
    );
    assert_eq!(run_on(&["--raw"], &source).out, "R 1 1048576 0\n");
}

#[test]
fn the_file_is_named_as_it_can_be_shown() {
    let folder = Folder::new();
    let name = std::ffi::OsStr::from_bytes(b"a\xff\x1b.pdl");
    let file = folder.write(name, "x");
    let ran = run(&[&file]);
    assert!(ran.err.contains("a\\xff\\u{1b}.pdl:1:1\n"), "{}", ran.err);
}
