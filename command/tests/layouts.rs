//! The layouts for a person: where each bit stands, and why there is no layout.

mod running;

use running::{run_on, shown};

/// The layout of one packet with these fields, without the line of the byte order, and the exit status.
fn laid_out(fields: &str) -> (i32, String) {
    let source = format!("big_endian_packets\nenum E : 8 {{ A = 0 }}\npacket P {{\n{fields}\n}}");
    let ran = run_on(&["layout"], source);
    assert_eq!(ran.err, "");
    let head = "standard input: big endian: the first byte of a chunk has its highest bits\n\n";
    (ran.status, ran.out.strip_prefix(head).expect("the byte order is named").to_owned())
}

fn accepted(fields: &str) -> String {
    let (status, layout) = laid_out(fields);
    assert_eq!(status, 0, "{layout}");
    layout
}

fn refused(fields: &str) -> String {
    let (status, layout) = laid_out(fields);
    assert_eq!(status, 1, "{layout}");
    layout
}

#[test]
fn bits_have_an_offset_and_a_place() {
    let wanted = "\
packet P (line 3): 3 chunks, 104 bits
  chunk 0: 64 bits
    offset  0  width 60  bit   0  a
    offset 60  width  4  bit  60  b
  chunk 1: 8 bits
    offset  0  width  0  bit  64  none
    offset  0  width  8  bit  64  c
  chunk 2: 32 bits
    offset  0  width 31  bit  72  _reserved_
    offset 31  width  1  bit 103  d
";
    assert_eq!(accepted("a: 60, b: 4, none: 0, c: 8, _reserved_: 31, d: 1"), wanted);
}

#[test]
fn behind_dynamic_bytes_no_place_is_known() {
    let wanted = "\
packet P (line 3): 6 chunks, 24 bits and dynamic bytes
  chunk 0: 8 bits
    offset  0  width  8  bit  0  _count_(a)
  chunk 1: dynamic bytes: a: 16[]
  chunk 2: 16 bits, behind dynamic bytes
    offset  0  width  4  b
    offset  4  width 12  c
  chunk 3: dynamic bytes, behind dynamic bytes: d: 8 if b = 2
  chunk 4: dynamic bytes, behind dynamic bytes: G { x = 1, y = A } if b = E
  chunk 5: dynamic bytes, behind dynamic bytes: _payload_: [+4]
";
    assert_eq!(accepted("_count_(a): 8, a: 16[], b: 4, c: 12, d: 8 if b=2, G {x=1,y=A} if b=E, _padding_[8], _payload_: [+4]"), wanted);
}

#[test]
fn dynamic_parts_are_shown_as_they_are_written() {
    let fields = [
        "a: 8[]", "a: 8[4]", "a: 8[+1]", "a: E[]", "a: E[4]", "a: E[+1]", "_body_", "_payload_",
        "_body_ if b = 1", "a: E if b = C", "_fixed_ = 3: 8 if b = 1", "_fixed_ = A: E if b = 1",
        "_size_(a): 8 if b = 1", "_count_(a): 8 if b = 1", "_elementsize_(a): 8 if b = 1",
        "_reserved_: 8 if b = 1", "_padding_[7] if b = 1", "_checksum_start_(a) if b = 1",
        "G if b = 1",
    ];
    for field in fields {
        let written = format!("packet P (line 3): 1 chunk, no bits and dynamic bytes\n  chunk 0: dynamic bytes: {field}\n");
        assert_eq!(accepted(&format!("{field} /* not this */")), written);
    }
}

#[test]
fn a_packet_with_a_parent_has_its_own_fields() {
    let layout = shown(&["layout"], "little_endian_packets\nstruct P : Q (a = 1) { x: 8 }");
    let wanted = "\
standard input: little endian: the first byte of a chunk has its lowest bits

struct P : Q (line 2): 1 chunk, 8 bits
  its own fields alone; bit 0 is the first of them, and not of Q
  chunk 0: 8 bits
    offset  0  width  8  bit 0  x
";
    assert_eq!(layout, wanted);
}

#[test]
fn a_width_that_another_declaration_gives() {
    let wanted = "\
packet P (line 3): refused (14)
  the field `x` (line 5, column 2) has the type `E`, whose width another declaration gives: enum E, line 2
  before it:
    width  3  a
    width  5  _size_(y)
    dynamic   y: 8[]
    no bits   _padding_[9]
    dynamic   c: 8 if a = 1
";
    assert_eq!(
        refused("a: 3, _size_(y): 5, y: 8[], _padding_[9], c: 8 if a = 1,\n\tx: E, z: 8"),
        wanted
    );
    let fixed = "the field `_fixed_` (line 4, column 1) is the tag `A` of `E`, whose width another declaration gives: enum E, line 2";
    assert_eq!(
        refused("_fixed_ = A: E"),
        format!("packet P (line 3): refused (14)\n  {fixed}\n  nothing stands before it\n")
    );
    let group = "the field `G` (line 4, column 1) stands for a group, whose fields no declaration of this description gives";
    assert_eq!(
        refused("G { x = 1 }"),
        format!("packet P (line 3): refused (14)\n  {group}\n  nothing stands before it\n")
    );
}

#[test]
fn the_first_of_two_declarations_is_named() {
    let source = "little_endian_packets\nstruct A { x: B }\nenum B : 8 { C = 1 }\nstruct B {}";
    assert!(run_on(&["layout"], source)
        .out
        .contains("another declaration gives: enum B, line 3\n"));
}

#[test]
fn bytes_behind_bits() {
    let said =
        |bits: &str| refused(&format!("{bits}, b: 8[]")).lines().nth(1).unwrap().trim().to_owned();
    assert_eq!(said("a: 1"), "the field `b` (line 4, column 7) starts with a whole byte, and 1 bit is left over before it");
    assert_eq!(said("a: 8, c: 11"), "the field `b` (line 4, column 14) starts with a whole byte, and 11 bits are left over before it");
    let none = "the field `b` (line 4, column 7) starts a chunk of bytes, and a field without bits is left over before it";
    assert_eq!(said("a: 0"), none);
    assert!(refused("a: 1, b: 8[]").starts_with("packet P (line 3): refused (10)\n"));
}

#[test]
fn too_many_bits() {
    let wanted = "\
packet P (line 3): refused (12)
  with the field `b` (line 4, column 8) a chunk would have 65 bits, and 64 is the most
  before it:
    width 60  a
";
    assert_eq!(refused("a: 60, b: 5"), wanted);
    let most = refused("a: 1, b: 18446744073709551615");
    assert!(most.contains("a chunk would have 18446744073709551616 bits"), "{most}");
}

#[test]
fn bits_that_are_left_over_at_the_end() {
    let wanted = "\
packet P (line 3): refused (16)
  from the field `b` (line 4, column 7) to the end 12 bits are left over, too few for a whole byte
  its fields:
    width  8  a
    width  5  b
    width  7  c
    no bits   _checksum_start_(a)
";
    assert_eq!(refused("a: 8, b: 5, c: 7, _checksum_start_(a)"), wanted);
    let none = refused("a: 8, b: 0");
    assert!(none.contains("the field `b` (line 4, column 7) has no bits, and no field behind it makes a chunk with it\n"), "{none}");
}

#[test]
fn one_refused_layout_decides_the_status() {
    let source = "little_endian_packets\npacket A { x: 7 }\npacket B { x: 8 }";
    for form in ["--json", "--raw"] {
        assert_eq!(run_on(&["layout", form], source).status, 1);
        assert_eq!(run_on(&["layout", form, "--only", "B"], source).status, 0);
    }
    assert_eq!(run_on(&["layout"], source).status, 1);
    assert_eq!(run_on(&["layout", "--only", "B"], source).status, 0);
    assert_eq!(run_on(&["layout", "--only", "B", "--only", "A"], source).status, 1);
}
