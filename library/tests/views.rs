//! The typed views of rows: every kind of row from a text that has it.

use std::ops::RangeInclusive;

use pdl_front::{
    read, CommentKind, ConstraintKind, DeclarationKind, Endianness, FieldDescription, FieldKind,
    Reading, Table, TagKind,
};

const LITTLE: &str = "little_endian_packets\n";

/// Reads what stands behind an endianness line, and says something of it.
fn of<T>(rest: &str, said: impl Fn(&Reading) -> T) -> T {
    let source = LITTLE.to_owned() + rest;
    let reading = read(source.as_bytes()).unwrap_or_else(|refusal| panic!("{rest}: {refusal}"));
    said(&reading)
}

/// The description of the only field of a packet, and its kind, which is to have this name.
fn field(text: &str, wanted: FieldDescription) {
    of(&format!("packet P {{ {text} }}"), |reading| {
        assert_eq!(reading.counts().fields, 1);
        let field = reading.field(0).unwrap();
        assert_eq!(field.description(), wanted);
        assert!(
            format!("{wanted:?}").starts_with(&format!("{:?}", field.kind())),
            "{:?}",
            field.kind()
        );
        assert!(field.text().starts_with(text));
    });
}

#[test]
fn every_kind_of_field() {
    use FieldDescription::*;
    field("_checksum_start_(crc)", Checksum { field_id: "crc" });
    field("_padding_[4096]", Padding { size: 4096 });
    field("_size_(_payload_) : 16", Size { field_id: "_payload_", width: 16 });
    field("_count_(lamps) : 8", Count { field_id: "lamps", width: 8 });
    field("_elementsize_(lamps) : 4", ElementSize { field_id: "lamps", width: 4 });
    field("_body_", Body);
    field("_payload_", Payload { size_modifier: None });
    field("_payload_ : [+2]", Payload { size_modifier: Some("+2") });
    field("_fixed_ = 0x2a : 8", FixedScalar { width: 8, value: 42 });
    field("_fixed_ = CYAN : Dye", FixedEnum { enum_id: "Dye", tag_id: "CYAN" });
    field("_reserved_ : 0", Reserved { width: 0 });
    field("head : 2", Scalar { id: "head", width: 2 });
    field("lamp : Lamp", Typedef { id: "lamp", type_id: "Lamp" });
    field("Position { head = 0 }", Group { group_id: "Position" });
    assert_eq!(FieldKind::ALL.len(), 14);
}

#[test]
fn every_form_of_an_array() {
    let array = |width, type_id, size_modifier, size| FieldDescription::Array {
        id: "a",
        width,
        type_id,
        size_modifier,
        size,
    };
    field("a : 8[]", array(Some(8), None, None, None));
    field("a : 0[0]", array(Some(0), None, None, Some(0)));
    field("a : 8[+2]", array(Some(8), None, Some("+2"), None));
    field("a : Lamp[3]", array(None, Some("Lamp"), None, Some(3)));
}

#[test]
fn every_kind_of_declaration() {
    use DeclarationKind::*;
    let kinds = "enum A : 8 { B = 1 } packet C {} struct D : E {} group F { g : 8 } checksum H : 16 \"sum\" custom_field I \"\"";
    of(kinds, |reading| {
        let said: Vec<_> = reading
            .declarations()
            .map(|it| (it.kind(), it.id(), it.width(), it.parent(), it.function()))
            .collect();
        let wanted = [
            (Enum, "A", Some(8), None, None),
            (Packet, "C", None, None, None),
            (Struct, "D", None, Some("E"), None),
            (Group, "F", None, None, None),
            (Checksum, "H", Some(16), None, Some("sum")),
            (CustomField, "I", None, None, Some("")),
        ];
        assert_eq!(said, wanted);
        assert_eq!(said.iter().map(|it| it.0).collect::<Vec<_>>(), DeclarationKind::ALL);
    });
}

#[test]
fn members_belong_to_their_declaration() {
    of("enum A : 8 { B = 1, C = 2..3 { D = 2, E = 3 }, F = .. } packet G { h : 8, i : 8 } struct J { k : 8 }", |reading| {
        let [a, g, j] = [0, 1, 2].map(|row| reading.declaration(row).unwrap());
        assert_eq!(a.tags().map(|tag| tag.id()).collect::<Vec<_>>(), ["B", "C", "D", "E", "F"]);
        assert_eq!((a.fields().len(), g.tags().len()), (0, 0));
        assert_eq!(g.fields().map(|field| field.index()).collect::<Vec<_>>(), [0, 1]);
        assert_eq!(j.fields().map(|field| field.name_a()).collect::<Vec<_>>(), [Some("k")]);
    });
}

#[test]
fn every_kind_of_tag() {
    of("enum A : 8 { B = 1, C = 2..3 { D = 2, E = 3 }, F = .. , G = 9..4 }", |reading| {
        let said: Vec<_> = reading
            .tags()
            .map(|tag| (tag.kind(), tag.value(), tag.range(), tag.inner().len()))
            .collect();
        let wanted = [
            (TagKind::Value, Some(1), None, 0),
            (TagKind::Range, None, Some(2..=3), 2),
            (TagKind::Inner, Some(2), None, 0),
            (TagKind::Inner, Some(3), None, 0),
            (TagKind::Other, None, None, 0),
            (TagKind::Range, None, Some(RangeInclusive::new(9, 4)), 0),
        ];
        assert_eq!(said, wanted);
        let range = reading.tag(1).unwrap();
        assert_eq!(range.inner().map(|tag| tag.id()).collect::<Vec<_>>(), ["D", "E"]);
    });
}

#[test]
fn constraints_of_a_header_a_group_and_a_condition() {
    of("packet A : B (c = D, e = 0) { G { h = 1, i = J } if k = 2, l : 8 }", |reading| {
        let header = reading.declaration(0).unwrap().constraints();
        let said = |it: pdl_front::Constraint| {
            format!("{:?} {} {:?} {:?}", it.kind(), it.id(), it.tag(), it.value())
        };
        assert_eq!(
            header.map(said).collect::<Vec<_>>(),
            ["Tag c Some(\"D\") None", "Integer e None Some(0)"]
        );
        let group = reading.field(0).unwrap();
        assert_eq!(group.constraints().map(|it| it.text()).collect::<Vec<_>>(), ["h = 1", "i = J"]);
        assert_eq!(group.condition().map(|it| (it.id(), it.value())), Some(("k", Some(2))));
        assert!(reading.field(1).unwrap().condition().is_none());
        assert_eq!(reading.constraints().filter(|it| it.kind() == ConstraintKind::Tag).count(), 2);
    });
}

#[test]
fn comments_and_places() {
    let source = "/* \u{e9}\n */ big_endian_packets\n// end";
    let reading = read(source.as_bytes()).unwrap();
    assert_eq!(reading.endianness(), Endianness::Big);
    let said: Vec<_> = reading.comments().map(|it| (it.kind(), it.text())).collect();
    assert_eq!(said, [(CommentKind::Block, "/* \u{e9}\n */"), (CommentKind::Line, "// end")]);
    let line = reading.endianness_span();
    assert_eq!((line.start.offset, line.start.line, line.start.column), (10, 1, 4));
    assert_eq!((line.end.line, line.end.column), (2, 0));
    assert_eq!(&source[line.range()], "big_endian_packets\n");
}

#[test]
fn words_of_a_row_are_those_of_its_table() {
    of("packet A {x: 3 , y: 5}", |reading| {
        let second = reading.field(1).unwrap();
        assert_eq!(
            second.words(),
            [12, 39, 1, 17, 43, 1, 21, 39, 1, 0, 0, 0, 0, 1, 5, 0, 0, 0, 0, 0]
        );
        assert_eq!(second.words(), &reading.words(Table::Fields)[20..]);
        assert!(reading.field(2).is_none());
        assert_eq!(format!("{second:?}"), "Field { index: 1, kind: Scalar, text: \"y: 5\" }");
    });
}

#[test]
fn names_outlive_the_reading() {
    let source = LITTLE.to_owned() + "packet A {}";
    let name = {
        let reading = read(source.as_bytes()).unwrap();
        reading.declaration(0).unwrap().id()
    };
    assert_eq!(name.as_ptr(), source[LITTLE.len() + 7..].as_ptr());
}

#[test]
fn a_reading_crosses_threads() {
    fn crosses<T: Send + Sync>(_: &T) {}
    of("packet A {}", |reading| {
        crosses(reading);
        crosses(&reading.declaration(0));
        crosses(&reading.declarations());
    });
}
