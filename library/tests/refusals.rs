//! Refusals: what each of them is, and what a refused call leaves.

use pdl_front::{
    convert, read, read_into, rule_extent, valid_prefix, words, Aligner, Refusal, RefusalKind,
    Table, Tables, Unconverted, MAX_CHUNK_WIDTH, MAX_SOURCE,
};

/// The number, the place and the reason.
fn parts(refusal: Refusal) -> (u64, usize, u64) {
    (refusal.number, refusal.place, refusal.reason)
}

fn refused(source: &str) -> (u64, usize, u64) {
    parts(read(source.as_bytes()).unwrap_err())
}

#[test]
fn sources_that_are_refused() {
    assert_eq!(refused(""), (3, 0, 0));
    assert_eq!(refused("little_endian_packets"), (3, 0, 0));
    assert_eq!(refused("big_endian_packets\nenum E : 8 { A = 0x }"), (3, 19, 0));
    assert_eq!(refused("big_endian_packets\nenum E : 0X10 { A = 1 }"), (4, 28, 2));
    assert_eq!(refused("big_endian_packets\nenum E : 18446744073709551616 { A = 1 }"), (4, 28, 3));
    assert_eq!(parts(read(b"little_endian_packets\n// \xff").unwrap_err()), (2, 25, 0));
}

#[test]
fn the_longest_source_and_one_byte_more() {
    let mut source = b"little_endian_packets\n".to_vec();
    source.resize(MAX_SOURCE, b' ');
    assert_eq!(read(&source).unwrap().source().len(), MAX_SOURCE);
    source.push(b' ');
    assert_eq!(parts(read(&source).unwrap_err()), (1, MAX_SOURCE, 0));
}

#[test]
fn tables_grow_for_many_rows() {
    let fields = "A,".repeat(100_000);
    let source = format!("little_endian_packets\npacket P {{{fields}}}");
    assert_eq!(read(source.as_bytes()).unwrap().counts().fields, 100_000);
}

#[test]
fn a_refused_reading_leaves_lent_tables() {
    let source =
        b"little_endian_packets\nenum E : 8 { A = 0 } packet P : Q (x = A) { y : 8 } // end";
    let (mut declarations, mut fields, mut tags) = ([1; 40], [2; 40], [3; 40]);
    let (mut constraints, mut comments) = ([4; 40], [5; words::COMMENT_WORDS - 1]);
    let mut tables = Tables {
        declarations: &mut declarations,
        fields: &mut fields,
        tags: &mut tags,
        constraints: &mut constraints,
        comments: &mut comments,
    };
    let refusal = read_into(source, &mut tables).unwrap_err();
    assert_eq!((parts(refusal), refusal.table()), ((5, 5, 1), Some(Table::Comments)));
    assert_eq!((declarations, fields, tags), ([1; 40], [2; 40], [3; 40]));
    assert_eq!((constraints, comments), ([4; 40], [5; words::COMMENT_WORDS - 1]));
}

#[test]
fn an_accepted_reading_leaves_the_words_behind_its_rows() {
    let mut declarations = [9; 3 * words::DECLARATION_WORDS];
    let mut tables = Tables { declarations: &mut declarations, ..Tables::default() };
    let reading = read_into(b"little_endian_packets\npacket A {}", &mut tables).unwrap();
    assert_eq!(reading.words(Table::Declarations).len(), words::DECLARATION_WORDS);
    assert!(declarations[words::DECLARATION_WORDS..].iter().all(|word| *word == 9));
}

#[test]
fn layouts_that_are_refused() {
    let laid_out = |fields: &str| {
        let source = format!("little_endian_packets\nenum E : 8 {{ A = 0 }} packet P {{{fields}}}");
        read(source.as_bytes()).unwrap().layout(1).map_err(parts)
    };
    assert_eq!(laid_out("a: 1, b: 8[]"), Err((10, 1, 0)));
    assert_eq!(laid_out("a: 60, b: 5"), Err((12, 1, 0)));
    assert_eq!(laid_out("a: 8, b: E"), Err((14, 1, 0)));
    assert_eq!(laid_out("a: 8, b: 0"), Err((16, 1, 0)));
    assert_eq!(
        laid_out("").map(|layout| (layout.placed().len(), layout.chunks().len())),
        Ok((0, 0))
    );
    let reading = read(b"little_endian_packets\nenum E : 8 { A = 0 }").unwrap();
    assert_eq!(reading.layout(0).map_err(parts), Err((15, 0, 0)));
    assert_eq!(reading.layout(1).map_err(parts), Err((15, 1, 0)));
    assert_eq!(reading.layout(usize::MAX).map_err(parts), Err((15, usize::MAX, 0)));
}

#[test]
fn an_aligner_goes_on_after_a_refusal() {
    let mut aligner = Aligner::new();
    aligner.add_bitfield(0, 0).unwrap();
    assert_eq!(aligner.align().map_err(parts), Err((16, 0, 0)));
    assert_eq!(aligner.add_bytes(1, 8).map_err(parts), Err((10, 0, 0)));
    assert_eq!(aligner.add_bitfield(1, MAX_CHUNK_WIDTH + 1).map_err(parts), Err((12, 0, 0)));
    aligner.add_bitfield(1, MAX_CHUNK_WIDTH).unwrap();
    assert_eq!(aligner.add_bytes(2, 7).map_err(parts), Err((11, 0, 0)));
    assert_eq!(aligner.add_bytes(2, 72).map_err(parts), Err((12, 0, 0)));
    aligner.add_bytes(2, 64).unwrap();
    aligner.add_dyn_bytes(3).unwrap();
    let layout = aligner.align().unwrap();
    let said: Vec<_> = layout
        .chunks()
        .map(|chunk| (chunk.kind().number(), chunk.width(), chunk.symbol(), chunk.placed().len()))
        .collect();
    assert_eq!(said, [(1, Some(64), None, 2), (2, Some(64), Some(2), 0), (3, None, Some(3), 0)]);
}

#[test]
fn an_aligner_grows() {
    let mut aligner = Aligner::new();
    for symbol in 0..1000 {
        aligner.add_bitfield(symbol, 8).unwrap();
    }
    let layout = aligner.align().unwrap();
    assert!(layout.placed().map(|placed| placed.symbol).eq(0..1000));
    assert!(layout
        .chunks()
        .zip(layout.placed())
        .all(|(chunk, placed)| chunk.placed().eq([placed])));
}

#[test]
fn texts_by_themselves() {
    assert_eq!(convert(b"+5"), Ok(5));
    for (text, why) in
        [(&b"0x"[..], Unconverted::Empty), (b"", Unconverted::Empty), (b"+", Unconverted::BadDigit)]
    {
        assert_eq!(convert(text).unwrap_err().unconverted(), Some(why));
    }
    assert_eq!(convert(b"99999999999999999999").map_err(parts), Err((4, 0, 3)));
    assert_eq!(valid_prefix("a\u{e9}".as_bytes()), 3);
    assert_eq!(rule_extent(60, b""), None);
    assert_eq!(rule_extent(0, b""), Some(0));
}

#[test]
fn refusals_as_errors() {
    let source = b"little_endian_packets\npacket A {x: 3 , y: 5}";
    let refusal = read_into(source, &mut Tables::default()).unwrap_err();
    assert_eq!(refusal.to_string(), "refused (5, place 1): the table of declarations needs 1 row");
    assert_eq!((refusal.kind(), refusal.location(source)), (Some(RefusalKind::TooFewRows), None));
    let error: Box<dyn std::error::Error + Send + Sync> = Box::new(convert(b"").unwrap_err());
    assert_eq!(error.to_string(), "refused (4, place 0): the integer has no digit");
}
