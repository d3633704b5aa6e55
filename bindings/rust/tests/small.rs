//! The font whose bytes `bindings/font.hex` spells: four glyphs, `.notdef`, `space`, `A` and `flower`. The expected values are
//! the numbers of its char strings and of its dictionary, added up by hand. `bindings/accents.hex` spells one of accented glyphs.
use postscript::{Bounds, Error, Font, Layout, LayoutTable, NameError, Names, Operation, Outline, OutlineSink, Point, Segment, WriteError};

fn bytes() -> Vec<u8> {
    hex(include_str!("../../font.hex"))
}

fn hex(text: &str) -> Vec<u8> {
    let text: String = text.split_whitespace().collect();
    (0..text.len()).step_by(2).map(|i| u8::from_str_radix(&text[i..i + 2], 16).unwrap()).collect()
}

fn p(x: f64, y: f64) -> Point {
    Point { x, y }
}

fn flower() -> Vec<Segment> {
    vec![
        Segment::MoveTo(p(100.0, -10.0)),
        Segment::CurveTo(p(300.0, -10.0), p(400.0, 100.0), p(400.0, 300.0)),
        Segment::LineTo(p(100.0, 300.0)),
        Segment::Close,
        Segment::MoveTo(p(150.0, 50.0)),
        Segment::LineTo(p(200.0, 50.0)),
        Segment::LineTo(p(200.0, 100.0)),
        Segment::Close,
    ]
}

/// Fonts and what is told of them may be sent to other threads, and shared.
const _: () = {
    const fn are_shared<T: Send + Sync + 'static>() {}
    are_shared::<Font<'static>>();
    are_shared::<postscript::Outlines<'static>>();
    are_shared::<(Outline, Segment, Point, Bounds, postscript::Glyph, Operation, Error, WriteError, NameError, Names)>();
};

/// An error without details.
const NO_ERROR: WriteError = WriteError {
    error: Error::Other,
    glyph: None,
    cause: None,
    character: None,
    table: None,
};

/// The file with metrics that `bindings/whole.hex` spells: `.notdef` and `A`.
fn whole() -> Vec<u8> {
    hex(include_str!("../../whole.hex"))
}

#[test]
fn files_are_written() {
    let bytes = whole();
    let font = Font::from_file(&bytes, 0).unwrap();
    let file = font.subset_file().text("AA").tables(&[*b"head", *b"OS/2"]).write().unwrap();
    let subset = Font::from_file(&file, 0).unwrap();
    assert_eq!((subset.glyph_count(), subset.glyph_index('A'), subset.glyph_index('B')), (2, Some(1), None));
    assert_eq!(subset.outline(1), font.outline(1));
    let file = font.subset_file().glyphs([1]).keep_numbers(true).write().unwrap();
    assert_eq!(Font::from_file(&file, 0).unwrap().outline(1), font.outline(1));
    let file = font.subset_file().characters(['A', 'B']).ignore_missing(true).write().unwrap();
    assert_eq!(Font::from_file(&file, 0).unwrap().glyph_index('A'), Some(1));
    let file = font.flat_file().unwrap();
    assert_eq!(Font::from_file(&file, 0).unwrap().outline(1), font.outline(1));
}

/// The bytes of the `name` table of a file.
fn name_table(file: &[u8]) -> Option<&[u8]> {
    let count = usize::from(file[5]);
    let records = file[12..12 + 16 * count].chunks(16);
    let number = |bytes: &[u8]| u32::from_be_bytes(bytes.try_into().unwrap()) as usize;
    let record = records.into_iter().find(|record| record.starts_with(b"name"))?;
    Some(&file[number(&record[8..12])..][..number(&record[12..])])
}

/// The table has "Small" for Macintosh, and for Windows "(c)" (0), "Small" (1), "Regular" (2), "MIT" (13) and "Old" (256). The short tables are as
/// fontTools writes them with only these names.
#[test]
fn names_are_chosen() {
    let bytes = whole();
    let font = Font::from_file(&bytes, 0).unwrap();
    let short = hex(
        "00000002001e0003000104090001000a00000003000104090002000e000a\
         0053006d0061006c006c0052006500670075006c00610072",
    );
    let licence = hex(
        "0000000400360003000104090000000600000003000104090001000a00060003000104090002000e0010000300010409000d0006001e\
         0028006300290053006d0061006c006c0052006500670075006c00610072004d00490054",
    );
    let all = name_table(&bytes);
    let subset = font.subset_file().text("A");
    assert_eq!(name_table(&subset.write().unwrap()), Some(&short[..]));
    let rows = [
        (Names::Short, Some(&short[..])),
        (Names::WithLicence, Some(&licence[..])),
        (Names::Whole, all),
        (Names::Without, None),
    ];
    for (names, wanted) in rows {
        let subset = subset.clone().names(names);
        assert_eq!(name_table(&subset.write().unwrap()), wanted, "{names:?}");
        assert_eq!(name_table(&subset.without_layout().write().unwrap()), wanted, "{names:?}");
    }
    let copied = subset.names(Names::Without).tables(&[*b"name"]);
    assert_eq!(name_table(&copied.write().unwrap()), all);
}

#[test]
fn glyphs_are_chosen_by_name() {
    let bytes = whole();
    let font = Font::from_file(&bytes, 0).unwrap();
    let file = font.subset_file().glyph_names(["A"]).unwrap().write().unwrap();
    assert_eq!(file, font.subset_file().glyphs([1]).write().unwrap());
    let error = font.subset_file().glyph_names(["A", "tree"]).unwrap_err();
    assert_eq!(error, NameError { error: Error::NoGlyph, name: b"tree".to_vec() });
    assert_eq!(error.to_string(), "glyph \"tree\": no such glyph");
}

/// In the file that `bindings/layout.hex` spells, `smcp` substitutes glyph 2 for glyph 1, the letter a, `kern` moves two letters a, and glyph 3 is the letter b and the space.
#[test]
fn files_are_written_with_layout() {
    let bytes = hex(include_str!("../../layout.hex"));
    let font = Font::from_file(&bytes, 0).unwrap();
    let kept = |gpos| Layout { gsub: LayoutTable::Kept, gpos, gdef: LayoutTable::Absent, kern: LayoutTable::Absent, left_out: 0 };
    let (file, layout) = font.subset_file().text("a").exact(true).write_with_layout().unwrap();
    assert_eq!((Font::from_file(&file, 0).unwrap().glyph_count(), layout), (2, kept(LayoutTable::Kept)));
    let file = font.subset_file().text("a").write().unwrap();
    assert_eq!(Font::from_file(&file, 0).unwrap().glyph_count(), 3);
    let (file, layout) = font.subset_file().text("a").exact(true).features(&[*b"smcp"]).write_with_layout().unwrap();
    assert_eq!((Font::from_file(&file, 0).unwrap().glyph_count(), layout), (3, kept(LayoutTable::NotChosen)));
    let file = font.subset_file().text("a").all_features().write().unwrap();
    assert_eq!(Font::from_file(&file, 0).unwrap().outline(2), font.outline(2));
    let file = font.subset_file().text("a").without_layout().write().unwrap();
    assert_eq!(Font::from_file(&file, 0).unwrap().glyph_count(), 2);
    let place = bytes.windows(4).position(|tag| tag == b"GSUB").unwrap();
    let place = u32::from_be_bytes(bytes[place + 8..place + 12].try_into().unwrap()) as usize;
    let mut spoiled = bytes.clone();
    spoiled[place + 4..place + 6].fill(255);
    let (_, layout) = Font::from_file(&spoiled, 0).unwrap().subset_file().text("a").write_with_layout().unwrap();
    assert_eq!(layout.gsub, LayoutTable::Lost(Error::CutTable));
    // The only lookup of GSUB is a context of an unknown format.
    let mut spoiled = bytes.clone();
    (spoiled[place + 0x31], spoiled[place + 0x39]) = (5, 9);
    let font = Font::from_file(&spoiled, 0).unwrap();
    let (_, layout) = font.subset_file().text("a").features(&[*b"smcp"]).write_with_layout().unwrap();
    assert_eq!((layout.gsub, layout.left_out), (LayoutTable::Kept, 1));
}

#[test]
fn files_that_are_not_written() {
    let (bytes, lacking) = (whole(), bytes());
    let font = Font::from_file(&bytes, 0).unwrap();
    let missing = WriteError { error: Error::NoCharacter, character: Some(66), ..NO_ERROR };
    assert_eq!(font.subset_file().text("AB").write(), Err(missing));
    assert_eq!(missing.to_string(), "U+0042: the font has no glyph for a character");
    let none = WriteError { error: Error::NoGlyphs, ..NO_ERROR };
    assert_eq!(font.subset_file().write(), Err(none));
    let twice = WriteError { error: Error::SameTag, table: Some(*b"name"), ..NO_ERROR };
    assert_eq!(font.subset_file().text("A").tables(&[*b"name"]).write(), Err(twice));
    let named = font.subset_file().text("A").names(Names::Whole).tables(&[*b"name"]);
    assert_eq!(named.write(), Err(twice));
    let lacking = Font::from_file(&lacking, 0).unwrap();
    let table = WriteError { error: Error::NoTable, table: Some(*b"hhea"), ..NO_ERROR };
    assert_eq!(lacking.subset_file().text("A").write(), Err(table));
    let table = Font::from_table(font.table()).unwrap();
    assert_eq!(table.flat_file().unwrap_err().error, Error::CutFile);
}

#[test]
fn threads_share_a_font() {
    let bytes = bytes();
    let font = Font::from_file(&bytes, 0).unwrap();
    let alone: Vec<_> = font.outlines().collect();
    std::thread::scope(|threads| {
        let all: Vec<_> = (0..4).map(|_| threads.spawn(|| font.outlines().collect::<Vec<_>>())).collect();
        for drawn in all {
            assert_eq!(drawn.join().unwrap(), alone);
        }
    });
}

/// The font of the examples is that of the tests.
#[test]
fn the_font_of_the_examples() {
    assert_eq!(bytes(), include_bytes!("../examples/small.otf"));
}

#[test]
fn names_and_characters_of_all_glyphs() {
    let bytes = bytes();
    let font = Font::from_file(&bytes, 0).unwrap();
    let names: Vec<_> = font.names().unwrap().map(|name| name.unwrap().unwrap()).collect();
    assert_eq!(names, [b".notdef".as_slice(), b"space", b"A", b"flower"]);
    assert_eq!((font.names().unwrap().len(), font.cids().unwrap()), (4, vec![None; 4]));
    assert_eq!(font.characters().unwrap().collect::<Vec<_>>(), [(' ', 1), ('A', 2), ('\u{2698}', 3)]);
    assert_eq!(Font::from_table(font.table()).unwrap().characters().unwrap().count(), 0);
}

#[test]
fn a_glyph_of_a_character() {
    let bytes = bytes();
    let font = Font::from_file(&bytes, 0).unwrap();
    assert_eq!(font.glyph_count(), 4);
    assert!(!font.is_cid_keyed());
    assert_eq!(font.glyph_index('A'), Some(2));
    assert_eq!(font.glyph_index('B'), None);
    let glyph = font.glyph_index('\u{2698}').unwrap();
    let bounds = Some(Bounds { low: p(100.0, -10.0), high: p(400.0, 300.0) });
    assert_eq!(font.outline(glyph), Ok(Outline { segments: flower(), advance: 450.0, bounds }));
    assert_eq!(font.tight_bounds(glyph), Ok(bounds));
    assert_eq!(font.tight_bounds(1), Ok(None));
    assert_eq!(font.outline(2).unwrap().svg_path(), "M0 0L250 700L500 0Z");
}

#[test]
fn glyphs_one_after_another() {
    let bytes = bytes();
    let font = Font::from_file(&bytes, 0).unwrap();
    assert_eq!(font.outlines().len(), 4);
    assert_eq!((font.fits(&mut 1), font.fits(&mut 1000)), (Ok(false), Ok(true)));
    assert_eq!((font.limit(), font.with_limit(5).limit()), (postscript::LIMIT, 5));
    assert_eq!(font.with_limit(5).outline(3), Err(Error::TooLong));
    let advances: Vec<f64> = font.outlines().map(|outline| outline.unwrap().advance).collect();
    assert_eq!(advances, [500.0, 250.0, 500.0, 450.0]);
    assert_eq!(font.outline(1).unwrap().bounds, None);
}

#[derive(Default)]
struct Kinds(String);

impl OutlineSink for Kinds {
    fn move_to(&mut self, _: Point) {
        self.0.push('M');
    }
    fn line_to(&mut self, _: Point) {
        self.0.push('L');
    }
    fn curve_to(&mut self, _: Point, _: Point, _: Point) {
        self.0.push('C');
    }
    fn close(&mut self) {
        self.0.push('Z');
    }
}

#[test]
fn a_sink_is_given_the_segments() {
    let bytes = bytes();
    let mut sink = Kinds::default();
    let told = Font::from_file(&bytes, 0).unwrap().draw(3, &mut sink).unwrap();
    assert_eq!(sink.0, "MCLZMLLZ");
    assert_eq!(told.advance, 450.0);
}

#[test]
fn code_without_calls() {
    let bytes = bytes();
    let font = Font::from_file(&bytes, 0).unwrap();
    // 0 hmoveto 250 700 250 -700 rlineto endchar
    let code = [0x8b, 0x16, 0xf7, 0x8e, 0xf9, 0x50, 0xf7, 0x8e, 0xfd, 0x50, 0x05, 0x0e];
    assert_eq!(font.flat_code(2), Ok(code.to_vec()));
    assert_eq!(font.flat_code(4), Err(Error::NoGlyph));
}

#[test]
fn operations() {
    let bytes = bytes();
    let font = Font::from_file(&bytes, 0).unwrap();
    // 0 hmoveto 250 700 250 -700 rlineto endchar
    let expected = vec![
        Operation { operator: 0x16, operands: vec![0.0], stems: vec![], mask: vec![] },
        Operation { operator: 0x05, operands: vec![250.0, 700.0, 250.0, -700.0], stems: vec![], mask: vec![] },
    ];
    let operations = font.operations(2).unwrap();
    assert_eq!(operations, expected);
    let names: Vec<_> = operations.iter().filter_map(Operation::name).collect();
    assert_eq!(names, ["hmoveto", "rlineto"]);
    assert_eq!(font.operations(1), Ok(Vec::new()));
    assert_eq!(font.operations(4), Err(Error::NoGlyph));
}

/// A table of one glyph: 1 2 hintmask 10000000 3 hmoveto endchar, of which the mask implies a stem.
const HINTED: [u8; 35] = [
    0x01, 0x00, 0x04, 0x01, 0x00, 0x01, 0x01, 0x01, 0x02, 0x41, 0x00, 0x01, 0x01, 0x01, 0x05, 0x1c, 0x00, 0x17, 0x11, 0x00,
    0x00, 0x00, 0x00, 0x00, 0x01, 0x01, 0x01, 0x08, 0x8c, 0x8d, 0x13, 0x80, 0x8e, 0x16, 0x0e,
];

#[test]
fn hints() {
    let expected = vec![
        Operation { operator: 0x13, operands: vec![], stems: vec![1.0, 2.0], mask: vec![0x80] },
        Operation { operator: 0x16, operands: vec![3.0], stems: vec![], mask: vec![] },
    ];
    assert_eq!(Font::from_table(&HINTED).unwrap().operations(0), Ok(expected));
}

/// Outlines with their advances, of these glyphs of a table.
fn drawn(table: &[u8], glyphs: &[usize]) -> Vec<Outline> {
    let font = Font::from_table(table).unwrap();
    glyphs.iter().map(|glyph| font.outline(*glyph).unwrap()).collect()
}

#[test]
fn written_fonts() {
    let bytes = bytes();
    let font = Font::from_file(&bytes, 0).unwrap();
    let flat = font.flat().unwrap();
    assert_eq!(drawn(&flat, &[0, 1, 2, 3]), drawn(font.table(), &[0, 1, 2, 3]));
    let subset = font.subset(&[3, 3]).unwrap();
    let written = Font::from_table(&subset).unwrap();
    assert_eq!(written.glyph_count(), 2);
    assert_eq!(written.glyph_named(b"flower"), Ok(Some(1)));
    assert_eq!(drawn(&subset, &[0, 1]), drawn(font.table(), &[0, 3]));
    let kept = font.subset_keeping(&[3]).unwrap();
    assert_eq!(Font::from_table(&kept).unwrap().glyph_count(), 4);
    assert_eq!(drawn(&kept, &[0, 3]), drawn(font.table(), &[0, 3]));
    assert_eq!(drawn(&kept, &[2])[0].segments, []);
}

#[test]
fn fonts_that_are_not_written() {
    let bytes = bytes();
    let font = Font::from_file(&bytes, 0).unwrap();
    let none = WriteError { error: Error::NoGlyphs, ..NO_ERROR };
    assert_eq!(font.subset(&[]), Err(none));
    let past = WriteError { error: Error::NoGlyph, glyph: Some(4), ..NO_ERROR };
    assert_eq!(font.subset_keeping(&[1, 4]), Err(past));
    assert_eq!(past.to_string(), "glyph 4: no such glyph");
    // the code of the glyph A is spoiled: it returns
    let mut table = font.table().to_vec();
    let place = table.windows(3).position(|bytes| bytes == [0x8b, 0x16, 0xf7]).unwrap();
    table[place] = 0x0b;
    let cause = Some(Error::ReturnWithoutCaller);
    let refused = WriteError { error: Error::RefusedGlyph, glyph: Some(2), cause, ..NO_ERROR };
    assert_eq!(Font::from_table(&table).unwrap().flat(), Err(refused));
    assert_eq!(refused.to_string(), "glyph 2: found a return operator without a caller");
}

#[test]
fn names() {
    let bytes = bytes();
    let font = Font::from_file(&bytes, 0).unwrap();
    assert_eq!(font.glyph_name(3), Ok(Some(b"flower".to_vec())));
    assert_eq!(font.glyph_name(0), Ok(Some(b".notdef".to_vec())));
    assert_eq!(font.glyph_name(4), Ok(None));
    assert_eq!(font.glyph_named(b"flower"), Ok(Some(3)));
    assert_eq!(font.glyph_named(b"flowers"), Ok(None));
}

#[test]
fn refusals() {
    let bytes = bytes();
    assert_eq!(postscript::faces(&bytes), Ok(1));
    assert_eq!(postscript::faces(&[]), Err(Error::CutFile));
    assert_eq!(Font::from_file(&bytes, 1).unwrap_err(), Error::NoFace);
    assert_eq!(Font::from_file(&bytes[1..], 0).unwrap_err(), Error::UnknownFile);
    assert_eq!(Font::from_table(&[]).unwrap_err(), Error::UnexpectedEof);
    let font = Font::from_file(&bytes, 0).unwrap();
    assert_eq!(font.outline(4).unwrap_err(), Error::NoGlyph);
    assert_eq!(font.outline(usize::MAX).unwrap_err(), Error::NoGlyph);
    let error: Box<dyn std::error::Error> = Box::new(Error::NoGlyph);
    assert_eq!(error.to_string(), "no such glyph");
    assert_eq!(Error::NoFace.status(), 35);
    let (major, minor, patch) = postscript::version();
    assert_eq!(format!("{major}.{minor}.{patch}"), env!("CARGO_PKG_VERSION"));
}

/// A CID-keyed font of four glyphs and two font dictionaries, up to its FDSelect. Glyph 1 calls the local subroutine of the first
/// font dictionary, and glyph 2 the global subroutine 1.
const CID: &str = "\
    010004010001010102430001010121f81bf81c8b0c1e8177f7c0f824051c004a0f1c0053111c00650c241c00990c25000201\
    01060e41646f62654964656e74697479000201010103bd0b02000a0001006400000004010102060b0b0e879f200a92211d16\
    0e00020101161b1e0a0005ff8b8b1e0a0005ff8b8b0c07931c008512901c009412f88814f8ec1593130001010103160ef78e\
    146d15";

#[test]
fn glyphs_of_a_cid_keyed_font() {
    // the glyphs 0 and 1 have the first font dictionary, the others the second: by ranges, and by a byte each
    for selection in ["0300020000000002010004", "0000000101"] {
        let bytes = hex(&format!("{CID}{selection}"));
        let font = Font::from_table(&bytes).unwrap();
        assert!(font.is_cid_keyed());
        let advances: Vec<f64> = font.outlines().map(|outline| outline.unwrap().advance).collect();
        assert_eq!(advances, [500.0, 596.0, -23.0, 250.0]);
        let paths: Vec<String> = font.outlines().map(|outline| outline.unwrap().svg_path()).collect();
        assert_eq!(paths, ["", "M20 0Z", "M50 0Z", ""]);
        assert_eq!(font.cids().unwrap(), [Some(0), Some(10), Some(11), Some(100)]);
        let called = Operation { operator: 0x16, operands: vec![20.0], stems: vec![], mask: vec![] };
        assert_eq!(font.operations(1).unwrap(), [called]);
    }
}

#[test]
fn glyphs_without_a_font_dictionary() {
    let none: Result<f64, Error> = Err(Error::NoPart);
    let rows = [
        // of format 5, and of format 0 with a byte too few
        ("0500020000000002010004", [none; 4]),
        ("00000001", [none; 4]),
        // glyph 2 has the font dictionary 2, which is not there
        ("0000000201", [Ok(500.0), Ok(596.0), none, Ok(250.0)]),
        // the first range begins with glyph 1
        ("0300020001000002010004", [none, Ok(596.0), Ok(-23.0), Ok(250.0)]),
        // ranges that are not in order
        ("0300020002010000000004", [none; 4]),
    ];
    for (selection, advances) in rows {
        let bytes = hex(&format!("{CID}{selection}"));
        let font = Font::from_table(&bytes).unwrap();
        let found: Vec<Result<f64, Error>> = font.outlines().map(|outline| outline.map(|outline| outline.advance)).collect();
        assert_eq!(found, advances);
        assert_eq!(font.flat_code(4), Err(Error::NoGlyph));
    }
}

/// The font whose bytes `bindings/accents.hex` spells: `.notdef`, `A`, `acute`, and ten more, most of them accented.
fn accents() -> Vec<u8> {
    hex(include_str!("../../accents.hex"))
}

/// What its glyphs are drawn as, or refused with. The paths are those of fontTools, where it draws the glyph.
const ACCENTED: [Result<&str, Error>; 13] = [
    Ok(""),
    Ok("M10 20L110 20L110 70Z"),
    Ok("M1 2C4 6 9 12 16 20Z"),
    // the base, and then the accent, 30 to the right and 40 down
    Ok("M10 20L110 20L110 70ZM31 -38C34 -34 39 -28 46 -20Z"),
    // with a contour of its own
    Ok("M5 0L13 8ZM10 20L110 20L110 70ZM201 302C204 306 209 312 216 320Z"),
    Err(Error::NestedAccent),
    // no glyph is the base
    Err(Error::NoComponent),
    // 65.5 is no code
    Err(Error::NoCode),
    // the accent is moved out of the range
    Err(Error::Overflow),
    // the operands of the end stand in a subroutine
    Ok("M10 20L110 20L110 70ZM31 -38C34 -34 39 -28 46 -20Z"),
    // three operands name nothing
    Ok(""),
    // no glyph is the accent
    Err(Error::NoComponent),
    Ok("M5 0L13 8Z"),
];

#[test]
fn accented_glyphs() {
    let bytes = accents();
    let font = Font::from_table(&bytes).unwrap();
    let paths: Vec<_> = font.outlines().map(|outline| outline.map(|outline| outline.svg_path())).collect();
    assert_eq!(paths, ACCENTED.map(|row| row.map(String::from)));
    let advances: Vec<f64> = font.outlines().flatten().map(|outline| outline.advance).collect();
    assert_eq!(advances, [0.0, 0.0, 7.0, 0.0, 9.0, 55.0, 3.0, 0.0]);
    let mut sink = Kinds::default();
    let bounds = Some(Bounds { low: p(10.0, -38.0), high: p(110.0, 70.0) });
    assert_eq!(font.draw(3, &mut sink).unwrap().bounds, bounds);
    assert_eq!(sink.0, "MLLZMCZ");
    assert_eq!(font.tight_bounds(3), Ok(bounds));
    let subset = font.subset(&[3]).unwrap();
    assert_eq!(drawn(&subset, &[0, 1, 2, 3]), drawn(&bytes, &[0, 1, 2, 3]));
}

#[test]
fn accented_glyphs_that_are_not_drawn() {
    let bytes = accents();
    let font = Font::from_table(&bytes).unwrap();
    for (glyph, row) in ACCENTED.iter().enumerate() {
        let mut sink = Kinds::default();
        assert_eq!(font.draw(glyph, &mut sink).err(), row.err());
        assert_eq!(font.tight_bounds(glyph).err(), row.err());
        assert!(row.is_ok() || sink.0.is_empty());
    }
    // glyph 2 of a CID-keyed font: 0 0 65 65 endchar
    let bytes = hex(&format!("{}0000000101", CID.replace("92211d160e", "8b8bcccc0e")));
    let font = Font::from_table(&bytes).unwrap();
    assert_eq!(font.outline(2), Err(Error::NoAccents));
    assert_eq!(font.tight_bounds(2), Err(Error::NoAccents));
    assert_eq!(Error::NoAccents.to_string(), "a seac glyph in a CID-keyed font, which has no glyph names");
    assert_eq!(Error::NestedAccent.status(), 50);
}

/// A font whose glyph calls the first of ten nested global subroutines, each of which but the last calls the next ten times.
fn nested() -> Vec<u8> {
    // the header, a name, a dictionary (228 CharStrings 0 0 Private), no string, and where the ten subroutines begin and end
    let mut font = hex("01000401 00010101024e 00010101081c00e4118b8b12 0000 000a01 01162b40556a7f94a9bebf");
    for next in 1..10 {
        font.extend([32 + next, 0x1d].repeat(10));
        font.push(0x0b);
    }
    font.push(0x0b);
    // one char string: the subroutine 0, callgsubr endchar
    font.extend(hex("0001010104 201d0e"));
    font
}

#[test]
fn a_run_that_takes_too_long() {
    let bytes = nested();
    let font = Font::from_table(&bytes).unwrap();
    assert_eq!(font.fits(&mut 1_000_000), Ok(false));
    assert_eq!(font.outline(0), Err(Error::TooLong));
    assert_eq!(font.tight_bounds(0), Err(Error::TooLong));
    assert_eq!(font.flat_code(0), Err(Error::TooLong));
    assert_eq!(font.operations(0), Err(Error::TooLong));
    let unwritten = (font.with_limit(1000).flat(), font.with_limit(1000).subset(&[0]));
    assert!(matches!(unwritten, (Err(flat), Err(subset)) if flat.error == Error::TooLong && subset == flat));
    assert_eq!(Error::TooLong.to_string(), "the limit is used up");
}

/// Each beginning of the table, and each table with one byte changed, is opened and drawn, or refused.
#[test]
fn changed_bytes() {
    let bytes = bytes();
    let table = Font::from_file(&bytes, 0).unwrap().table().to_vec();
    for length in 0..table.len() {
        draw_all(&table[..length]);
    }
    for place in 0..table.len() {
        for byte in 0..=255 {
            let mut changed = table.clone();
            changed[place] = byte;
            draw_all(&changed);
        }
    }
}

fn draw_all(table: &[u8]) {
    if let Ok(font) = Font::from_table(table) {
        for outline in font.outlines().take(6).flatten() {
            let ends = outline.segments.iter().filter(|segment| matches!(segment, Segment::Close)).count();
            let starts = outline.segments.iter().filter(|segment| matches!(segment, Segment::MoveTo(_))).count();
            assert_eq!(starts, ends);
        }
        let _ = font.glyph_name(3);
    }
}

/// Fonts of Debian's packages, where they are installed: each glyph is drawn, and each has its name.
#[test]
fn installed_fonts() {
    let folder = std::path::Path::new("/usr/share/fonts/opentype");
    for name in ["ebgaramond/EBGaramond12-Regular.otf", "freefont/FreeSerif.otf"] {
        let bytes = match std::fs::read(folder.join(name)) {
            Ok(bytes) => bytes,
            Err(_) => continue,
        };
        let font = Font::from_file(&bytes, 0).unwrap();
        let glyph = font.glyph_index('A').unwrap();
        assert_eq!(font.glyph_name(glyph), Ok(Some(b"A".to_vec())));
        assert_eq!(font.glyph_named(b"A"), Ok(Some(glyph)));
        assert_eq!(font.outlines().filter(Result::is_err).count(), 0, "{name}");
    }
}
