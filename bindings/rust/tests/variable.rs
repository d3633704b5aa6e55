//! The variable font whose bytes `bindings/variable.hex` spells. tools/bindings/small_variable.py makes it, and prints what fontTools' instancer
//! draws of it: these rows.
use postscript::{Error, Font, VariableFont};

fn bytes() -> Vec<u8> {
    let text: String = include_str!("../../variable.hex").split_whitespace().collect();
    (0..text.len()).step_by(2).map(|i| u8::from_str_radix(&text[i..i + 2], 16).unwrap()).collect()
}

/// Coordinates, and at that place the advance of each glyph, and the paths of `A` and `o`.
type Row = (&'static [([u8; 4], f64)], [f64; 3], &'static str, &'static str);

const ROWS: [Row; 6] = [
    (&[], [500.0, 600.0, 560.0], "M50 0L250 700L450 0Z", "M40 250C40 370 120 470 240 470L300 250Z"),
    (&[(*b"wght", 900.0)], [500.0, 720.0, 640.0], "M70 0L310 700L550 0Z", "M48 250C48 410 168 510 288 510L360 250Z"),
    (&[(*b"wght", 650.0)], [500.0, 690.0, 620.0], "M65 0L295 700L525 0Z", "M46 250C46 400 156 500 276 500L345 250Z"),
    (&[(*b"wght", 100.0)], [500.0, 560.0, 540.0], "M40 0L200 700L360 0Z", "M36 250C36 350 116 450 224 450L284 250Z"),
    (&[(*b"opsz", 8.0)], [500.0, 400.0, 400.0], "M50 0L170 700L290 0Z", "M40 250C40 370 100 470 180 470L228 250Z"),
    (&[(*b"opsz", 12.0), (*b"wght", 650.0)], [500.0, 590.0, 540.0], "M65 0L255 700L445 0Z", "M46 250C46 400 146 500 246 500L309 250Z"),
];

/// Fonts and their places may be sent to other threads, and shared.
const _: () = {
    const fn are_shared<T: Send + Sync + 'static>() {}
    are_shared::<VariableFont<'static>>();
    are_shared::<(postscript::Place<'static>, postscript::Axis, postscript::Instance)>();
};

/// The font of the examples is that of the tests.
#[test]
fn the_font_of_the_examples() {
    assert_eq!(bytes(), include_bytes!("../examples/variable.otf"));
}

#[test]
fn glyphs_at_places() {
    let bytes = bytes();
    let font = VariableFont::from_file(&bytes, 0).unwrap();
    for (coordinates, advances, path, curved) in ROWS {
        let place = font.at(coordinates).unwrap();
        for (glyph, outline) in ["", path, curved].into_iter().enumerate() {
            let drawn = place.outline(glyph).unwrap();
            assert_eq!((drawn.advance, drawn.svg_path().as_str()), (advances[glyph], outline));
            assert_eq!(place.advance(glyph), Ok(advances[glyph]));
        }
    }
    let bounds = font.at(&[(*b"wght", 650.0)]).unwrap().outline(1).unwrap().bounds.unwrap();
    assert_eq!((bounds.low.x, bounds.low.y, bounds.high.x, bounds.high.y), (65.0, 0.0, 525.0, 700.0));
    assert_eq!(font.at(&[]).unwrap().outline(0).unwrap().bounds, None);
}

#[test]
fn axes_and_instances() {
    let bytes = bytes();
    let font = VariableFont::from_file(&bytes, 0).unwrap();
    let axes: Vec<_> = font.axes().unwrap().iter().map(|a| (a.tag, a.minimum, a.default, a.maximum, a.is_hidden, a.name)).collect();
    assert_eq!(axes, [(*b"wght", 100.0, 400.0, 900.0, false, 256), (*b"opsz", 8.0, 16.0, 16.0, true, 257)]);
    let instances = font.instances().unwrap();
    assert_eq!(instances.len(), 2);
    assert_eq!(instances[1].coordinates, [(*b"wght", 900.0), (*b"opsz", 12.5)]);
    assert_eq!((instances[0].name, instances[0].postscript_name), (258, None));
    assert_eq!((instances[1].name, instances[1].postscript_name), (259, Some(260)));
}

#[test]
fn coordinates_outside_of_an_axis() {
    let bytes = bytes();
    let font = VariableFont::from_file(&bytes, 0).unwrap();
    let (far, end) = ([(*b"wght", 1e300), (*b"opsz", -1e300)], [(*b"wght", 900.0), (*b"opsz", 8.0)]);
    assert_eq!(font.at(&far).unwrap().outline(1), font.at(&end).unwrap().outline(1));
    assert_eq!(font.at(&[(*b"wght", 650.0), (*b"wght", 900.0)]).unwrap().advance(1), Ok(720.0));
}

/// A location as a file: its glyphs draw as the variable font does there.
#[test]
fn files_of_places() {
    let bytes = bytes();
    let font = VariableFont::from_file(&bytes, 0).unwrap();
    for (coordinates, advances, path, curved) in ROWS {
        let place = font.at(coordinates).unwrap();
        let (exact, rounded) = (place.file().unwrap(), place.rounded_file().unwrap());
        for file in [&exact, &rounded] {
            let (fixed, metrics) = (Font::from_file(file, 0).unwrap(), VariableFont::from_file(file, 0).unwrap());
            assert_eq!((fixed.glyph_index('A'), metrics.axes()), (Some(1), Ok(vec![])));
            for (glyph, outline) in ["", path, curved].into_iter().enumerate() {
                let drawn = fixed.outline(glyph).unwrap();
                assert_eq!((drawn.advance, drawn.svg_path().as_str()), (advances[glyph], outline));
                assert_eq!(metrics.at(&[]).unwrap().advance(glyph), Ok(advances[glyph]));
            }
        }
    }
    let place = font.at(&[(*b"wght", 433.0)]).unwrap();
    let points = |file: Vec<u8>| Font::from_file(&file, 0).unwrap().outline(1).unwrap().svg_path();
    assert_eq!(points(place.file().unwrap()), place.outline(1).unwrap().svg_path());
    assert_ne!(points(place.rounded_file().unwrap()), place.outline(1).unwrap().svg_path());
}

#[test]
fn refusals_of_files() {
    let mut bytes = bytes();
    assert_eq!(VariableFont::from_file(&bytes, 0).unwrap().with_limit(0).at(&[]).unwrap().file().unwrap_err().error, Error::TooLong);
    let small = VariableFont::from_file(include_bytes!("../examples/small.otf"), 0).unwrap();
    assert_eq!(small.at(&[]).unwrap().file().unwrap_err().error, Error::NotVariable);
    let tag = bytes.windows(4).position(|tag| tag == b"HVAR").unwrap();
    bytes[tag] = b'J';
    assert!(VariableFont::from_file(&bytes, 0).unwrap().at(&[]).unwrap().file().is_ok());
    bytes[tag] = b'H';
    let place = u32::from_be_bytes(bytes[tag + 8..tag + 12].try_into().unwrap()) as usize;
    bytes[place + 1] = 2;
    let error = VariableFont::from_file(&bytes, 0).unwrap().at(&[]).unwrap().file().unwrap_err();
    assert_eq!((error.error, error.table), (Error::UnknownTable, Some(*b"HVAR")));
    assert_eq!(error.to_string(), "table \"HVAR\": a table has an unknown format");
}

#[test]
fn refusals() {
    let bytes = bytes();
    let font = VariableFont::from_file(&bytes, 0).unwrap();
    assert_eq!(font.at(&[(*b"wdth", 100.0)]).unwrap_err(), Error::NoAxis);
    let place = font.at(&[]).unwrap();
    assert_eq!(place.outline(3).unwrap_err(), Error::NoGlyph);
    assert_eq!(place.advance(65536).unwrap_err(), Error::NoGlyph);
    assert_eq!(font.with_limit(5).at(&[]).unwrap().outline(1).unwrap_err(), Error::TooLong);
    // three regions of two axes cost six units
    assert_eq!([5, 6].map(|limit| font.with_limit(limit).at(&[]).unwrap().advance(1)), [Err(Error::TooLong), Ok(600.0)]);
    assert_eq!(Font::from_file(&bytes, 0).unwrap_err(), Error::NoTable);
    assert_eq!(VariableFont::from_file(&bytes[..3], 0).unwrap_err(), Error::CutFile);
}

/// A font without axes. It has no table `hmtx` either, so that an outline has no advance.
#[test]
fn a_font_without_axes() {
    let bytes = include_bytes!("../examples/small.otf");
    let font = VariableFont::from_file(bytes, 0).unwrap();
    assert_eq!((font.axes(), font.instances(), font.glyph_count()), (Ok(vec![]), Ok(vec![]), Ok(4)));
    assert_eq!(font.at(&[(*b"wght", 400.0)]).unwrap_err(), Error::NoAxis);
    assert_eq!(font.at(&[]).unwrap().outline(4).unwrap_err(), Error::NoGlyph);
    assert_eq!(font.at(&[]).unwrap().outline(2).unwrap_err(), Error::NoTable);
    assert_eq!(font.with_limit(5).at(&[]).unwrap().outline(3).unwrap_err(), Error::TooLong);
}

/// Each call answers, whatever byte is another.
#[test]
fn changed_bytes() {
    for place in 0..bytes().len() {
        let mut bytes = bytes();
        bytes[place] ^= 0xff;
        if let Ok(font) = VariableFont::from_file(&bytes, 0) {
            let _ = font.instances();
            if let Ok(at) = font.at(&[]) {
                let _ = (at.file(), at.rounded_file());
                for glyph in 0..4 {
                    let _ = (at.outline(glyph), at.advance(glyph));
                }
            }
        }
    }
}
