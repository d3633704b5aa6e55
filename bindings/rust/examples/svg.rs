//! svg FONT CHARACTER: prints the glyph of a character as an SVG picture.
use postscript::Font;
use std::error::Error;

fn main() -> Result<(), Box<dyn Error>> {
    let mut arguments = std::env::args().skip(1);
    let (file, text) = match (arguments.next(), arguments.next()) {
        (Some(file), Some(text)) => (file, text),
        _ => return Err("usage: svg FONT CHARACTER".into()),
    };
    let bytes = std::fs::read(file)?;
    let font = Font::from_file(&bytes, 0)?;
    let character = text.chars().next().ok_or("a character is wanted")?;
    let outline = font.outline(font.glyph_index(character).unwrap_or(0))?;
    let (low, high) = match outline.bounds {
        Some(bounds) => (bounds.low, bounds.high),
        None => Default::default(),
    };
    println!(
        "<svg xmlns=\"http://www.w3.org/2000/svg\" viewBox=\"{} {} {} {}\"><path transform=\"scale(1 -1)\" d=\"{}\"/></svg>",
        low.x,
        -high.y,
        high.x - low.x,
        high.y - low.y,
        outline.svg_path()
    );
    Ok(())
}
