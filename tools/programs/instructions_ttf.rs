//! Draws each glyph of a font file by `ttf_parser`, and drops the result. The arguments are the file, and the number of rounds over all
//! glyphs. The program prints the number of segments drawn.

use std::env;
use std::fs;
use ttf_parser::{Face, GlyphId, OutlineBuilder};

/// Counts the segments drawn.
struct Drawn(u64);

impl OutlineBuilder for Drawn {
    fn move_to(&mut self, _: f32, _: f32) {
        self.0 += 1;
    }

    fn line_to(&mut self, _: f32, _: f32) {
        self.0 += 1;
    }

    fn quad_to(&mut self, _: f32, _: f32, _: f32, _: f32) {
        self.0 += 1;
    }

    fn curve_to(&mut self, _: f32, _: f32, _: f32, _: f32, _: f32, _: f32) {
        self.0 += 1;
    }

    fn close(&mut self) {}
}

fn main() {
    let mut words = env::args().skip(1);
    let bytes = fs::read(words.next().unwrap()).unwrap();
    let rounds: u32 = words.next().unwrap().parse().unwrap();
    let face = Face::from_slice(&bytes, 0).unwrap();
    let mut drawn = Drawn(0);
    for _ in 0..rounds {
        for number in 0..face.number_of_glyphs() {
            face.outline_glyph(GlyphId(number), &mut drawn);
        }
    }
    println!("{}", drawn.0);
}
