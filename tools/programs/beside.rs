//! Times a glyph's outline from C, compared with HarfBuzz, FreeType and ttf-parser, in turn in one process. See tools/speed/beside.sh.
use std::ffi::{c_char, c_int, c_uint, c_void, CStr};
use std::hint::black_box;
use std::time::Instant;
use ttf_parser::{cff, GlyphId, OutlineBuilder};

const ROUNDS: usize = 20;

#[repr(C)]
#[derive(Clone, Copy, Default)]
struct Segment {
    kind: u32,
    points: [i32; 6],
}

extern "C" {
    fn psf_font_open(cff: *const u8, length: usize, font: *mut [u64; 10]) -> i32;
    fn psf_glyph_outline(
        cff: *const u8, length: usize, font: *const [u64; 10], glyph: usize, segments: *mut Segment, room: usize, count: *mut usize, glyph: *mut [u64; 4],
    ) -> i32;
    fn ft_open(file: *const u8, length: usize) -> *mut c_void;
    fn ft_glyph(face: *mut c_void, glyph: c_uint) -> c_int;
    fn hb_open(file: *const u8, length: usize) -> *mut c_void;
    fn hb_glyph(font: *mut c_void, glyph: c_uint) -> c_int;
    fn versions() -> *const c_char;
}

/// Stores the segments as ttf-parser passes them.
struct Kept(Vec<(u32, [f32; 6])>);

impl OutlineBuilder for Kept {
    fn move_to(&mut self, x: f32, y: f32) {
        self.0.push((0, [0.0, 0.0, 0.0, 0.0, x, y]))
    }
    fn line_to(&mut self, x: f32, y: f32) {
        self.0.push((1, [0.0, 0.0, 0.0, 0.0, x, y]))
    }
    fn quad_to(&mut self, _: f32, _: f32, _: f32, _: f32) {}
    fn curve_to(&mut self, x1: f32, y1: f32, x2: f32, y2: f32, x: f32, y: f32) {
        self.0.push((2, [x1, y1, x2, y2, x, y]))
    }
    fn close(&mut self) {
        self.0.push((3, [0.0; 6]))
    }
}

/// Runs the calls in turn, and returns the least time of each.
fn least<const N: usize>(mut calls: [&mut dyn FnMut(); N]) -> [f64; N] {
    let mut least = [f64::MAX; N];
    for _ in 0..ROUNDS {
        for (call, least) in calls.iter_mut().zip(&mut least) {
            let start = Instant::now();
            call();
            *least = least.min(start.elapsed().as_secs_f64());
        }
    }
    least
}

fn table_of(file: &[u8]) -> &[u8] {
    let face = ttf_parser::RawFace::from_slice(file, 0).expect("an OpenType file");
    face.table(ttf_parser::Tag::from_bytes(b"CFF ")).expect("a CFF table")
}

fn main() {
    println!("| Font | Glyphs | This library | HarfBuzz | FreeType | ttf-parser | Ratio to HarfBuzz | to FreeType | to ttf-parser |");
    println!("|---|---|---|---|---|---|---|---|---|");
    for name in std::env::args().skip(1) {
        let file = std::fs::read(&name).expect("a file");
        let cff = table_of(&file);
        let (mut font, mut segments, mut count, mut info) = ([0u64; 10], vec![Segment::default(); 1 << 14], 0, [0; 4]);
        assert_eq!(unsafe { psf_font_open(cff.as_ptr(), cff.len(), &mut font) }, 0);
        let parsed = cff::Table::parse(cff).expect("ttf-parser opens it");
        let glyphs = font[7] as u32;
        let mut kept = Kept(Vec::with_capacity(1 << 14));
        let (face, shaped) = unsafe { (ft_open(file.as_ptr(), file.len()), hb_open(file.as_ptr(), file.len())) };
        assert!(!face.is_null() && !shaped.is_null());
        let [ours, harfbuzz, freetype, parser] = least([
            &mut || for glyph in 0..glyphs {
                black_box(unsafe { psf_glyph_outline(cff.as_ptr(), cff.len(), &font, glyph as usize, segments.as_mut_ptr(), segments.len(), &mut count, &mut info) });
            },
            &mut || for glyph in 0..glyphs { black_box(unsafe { hb_glyph(shaped, glyph) }); },
            &mut || for glyph in 0..glyphs { black_box(unsafe { ft_glyph(face, glyph) }); },
            &mut || for glyph in 0..glyphs { kept.0.clear(); let _ = black_box(parsed.outline(GlyphId(glyph as u16), &mut kept)); },
        ]);
        let each = |time: f64| time * 1e6 / f64::from(glyphs);
        println!(
            "| {} | {glyphs} | {:.2} µs | {:.2} µs | {:.2} µs | {:.2} µs | {:.2} | {:.2} | {:.2} |",
            name.rsplit('/').next().unwrap_or(&name), each(ours), each(harfbuzz), each(freetype), each(parser), ours / harfbuzz, ours / freetype, ours / parser,
        );
    }
    println!("{}, ttf-parser {}; the least of {ROUNDS} rounds over all glyphs, by turns", unsafe { CStr::from_ptr(versions()) }.to_str().unwrap(), env!("TTF_PARSER"));
}
