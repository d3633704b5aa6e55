//! Compares the linked library with ttf-parser and FreeType in one process.
//!
//!     linked whole FONT..                 every glyph: our segments, theirs
//!     linked fuzz CASES SEED FONT..       changed tables: opened and drawn by us and by ttf-parser
//!     linked speed FONT..                 the time a glyph
use postscript::{Font, Point, Segment};
use std::collections::BTreeMap;
use std::hint::black_box;
use std::time::Instant;
use ttf_parser::{cff, GlyphId, OutlineBuilder};

/// A segment as numbers: its kind and its points.
type Plain = (u32, [f64; 6]);

extern "C" {
    fn ft_open(bytes: *const u8, length: usize) -> *mut u8;
    fn ft_close(face: *mut u8);
    fn ft_glyph(face: *mut u8, glyph: u32) -> i32;
    fn ft_segments(face: *mut u8, kinds: *mut u32, points: *mut f64, room: i32) -> i32;
}

#[repr(C)]
#[derive(Clone, Copy, Default)]
struct RawSegment {
    kind: u32,
    points: [i32; 6],
}

/// A `psf_font` as ten numbers of eight bytes; the last but one includes padding.
type Numbers = [u64; 10];

extern "C" {
    fn psf_font_open(bytes: *const u8, length: usize, font: *mut Numbers) -> i32;
    fn psf_glyph_outline(
        bytes: *const u8, length: usize, font: *const Numbers, glyph: usize,
        segments: *mut RawSegment, room: usize, count: *mut usize, info: *mut [u64; 4],
    ) -> i32;
}

#[derive(Default)]
struct Kept(Vec<Plain>);

impl OutlineBuilder for Kept {
    fn move_to(&mut self, x: f32, y: f32) {
        self.0.push((0, [0.0, 0.0, 0.0, 0.0, x.into(), y.into()]))
    }
    fn line_to(&mut self, x: f32, y: f32) {
        self.0.push((1, [0.0, 0.0, 0.0, 0.0, x.into(), y.into()]))
    }
    fn quad_to(&mut self, _: f32, _: f32, _: f32, _: f32) {}
    fn curve_to(&mut self, x1: f32, y1: f32, x2: f32, y2: f32, x: f32, y: f32) {
        self.0.push((2, [x1.into(), y1.into(), x2.into(), y2.into(), x.into(), y.into()]))
    }
    fn close(&mut self) {
        self.0.push((3, [0.0; 6]))
    }
}

fn plain(segment: &Segment) -> Plain {
    let none = Point::default();
    let (kind, a, b, p) = match *segment {
        Segment::MoveTo(p) => (0, none, none, p),
        Segment::LineTo(p) => (1, none, none, p),
        Segment::CurveTo(a, b, p) => (2, a, b, p),
        Segment::Close => (3, none, none, none),
    };
    (kind, [a.x, a.y, b.x, b.y, p.x, p.y])
}

struct Random(u64);

impl Random {
    fn next(&mut self) -> u64 {
        self.0 ^= self.0 << 13;
        self.0 ^= self.0 >> 7;
        self.0 ^= self.0 << 17;
        self.0
    }
    fn below(&mut self, n: usize) -> usize {
        (self.next() % n as u64) as usize
    }
}

/// Returns whether two outlines have equal segments, with coordinates that differ by at most `most`.
fn same(a: &[Plain], b: &[Plain], most: f64) -> bool {
    a.len() == b.len() && a.iter().zip(b).all(|(p, q)| p.0 == q.0 && (0..6).all(|i| (p.1[i] - q.1[i]).abs() <= most))
}

/// Describes how two outlines differ.
fn difference(a: &[Plain], b: &[Plain]) -> &'static str {
    if a.iter().map(|s| s.0).eq(b.iter().map(|s| s.0)) {
        "other coordinates"
    } else if a.len() < b.len() {
        "we have fewer segments"
    } else {
        "we have more segments, or others"
    }
}

/// Returns whether an outline has only empty contours.
fn is_empty(a: &[Plain]) -> bool {
    a.iter().all(|s| s.0 == 0 || s.0 == 3)
}

/// Rounds a coordinate as FreeType does: to 1/1024, then down to a whole unit.
fn whole_of(x: f64) -> f64 {
    ((x * 1024.0).round() / 1024.0).floor()
}

/// Converts an outline to FreeType's form: in whole units, without lines of no length, without the line back to the start of a contour,
/// and without contours of one point.
fn as_freetype(segments: &[Plain]) -> Vec<Plain> {
    let mut kept: Vec<Plain> = Vec::new();
    let (mut start, mut at, mut first) = ([0.0; 2], [0.0; 2], 0);
    let close = |kept: &mut Vec<Plain>, first: usize, start: [f64; 2]| {
        if matches!(kept.last(), Some(s) if s.0 == 1 && [s.1[4], s.1[5]] == start) {
            kept.pop();
        }
        if kept.len() <= first + 1 {
            kept.truncate(first);
        }
    };
    for s in segments {
        let s = (s.0, s.1.map(whole_of));
        let to = [s.1[4], s.1[5]];
        match s.0 {
            0 => {
                close(&mut kept, first, start);
                (start, first) = (to, kept.len());
            }
            1 if to == at => continue,
            3 => continue,
            _ => {}
        }
        at = to;
        kept.push(s);
    }
    close(&mut kept, first, start);
    kept
}

/// Returns the greatest absolute value of a coordinate.
fn size_of(segments: &[Plain]) -> f64 {
    segments.iter().flat_map(|s| s.1).fold(0.0, |most, x| x.abs().max(most))
}

/// Returns whether two outlines are equal up to a factor. The first glyph compared in a font determines the factor.
fn enlarged(ours: &[Plain], theirs: &[Plain], factor: &mut Option<f64>) -> bool {
    let by = *factor.get_or_insert_with(|| size_of(theirs) / size_of(ours));
    let ours: Vec<Plain> = ours.iter().map(|s| (s.0, s.1.map(|x| x * by))).collect();
    same(&as_freetype(&ours), &as_freetype(theirs), 1.0)
}

struct FreeType {
    face: *mut u8,
    kinds: Vec<u32>,
    points: Vec<f64>,
}

impl FreeType {
    fn open(bytes: &[u8]) -> Option<FreeType> {
        let face = unsafe { ft_open(bytes.as_ptr(), bytes.len()) };
        let room = 1 << 16;
        (!face.is_null()).then(|| FreeType { face, kinds: vec![0; room], points: vec![0.0; 6 * room] })
    }
    fn outline(&mut self, glyph: usize) -> Option<Vec<Plain>> {
        if unsafe { ft_glyph(self.face, glyph as u32) } < 0 {
            return None;
        }
        let room = self.kinds.len() as i32;
        let n = unsafe { ft_segments(self.face, self.kinds.as_mut_ptr(), self.points.as_mut_ptr(), room) } as usize;
        Some((0..n).map(|i| (self.kinds[i], std::array::from_fn(|k| self.points[6 * i + k]))).collect())
    }
}

impl Drop for FreeType {
    fn drop(&mut self) {
        unsafe { ft_close(self.face) }
    }
}

/// Returns whether two outlines have the same contours to a unit, in any order: FreeType draws the accent before the base.
fn same_contours(a: &[Plain], b: &[Plain]) -> bool {
    let contours = |outline: &[Plain]| -> Vec<Vec<Plain>> {
        let kept = as_freetype(outline);
        let mut begins: Vec<usize> = (0..kept.len()).filter(|i| kept[*i].0 == 0).collect();
        begins.push(kept.len());
        begins.windows(2).map(|pair| kept[pair[0]..pair[1]].to_vec()).collect()
    };
    let (a, mut left) = (contours(a), contours(b));
    let all = a.iter().all(|contour| match left.iter().position(|other| same(contour, other, 1.0)) {
        Some(at) => { left.swap_remove(at); true }
        None => false,
    });
    all && left.is_empty()
}

/// Says whose outline FreeType draws, if we and ttf-parser draw a glyph differently.
fn as_whose(bytes: &[u8], glyph: usize, ours: &[Plain], theirs: &[Plain]) -> &'static str {
    let Some(free) = FreeType::open(bytes).and_then(|mut face| face.outline(glyph)) else {
        return "FreeType draws nothing";
    };
    match (same_contours(ours, &free), same_contours(theirs, &free)) {
        (true, true) => "FreeType as both do",
        (true, false) => "FreeType as we do",
        (false, true) => "FreeType as they do",
        (false, false) => "FreeType as neither does",
    }
}

fn count(classes: &mut BTreeMap<String, (u64, String)>, class: String, first: impl FnOnce() -> String) {
    classes.entry(class).or_insert_with(|| (0, first())).0 += 1;
}

fn print(classes: &BTreeMap<String, (u64, String)>) {
    for (class, (n, first)) in classes {
        println!("    {n:8}  {class}{}{first}", if first.is_empty() { "" } else { "; first: " });
    }
}

/// Compares every glyph of unchanged fonts.
fn whole(files: &[(String, Vec<u8>)]) -> bool {
    let (mut parser, mut freetype) = (BTreeMap::new(), BTreeMap::new());
    let (mut fonts, mut glyphs, mut kept) = (0, 0, Kept::default());
    for (name, file) in files {
        let Ok(ours) = Font::from_file(file, 0) else { continue };
        let theirs = cff::Table::parse(ours.table());
        let mut others = FreeType::open(ours.table());
        fonts += 1;
        let mut factor = None;
        for glyph in 0..ours.glyph_count() {
            glyphs += 1;
            let place = || format!("{name}, glyph {glyph}");
            let drawn = ours.outline(glyph).map(|outline| outline.segments.iter().map(plain).collect::<Vec<_>>());
            kept.0.clear();
            let their = match &theirs {
                Some(table) => table.outline(GlyphId(glyph as u16), &mut kept).map(|_| ()).map_err(|e| format!("{e:?}")),
                None => Err("no table".into()),
            };
            let class = match (&drawn, their) {
                (Ok(s), Ok(())) if same(s, &kept.0, 0.05) => "the same".into(),
                (Ok(s), Ok(())) => difference(s, &kept.0).into(),
                (Ok(s), Err(e)) if e == "ZeroBBox" && is_empty(s) => "the same, empty".into(),
                (a, b) => format!("we answer {:?}, they {b:?}", a.as_ref().map(|_| ())),
            };
            count(&mut parser, class.clone(), || if class.starts_with("the same") { String::new() } else { place() });
            let class = match (&drawn, others.as_mut().and_then(|face| face.outline(glyph))) {
                (Ok(s), Some(t)) if same(&as_freetype(s), &as_freetype(&t), 0.0) => "the same".to_string(),
                (Ok(s), Some(t)) if same(&as_freetype(s), &as_freetype(&t), 1.0) => "the same, but for a unit by rounding".to_string(),
                (Ok(s), Some(t)) if ours.is_cid_keyed() && enlarged(s, &t, &mut factor) => "the same, enlarged by FontMatrix".to_string(),
                (Ok(s), Some(t)) => difference(&as_freetype(s), &as_freetype(&t)).into(),
                (a, b) => format!("we answer {:?}, they {:?}", a.as_ref().map(|_| ()), b.map(|_| ())),
            };
            count(&mut freetype, class.clone(), || if class.starts_with("the same") { String::new() } else { place() });
        }
    }
    println!("{fonts} fonts, {glyphs} glyphs; beside ttf-parser:");
    print(&parser);
    println!("beside FreeType:");
    print(&freetype);
    parser.keys().chain(freetype.keys()).all(|class| class.starts_with("the same"))
}

/// Returns the range of a glyph's charstring, by the INDEX of an unchanged table.
fn code_of(bytes: &[u8], place: usize, glyph: usize) -> (usize, usize) {
    let number = |at: usize, size: usize| bytes[at..at + size].iter().fold(0usize, |n, b| n << 8 | *b as usize);
    let (count, size) = (number(place, 2), number(place + 2, 1));
    let data = place + 2 + (count + 1) * size;
    (data + number(place + 3 + glyph * size, size), data + number(place + 3 + (glyph + 1) * size, size))
}

/// Returns how we and ttf-parser disagree about a changed table, if they do.
fn disagreement(bytes: &[u8], glyph: usize, kept: &mut Kept, both: &mut u64) -> Option<String> {
    let (ours, theirs) = match (Font::from_table(bytes), cff::Table::parse(bytes)) {
        (Err(_), None) => return None,
        (Err(e), Some(_)) => return Some(format!("font: we refuse with {}, they open", e.status())),
        (Ok(_), None) => return Some("font: we open, they refuse".into()),
        (Ok(ours), Some(theirs)) => (ours, theirs),
    };
    *both += 1;
    kept.0.clear();
    let their = theirs.outline(GlyphId(glyph as u16), kept).map_err(|e| format!("{e:?}"));
    match (ours.outline(glyph), their) {
        (Err(_), Err(_)) => None,
        (Err(e), Ok(_)) => Some(format!("glyph: we refuse with {}, they draw", e.status())),
        (Ok(outline), their) => {
            let segments: Vec<Plain> = outline.segments.iter().map(plain).collect();
            match their {
                Err(e) if e == "ZeroBBox" && is_empty(&segments) => None,
                Err(e) => Some(format!("glyph: we draw, they refuse with {e}")),
                Ok(_) if same(&segments, &kept.0, 0.05) => None,
                Ok(_) => Some(format!(
                    "glyph: both draw, {}, {}",
                    difference(&segments, &kept.0),
                    as_whose(bytes, glyph, &segments, &kept.0)
                )),
            }
        }
    }
}

fn fuzz(cases: u64, seed: u64, files: &[(String, Vec<u8>)]) -> bool {
    let mut random = Random(seed * 2 + 1);
    let fonts: Vec<Font> = files.iter().filter_map(|(_, file)| Font::from_file(file, 0).ok()).collect();
    let places: Vec<usize> = fonts.iter().map(|font| {
        let mut numbers: Numbers = [0; 10];
        unsafe { psf_font_open(font.table().as_ptr(), font.table().len(), &mut numbers) };
        numbers[0] as usize
    }).collect();
    let (mut classes, mut kept, mut both, mut done) = (BTreeMap::new(), Kept::default(), 0, 0);
    let from = Instant::now();
    while done < cases {
        let t = random.below(fonts.len());
        let whole = fonts[t].table();
        let mut bytes = whole.to_vec();
        for _ in 0..200.min(cases - done) {
            let glyph = random.below(fonts[t].glyph_count());
            let (low, high) = code_of(whole, places[t], glyph);
            let mut undo = Vec::new();
            for _ in 0..1 + random.below(4) {
                // in the first bytes with the DICTs, anywhere, or mostly in the charstring of the glyph
                let at = match random.below(8) {
                    0 => random.below(64.min(bytes.len())),
                    1 => random.below(bytes.len()),
                    _ if low < high => low + random.below(high - low),
                    _ => continue,
                };
                undo.push((at, bytes[at]));
                bytes[at] = if random.below(2) == 0 { random.next() as u8 } else { bytes[at] ^ (1 << random.below(8)) };
            }
            done += 1;
            if let Some(class) = disagreement(&bytes, glyph, &mut kept, &mut both) {
                let code: String = bytes[low..high.min(low + 24)].iter().map(|b| format!("{b:02x}")).collect();
                count(&mut classes, class, || code);
            }
            for (at, byte) in undo.into_iter().rev() {
                bytes[at] = byte
            }
        }
    }
    let time = from.elapsed().as_secs_f64();
    println!("{done} changed tables, seed {seed}, {:.0} a second; both opened {both}; disagreements:", done as f64 / time);
    print(&classes);
    let is_wrong = |class: &String| class.starts_with("glyph: both draw, other") && !class.contains("FreeType as we do");
    !classes.keys().any(is_wrong)
}

fn timed(what: &mut dyn FnMut()) -> f64 {
    let from = Instant::now();
    what();
    from.elapsed().as_secs_f64()
}

/// Runs the calls in turn, twenty times, and returns the least time of each.
fn least<const N: usize>(mut what: [&mut dyn FnMut(); N]) -> [f64; N] {
    let mut times = [f64::MAX; N];
    for _ in 0..20 {
        for (time, what) in times.iter_mut().zip(&mut what) {
            *time = time.min(timed(what));
        }
    }
    times
}

/// Prints the least of twenty times over all glyphs, each library in turn. Each one stores its segments.
fn speed(files: &[(String, Vec<u8>)]) {
    println!("| font | glyphs | opened in | a glyph | ttf-parser | FreeType |\n|---|---|---|---|---|---|");
    for (name, file) in files {
        let Ok(font) = Font::from_file(file, 0) else { continue };
        let (bytes, glyphs) = (font.table(), font.glyph_count());
        let mut numbers: Numbers = [0; 10];
        let [open] = least([&mut || for _ in 0..100 { black_box(unsafe { psf_font_open(bytes.as_ptr(), bytes.len(), &mut numbers) }); }]);
        let mut segments = vec![RawSegment::default(); 1 << 14];
        let (mut count, mut info) = (0, [0; 4]);
        let table = cff::Table::parse(bytes).expect("ttf-parser opens it");
        let mut kept = Raw(Vec::with_capacity(1 << 14));
        let face = FreeType::open(bytes).expect("FreeType opens it");
        let [ours, theirs, free] = least([
            &mut || for glyph in 0..glyphs {
                black_box(unsafe { psf_glyph_outline(bytes.as_ptr(), bytes.len(), &numbers, glyph, segments.as_mut_ptr(), segments.len(), &mut count, &mut info) });
            },
            &mut || for glyph in 0..glyphs { kept.0.clear(); let _ = black_box(table.outline(GlyphId(glyph as u16), &mut kept)); },
            &mut || for glyph in 0..glyphs { black_box(unsafe { ft_glyph(face.face, glyph as u32) }); },
        ]);
        let each = |time: f64| time * 1e6 / glyphs as f64;
        println!("| {name} | {glyphs} | {:.1} µs | {:.2} µs | {:.2} µs | {:.2} µs |", open * 1e4, each(ours), each(theirs), each(free));
    }
}

/// Stores the segments as ttf-parser passes them.
struct Raw(Vec<(u32, [f32; 6])>);

impl OutlineBuilder for Raw {
    fn move_to(&mut self, x: f32, y: f32) {
        self.0.push((0, [0.0, 0.0, 0.0, 0.0, x, y]))
    }
    fn line_to(&mut self, x: f32, y: f32) {
        self.0.push((1, [0.0, 0.0, 0.0, 0.0, x, y]))
    }
    fn quad_to(&mut self, _: f32, _: f32, _: f32, _: f32) {}
    fn curve_to(&mut self, x1: f32, y1: f32, x2: f32, y2: f32, x: f32, y: f32) {
        self.0.push((2, [x1, y1, x2, y2, x, y]))
    }
    fn close(&mut self) {
        self.0.push((3, [0.0; 6]))
    }
}

fn main() {
    let arguments: Vec<String> = std::env::args().skip(1).collect();
    let read = |names: &[String]| -> Vec<(String, Vec<u8>)> {
        names.iter().map(|name| {
            let short = name.rsplit('/').next().unwrap_or(name).to_string();
            (short, std::fs::read(name).expect(name))
        }).collect()
    };
    let good = match arguments[0].as_str() {
        "whole" => whole(&read(&arguments[1..])),
        "fuzz" => fuzz(arguments[1].parse().expect("a number"), arguments[2].parse().expect("a seed"), &read(&arguments[3..])),
        _ => { speed(&read(&arguments[1..])); true }
    };
    std::process::exit(if good { 0 } else { 1 });
}
