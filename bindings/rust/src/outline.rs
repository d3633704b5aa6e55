//! Outlines.
use crate::c;
use alloc::string::String;
use alloc::vec::Vec;
use core::fmt::Write;

/// A point, in font units. Both coordinates are exact multiples of 1/65536.
///
/// ```
/// # let bytes = std::fs::read("examples/small.otf")?;
/// # let font = postscript::Font::from_file(&bytes, 0)?;
/// let outline = font.outline(font.glyph_index('A').ok_or("no such glyph")?)?;
/// assert_eq!(outline.bounds.map(|bounds| bounds.high), Some(postscript::Point { x: 500.0, y: 700.0 }));
/// # Ok::<(), Box<dyn std::error::Error>>(())
/// ```
#[derive(Clone, Copy, Debug, Default, PartialEq)]
pub struct Point {
    /// The horizontal coordinate.
    pub x: f64,
    /// The vertical coordinate, upwards.
    pub y: f64,
}

/// A segment of an outline.
///
/// ```
/// # let bytes = std::fs::read("examples/small.otf")?;
/// # let font = postscript::Font::from_file(&bytes, 0)?;
/// # use postscript::{Point, Segment};
/// let outline = font.outline(font.glyph_index('A').ok_or("no such glyph")?)?;
/// assert_eq!(outline.segments[1], Segment::LineTo(Point { x: 250.0, y: 700.0 }));
/// # Ok::<(), Box<dyn std::error::Error>>(())
/// ```
#[derive(Clone, Copy, Debug, PartialEq)]
pub enum Segment {
    /// Begins a contour.
    MoveTo(Point),
    /// A line.
    LineTo(Point),
    /// A Bézier curve: two control points and the end.
    CurveTo(Point, Point, Point),
    /// Closes the contour.
    Close,
}

/// A receiver of the segments of an outline, one call per segment, in order.
///
/// ```
/// # let bytes = std::fs::read("examples/small.otf")?;
/// # let font = postscript::Font::from_file(&bytes, 0)?;
/// # use postscript::Point;
/// /// Counts lines and curves.
/// struct Count(usize);
///
/// impl postscript::OutlineSink for Count {
///     fn move_to(&mut self, _: Point) {}
///     fn line_to(&mut self, _: Point) {
///         self.0 += 1;
///     }
///     fn curve_to(&mut self, _: Point, _: Point, _: Point) {
///         self.0 += 1;
///     }
///     fn close(&mut self) {}
/// }
///
/// let mut count = Count(0);
/// font.draw(font.glyph_index('A').ok_or("no such glyph")?, &mut count)?;
/// assert_eq!(count.0, 2);
/// # Ok::<(), Box<dyn std::error::Error>>(())
/// ```
pub trait OutlineSink {
    /// Begins a contour.
    fn move_to(&mut self, to: Point);
    /// A line.
    fn line_to(&mut self, to: Point);
    /// A Bézier curve: two control points and the end.
    fn curve_to(&mut self, first: Point, second: Point, to: Point);
    /// Closes the contour.
    fn close(&mut self);
}

/// A rectangle, in font units.
///
/// ```
/// # let bytes = std::fs::read("examples/small.otf")?;
/// # let font = postscript::Font::from_file(&bytes, 0)?;
/// let outline = font.outline(font.glyph_index('A').ok_or("no such glyph")?)?;
/// let bounds = outline.bounds.ok_or("no point")?;
/// assert_eq!((bounds.high.x - bounds.low.x, bounds.high.y - bounds.low.y), (500.0, 700.0));
/// # Ok::<(), Box<dyn std::error::Error>>(())
/// ```
#[derive(Clone, Copy, Debug, PartialEq)]
pub struct Bounds {
    /// The lower left corner.
    pub low: Point,
    /// The upper right corner.
    pub high: Point,
}

/// The advance and bounds of a glyph.
///
/// ```
/// # let bytes = std::fs::read("examples/small.otf")?;
/// # let font = postscript::Font::from_file(&bytes, 0)?;
/// let outline = font.outline(font.glyph_index('A').ok_or("no such glyph")?)?;
/// assert_eq!(outline.glyph().advance, 500.0);
/// # Ok::<(), Box<dyn std::error::Error>>(())
/// ```
#[derive(Clone, Copy, Debug, PartialEq)]
pub struct Glyph {
    /// The advance, in font units.
    pub advance: f64,
    /// The bounds of all points, including control points, or `None`.
    pub bounds: Option<Bounds>,
}

/// The outline of a glyph.
///
/// ```
/// # let bytes = std::fs::read("examples/small.otf")?;
/// # let font = postscript::Font::from_file(&bytes, 0)?;
/// let outline = font.outline(font.glyph_index('A').ok_or("no such glyph")?)?;
/// assert_eq!((outline.advance, outline.segments.len()), (500.0, 4));
/// # Ok::<(), Box<dyn std::error::Error>>(())
/// ```
#[derive(Clone, Debug, PartialEq)]
pub struct Outline {
    /// Contours, each from a [`Segment::MoveTo`] to a [`Segment::Close`].
    pub segments: Vec<Segment>,
    /// The advance, in font units.
    pub advance: f64,
    /// The bounds of all points, including control points, or `None`.
    pub bounds: Option<Bounds>,
}

fn point(x: i32, y: i32) -> Point {
    Point { x: f64::from(x) / 65536.0, y: f64::from(y) / 65536.0 }
}

fn segment(s: &c::Segment) -> Segment {
    let to = point(s.x, s.y);
    match s.kind {
        0 => Segment::MoveTo(to),
        1 => Segment::LineTo(to),
        2 => Segment::CurveTo(point(s.x1, s.y1), point(s.x2, s.y2), to),
        _ => Segment::Close,
    }
}

impl Bounds {
    pub(crate) fn of(told: c::Bounds) -> Option<Bounds> {
        let bounds = Bounds { low: point(told.left, told.bottom), high: point(told.right, told.top) };
        if told.has_bounds == 0 { None } else { Some(bounds) }
    }
}

impl Outline {
    pub(crate) fn of(segments: &[c::Segment], told: c::Glyph) -> Outline {
        let bounds = Bounds { low: point(told.left, told.bottom), high: point(told.right, told.top) };
        Outline {
            segments: segments.iter().map(segment).collect(),
            advance: told.advance as f64 / 65536.0,
            bounds: if told.has_bounds == 0 { None } else { Some(bounds) },
        }
    }

    /// The outline of a glyph at axis values. `advance` is in font units.
    pub(crate) fn at_place(segments: &[c::Segment], advance: i64, bounds: c::Bounds) -> Outline {
        Outline {
            segments: segments.iter().map(segment).collect(),
            advance: advance as f64,
            bounds: Bounds::of(bounds),
        }
    }

    /// Returns the advance and bounds.
    ///
    /// ```
    /// # let bytes = std::fs::read("examples/small.otf")?;
    /// # let font = postscript::Font::from_file(&bytes, 0)?;
    /// let outline = font.outline(font.glyph_index('A').ok_or("no such glyph")?)?;
    /// assert_eq!(outline.glyph().bounds, outline.bounds);
    /// # Ok::<(), Box<dyn std::error::Error>>(())
    /// ```
    pub fn glyph(&self) -> Glyph {
        Glyph { advance: self.advance, bounds: self.bounds }
    }

    /// Passes the segments to a sink, in order.
    ///
    /// ```
    /// # let bytes = std::fs::read("examples/small.otf")?;
    /// # let font = postscript::Font::from_file(&bytes, 0)?;
    /// let outline = font.outline(font.glyph_index('A').ok_or("no such glyph")?)?;
    /// #[derive(Default)]
    /// struct Points(Vec<postscript::Point>);
    /// # impl postscript::OutlineSink for Points {
    /// #     fn move_to(&mut self, to: postscript::Point) { self.0.push(to); }
    /// #     fn line_to(&mut self, to: postscript::Point) { self.0.push(to); }
    /// #     fn curve_to(&mut self, _: postscript::Point, _: postscript::Point, to: postscript::Point) { self.0.push(to); }
    /// #     fn close(&mut self) {}
    /// # }
    ///
    /// let mut points = Points::default();
    /// outline.draw(&mut points);
    /// assert_eq!(points.0.len(), 3);
    /// # Ok::<(), Box<dyn std::error::Error>>(())
    /// ```
    pub fn draw<S: OutlineSink + ?Sized>(&self, sink: &mut S) {
        for segment in &self.segments {
            match *segment {
                Segment::MoveTo(to) => sink.move_to(to),
                Segment::LineTo(to) => sink.line_to(to),
                Segment::CurveTo(first, second, to) => sink.curve_to(first, second, to),
                Segment::Close => sink.close(),
            }
        }
    }

    /// Returns SVG path data. The y axis goes up, so show it under `scale(1 -1)`.
    ///
    /// ```
    /// # let bytes = std::fs::read("examples/small.otf")?;
    /// # let font = postscript::Font::from_file(&bytes, 0)?;
    /// let outline = font.outline(font.glyph_index('A').ok_or("no such glyph")?)?;
    /// assert_eq!(outline.svg_path(), "M0 0L250 700L500 0Z");
    /// # Ok::<(), Box<dyn std::error::Error>>(())
    /// ```
    pub fn svg_path(&self) -> String {
        let mut path = String::new();
        for segment in &self.segments {
            // writing to a string cannot fail
            let _ = match segment {
                Segment::MoveTo(p) => write!(path, "M{} {}", p.x, p.y),
                Segment::LineTo(p) => write!(path, "L{} {}", p.x, p.y),
                Segment::CurveTo(a, b, p) => {
                    write!(path, "C{} {} {} {} {} {}", a.x, a.y, b.x, b.y, p.x, p.y)
                }
                Segment::Close => write!(path, "Z"),
            };
        }
        path
    }
}

impl<'a> IntoIterator for &'a Outline {
    type Item = &'a Segment;
    type IntoIter = core::slice::Iter<'a, Segment>;

    fn into_iter(self) -> Self::IntoIter {
        self.segments.iter()
    }
}
