//! Variable fonts.
use crate::c;
use crate::error::{Error, Result};
use crate::outline::{Glyph, Outline, OutlineSink};
use crate::write::WriteError;
use alloc::vec::Vec;

/// An axis of a variable font. Its values are user coordinates: exact multiples of 1/65536.
///
/// ```
/// # let bytes = std::fs::read("examples/variable.otf")?;
/// # let font = postscript::VariableFont::from_file(&bytes, 0)?;
/// let axis = font.axes()?[0];
/// assert_eq!((&axis.tag, axis.minimum, axis.default, axis.maximum), (b"wght", 100.0, 400.0, 900.0));
/// # Ok::<(), Box<dyn std::error::Error>>(())
/// ```
#[derive(Clone, Copy, Debug, PartialEq)]
pub struct Axis {
    /// Its tag.
    pub tag: [u8; 4],
    /// Its minimum.
    pub minimum: f64,
    /// Its default value.
    pub default: f64,
    /// Its maximum.
    pub maximum: f64,
    /// Whether it should not be shown to users.
    pub is_hidden: bool,
    /// Its name ID in the `name` table.
    pub name: u16,
}

/// A named instance of a variable font.
///
/// ```
/// # let bytes = std::fs::read("examples/variable.otf")?;
/// # let font = postscript::VariableFont::from_file(&bytes, 0)?;
/// let instance = &font.instances()?[0];
/// assert_eq!(instance.coordinates, [(*b"wght", 650.0), (*b"opsz", 16.0)]);
/// assert_eq!(font.at(&instance.coordinates)?.advance(1)?, 690.0);
/// # Ok::<(), Box<dyn std::error::Error>>(())
/// ```
#[derive(Clone, Debug, PartialEq)]
pub struct Instance {
    /// Its user coordinates, for [`VariableFont::at`].
    pub coordinates: Vec<([u8; 4], f64)>,
    /// Its name ID in the `name` table.
    pub name: u16,
    /// The name ID of its PostScript name, if it has one.
    pub postscript_name: Option<u16>,
}

/// A face with a `CFF2` or `CFF ` table, in place: the bytes are borrowed, and nothing is copied. A font with a `CFF ` table has no
/// axes, and `at(&[])` is its only location.
///
/// ```
/// let bytes = std::fs::read("examples/variable.otf")?;
/// let font = postscript::VariableFont::from_file(&bytes, 0)?;
/// let outline = font.at(&[(*b"wght", 650.0), (*b"opsz", 12.0)])?.outline(1)?;
/// assert_eq!((outline.advance, outline.svg_path().as_str()), (590.0, "M65 0L255 700L445 0Z"));
/// # Ok::<(), Box<dyn std::error::Error>>(())
/// ```
#[derive(Clone, Copy, Debug)]
pub struct VariableFont<'a> {
    file: &'a [u8],
    face: usize,
    cmap: Option<&'a [u8]>,
    limit: u64,
}

impl<'a> VariableFont<'a> {
    /// Opens a face of an OpenType file, counted from 0.
    ///
    /// ```
    /// # let bytes = std::fs::read("examples/variable.otf")?;
    /// let font = postscript::VariableFont::from_file(&bytes, 0)?;
    /// assert_eq!(postscript::VariableFont::from_file(&bytes, 1).unwrap_err(), postscript::Error::NoFace);
    /// # Ok::<(), Box<dyn std::error::Error>>(())
    /// ```
    ///
    /// # Errors
    ///
    /// [`Error::CutFile`], [`Error::UnknownFile`] or [`Error::NoFace`] if the file has no such face; [`Error::NoTable`] if the face has
    /// neither table; [`Error::OtherVersion`] if the linked library has another version than this crate. Tables are read when they are
    /// needed.
    pub fn from_file(file: &'a [u8], face: usize) -> Result<Self> {
        match c::table(file, face, *b"CFF2") {
            Err(Error::NoTable) => c::table(file, face, *b"CFF ")?,
            table => table?,
        };
        let cmap = match c::table(file, face, *b"cmap") {
            Ok(cmap) => Some(cmap),
            Err(Error::NoTable) => None,
            Err(e) => return Err(e),
        };
        Ok(VariableFont { file, face, cmap, limit: crate::LIMIT })
    }

    /// Returns the number of glyphs in the `CFF2` or `CFF ` table.
    ///
    /// ```
    /// # let bytes = std::fs::read("examples/variable.otf")?;
    /// # let font = postscript::VariableFont::from_file(&bytes, 0)?;
    /// assert_eq!(font.glyph_count()?, 3);
    /// # Ok::<(), Box<dyn std::error::Error>>(())
    /// ```
    ///
    /// # Errors
    ///
    /// Those from [`Error::Cff2Header`] to [`Error::Cff2Store`]; for a `CFF ` table those of
    /// [`Font::from_table`](crate::Font::from_table).
    pub fn glyph_count(&self) -> Result<usize> {
        c::variable_glyphs(self.file, self.face)
    }

    /// Returns the axes, in order. There are none without an `fvar` table.
    ///
    /// ```
    /// # let bytes = std::fs::read("examples/variable.otf")?;
    /// # let font = postscript::VariableFont::from_file(&bytes, 0)?;
    /// let tags: Vec<[u8; 4]> = font.axes()?.iter().map(|axis| axis.tag).collect();
    /// assert_eq!(tags, [*b"wght", *b"opsz"]);
    /// # Ok::<(), Box<dyn std::error::Error>>(())
    /// ```
    ///
    /// # Errors
    ///
    /// [`Error::CutFvar`] and [`Error::UnknownFvar`].
    pub fn axes(&self) -> Result<Vec<Axis>> {
        let mut axes = Vec::new();
        loop {
            match c::axis(self.file, self.face, axes.len()) {
                Ok((axis, _)) => axes.push(Axis::of(axis)),
                Err(Error::NoAxis) | Err(Error::NoTable) => return Ok(axes),
                Err(e) => return Err(e),
            }
        }
    }

    /// Returns the named instances, in order. There are none without an `fvar` table.
    ///
    /// ```
    /// # let bytes = std::fs::read("examples/variable.otf")?;
    /// # let font = postscript::VariableFont::from_file(&bytes, 0)?;
    /// let names: Vec<_> = font.instances()?.iter().map(|instance| (instance.name, instance.postscript_name)).collect();
    /// assert_eq!(names, [(258, None), (259, Some(260))]);
    /// # Ok::<(), Box<dyn std::error::Error>>(())
    /// ```
    ///
    /// # Errors
    ///
    /// Those of [`VariableFont::axes`], and [`Error::Memory`].
    pub fn instances(&self) -> Result<Vec<Instance>> {
        let axes = self.axes()?;
        let mut instances = Vec::new();
        loop {
            match c::instance(self.file, self.face, instances.len()) {
                Ok((instance, numbers)) => instances.push(Instance::of(instance, &axes, &numbers)),
                Err(Error::NoInstance) | Err(Error::NoTable) => return Ok(instances),
                Err(e) => return Err(e),
            }
        }
    }

    /// Selects axis values, as user coordinates. Missing axes have their defaults. If a tag occurs several times, the last one counts.
    /// Values are clamped to their axis. The scalars of the location are computed here, once for all glyphs.
    ///
    /// ```
    /// # let bytes = std::fs::read("examples/variable.otf")?;
    /// # let font = postscript::VariableFont::from_file(&bytes, 0)?;
    /// let (bold, far) = (font.at(&[(*b"wght", 900.0)])?, font.at(&[(*b"wght", 9000.0)])?);
    /// assert_eq!(bold.outline(1)?, far.outline(1)?);
    /// # Ok::<(), Box<dyn std::error::Error>>(())
    /// ```
    ///
    /// # Errors
    ///
    /// Those of [`VariableFont::axes`], and [`Error::NoAxis`] for an unknown tag.
    pub fn at(&self, coordinates: &[([u8; 4], f64)]) -> Result<Place<'a>> {
        let axes = self.axes()?;
        if coordinates.iter().any(|(tag, _)| axes.iter().all(|axis| axis.tag != *tag)) {
            return Err(Error::NoAxis);
        }
        let asked = |axis: &Axis| coordinates.iter().rev().find(|(tag, _)| *tag == axis.tag).map_or(axis.default, |(_, value)| *value);
        let coordinates: Vec<i32> = axes.iter().map(|axis| axis.fixed(asked(axis))).collect();
        let location = self.location(&coordinates);
        Ok(Place { font: *self, coordinates, location })
    }

    /// The `CFF2` table and the scalars of a location. If there are none, [`Place::outline`] returns the error, or draws a `CFF ` table.
    fn location(&self, coordinates: &[i32]) -> Option<(&'a [u8], Vec<u32>)> {
        let cff2 = c::table(self.file, self.face, *b"CFF2").ok()?;
        let scalars = c::location_scalars(self.file, self.face, coordinates, self.limit).ok()?;
        Some((cff2, scalars))
    }

    /// Returns the glyph of a character, or `None` if the character map has none.
    ///
    /// ```
    /// # let bytes = std::fs::read("examples/variable.otf")?;
    /// # let font = postscript::VariableFont::from_file(&bytes, 0)?;
    /// assert_eq!((font.glyph_index('o'), font.glyph_index('B')), (Some(2), None));
    /// # Ok::<(), Box<dyn std::error::Error>>(())
    /// ```
    pub fn glyph_index(&self, character: char) -> Option<usize> {
        match c::map_glyph(self.cmap?, character.into()) {
            Ok(0) | Err(_) => None,
            Ok(glyph) => Some(glyph),
        }
    }

    /// Returns how many units a glyph may cost, and separately its location and its advance, by default [`crate::LIMIT`]. Each number
    /// and operator costs one unit per byte, a blend one more per number on the stack. A location costs one unit per region, and per
    /// axis. An advance costs one unit for each region of the glyph's deltas and each axis.
    ///
    /// ```
    /// # let bytes = std::fs::read("examples/variable.otf")?;
    /// # let font = postscript::VariableFont::from_file(&bytes, 0)?;
    /// assert_eq!(font.limit(), postscript::LIMIT);
    /// # Ok::<(), Box<dyn std::error::Error>>(())
    /// ```
    pub fn limit(&self) -> u64 {
        self.limit
    }

    /// Returns the same font with another limit.
    ///
    /// ```
    /// # let bytes = std::fs::read("examples/variable.otf")?;
    /// # let font = postscript::VariableFont::from_file(&bytes, 0)?;
    /// assert_eq!(font.with_limit(5).at(&[])?.outline(1), Err(postscript::Error::TooLong));
    /// # Ok::<(), Box<dyn std::error::Error>>(())
    /// ```
    #[must_use]
    pub fn with_limit(mut self, limit: u64) -> Self {
        self.limit = limit;
        self
    }
}

impl Axis {
    fn of(told: c::Axis) -> Axis {
        Axis {
            tag: told.tag.to_be_bytes(),
            minimum: f64::from(told.minimum) / 65536.0,
            default: f64::from(told.default_value) / 65536.0,
            maximum: f64::from(told.maximum) / 65536.0,
            is_hidden: told.is_hidden != 0,
            name: told.name as u16,
        }
    }

    /// Clamps a value to the axis and rounds it to 1/65536. NaN becomes the minimum.
    fn fixed(&self, value: f64) -> i32 {
        let bits = value.max(self.minimum).min(self.maximum) * 65536.0;
        (if bits < 0.0 { bits - 0.5 } else { bits + 0.5 }) as i32
    }
}

impl Instance {
    fn of(told: c::Instance, axes: &[Axis], numbers: &[i32]) -> Instance {
        Instance {
            coordinates: axes.iter().zip(numbers).map(|(axis, number)| (axis.tag, f64::from(*number) / 65536.0)).collect(),
            name: told.name as u16,
            postscript_name: u16::try_from(told.postscript_name).ok(),
        }
    }
}

/// A variable font at given axis values, from [`VariableFont::at`].
///
/// ```
/// # let bytes = std::fs::read("examples/variable.otf")?;
/// # let font = postscript::VariableFont::from_file(&bytes, 0)?;
/// let place = font.at(&[(*b"wght", 650.0)])?;
/// assert_eq!((place.advance(1)?, place.outline(1)?.advance), (690.0, 690.0));
/// # Ok::<(), Box<dyn std::error::Error>>(())
/// ```
#[derive(Clone, Debug)]
pub struct Place<'a> {
    font: VariableFont<'a>,
    coordinates: Vec<i32>,
    location: Option<(&'a [u8], Vec<u32>)>,
}

impl<'a> Place<'a> {
    /// Returns the font.
    ///
    /// ```
    /// # let bytes = std::fs::read("examples/variable.otf")?;
    /// # let font = postscript::VariableFont::from_file(&bytes, 0)?;
    /// assert_eq!(font.at(&[])?.font().glyph_index('A'), Some(1));
    /// # Ok::<(), Box<dyn std::error::Error>>(())
    /// ```
    pub fn font(&self) -> VariableFont<'a> {
        self.font
    }

    /// Returns the outline of a glyph, with its advance and bounds.
    ///
    /// ```
    /// # let bytes = std::fs::read("examples/variable.otf")?;
    /// # let font = postscript::VariableFont::from_file(&bytes, 0)?;
    /// assert_eq!(font.at(&[(*b"opsz", 8.0)])?.outline(1)?.svg_path(), "M50 0L170 700L290 0Z");
    /// # Ok::<(), Box<dyn std::error::Error>>(())
    /// ```
    ///
    /// # Errors
    ///
    /// [`Error::NoGlyph`], also if the glyph has no Font DICT; [`Error::TooLong`] beyond the limit; [`Error::CutAvar`],
    /// [`Error::UnknownAvar`] and those from [`Error::Cff2Header`] to [`Error::Cff2Data`] for a malformed table; the errors of its
    /// charstring: see [`Error`]; and those of [`Place::advance`].
    pub fn outline(&self, glyph: usize) -> Result<Outline> {
        let mut segments = Vec::new();
        let font = &self.font;
        let bounds = match &self.location {
            Some((cff2, scalars)) => c::location_outline(cff2, scalars, glyph, font.limit, &mut segments)?,
            None => c::variable_outline(font.file, font.face, &self.coordinates, glyph, font.limit, &mut segments)?,
        };
        let advance = c::variable_advance(font.file, font.face, &self.coordinates, glyph, font.limit)?;
        Ok(Outline::at_place(&segments, advance, bounds))
    }

    /// Draws a glyph into a sink, and returns its advance and bounds.
    ///
    /// ```
    /// # let bytes = std::fs::read("examples/variable.otf")?;
    /// # let font = postscript::VariableFont::from_file(&bytes, 0)?;
    /// # struct Pen;
    /// # impl postscript::OutlineSink for Pen {
    /// #     fn move_to(&mut self, _: postscript::Point) {}
    /// #     fn line_to(&mut self, _: postscript::Point) {}
    /// #     fn curve_to(&mut self, _: postscript::Point, _: postscript::Point, _: postscript::Point) {}
    /// #     fn close(&mut self) {}
    /// # }
    /// # let mut pen = Pen;
    /// // the pen is an `OutlineSink`
    /// assert_eq!(font.at(&[])?.draw(2, &mut pen)?.advance, 560.0);
    /// # Ok::<(), Box<dyn std::error::Error>>(())
    /// ```
    ///
    /// # Errors
    ///
    /// Those of [`Place::outline`]. The sink has received nothing then.
    pub fn draw<S: OutlineSink + ?Sized>(&self, glyph: usize, sink: &mut S) -> Result<Glyph> {
        let outline = self.outline(glyph)?;
        outline.draw(sink);
        Ok(outline.glyph())
    }

    /// Returns the advance of a glyph, in font units: `hmtx` plus the `HVAR` delta, rounded to the nearest unit.
    ///
    /// ```
    /// # let bytes = std::fs::read("examples/variable.otf")?;
    /// # let font = postscript::VariableFont::from_file(&bytes, 0)?;
    /// assert_eq!(font.at(&[(*b"wght", 900.0)])?.advance(1)?, 720.0);
    /// # Ok::<(), Box<dyn std::error::Error>>(())
    /// ```
    ///
    /// # Errors
    ///
    /// [`Error::NoTable`] if the face has no `hhea` or `hmtx` table; [`Error::NoAdvances`]; [`Error::CutHvar`] and
    /// [`Error::UnknownHvar`]; [`Error::CutAvar`] and [`Error::UnknownAvar`]; [`Error::NoGlyph`] for a number above 65535;
    /// [`Error::TooLong`] if the deltas of the glyph cost more than the limit of the font.
    pub fn advance(&self, glyph: usize) -> Result<f64> {
        let font = &self.font;
        Ok(c::variable_advance(font.file, font.face, &self.coordinates, glyph, font.limit)? as f64)
    }

    /// Writes a font file with a `CFF ` table of this location: a static font. Its glyphs, metrics, positions and names are those at the
    /// location, and it has no tables of variations.
    ///
    /// All glyphs together may cost 20 times the limit of the font, and a glyph a fortieth of the limit.
    ///
    /// ```
    /// # let bytes = std::fs::read("examples/variable.otf")?;
    /// # let font = postscript::VariableFont::from_file(&bytes, 0)?;
    /// let place = font.at(&[(*b"wght", 650.0)])?;
    /// let file = place.file()?;
    /// let fixed = postscript::Font::from_file(&file, 0)?;
    /// assert_eq!(fixed.outline(1)?.svg_path(), place.outline(1)?.svg_path());
    /// # Ok::<(), Box<dyn std::error::Error>>(())
    /// ```
    ///
    /// # Errors
    ///
    /// [`Error::NotVariable`] if the face has no `CFF2` table, or a `CFF ` table too; [`Error::NoTable`], [`Error::CutTable`] and
    /// [`Error::UnknownTable`] for a missing or malformed table; [`Error::RefusedGlyph`] and [`Error::NoPart`] for a glyph;
    /// [`Error::TooLong`] beyond the limit; those from [`Error::Cff2Header`] to [`Error::Cff2Data`]; [`Error::TooLarge`].
    pub fn file(&self) -> core::result::Result<Vec<u8>, WriteError> {
        self.written(false)
    }

    /// Writes the same file with each point rounded to whole units.
    ///
    /// ```
    /// # let bytes = std::fs::read("examples/variable.otf")?;
    /// # let font = postscript::VariableFont::from_file(&bytes, 0)?;
    /// let file = font.at(&[(*b"wght", 433.0)])?.rounded_file()?;
    /// let bounds = postscript::Font::from_file(&file, 0)?.outline(1)?.bounds.unwrap();
    /// assert_eq!(bounds.high.x, bounds.high.x.round());
    /// # Ok::<(), Box<dyn std::error::Error>>(())
    /// ```
    ///
    /// # Errors
    ///
    /// Those of [`Place::file`].
    pub fn rounded_file(&self) -> core::result::Result<Vec<u8>, WriteError> {
        self.written(true)
    }

    fn written(&self, rounded: bool) -> core::result::Result<Vec<u8>, WriteError> {
        let font = &self.font;
        let limit = font.limit.saturating_mul(crate::GLYPHS);
        c::file_instance(font.file, font.face, &self.coordinates, rounded, limit).map_err(WriteError::of)
    }
}
