//! CFF fonts (`.otf` files with a `CFF ` or `CFF2` table) and the outlines of their glyphs.
//!
//! The work is done by a static library whose source is proved: for any bytes each call returns, reads nothing outside of them,
//! and gives the result that its contract states. This crate declares its functions and wraps them in idiomatic Rust. The
//! declarations, in the module `c`, are not proved.
//!
//! ```
//! let bytes = std::fs::read("examples/small.otf")?;
//! let font = postscript::Font::from_file(&bytes, 0)?;
//! let glyph = font.glyph_index('A').expect("the font has an A");
//! println!("{}", font.outline(glyph)?.svg_path());
//! # Ok::<(), Box<dyn std::error::Error>>(())
//! ```
//!
//! For a variable font, which has a `CFF2` table, use [`VariableFont`]:
//!
//! ```
//! let bytes = std::fs::read("examples/variable.otf")?;
//! let font = postscript::VariableFont::from_file(&bytes, 0)?;
//! let glyph = font.glyph_index('A').expect("the font has an A");
//! println!("{}", font.at(&[(*b"wght", 650.0)])?.outline(glyph)?.svg_path());
//! # Ok::<(), Box<dyn std::error::Error>>(())
//! ```
//!
//! A font borrows its bytes and copies nothing, and the library keeps no state between calls. Fonts are `Send`, `Sync` and `Copy`,
//! so threads can share them. Without the feature `std` the crate needs only `alloc`, and its errors do not implement
//! `std::error::Error`. The library always calls `malloc`, `realloc` and `free` of the C library.
#![cfg_attr(not(any(feature = "std", test)), no_std)]
#![warn(missing_docs)]

extern crate alloc;

mod c;
mod error;
mod operation;
mod outline;
mod variable;
mod write;

use alloc::vec::Vec;
use core::ops::Range;

pub use error::{Error, Result};
pub use operation::Operation;
pub use outline::{Bounds, Glyph, Outline, OutlineSink, Point, Segment};
pub use variable::{Axis, Instance, Place, VariableFont};
pub use write::{FEATURES, Layout, LayoutTable, NameError, Names, SubsetFile, WriteError};

/// Returns the version of the linked library: major, minor and patch number.
///
/// ```
/// let (major, minor, patch) = postscript::version();
/// assert_eq!(format!("{major}.{minor}.{patch}"), env!("CARGO_PKG_VERSION"));
/// ```
pub fn version() -> (u8, u8, u8) {
    let version = c::version();
    ((version >> 16) as u8, (version >> 8) as u8, version as u8)
}

/// Returns the number of faces in an OpenType file.
///
/// ```
/// # let bytes = std::fs::read("examples/small.otf")?;
/// assert_eq!(postscript::faces(&bytes)?, 1);
/// # Ok::<(), Box<dyn std::error::Error>>(())
/// ```
///
/// # Errors
///
/// [`Error::CutFile`], [`Error::UnknownFile`] and [`Error::OtherVersion`].
pub fn faces(file: &[u8]) -> Result<usize> {
    c::faces(file)
}

/// The default limit of a font: how many units a call may spend on a glyph ([`Font::limit`]).
///
/// ```
/// # let bytes = std::fs::read("examples/small.otf")?;
/// # let font = postscript::Font::from_file(&bytes, 0)?;
/// assert_eq!(font.limit(), postscript::LIMIT);
/// # Ok::<(), Box<dyn std::error::Error>>(())
/// ```
pub const LIMIT: u64 = 20_000_000;

/// How many times the limit a whole font may cost when it is written.
const GLYPHS: u64 = 20;

/// A font in place: the bytes are borrowed, and nothing is copied.
///
/// ```
/// let bytes = std::fs::read("examples/small.otf")?;
/// let font = postscript::Font::from_file(&bytes, 0)?;
/// let advances: Result<Vec<f64>, _> = font.outlines().map(|outline| Ok::<_, postscript::Error>(outline?.advance)).collect();
/// assert_eq!(advances?, [500.0, 250.0, 500.0, 450.0]);
/// # Ok::<(), Box<dyn std::error::Error>>(())
/// ```
#[derive(Clone, Copy, Debug)]
pub struct Font<'a> {
    cff: &'a [u8],
    cmap: Option<&'a [u8]>,
    file: Option<&'a [u8]>,
    face: usize,
    font: c::Font,
}

/// A name, or `None` if there is none.
fn name_of(answer: Result<Vec<u8>>) -> Result<Option<Vec<u8>>> {
    match answer {
        Err(Error::NoName) => Ok(None),
        answer => answer.map(Some),
    }
}

impl<'a> Font<'a> {
    /// Opens a face of an OpenType file, counted from 0.
    ///
    /// ```
    /// # let bytes = std::fs::read("examples/small.otf")?;
    /// let font = postscript::Font::from_file(&bytes, 0)?;
    /// assert_eq!(postscript::Font::from_file(&bytes, 1).unwrap_err(), postscript::Error::NoFace);
    /// # Ok::<(), Box<dyn std::error::Error>>(())
    /// ```
    ///
    /// # Errors
    ///
    /// [`Error::CutFile`], [`Error::UnknownFile`] or [`Error::NoFace`] if the file has no such face; [`Error::NoTable`] if the face
    /// has no `CFF ` table; and the errors of [`Font::from_table`].
    pub fn from_file(file: &'a [u8], face: usize) -> Result<Self> {
        let cff = c::table(file, face, *b"CFF ")?;
        let cmap = match c::table(file, face, *b"cmap") {
            Ok(cmap) => Some(cmap),
            Err(Error::NoTable) => None,
            Err(e) => return Err(e),
        };
        Ok(Font { cmap, file: Some(file), face, ..Font::from_table(cff)? })
    }

    /// Opens the first font of a `CFF ` table. It has no character map.
    ///
    /// ```
    /// # let bytes = std::fs::read("examples/small.otf")?;
    /// # let font = postscript::Font::from_file(&bytes, 0)?;
    /// let same = postscript::Font::from_table(font.table())?;
    /// assert_eq!(same.outline(2), font.outline(2));
    /// assert_eq!(same.glyph_index('A'), None);
    /// # Ok::<(), Box<dyn std::error::Error>>(())
    /// ```
    ///
    /// # Errors
    ///
    /// If the table is malformed: see [`Error`]. [`Error::OtherVersion`] if the linked library has another version than this crate.
    pub fn from_table(cff: &'a [u8]) -> Result<Self> {
        Ok(Font { cff, cmap: None, file: None, face: 0, font: c::open(cff)? })
    }

    /// Returns the bytes of the `CFF ` table.
    ///
    /// ```
    /// # let bytes = std::fs::read("examples/small.otf")?;
    /// # let font = postscript::Font::from_file(&bytes, 0)?;
    /// // version 1.0
    /// assert_eq!(font.table()[..2], [1, 0]);
    /// # Ok::<(), Box<dyn std::error::Error>>(())
    /// ```
    pub fn table(&self) -> &'a [u8] {
        self.cff
    }

    /// Returns the number of glyphs.
    ///
    /// ```
    /// # let bytes = std::fs::read("examples/small.otf")?;
    /// # let font = postscript::Font::from_file(&bytes, 0)?;
    /// assert_eq!(font.glyph_count(), 4);
    /// # Ok::<(), Box<dyn std::error::Error>>(())
    /// ```
    pub fn glyph_count(&self) -> usize {
        self.font.glyphs as usize
    }

    /// Returns whether the font is CID-keyed: its glyphs have CIDs instead of names.
    ///
    /// ```
    /// # let bytes = std::fs::read("examples/small.otf")?;
    /// # let font = postscript::Font::from_file(&bytes, 0)?;
    /// assert!(!font.is_cid_keyed());
    /// # Ok::<(), Box<dyn std::error::Error>>(())
    /// ```
    pub fn is_cid_keyed(&self) -> bool {
        self.font.is_cid != 0
    }

    /// Returns the glyph of a character, or `None` if the character map has none.
    ///
    /// ```
    /// # let bytes = std::fs::read("examples/small.otf")?;
    /// # let font = postscript::Font::from_file(&bytes, 0)?;
    /// assert_eq!((font.glyph_index('A'), font.glyph_index('B')), (Some(2), None));
    /// # Ok::<(), Box<dyn std::error::Error>>(())
    /// ```
    pub fn glyph_index(&self, character: char) -> Option<usize> {
        match c::map_glyph(self.cmap?, character.into()) {
            Ok(0) | Err(_) => None,
            Ok(glyph) => Some(glyph),
        }
    }

    /// Returns how many units a call may spend on a glyph with its components, by default [`LIMIT`]. An operator costs one unit per
    /// byte, with the numbers before it, a roll 4,096 more, a sqrt 8 more.
    ///
    /// ```
    /// # let bytes = std::fs::read("examples/small.otf")?;
    /// # let font = postscript::Font::from_file(&bytes, 0)?;
    /// assert_eq!(font.limit(), 20_000_000);
    /// # Ok::<(), Box<dyn std::error::Error>>(())
    /// ```
    pub fn limit(&self) -> u64 {
        self.font.limit
    }

    /// Returns the same font with another limit. A small font can nest subroutine calls so that a glyph takes years; the limit
    /// stops it.
    ///
    /// ```
    /// # let bytes = std::fs::read("examples/small.otf")?;
    /// # let font = postscript::Font::from_file(&bytes, 0)?;
    /// assert_eq!(font.with_limit(5).outline(3), Err(postscript::Error::TooLong));
    /// # Ok::<(), Box<dyn std::error::Error>>(())
    /// ```
    #[must_use]
    pub fn with_limit(mut self, limit: u64) -> Self {
        self.font.limit = limit;
        self
    }

    /// Returns whether all glyphs end, or have an error, within a limit that they share, and subtracts their cost from it.
    ///
    /// ```
    /// # let bytes = std::fs::read("examples/small.otf")?;
    /// # let font = postscript::Font::from_file(&bytes, 0)?;
    /// let mut limit = 1000;
    /// assert!(font.fits(&mut limit)? && limit < 1000);
    /// assert!(!font.fits(&mut 1)?);
    /// # Ok::<(), Box<dyn std::error::Error>>(())
    /// ```
    ///
    /// # Errors
    ///
    /// [`Error::Memory`].
    pub fn fits(&self, limit: &mut u64) -> Result<bool> {
        match c::fits(self.cff, limit) {
            Ok(()) => Ok(true),
            Err(Error::TooLong) => Ok(false),
            Err(e) => Err(e),
        }
    }

    /// Returns the outline of a glyph, with its advance and bounds.
    ///
    /// A `seac` glyph, whose `endchar` names a base and an accent (Technical Note 5177, Appendix C), is drawn with both. Its advance is
    /// its own. All three share the font's limit.
    ///
    /// ```
    /// # let bytes = std::fs::read("examples/small.otf")?;
    /// # let font = postscript::Font::from_file(&bytes, 0)?;
    /// let outline = font.outline(font.glyph_index('A').ok_or("no such glyph")?)?;
    /// assert_eq!((outline.advance, outline.svg_path().as_str()), (500.0, "M0 0L250 700L500 0Z"));
    /// # Ok::<(), Box<dyn std::error::Error>>(())
    /// ```
    ///
    /// # Errors
    ///
    /// [`Error::NoGlyph`]; [`Error::NoPart`] if FDSelect gives it no Font DICT; [`Error::TooLong`] beyond the limit; for a `seac` glyph
    /// [`Error::NoCode`], [`Error::NoAccents`], [`Error::NoComponent`] and [`Error::NestedAccent`]; and the errors of its charstring
    /// and its components: see [`Error`].
    pub fn outline(&self, glyph: usize) -> Result<Outline> {
        let mut segments = Vec::new();
        let told = c::outline(self.cff, &self.font, glyph, &mut segments)?;
        Ok(Outline::of(&segments, told))
    }

    /// Draws a glyph into a sink, and returns its advance and bounds.
    ///
    /// ```
    /// # let bytes = std::fs::read("examples/small.otf")?;
    /// # let font = postscript::Font::from_file(&bytes, 0)?;
    /// # struct Pen;
    /// # impl postscript::OutlineSink for Pen {
    /// #     fn move_to(&mut self, _: postscript::Point) {}
    /// #     fn line_to(&mut self, _: postscript::Point) {}
    /// #     fn curve_to(&mut self, _: postscript::Point, _: postscript::Point, _: postscript::Point) {}
    /// #     fn close(&mut self) {}
    /// # }
    /// # let mut pen = Pen;
    /// // the pen is an `OutlineSink`
    /// assert_eq!(font.draw(2, &mut pen)?.advance, 500.0);
    /// # Ok::<(), Box<dyn std::error::Error>>(())
    /// ```
    ///
    /// # Errors
    ///
    /// Those of [`Font::outline`]. The sink has received nothing then.
    pub fn draw<S: OutlineSink + ?Sized>(&self, glyph: usize, sink: &mut S) -> Result<Glyph> {
        let outline = self.outline(glyph)?;
        outline.draw(sink);
        Ok(outline.glyph())
    }

    /// Returns the bounds of the lines and curves of [`Font::outline`], at most 1/65536 unit too large. `None` if there is no point.
    ///
    /// ```
    /// # let bytes = std::fs::read("examples/small.otf")?;
    /// # let font = postscript::Font::from_file(&bytes, 0)?;
    /// assert_eq!(font.tight_bounds(1)?, None);
    /// assert_eq!(font.tight_bounds(2)?.map(|bounds| bounds.high.y), Some(700.0));
    /// # Ok::<(), Box<dyn std::error::Error>>(())
    /// ```
    ///
    /// # Errors
    ///
    /// Those of [`Font::outline`].
    pub fn tight_bounds(&self, glyph: usize) -> Result<Option<Bounds>> {
        Ok(Bounds::of(c::bounds(self.cff, &self.font, glyph)?))
    }

    /// Returns the charstring of a glyph without subroutine calls. With any subroutines it has the operations and the width of the
    /// glyph.
    ///
    /// ```
    /// # let bytes = std::fs::read("examples/small.otf")?;
    /// # let font = postscript::Font::from_file(&bytes, 0)?;
    /// // 0 hmoveto 250 700 250 -700 rlineto endchar
    /// assert_eq!(font.flat_code(2)?, b"\x8b\x16\xf7\x8e\xf9\x50\xf7\x8e\xfd\x50\x05\x0e");
    /// # Ok::<(), Box<dyn std::error::Error>>(())
    /// ```
    ///
    /// # Errors
    ///
    /// [`Error::NoGlyph`], [`Error::NoPart`], [`Error::TooLong`] beyond the limit, and the errors of its charstring: see [`Error`].
    pub fn flat_code(&self, glyph: usize) -> Result<Vec<u8>> {
        c::flat(self.cff, &self.font, glyph)
    }

    /// Returns the operations of a glyph in order: subroutines are called, the width is removed, and arithmetic is done. `endchar` is
    /// not included. A `seac` glyph has only its own.
    ///
    /// ```
    /// # let bytes = std::fs::read("examples/small.otf")?;
    /// # let font = postscript::Font::from_file(&bytes, 0)?;
    /// for operation in font.operations(2)? {
    ///     println!("{:?} {}", operation.operands, operation.name().unwrap_or("?"));
    /// }
    /// # Ok::<(), Box<dyn std::error::Error>>(())
    /// ```
    ///
    /// # Errors
    ///
    /// Those of [`Font::flat_code`].
    pub fn operations(&self, glyph: usize) -> Result<Vec<Operation>> {
        let (told, operands) = c::operations(self.cff, &self.font, glyph)?;
        Ok(told.into_iter().map(|told| Operation::of(told, &operands)).collect())
    }

    /// Returns a `CFF ` table with the same glyphs and no subroutines. Each draws the same, with the same advance, codes, and name or
    /// CID.
    ///
    /// ```
    /// # let bytes = std::fs::read("examples/small.otf")?;
    /// # let font = postscript::Font::from_file(&bytes, 0)?;
    /// let flat = font.flat()?;
    /// assert_eq!(postscript::Font::from_table(&flat)?.outline(2), font.outline(2));
    /// # Ok::<(), Box<dyn std::error::Error>>(())
    /// ```
    ///
    /// # Errors
    ///
    /// [`Error::RefusedGlyph`] with the first glyph that has an error, and the error; [`Error::SeveralFonts`]; [`Error::NoPart`];
    /// [`Error::TooLong`] if the font does not pass [`Font::fits`] with 20 times its limit; and those of a malformed table: see
    /// [`WriteError`].
    pub fn flat(&self) -> core::result::Result<Vec<u8>, WriteError> {
        c::font_flat(self.cff, self.limit_of_all()).map_err(WriteError::of)
    }

    /// Returns a `CFF ` table with `.notdef`, these glyphs, and the components of `seac` glyphs among them, without subroutines. Glyphs
    /// get new numbers in ascending order. A custom encoding is replaced by the standard one.
    ///
    /// ```
    /// # let bytes = std::fs::read("examples/small.otf")?;
    /// # let font = postscript::Font::from_file(&bytes, 0)?;
    /// let subset = font.subset(&[3])?;
    /// let subset = postscript::Font::from_table(&subset)?;
    /// assert_eq!((subset.glyph_count(), subset.outline(1)), (2, font.outline(3)));
    /// # Ok::<(), Box<dyn std::error::Error>>(())
    /// ```
    ///
    /// # Errors
    ///
    /// [`Error::NoGlyphs`] for an empty list, [`Error::NoGlyph`] with the missing glyph, [`Error::NoName`], and those of
    /// [`Font::flat`]. Only the kept glyphs share the limit.
    pub fn subset(&self, glyphs: &[usize]) -> core::result::Result<Vec<u8>, WriteError> {
        c::font_subset(self.cff, glyphs, false, self.limit_of_all()).map_err(WriteError::of)
    }

    /// The same as [`Font::subset`], but glyphs keep their numbers, all others are empty, and the encoding stays.
    ///
    /// ```
    /// # let bytes = std::fs::read("examples/small.otf")?;
    /// # let font = postscript::Font::from_file(&bytes, 0)?;
    /// let subset = font.subset_keeping(&[3])?;
    /// let subset = postscript::Font::from_table(&subset)?;
    /// assert_eq!((subset.glyph_count(), subset.outline(3)), (4, font.outline(3)));
    /// # Ok::<(), Box<dyn std::error::Error>>(())
    /// ```
    ///
    /// # Errors
    ///
    /// Those of [`Font::subset`].
    pub fn subset_keeping(&self, glyphs: &[usize]) -> core::result::Result<Vec<u8>, WriteError> {
        c::font_subset(self.cff, glyphs, true, self.limit_of_all()).map_err(WriteError::of)
    }

    /// Returns a font file with this face and no subroutines. All other tables are copied, except for the digital signature.
    ///
    /// ```
    /// # let bytes = std::fs::read("examples/small.otf")?;
    /// # let font = postscript::Font::from_file(&bytes, 0)?;
    /// let flat = font.flat_file()?;
    /// assert_eq!(postscript::Font::from_file(&flat, 0)?.outline(2), font.outline(2));
    /// # Ok::<(), Box<dyn std::error::Error>>(())
    /// ```
    ///
    /// # Errors
    ///
    /// Those of [`Font::flat`]; [`Error::Overlap`]; and [`Error::CutFile`] if the font was not opened by [`Font::from_file`].
    pub fn flat_file(&self) -> core::result::Result<Vec<u8>, WriteError> {
        let file = self.file.unwrap_or_default();
        c::file_flat(file, self.face, self.limit_of_all()).map_err(WriteError::of)
    }

    /// Prepares a font file with only some characters and glyphs of this face: see [`SubsetFile`].
    pub fn subset_file(&self) -> SubsetFile<'a> {
        SubsetFile::of(self.file, self.face, self.cff, self.limit_of_all())
    }

    /// How many units a whole font may cost.
    fn limit_of_all(&self) -> u64 {
        self.font.limit.saturating_mul(GLYPHS)
    }

    /// Returns the name of a glyph, or `None`. The glyphs of a CID-keyed font have no names.
    ///
    /// ```
    /// # let bytes = std::fs::read("examples/small.otf")?;
    /// # let font = postscript::Font::from_file(&bytes, 0)?;
    /// assert_eq!(font.glyph_name(3)?.as_deref(), Some(b"flower".as_slice()));
    /// # Ok::<(), Box<dyn std::error::Error>>(())
    /// ```
    ///
    /// # Errors
    ///
    /// If the charset is malformed: see [`Error`].
    pub fn glyph_name(&self, glyph: usize) -> Result<Option<Vec<u8>>> {
        name_of(c::glyph_name(self.cff, glyph))
    }

    /// Returns the first glyph with a name.
    ///
    /// ```
    /// # let bytes = std::fs::read("examples/small.otf")?;
    /// # let font = postscript::Font::from_file(&bytes, 0)?;
    /// assert_eq!((font.glyph_named(b"flower")?, font.glyph_named(b"tree")?), (Some(3), None));
    /// # Ok::<(), Box<dyn std::error::Error>>(())
    /// ```
    ///
    /// # Errors
    ///
    /// Those of [`Font::glyph_name`].
    pub fn glyph_named(&self, name: &[u8]) -> Result<Option<usize>> {
        match c::named_glyph(self.cff, name) {
            Err(Error::NoGlyph) => Ok(None),
            answer => answer.map(Some),
        }
    }

    /// Returns the names of all glyphs, in order, as in [`Font::glyph_name`].
    ///
    /// ```
    /// # let bytes = std::fs::read("examples/small.otf")?;
    /// # let font = postscript::Font::from_file(&bytes, 0)?;
    /// let names: Result<Vec<_>, _> = font.names()?.collect();
    /// assert_eq!(names?[3].as_deref(), Some(b"flower".as_slice()));
    /// # Ok::<(), Box<dyn std::error::Error>>(())
    /// ```
    ///
    /// # Errors
    ///
    /// If the charset is malformed: see [`Error`].
    pub fn names(&self) -> Result<impl ExactSizeIterator<Item = Result<Option<Vec<u8>>>> + 'a> {
        let font = *self;
        let named = c::identifiers(self.cff, self.glyph_count())?.into_iter();
        Ok(named.map(move |told| match u16::try_from(told) {
            Ok(identifier) if !font.is_cid_keyed() => name_of(c::string(font.cff, identifier)),
            _ => Ok(None),
        }))
    }

    /// Returns the CIDs of all glyphs of a CID-keyed font, in order. `None` for a glyph without one, and for all glyphs of other fonts.
    ///
    /// ```
    /// # let bytes = std::fs::read("examples/small.otf")?;
    /// # let font = postscript::Font::from_file(&bytes, 0)?;
    /// assert_eq!(font.cids()?, [None; 4]);
    /// # Ok::<(), Box<dyn std::error::Error>>(())
    /// ```
    ///
    /// # Errors
    ///
    /// If the charset is malformed: see [`Error`].
    pub fn cids(&self) -> Result<Vec<Option<u16>>> {
        let told = c::identifiers(self.cff, self.glyph_count())?;
        let is_cid_keyed = self.is_cid_keyed();
        Ok(told.into_iter().map(|told| u16::try_from(told).ok().filter(|_| is_cid_keyed)).collect())
    }

    /// Returns the characters that have a glyph in the character map, in ascending order, with their glyphs. Surrogates are left out.
    ///
    /// # Errors
    ///
    /// [`Error::Memory`].
    ///
    /// ```
    /// # let bytes = std::fs::read("examples/small.otf")?;
    /// # let font = postscript::Font::from_file(&bytes, 0)?;
    /// assert_eq!(font.characters()?.collect::<Vec<_>>(), [(' ', 1), ('A', 2), ('\u{2698}', 3)]);
    /// # Ok::<(), Box<dyn std::error::Error>>(())
    /// ```
    pub fn characters(&self) -> Result<impl Iterator<Item = (char, usize)>> {
        let rows = match self.cmap.map(c::characters) {
            None | Some(Err(Error::NoMap)) => Vec::new(),
            Some(answer) => answer?,
        };
        Ok(rows.into_iter().filter_map(|row| Some((char::from_u32(row.character)?, row.glyph as usize))))
    }

    /// Returns the outlines of all glyphs, in order.
    ///
    /// ```
    /// # let bytes = std::fs::read("examples/small.otf")?;
    /// # let font = postscript::Font::from_file(&bytes, 0)?;
    /// let drawn = font.outlines().filter(|outline| matches!(outline, Ok(outline) if !outline.segments.is_empty()));
    /// assert_eq!(drawn.count(), 2);
    /// # Ok::<(), Box<dyn std::error::Error>>(())
    /// ```
    pub fn outlines(&self) -> Outlines<'a> {
        Outlines { font: *self, glyphs: 0..self.glyph_count() }
    }
}

/// An iterator over the outlines of a font, from [`Font::outlines`].
///
/// ```
/// # let bytes = std::fs::read("examples/small.otf")?;
/// # let font = postscript::Font::from_file(&bytes, 0)?;
/// let mut outlines = font.outlines();
/// assert_eq!((outlines.len(), outlines.next().is_some(), outlines.len()), (4, true, 3));
/// # Ok::<(), Box<dyn std::error::Error>>(())
/// ```
#[derive(Clone, Debug)]
pub struct Outlines<'a> {
    font: Font<'a>,
    glyphs: Range<usize>,
}

impl Iterator for Outlines<'_> {
    type Item = Result<Outline>;

    fn next(&mut self) -> Option<Result<Outline>> {
        self.glyphs.next().map(|glyph| self.font.outline(glyph))
    }

    fn size_hint(&self) -> (usize, Option<usize>) {
        self.glyphs.size_hint()
    }
}

impl ExactSizeIterator for Outlines<'_> {}

impl core::iter::FusedIterator for Outlines<'_> {}
