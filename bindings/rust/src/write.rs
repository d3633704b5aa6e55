//! Fonts that are written.
use crate::c;
use crate::error::Error;
use alloc::string::String;
use alloc::vec::Vec;
use core::fmt;

/// A font file with only some characters and glyphs of a face, from [`Font::subset_file`](crate::Font::subset_file).
///
/// ```
/// # let bytes = std::fs::read("examples/whole.otf")?;
/// let font = postscript::Font::from_file(&bytes, 0)?;
/// let file = font.subset_file().text("A").write()?;
/// let subset = postscript::Font::from_file(&file, 0)?;
/// assert_eq!(subset.outline(1), font.outline(1));
/// assert_eq!(subset.glyph_index('B'), None);
/// # Ok::<(), Box<dyn std::error::Error>>(())
/// ```
#[derive(Clone, Debug)]
#[must_use]
pub struct SubsetFile<'f> {
    file: Option<&'f [u8]>,
    face: usize,
    cff: &'f [u8],
    limit: u64,
    choice: c::Choice,
    names: Names,
    has_layout: bool,
}

/// The `name` table of a subset.
///
/// ```
/// # use postscript::Names;
/// # let bytes = std::fs::read("examples/whole.otf")?;
/// # let font = postscript::Font::from_file(&bytes, 0)?;
/// let subset = font.subset_file().text("A");
/// let [short, with_licence, whole, without] = [Names::Short, Names::WithLicence, Names::Whole, Names::Without]
///     .map(|names| subset.clone().names(names).write().map(|file| file.len()));
/// assert!(without? < short? && short? < with_licence? && with_licence? < whole?);
/// # Ok::<(), Box<dyn std::error::Error>>(())
/// ```
#[derive(Clone, Copy, Debug, Default, PartialEq, Eq, Hash)]
pub enum Names {
    /// The names 1 to 6, 16, 17, 21, 22 and 25, which systems and browsers read. Those that only repeat a better one are left out.
    /// The table is copied if it is truncated, has more than 1,000 names, or has no space for these.
    #[default]
    Short,
    /// The same, and the names 0, 7, 13 and 14: copyright, trademark, licence and licence URL.
    WithLicence,
    /// A copy of the table.
    Whole,
    /// No table, unless [`SubsetFile::tables`] has its tag.
    Without,
}

/// The layout features that a subset keeps by default: those that `hb-subset` 6.0.0 keeps.
///
/// ```
/// assert!(postscript::FEATURES.contains(b"liga"));
/// ```
pub const FEATURES: &[[u8; 4]] = &[
    *b"rvrn", *b"ccmp", *b"liga", *b"locl", *b"mark", *b"mkmk", *b"rlig", *b"frac",
    *b"numr", *b"dnom", *b"calt", *b"clig", *b"curs", *b"kern", *b"rclt", *b"valt",
    *b"vert", *b"vkrn", *b"vpal", *b"vrt2", *b"ltra", *b"ltrm", *b"rtla", *b"rtlm",
    *b"rand", *b"jalt", *b"Harf", *b"HARF", *b"Buzz", *b"BUZZ", *b"init", *b"medi",
    *b"fina", *b"isol", *b"med2", *b"fin2", *b"fin3", *b"cswh", *b"mset", *b"stch",
    *b"ljmo", *b"vjmo", *b"tjmo", *b"nukt", *b"akhn", *b"rphf", *b"rkrf", *b"pref",
    *b"blwf", *b"half", *b"abvf", *b"pstf", *b"cfar", *b"vatu", *b"cjct", *b"pres",
    *b"abvs", *b"blws", *b"psts", *b"haln", *b"dist", *b"abvm", *b"blwm",
];

/// What became of a layout table of a subset.
///
/// ```
/// # let bytes = std::fs::read("examples/whole.otf")?;
/// # let font = postscript::Font::from_file(&bytes, 0)?;
/// let (_file, layout) = font.subset_file().text("A").write_with_layout()?;
/// assert_eq!(layout.gsub, postscript::LayoutTable::Absent);
/// # Ok::<(), Box<dyn std::error::Error>>(())
/// ```
#[derive(Clone, Copy, Debug, PartialEq, Eq, Hash)]
pub enum LayoutTable {
    /// The face has no such table, or no glyph classes in its `GDEF` table.
    Absent,
    /// The file has it.
    Kept,
    /// None of its features is chosen.
    NotChosen,
    /// It is lost: [`Error::TooLarge`], [`Error::TooLong`] or [`Error::CutTable`].
    Lost(Error),
}

impl LayoutTable {
    /// The table of a number of `psf_layout`.
    fn of(status: i32) -> LayoutTable {
        match status {
            0 => LayoutTable::Absent,
            1 => LayoutTable::Kept,
            2 => LayoutTable::NotChosen,
            status => LayoutTable::Lost(Error::of(status)),
        }
    }
}

/// What became of the layout tables of a subset.
///
/// ```
/// # let bytes = std::fs::read("examples/whole.otf")?;
/// # let font = postscript::Font::from_file(&bytes, 0)?;
/// let (_file, layout) = font.subset_file().text("A").write_with_layout()?;
/// assert_eq!(layout.gpos, postscript::LayoutTable::Absent);
/// # Ok::<(), Box<dyn std::error::Error>>(())
/// ```
#[derive(Clone, Copy, Debug, PartialEq, Eq, Hash)]
pub struct Layout {
    /// Substitutions.
    pub gsub: LayoutTable,
    /// Kerning and the positions of marks.
    pub gpos: LayoutTable,
    /// Glyph classes.
    pub gdef: LayoutTable,
    /// The pairs of a `kern` table. They are not chosen if `GPOS` kerns in each language.
    pub kern: LayoutTable,
    /// The number of chosen lookups that the new `GSUB` table does not keep.
    pub left_out: u64,
}

/// The tag of a table as a number.
fn tag(tag: &[u8; 4]) -> u32 {
    u32::from_be_bytes(*tag)
}

impl<'f> SubsetFile<'f> {
    /// A subset of a face without characters and glyphs, with copies of `OS/2` and `head`, and with a short `name` table.
    pub(crate) fn of(file: Option<&'f [u8]>, face: usize, cff: &'f [u8], limit: u64) -> SubsetFile<'f> {
        let copied = [b"OS/2", b"head"].map(tag).to_vec();
        let features = FEATURES.iter().map(tag).collect();
        let choice = c::Choice { copied, features, ..Default::default() };
        SubsetFile { file, face, cff, limit, choice, names: Names::Short, has_layout: true }
    }

    /// Adds the characters of a text.
    ///
    /// ```
    /// # let bytes = std::fs::read("examples/whole.otf")?;
    /// # let font = postscript::Font::from_file(&bytes, 0)?;
    /// assert!(font.subset_file().text("A").write().is_ok());
    /// # Ok::<(), Box<dyn std::error::Error>>(())
    /// ```
    pub fn text(mut self, text: &str) -> Self {
        self.choice.characters.extend(text.chars().map(u32::from));
        self
    }

    /// Adds characters.
    ///
    /// ```
    /// # let bytes = std::fs::read("examples/whole.otf")?;
    /// # let font = postscript::Font::from_file(&bytes, 0)?;
    /// assert!(font.subset_file().characters(['A']).write().is_ok());
    /// # Ok::<(), Box<dyn std::error::Error>>(())
    /// ```
    pub fn characters(mut self, characters: impl IntoIterator<Item = char>) -> Self {
        self.choice.characters.extend(characters.into_iter().map(u32::from));
        self
    }

    /// Adds glyphs, each with all its characters.
    ///
    /// ```
    /// # let bytes = std::fs::read("examples/whole.otf")?;
    /// # let font = postscript::Font::from_file(&bytes, 0)?;
    /// let file = font.subset_file().glyphs([1]).write()?;
    /// assert_eq!(postscript::Font::from_file(&file, 0)?.glyph_index('A'), Some(1));
    /// # Ok::<(), Box<dyn std::error::Error>>(())
    /// ```
    pub fn glyphs(mut self, glyphs: impl IntoIterator<Item = usize>) -> Self {
        self.choice.glyphs.extend(glyphs);
        self
    }

    /// Adds the first glyph with each of these names, with all its characters. The glyphs of a CID-keyed font have no names.
    ///
    /// ```
    /// # let bytes = std::fs::read("examples/whole.otf")?;
    /// # let font = postscript::Font::from_file(&bytes, 0)?;
    /// let file = font.subset_file().glyph_names(["A"])?.write()?;
    /// assert_eq!(postscript::Font::from_file(&file, 0)?.glyph_index('A'), Some(1));
    /// let error = font.subset_file().glyph_names(["A", "tree"]).unwrap_err();
    /// assert_eq!(error.to_string(), "glyph \"tree\": no such glyph");
    /// # Ok::<(), Box<dyn std::error::Error>>(())
    /// ```
    ///
    /// # Errors
    ///
    /// [`NameError`] for the first name that no glyph has, or if the charset is malformed.
    pub fn glyph_names<N: AsRef<[u8]>>(
        mut self,
        names: impl IntoIterator<Item = N>,
    ) -> Result<Self, NameError> {
        for name in names {
            let name = name.as_ref();
            let glyph = c::named_glyph(self.cff, name)
                .map_err(|error| NameError { error, name: name.to_vec() })?;
            self.choice.glyphs.push(glyph);
        }
        Ok(self)
    }

    /// Whether glyphs keep their numbers, with empty glyphs between them. Otherwise they get new numbers in ascending order.
    ///
    /// ```
    /// # let bytes = std::fs::read("examples/whole.otf")?;
    /// # let font = postscript::Font::from_file(&bytes, 0)?;
    /// let file = font.subset_file().text("A").keep_numbers(true).write()?;
    /// assert_eq!(postscript::Font::from_file(&file, 0)?.glyph_index('A'), font.glyph_index('A'));
    /// # Ok::<(), Box<dyn std::error::Error>>(())
    /// ```
    pub fn keep_numbers(mut self, keeps: bool) -> Self {
        self.choice.keeps = keeps;
        self
    }

    /// Whether characters without a glyph are left out. Otherwise they are an error.
    ///
    /// ```
    /// # let bytes = std::fs::read("examples/whole.otf")?;
    /// # let font = postscript::Font::from_file(&bytes, 0)?;
    /// assert!(font.subset_file().text("AB").ignore_missing(true).write().is_ok());
    /// # Ok::<(), Box<dyn std::error::Error>>(())
    /// ```
    pub fn ignore_missing(mut self, lenient: bool) -> Self {
        self.choice.lenient = lenient;
        self
    }

    /// Whether the characters are exactly the chosen ones. Otherwise the file also has those that a shaper may use for text of
    /// them, such as the parts of composed characters, as far as the face has them. Without layout tables they are always exact.
    ///
    /// ```
    /// # let bytes = std::fs::read("examples/whole.otf")?;
    /// # let font = postscript::Font::from_file(&bytes, 0)?;
    /// let file = font.subset_file().text("A").exact(true).write()?;
    /// assert_eq!(postscript::Font::from_file(&file, 0)?.glyph_count(), 2);
    /// # Ok::<(), Box<dyn std::error::Error>>(())
    /// ```
    pub fn exact(mut self, exact: bool) -> Self {
        self.choice.exact = exact;
        self
    }

    /// Sets which tables are copied. The default is `OS/2` and `head`. The others are `CFF `, `cmap`, `hhea`, `hmtx`, `maxp` and
    /// `post`, and `name` as [`SubsetFile::names`] says.
    ///
    /// ```
    /// # let bytes = std::fs::read("examples/whole.otf")?;
    /// # let font = postscript::Font::from_file(&bytes, 0)?;
    /// let all = font.subset_file().text("A").write()?;
    /// assert!(font.subset_file().text("A").tables(&[]).write()?.len() < all.len());
    /// # Ok::<(), Box<dyn std::error::Error>>(())
    /// ```
    pub fn tables(mut self, tags: &[[u8; 4]]) -> Self {
        self.choice.copied = tags.iter().map(tag).collect();
        self
    }

    /// Sets which `name` table the file has, if the face has one. The default is [`Names::Short`]. If a table is asked for, its tag
    /// may not be among the copied tables.
    ///
    /// ```
    /// # use postscript::Names;
    /// # let bytes = std::fs::read("examples/whole.otf")?;
    /// # let font = postscript::Font::from_file(&bytes, 0)?;
    /// let short = font.subset_file().text("A").write()?;
    /// assert!(font.subset_file().text("A").names(Names::Without).write()?.len() < short.len());
    /// # Ok::<(), Box<dyn std::error::Error>>(())
    /// ```
    pub fn names(mut self, names: Names) -> Self {
        self.names = names;
        self
    }

    /// Sets which layout features are kept: their substitutions, and all positions if `kern`, `mark`, `mkmk` or `curs` is among
    /// them. The default is [`FEATURES`].
    ///
    /// ```
    /// # let bytes = std::fs::read("examples/whole.otf")?;
    /// # let font = postscript::Font::from_file(&bytes, 0)?;
    /// assert!(font.subset_file().text("A").features(&[*b"liga", *b"kern"]).write().is_ok());
    /// # Ok::<(), Box<dyn std::error::Error>>(())
    /// ```
    pub fn features(mut self, tags: &[[u8; 4]]) -> Self {
        self.choice.features = tags.iter().map(tag).collect();
        self
    }

    /// Keeps all layout features.
    ///
    /// ```
    /// # let bytes = std::fs::read("examples/whole.otf")?;
    /// # let font = postscript::Font::from_file(&bytes, 0)?;
    /// assert!(font.subset_file().text("A").all_features().write().is_ok());
    /// # Ok::<(), Box<dyn std::error::Error>>(())
    /// ```
    pub fn all_features(mut self) -> Self {
        self.choice.all = true;
        self
    }

    /// Drops the layout tables: there is no kerning, and there are no ligatures.
    ///
    /// ```
    /// # let bytes = std::fs::read("examples/whole.otf")?;
    /// # let font = postscript::Font::from_file(&bytes, 0)?;
    /// assert!(font.subset_file().text("A").without_layout().write().is_ok());
    /// # Ok::<(), Box<dyn std::error::Error>>(())
    /// ```
    pub fn without_layout(mut self) -> Self {
        self.has_layout = false;
        self
    }

    /// The choice as the library takes it.
    fn told(&self) -> c::Choice {
        let mut choice = self.choice.clone();
        match self.names {
            Names::Without => {}
            Names::Short => choice.names = 1,
            Names::WithLicence => choice.names = 2,
            Names::Whole => choice.copied.push(tag(b"name")),
        }
        choice
    }

    /// Writes the file. Each glyph is drawn, named and measured as before. A layout table may be lost:
    /// [`SubsetFile::write_with_layout`] also returns what is lost.
    ///
    /// ```
    /// # let bytes = std::fs::read("examples/whole.otf")?;
    /// # let font = postscript::Font::from_file(&bytes, 0)?;
    /// let error = font.subset_file().text("AB").write().unwrap_err();
    /// assert_eq!((error.error, error.character), (postscript::Error::NoCharacter, Some(66)));
    /// # Ok::<(), Box<dyn std::error::Error>>(())
    /// ```
    ///
    /// # Errors
    ///
    /// [`Error::NoCharacter`], [`Error::NoGlyphs`] if nothing is left, [`Error::NoTable`],
    /// [`Error::NoMap`], [`Error::NoAdvances`], [`Error::CutTable`], [`Error::SameTag`], and those of [`Font::subset`].
    /// [`Error::CutFile`] if the font was not opened by [`Font::from_file`].
    ///
    /// [`Font::subset`]: crate::Font::subset
    /// [`Font::from_file`]: crate::Font::from_file
    pub fn write(&self) -> Result<Vec<u8>, WriteError> {
        if self.has_layout {
            return self.write_with_layout().map(|(file, _)| file);
        }
        let file = self.file.unwrap_or_default();
        c::file_subset(file, self.face, &self.told(), self.limit).map_err(WriteError::of)
    }

    /// Writes the file with layout tables, and tells what became of them.
    ///
    /// ```
    /// # let bytes = std::fs::read("examples/whole.otf")?;
    /// # let font = postscript::Font::from_file(&bytes, 0)?;
    /// let (file, layout) = font.subset_file().text("A").write_with_layout()?;
    /// assert_eq!(layout.gdef, postscript::LayoutTable::Absent);
    /// assert!(postscript::Font::from_file(&file, 0).is_ok());
    /// # Ok::<(), Box<dyn std::error::Error>>(())
    /// ```
    ///
    /// # Errors
    ///
    /// Those of [`SubsetFile::write`].
    pub fn write_with_layout(&self) -> Result<(Vec<u8>, Layout), WriteError> {
        let file = self.file.unwrap_or_default();
        let (bytes, told) = c::file_subset_layout(file, self.face, &self.told(), self.limit)
            .map_err(WriteError::of)?;
        let [gsub, gpos, gdef, kern] = [told.gsub, told.gpos, told.gdef, told.kern].map(LayoutTable::of);
        Ok((bytes, Layout { gsub, gpos, gdef, kern, left_out: told.left_out }))
    }
}

/// The error of a font that is not written.
///
/// ```
/// # let bytes = std::fs::read("examples/small.otf")?;
/// # let font = postscript::Font::from_file(&bytes, 0)?;
/// let error = font.subset(&[1, 4]).unwrap_err();
/// assert_eq!((error.error, error.glyph), (postscript::Error::NoGlyph, Some(4)));
/// assert_eq!(error.to_string(), "glyph 4: no such glyph");
/// # Ok::<(), Box<dyn std::error::Error>>(())
/// ```
#[derive(Clone, Copy, Debug, PartialEq, Eq, Hash)]
pub struct WriteError {
    /// The cause.
    pub error: Error,
    /// The glyph of the error, for [`Error::RefusedGlyph`], [`Error::NoGlyph`], [`Error::NoPart`] and [`Error::NoName`].
    pub glyph: Option<usize>,
    /// The error of that glyph, for [`Error::RefusedGlyph`].
    pub cause: Option<Error>,
    /// The character of the error, for [`Error::NoCharacter`].
    pub character: Option<u32>,
    /// The tag of the table, for [`Error::NoTable`] and [`Error::SameTag`], and of [`Place::file`](crate::Place::file) also for
    /// [`Error::CutTable`] and [`Error::UnknownTable`].
    pub table: Option<[u8; 4]>,
}

impl WriteError {
    /// The error of a `psf_refusal`.
    pub(crate) fn of((error, told): (Error, c::Refusal)) -> WriteError {
        let means_glyph =
            matches!(error, Error::RefusedGlyph | Error::NoGlyph | Error::NoPart | Error::NoName);
        let means_table =
            matches!(error, Error::NoTable | Error::SameTag | Error::CutTable | Error::UnknownTable);
        WriteError {
            error,
            glyph: means_glyph.then_some(told.glyph as usize),
            cause: (error == Error::RefusedGlyph).then(|| Error::of(told.cause)),
            character: (error == Error::NoCharacter).then_some(told.glyph as u32),
            table: (means_table && told.glyph != 0).then(|| (told.glyph as u32).to_be_bytes()),
        }
    }
}

impl fmt::Display for WriteError {
    fn fmt(&self, f: &mut fmt::Formatter<'_>) -> fmt::Result {
        if let Some(character) = self.character {
            return write!(f, "U+{character:04X}: {}", self.error);
        }
        if let Some(table) = self.table {
            return write!(f, "table {:?}: {}", String::from_utf8_lossy(&table), self.error);
        }
        match (self.glyph, self.cause) {
            (Some(glyph), Some(cause)) => write!(f, "glyph {glyph}: {cause}"),
            (Some(glyph), None) => write!(f, "glyph {glyph}: {}", self.error),
            _ => self.error.fmt(f),
        }
    }
}

#[cfg(feature = "std")]
impl std::error::Error for WriteError {}

/// The error of a glyph name, from [`SubsetFile::glyph_names`].
///
/// ```
/// # let bytes = std::fs::read("examples/small.otf")?;
/// # let font = postscript::Font::from_file(&bytes, 0)?;
/// let error = font.subset_file().glyph_names([b"tree"]).unwrap_err();
/// assert_eq!((error.error, error.name.as_slice()), (postscript::Error::NoGlyph, b"tree".as_slice()));
/// # Ok::<(), Box<dyn std::error::Error>>(())
/// ```
#[derive(Clone, Debug, PartialEq, Eq, Hash)]
pub struct NameError {
    /// The cause: [`Error::NoGlyph`], or the error of a malformed charset.
    pub error: Error,
    /// The name.
    pub name: Vec<u8>,
}

impl fmt::Display for NameError {
    fn fmt(&self, f: &mut fmt::Formatter<'_>) -> fmt::Result {
        write!(f, "glyph {:?}: {}", String::from_utf8_lossy(&self.name), self.error)
    }
}

#[cfg(feature = "std")]
impl std::error::Error for NameError {}
