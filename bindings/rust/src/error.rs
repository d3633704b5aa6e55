//! What a call is refused with.
use crate::c;
use core::fmt;

/// The result of a call.
///
/// ```
/// fn advance(file: &[u8], character: char) -> postscript::Result<Option<f64>> {
///     let font = postscript::Font::from_file(file, 0)?;
///     font.glyph_index(character).map(|glyph| Ok(font.outline(glyph)?.advance)).transpose()
/// }
/// # let bytes = std::fs::read("examples/small.otf")?;
/// assert_eq!(advance(&bytes, 'A')?, Some(500.0));
/// # Ok::<(), Box<dyn std::error::Error>>(())
/// ```
pub type Result<T> = core::result::Result<T, Error>;

/// The error of a call: the statuses of postscript.h, with their numbers.
///
/// ```
/// # use postscript::{Error, Font};
/// let error = Font::from_file(b"no font", 0).unwrap_err();
/// assert_eq!(error, Error::UnknownFile);
/// assert_eq!(error.to_string(), "not an OpenType file");
/// ```
#[derive(Clone, Copy, Debug, PartialEq, Eq, Hash)]
#[non_exhaustive]
#[repr(i32)]
pub enum Error {
    /// The data ends early, or an offset points past the end.
    UnexpectedEof = 1,
    /// Out of memory; or Font DICTs of more than 20,000,000 bytes.
    Memory = 3,
    /// The offset size of an INDEX is 0 or greater than 4.
    MalformedOffset = 5,
    /// The bytes are no number.
    MalformedNumber = 7,
    /// A real number with too many digits or too large an exponent; an advance out of range.
    OutOfRangeNumber = 8,
    /// No operator has this code.
    UnknownOperator = 9,
    /// No charset has this format.
    UnknownCharSetFormat = 11,
    /// CharstringType is not 2.
    UnknownCharStringFormat = 12,
    /// An operand of a DICT is not a 32-bit integer.
    MalformedOperation = 13,
    /// An operator of a DICT is missing, or has too few operands.
    MissingOperation = 14,
    /// An offset is negative.
    OutOfRangeOffset = 15,
    /// A feature that is not supported.
    Unsupported = 16,
    /// An operator needs an operand, and the stack is empty.
    ExpectedOperand = 17,
    /// A number that must be an integer is not, or is missing.
    ExpectedInteger = 18,
    /// `dup`, `index` or `roll` reaches below the stack.
    ExpectedMoreOperands = 19,
    /// Too few operands for an operator that draws or declares stems.
    MalformedOperands = 20,
    /// The count of a roll, or the index of put or get, is out of range.
    InvalidOperand = 21,
    /// No subroutine has this number.
    MissingSubroutine = 22,
    /// Return outside of a subroutine.
    ReturnWithoutCaller = 23,
    /// Bytes after endchar in a subroutine.
    TrailingData = 24,
    /// An eleventh nested call.
    TooDeep = 25,
    /// A number or a coordinate exceeds 16.16 bits.
    Overflow = 26,
    /// Division by zero.
    ZeroDivisor = 27,
    /// Sqrt of a negative number.
    NegativeRoot = 28,
    /// More stems than 32 bits can count.
    TooManyStems = 29,
    /// No glyph has this number or name.
    NoGlyph = 31,
    /// The buffer is too small; *count is the size that is needed.
    NoRoom = 32,
    /// The file is truncated.
    CutFile = 33,
    /// Not an OpenType file.
    UnknownFile = 34,
    /// The file has no such face.
    NoFace = 35,
    /// The face has no such table.
    NoTable = 36,
    /// The cmap table has no subtable of format 4, 6 or 12.
    NoMap = 37,
    /// The glyph has no name.
    NoName = 38,
    /// No status has this number.
    NoStatus = 39,
    /// A glyph has an error, so no font is written.
    RefusedGlyph = 40,
    /// The CFF table has several fonts, or none.
    SeveralFonts = 41,
    /// FDSelect gives a glyph of a CID-keyed font no Font DICT.
    NoPart = 42,
    /// No glyphs were named.
    NoGlyphs = 43,
    /// The output, or a charstring of it, would be too large.
    TooLarge = 45,
    /// A glyph, or the whole font, costs more than the limit.
    TooLong = 46,
    /// A seac glyph names no codes from 0 to 255.
    NoCode = 47,
    /// A seac glyph in a CID-keyed font, whose glyphs have no names.
    NoAccents = 48,
    /// No glyph is the base or the accent of a seac glyph.
    NoComponent = 49,
    /// The base or the accent of a seac glyph is a seac glyph.
    NestedAccent = 50,
    /// The font has no such axis.
    NoAxis = 51,
    /// The font has no such named instance.
    NoInstance = 52,
    /// There are more coordinates than axes.
    TooManyCoordinates = 53,
    /// The fvar table is truncated.
    CutFvar = 54,
    /// The fvar table has an unknown format.
    UnknownFvar = 55,
    /// The avar table is truncated.
    CutAvar = 56,
    /// The avar table has an unknown format.
    UnknownAvar = 57,
    /// The HVAR table is truncated.
    CutHvar = 58,
    /// The HVAR table has an unknown format.
    UnknownHvar = 59,
    /// The hhea and hmtx tables are truncated.
    NoAdvances = 60,
    /// The CFF2 table has no header.
    Cff2Header = 61,
    /// The CFF2 table has another major version than 2.
    Cff2Version = 62,
    /// The Top DICT of the CFF2 table is truncated.
    Cff2Dictionary = 63,
    /// The Global Subr INDEX of the CFF2 table is malformed.
    Cff2Subroutines = 64,
    /// The Top DICT of the CFF2 table lacks an offset.
    Cff2Offset = 65,
    /// An INDEX of the CFF2 table is malformed.
    Cff2Index = 66,
    /// FDSelect of the CFF2 table is malformed, or of another format than 0, 3 and 4.
    Cff2Select = 67,
    /// The variation store of the CFF2 table is malformed.
    Cff2Store = 68,
    /// Item variation data of the CFF2 table are missing or truncated.
    Cff2Data = 69,
    /// The face has no glyph for a character.
    NoCharacter = 70,
    /// The tables of the face overlap: together they have more bytes than the file.
    Overlap = 71,
    /// Two tables of the new file would have the same tag.
    SameTag = 72,
    /// A table is truncated, for [`SubsetFile`](crate::SubsetFile) the maxp table.
    CutTable = 73,
    /// The face has no CFF2 table, or a CFF table too.
    NotVariable = 74,
    /// A table has an unknown format.
    UnknownTable = 75,
    /// A status that this crate does not know.
    Other = -1,
    /// The linked library has another version than this crate, so no font is opened.
    OtherVersion = -2,
}

/// All errors with a number.
const ERRORS: [Error; 69] = [
    Error::UnexpectedEof,
    Error::Memory,
    Error::MalformedOffset,
    Error::MalformedNumber,
    Error::OutOfRangeNumber,
    Error::UnknownOperator,
    Error::UnknownCharSetFormat,
    Error::UnknownCharStringFormat,
    Error::MalformedOperation,
    Error::MissingOperation,
    Error::OutOfRangeOffset,
    Error::Unsupported,
    Error::ExpectedOperand,
    Error::ExpectedInteger,
    Error::ExpectedMoreOperands,
    Error::MalformedOperands,
    Error::InvalidOperand,
    Error::MissingSubroutine,
    Error::ReturnWithoutCaller,
    Error::TrailingData,
    Error::TooDeep,
    Error::Overflow,
    Error::ZeroDivisor,
    Error::NegativeRoot,
    Error::TooManyStems,
    Error::NoGlyph,
    Error::NoRoom,
    Error::CutFile,
    Error::UnknownFile,
    Error::NoFace,
    Error::NoTable,
    Error::NoMap,
    Error::NoName,
    Error::NoStatus,
    Error::RefusedGlyph,
    Error::SeveralFonts,
    Error::NoPart,
    Error::NoGlyphs,
    Error::TooLarge,
    Error::TooLong,
    Error::NoCode,
    Error::NoAccents,
    Error::NoComponent,
    Error::NestedAccent,
    Error::NoAxis,
    Error::NoInstance,
    Error::TooManyCoordinates,
    Error::CutFvar,
    Error::UnknownFvar,
    Error::CutAvar,
    Error::UnknownAvar,
    Error::CutHvar,
    Error::UnknownHvar,
    Error::NoAdvances,
    Error::Cff2Header,
    Error::Cff2Version,
    Error::Cff2Dictionary,
    Error::Cff2Subroutines,
    Error::Cff2Offset,
    Error::Cff2Index,
    Error::Cff2Select,
    Error::Cff2Store,
    Error::Cff2Data,
    Error::NoCharacter,
    Error::Overlap,
    Error::SameTag,
    Error::CutTable,
    Error::NotVariable,
    Error::UnknownTable,
];

impl Error {
    /// The error of a status.
    pub(crate) fn of(status: i32) -> Error {
        ERRORS.into_iter().find(|e| e.status() == status).unwrap_or(Error::Other)
    }

    /// The number of the error, as in postscript.h.
    ///
    /// ```
    /// assert_eq!(postscript::Error::NoGlyph.status(), 31);
    /// ```
    pub fn status(self) -> i32 {
        self as i32
    }
}

impl fmt::Display for Error {
    fn fmt(&self, f: &mut fmt::Formatter<'_>) -> fmt::Result {
        if *self != Error::OtherVersion {
            return f.write_str(&c::status_text(self.status()));
        }
        let (own, (major, minor, patch)) = (env!("CARGO_PKG_VERSION"), crate::version());
        write!(f, "postscript {own} wants a library of its own version, and {major}.{minor}.{patch} is linked")
    }
}

#[cfg(feature = "std")]
impl std::error::Error for Error {}

#[cfg(test)]
mod tests {
    use super::*;
    use std::string::ToString;

    #[test]
    fn libraries_of_other_versions() {
        assert_eq!(c::is_own(c::version()), Ok(()));
        assert_eq!(c::is_own(c::VERSION + 1), Err(Error::OtherVersion));
        assert_eq!(c::is_own(c::VERSION + 256), Err(Error::OtherVersion));
        let text = Error::OtherVersion.to_string();
        let version = env!("CARGO_PKG_VERSION");
        assert_eq!(text, format!("postscript {version} wants a library of its own version, and {version} is linked"));
    }
}
