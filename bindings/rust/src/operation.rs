//! Operations of glyphs.
use crate::c;
use alloc::vec::Vec;

/// An operation of a glyph: an operator with its operands, and a mask with its stems.
///
/// ```
/// # let bytes = std::fs::read("examples/small.otf")?;
/// # let font = postscript::Font::from_file(&bytes, 0)?;
/// let glyph = font.glyph_index('A').ok_or("no such glyph")?;
/// let move_to = &font.operations(glyph)?[0];
/// assert_eq!((move_to.operator, move_to.operands.as_slice()), (0x16, [0.0].as_slice()));
/// # Ok::<(), Box<dyn std::error::Error>>(())
/// ```
#[derive(Clone, Debug, PartialEq)]
pub struct Operation {
    /// The code of the operator (Adobe Technical Note 5177, Appendix A). Two-byte codes are 0x0c00 plus the second byte.
    pub operator: u16,
    /// The operands, lowest first. They are exact multiples of 1/65536.
    pub operands: Vec<f64>,
    /// At `hintmask` and `cntrmask`, the operands of the stems that it implies (Technical Note 5177, "Hint Operators").
    pub stems: Vec<f64>,
    /// The bytes of the mask, one bit per stem. Empty except at `hintmask` and `cntrmask`.
    pub mask: Vec<u8>,
}

impl Operation {
    /// An operation of C, with the numbers of all operations.
    pub(crate) fn of(told: c::Operation, numbers: &[i32]) -> Operation {
        let (operands, stems, mask) = told.own(numbers);
        let units = |bits: &i32| f64::from(*bits) / 65536.0;
        Operation {
            operator: told.operator as u16,
            operands: operands.iter().map(units).collect(),
            stems: stems.iter().map(units).collect(),
            mask: mask.iter().map(|byte| *byte as u8).collect(),
        }
    }

    /// Returns the name of the operator in the Technical Note, or `None`.
    ///
    /// ```
    /// # let bytes = std::fs::read("examples/small.otf")?;
    /// # let font = postscript::Font::from_file(&bytes, 0)?;
    /// let glyph = font.glyph_index('A').ok_or("no such glyph")?;
    /// let names: Vec<_> = font.operations(glyph)?.iter().map(|operation| operation.name()).collect();
    /// assert_eq!(names, [Some("hmoveto"), Some("rlineto")]);
    /// # Ok::<(), Box<dyn std::error::Error>>(())
    /// ```
    pub fn name(&self) -> Option<&'static str> {
        NAMES.iter().find(|(code, _)| *code == self.operator).map(|(_, name)| *name)
    }
}

/// Operators by code.
const NAMES: [(u16, &str); 23] = [
    (0x01, "hstem"),
    (0x03, "vstem"),
    (0x04, "vmoveto"),
    (0x05, "rlineto"),
    (0x06, "hlineto"),
    (0x07, "vlineto"),
    (0x08, "rrcurveto"),
    (0x12, "hstemhm"),
    (0x13, "hintmask"),
    (0x14, "cntrmask"),
    (0x15, "rmoveto"),
    (0x16, "hmoveto"),
    (0x17, "vstemhm"),
    (0x18, "rcurveline"),
    (0x19, "rlinecurve"),
    (0x1a, "vvcurveto"),
    (0x1b, "hhcurveto"),
    (0x1e, "vhcurveto"),
    (0x1f, "hvcurveto"),
    (0x0c22, "hflex"),
    (0x0c23, "flex"),
    (0x0c24, "hflex1"),
    (0x0c25, "flex1"),
];
