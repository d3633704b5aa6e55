//! The functions of postscript.h, and safe wrappers. A slice is passed as its pointer, which is never null, and its length. Outputs
//! are `&mut`, which overlap nothing. So each wrapper meets the obligations of the header.
use crate::error::{Error, Result};
use alloc::string::String;
use alloc::vec::Vec;
use alloc::{format, vec};

/// `psf_part`.
#[repr(C)]
#[derive(Clone, Copy, Debug, Default)]
pub struct Part {
    local_subroutines: u64,
    default_width: i64,
    nominal_width: i64,
}

/// `psf_font`: plain numbers; any values are safe.
#[repr(C)]
#[derive(Clone, Copy, Debug, Default)]
pub struct Font {
    char_strings: u64,
    global_subroutines: u64,
    font_dictionaries: u64,
    fd_select: u64,
    part: Part,
    pub glyphs: u64,
    pub is_cid: u32,
    pub limit: u64,
}

/// `psf_segment`.
#[repr(C)]
#[derive(Clone, Copy, Debug, Default)]
pub struct Segment {
    pub kind: u32,
    pub x1: i32,
    pub y1: i32,
    pub x2: i32,
    pub y2: i32,
    pub x: i32,
    pub y: i32,
}

/// `psf_glyph`.
#[repr(C)]
#[derive(Clone, Copy, Debug, Default)]
pub struct Glyph {
    pub advance: i64,
    pub left: i32,
    pub bottom: i32,
    pub right: i32,
    pub top: i32,
    pub has_bounds: u32,
    pub has_width: u32,
}

/// `psf_bounds`.
#[repr(C)]
#[derive(Clone, Copy, Debug, Default)]
pub struct Bounds {
    pub left: i32,
    pub bottom: i32,
    pub right: i32,
    pub top: i32,
    pub has_bounds: u32,
}

/// `psf_character`.
#[repr(C)]
#[derive(Clone, Copy, Debug, Default)]
pub struct Character {
    pub character: u32,
    pub glyph: u32,
}

/// `psf_layout`.
#[repr(C)]
#[derive(Clone, Copy, Debug, Default)]
pub struct Layout {
    pub gsub: i32,
    pub gpos: i32,
    pub gdef: i32,
    pub kern: i32,
    pub left_out: u64,
}

/// `psf_operation`.
#[repr(C)]
#[derive(Clone, Copy, Debug, Default)]
pub struct Operation {
    first: u64,
    count: u64,
    stems: u64,
    mask: u64,
    pub operator: u32,
}

impl Operation {
    /// Its part of the numbers of all operations: its operands, those of the implied stems, and the bytes of the mask.
    pub fn own(self, numbers: &[i32]) -> (&[i32], &[i32], &[i32]) {
        let (operands, hints) = numbers[self.first as usize..].split_at(self.count as usize);
        let (stems, mask) = hints.split_at(self.stems as usize);
        (operands, stems, &mask[..self.mask as usize])
    }
}

/// `psf_axis`.
#[repr(C)]
#[derive(Clone, Copy, Debug, Default)]
pub struct Axis {
    pub tag: u32,
    pub minimum: i32,
    pub default_value: i32,
    pub maximum: i32,
    pub is_hidden: u32,
    pub name: u32,
}

/// `psf_instance`.
#[repr(C)]
#[derive(Clone, Copy, Debug, Default)]
pub struct Instance {
    pub name: u32,
    pub flags: u32,
    pub postscript_name: i32,
}

/// `psf_refusal`.
#[repr(C)]
#[derive(Clone, Copy, Debug, Default)]
pub struct Refusal {
    pub glyph: u64,
    pub cause: i32,
}

const OK: i32 = 0;
const NO_ROOM: i32 = 32;

extern "C" {
    fn psf_version() -> u32;
    fn psf_status_text(status: i32, text: *mut u8, room: usize, count: *mut usize) -> i32;
    fn psf_file_faces(file: *const u8, length: usize, faces: *mut usize) -> i32;
    fn psf_file_table(
        file: *const u8,
        length: usize,
        face: usize,
        tag: u32,
        place: *mut usize,
        size: *mut usize,
    ) -> i32;
    fn psf_map_glyph(cmap: *const u8, length: usize, character: u32, glyph: *mut usize) -> i32;
    fn psf_map_characters(
        cmap: *const u8,
        length: usize,
        characters: *mut Character,
        room: usize,
        count: *mut usize,
    ) -> i32;
    fn psf_font_open(cff: *const u8, length: usize, font: *mut Font) -> i32;
    fn psf_font_fits(cff: *const u8, length: usize, limit: *mut u64) -> i32;
    fn psf_glyph_outline(
        cff: *const u8,
        length: usize,
        font: *const Font,
        glyph: usize,
        segments: *mut Segment,
        room: usize,
        count: *mut usize,
        info: *mut Glyph,
    ) -> i32;
    fn psf_glyph_bounds(
        cff: *const u8,
        length: usize,
        font: *const Font,
        glyph: usize,
        bounds: *mut Bounds,
    ) -> i32;
    fn psf_glyph_flat(
        cff: *const u8,
        length: usize,
        font: *const Font,
        glyph: usize,
        code: *mut u8,
        room: usize,
        count: *mut usize,
    ) -> i32;
    fn psf_glyph_operations(
        cff: *const u8,
        length: usize,
        font: *const Font,
        glyph: usize,
        operations: *mut Operation,
        room: usize,
        count: *mut usize,
        operands: *mut i32,
        operand_room: usize,
        operand_count: *mut usize,
    ) -> i32;
    fn psf_font_flat(
        cff: *const u8,
        length: usize,
        limit: u64,
        flat: *mut u8,
        room: usize,
        count: *mut usize,
        refusal: *mut Refusal,
    ) -> i32;
    fn psf_font_subset(
        cff: *const u8,
        length: usize,
        glyphs: *const usize,
        named: usize,
        keeps: u32,
        limit: u64,
        subset: *mut u8,
        room: usize,
        count: *mut usize,
        refusal: *mut Refusal,
    ) -> i32;
    fn psf_file_flat(
        file: *const u8,
        length: usize,
        face: usize,
        limit: u64,
        flat: *mut u8,
        room: usize,
        count: *mut usize,
        refusal: *mut Refusal,
    ) -> i32;
    fn psf_file_subset(
        file: *const u8,
        length: usize,
        face: usize,
        characters: *const u32,
        asked: usize,
        glyphs: *const usize,
        named: usize,
        copied: *const u32,
        tables: usize,
        lenient: u32,
        keeps: u32,
        names: u32,
        limit: u64,
        subset: *mut u8,
        room: usize,
        count: *mut usize,
        refusal: *mut Refusal,
    ) -> i32;
    fn psf_file_subset_layout(
        file: *const u8,
        length: usize,
        face: usize,
        characters: *const u32,
        asked: usize,
        glyphs: *const usize,
        named: usize,
        copied: *const u32,
        tables: usize,
        lenient: u32,
        keeps: u32,
        names: u32,
        exact: u32,
        features: *const u32,
        tags: usize,
        all: u32,
        limit: u64,
        subset: *mut u8,
        room: usize,
        count: *mut usize,
        layout: *mut Layout,
        refusal: *mut Refusal,
    ) -> i32;
    fn psf_file_instance(
        file: *const u8,
        length: usize,
        face: usize,
        coordinates: *const i32,
        named: usize,
        rounded: u32,
        limit: u64,
        instance: *mut u8,
        room: usize,
        count: *mut usize,
        refusal: *mut Refusal,
    ) -> i32;
    fn psf_glyph_name(
        cff: *const u8,
        length: usize,
        glyph: usize,
        name: *mut u8,
        room: usize,
        count: *mut usize,
    ) -> i32;
    fn psf_font_identifiers(
        cff: *const u8,
        length: usize,
        identifiers: *mut i32,
        room: usize,
        count: *mut usize,
    ) -> i32;
    fn psf_font_string(
        cff: *const u8,
        length: usize,
        identifier: u16,
        string: *mut u8,
        room: usize,
        count: *mut usize,
    ) -> i32;
    fn psf_named_glyph(
        cff: *const u8,
        length: usize,
        name: *const u8,
        name_length: usize,
        glyph: *mut usize,
    ) -> i32;
    fn psf_variation_axis(
        file: *const u8,
        length: usize,
        face: usize,
        i: usize,
        axis: *mut Axis,
        count: *mut usize,
    ) -> i32;
    fn psf_variation_instance(
        file: *const u8,
        length: usize,
        face: usize,
        i: usize,
        instance: *mut Instance,
        coordinates: *mut i32,
        room: usize,
        count: *mut usize,
    ) -> i32;
    fn psf_variable_outline(
        file: *const u8,
        length: usize,
        face: usize,
        coordinates: *const i32,
        named: usize,
        glyph: usize,
        limit: u64,
        segments: *mut Segment,
        room: usize,
        count: *mut usize,
        bounds: *mut Bounds,
    ) -> i32;
    fn psf_location_scalars(
        file: *const u8,
        length: usize,
        face: usize,
        coordinates: *const i32,
        named: usize,
        limit: u64,
        scalars: *mut u32,
        room: usize,
        count: *mut usize,
    ) -> i32;
    fn psf_location_outline(
        cff2: *const u8,
        length: usize,
        scalars: *const u32,
        scalar_count: usize,
        glyph: usize,
        limit: u64,
        segments: *mut Segment,
        room: usize,
        count: *mut usize,
        bounds: *mut Bounds,
    ) -> i32;
    fn psf_variable_glyphs(file: *const u8, length: usize, face: usize, count: *mut usize) -> i32;
    fn psf_variable_advance(
        file: *const u8,
        length: usize,
        face: usize,
        coordinates: *const i32,
        named: usize,
        glyph: usize,
        limit: u64,
        advance: *mut i64,
    ) -> i32;
}

pub fn version() -> u32 {
    unsafe { psf_version() }
}

/// The version of this crate, in the form of `psf_version`.
pub const VERSION: u32 = number(env!("CARGO_PKG_VERSION_MAJOR")) << 16
    | number(env!("CARGO_PKG_VERSION_MINOR")) << 8
    | number(env!("CARGO_PKG_VERSION_PATCH"));

const fn number(digits: &str) -> u32 {
    let (digits, mut number, mut place) = (digits.as_bytes(), 0, 0);
    while place < digits.len() {
        number = 10 * number + (digits[place] - b'0') as u32;
        place += 1;
    }
    number
}

/// Fails if the library has another version than this crate, whose declarations may not fit it then.
pub fn is_own(version: u32) -> Result<()> {
    if version == VERSION {
        Ok(())
    } else {
        Err(Error::OtherVersion)
    }
}

/// The value, if the status is 0.
fn answered<T>(status: i32, value: T) -> Result<T> {
    if status == OK {
        Ok(value)
    } else {
        Err(Error::of(status))
    }
}

/// Calls with larger buffers until one suffices.
fn with_room<T: Clone>(
    room: &mut Vec<T>,
    least: usize,
    blank: T,
    mut call: impl FnMut(&mut [T], &mut usize) -> i32,
) -> Result<()> {
    room.resize(least.max(room.capacity()), blank.clone());
    let mut count = 0;
    let mut status = call(room, &mut count);
    if status == NO_ROOM {
        room.resize(count, blank);
        status = call(room, &mut count);
    }
    answered(status, ())?;
    room.truncate(count);
    Ok(())
}

pub fn status_text(status: i32) -> String {
    let mut text = Vec::new();
    match with_room(&mut text, 64, 0, |room, count| unsafe {
        psf_status_text(status, room.as_mut_ptr(), room.len(), count)
    }) {
        Ok(()) => String::from_utf8_lossy(&text).into_owned(),
        Err(_) => format!("status {status}"),
    }
}

pub fn faces(file: &[u8]) -> Result<usize> {
    is_own(version())?;
    let mut faces = 0;
    let status = unsafe { psf_file_faces(file.as_ptr(), file.len(), &mut faces) };
    answered(status, faces)
}

pub fn table(file: &[u8], face: usize, tag: [u8; 4]) -> Result<&[u8]> {
    is_own(version())?;
    let (mut place, mut size) = (0, 0);
    let tag = u32::from_be_bytes(tag);
    let status = unsafe { psf_file_table(file.as_ptr(), file.len(), face, tag, &mut place, &mut size) };
    answered(status, ())?;
    Ok(&file[place..place + size])
}

pub fn map_glyph(cmap: &[u8], character: u32) -> Result<usize> {
    let mut glyph = 0;
    let status = unsafe { psf_map_glyph(cmap.as_ptr(), cmap.len(), character, &mut glyph) };
    answered(status, glyph)
}

pub fn characters(cmap: &[u8]) -> Result<Vec<Character>> {
    let mut characters = Vec::new();
    with_room(&mut characters, 1024, Character::default(), |room, count| unsafe {
        psf_map_characters(cmap.as_ptr(), cmap.len(), room.as_mut_ptr(), room.len(), count)
    })?;
    Ok(characters)
}

pub fn open(cff: &[u8]) -> Result<Font> {
    is_own(version())?;
    let mut font = Font::default();
    let status = unsafe { psf_font_open(cff.as_ptr(), cff.len(), &mut font) };
    answered(status, font)
}

pub fn fits(cff: &[u8], limit: &mut u64) -> Result<()> {
    let status = unsafe { psf_font_fits(cff.as_ptr(), cff.len(), limit) };
    answered(status, ())
}

pub fn outline(cff: &[u8], font: &Font, glyph: usize, segments: &mut Vec<Segment>) -> Result<Glyph> {
    let mut info = Glyph::default();
    with_room(segments, 64, Segment::default(), |room, count| unsafe {
        psf_glyph_outline(cff.as_ptr(), cff.len(), font, glyph, room.as_mut_ptr(), room.len(), count, &mut info)
    })?;
    Ok(info)
}

pub fn bounds(cff: &[u8], font: &Font, glyph: usize) -> Result<Bounds> {
    let mut bounds = Bounds::default();
    let status = unsafe { psf_glyph_bounds(cff.as_ptr(), cff.len(), font, glyph, &mut bounds) };
    answered(status, bounds)
}

pub fn flat(cff: &[u8], font: &Font, glyph: usize) -> Result<Vec<u8>> {
    let mut code = Vec::new();
    with_room(&mut code, 256, 0, |room, count| unsafe {
        psf_glyph_flat(cff.as_ptr(), cff.len(), font, glyph, room.as_mut_ptr(), room.len(), count)
    })?;
    Ok(code)
}

pub fn glyph_name(cff: &[u8], glyph: usize) -> Result<Vec<u8>> {
    let mut name = Vec::new();
    with_room(&mut name, 32, 0, |room, count| unsafe {
        psf_glyph_name(cff.as_ptr(), cff.len(), glyph, room.as_mut_ptr(), room.len(), count)
    })?;
    Ok(name)
}

pub fn identifiers(cff: &[u8], glyphs: usize) -> Result<Vec<i32>> {
    let mut identifiers = Vec::new();
    with_room(&mut identifiers, glyphs, 0, |room, count| unsafe {
        psf_font_identifiers(cff.as_ptr(), cff.len(), room.as_mut_ptr(), room.len(), count)
    })?;
    Ok(identifiers)
}

pub fn string(cff: &[u8], identifier: u16) -> Result<Vec<u8>> {
    let mut string = Vec::new();
    with_room(&mut string, 32, 0, |room, count| unsafe {
        psf_font_string(cff.as_ptr(), cff.len(), identifier, room.as_mut_ptr(), room.len(), count)
    })?;
    Ok(string)
}

pub fn named_glyph(cff: &[u8], name: &[u8]) -> Result<usize> {
    let mut glyph = 0;
    let status =
        unsafe { psf_named_glyph(cff.as_ptr(), cff.len(), name.as_ptr(), name.len(), &mut glyph) };
    answered(status, glyph)
}

/// An axis of a face, and the number of axes.
pub fn axis(file: &[u8], face: usize, i: usize) -> Result<(Axis, usize)> {
    let (mut axis, mut count) = (Axis::default(), 0);
    let status = unsafe { psf_variation_axis(file.as_ptr(), file.len(), face, i, &mut axis, &mut count) };
    answered(status, (axis, count))
}

/// A named instance of a face, and its coordinates.
pub fn instance(file: &[u8], face: usize, i: usize) -> Result<(Instance, Vec<i32>)> {
    let (mut instance, mut coordinates) = (Instance::default(), Vec::new());
    with_room(&mut coordinates, 8, 0, |room, count| unsafe {
        psf_variation_instance(
            file.as_ptr(),
            file.len(),
            face,
            i,
            &mut instance,
            room.as_mut_ptr(),
            room.len(),
            count,
        )
    })?;
    Ok((instance, coordinates))
}

/// The outline of a glyph of a face at a location, and the bounds of its points.
pub fn variable_outline(
    file: &[u8],
    face: usize,
    coordinates: &[i32],
    glyph: usize,
    limit: u64,
    segments: &mut Vec<Segment>,
) -> Result<Bounds> {
    let mut bounds = Bounds::default();
    with_room(segments, 64, Segment::default(), |room, count| unsafe {
        psf_variable_outline(
            file.as_ptr(),
            file.len(),
            face,
            coordinates.as_ptr(),
            coordinates.len(),
            glyph,
            limit,
            room.as_mut_ptr(),
            room.len(),
            count,
            &mut bounds,
        )
    })?;
    Ok(bounds)
}

/// The scalars of a location of a face.
pub fn location_scalars(file: &[u8], face: usize, coordinates: &[i32], limit: u64) -> Result<Vec<u32>> {
    let mut scalars = Vec::new();
    with_room(&mut scalars, 16, 0, |room, count| unsafe {
        psf_location_scalars(
            file.as_ptr(),
            file.len(),
            face,
            coordinates.as_ptr(),
            coordinates.len(),
            limit,
            room.as_mut_ptr(),
            room.len(),
            count,
        )
    })?;
    Ok(scalars)
}

/// The outline of a glyph of a `CFF2` table at the location with these scalars, and the bounds of its points.
pub fn location_outline(cff2: &[u8], scalars: &[u32], glyph: usize, limit: u64, segments: &mut Vec<Segment>) -> Result<Bounds> {
    let mut bounds = Bounds::default();
    with_room(segments, 64, Segment::default(), |room, count| unsafe {
        psf_location_outline(
            cff2.as_ptr(),
            cff2.len(),
            scalars.as_ptr(),
            scalars.len(),
            glyph,
            limit,
            room.as_mut_ptr(),
            room.len(),
            count,
            &mut bounds,
        )
    })?;
    Ok(bounds)
}

/// The number of glyphs of a face.
pub fn variable_glyphs(file: &[u8], face: usize) -> Result<usize> {
    let mut count = 0;
    let status = unsafe { psf_variable_glyphs(file.as_ptr(), file.len(), face, &mut count) };
    answered(status, count)
}

/// The advance of a glyph of a face at a location.
pub fn variable_advance(file: &[u8], face: usize, coordinates: &[i32], glyph: usize, limit: u64) -> Result<i64> {
    let mut advance = 0;
    let status = unsafe {
        psf_variable_advance(
            file.as_ptr(),
            file.len(),
            face,
            coordinates.as_ptr(),
            coordinates.len(),
            glyph,
            limit,
            &mut advance,
        )
    };
    answered(status, advance)
}

/// The operations of a glyph, and the operands of all of them.
pub fn operations(cff: &[u8], font: &Font, glyph: usize) -> Result<(Vec<Operation>, Vec<i32>)> {
    let (mut operations, mut operands) = (vec![Operation::default(); 64], vec![0; 256]);
    loop {
        let (mut count, mut operand_count) = (0, 0);
        let status = unsafe {
            psf_glyph_operations(
                cff.as_ptr(),
                cff.len(),
                font,
                glyph,
                operations.as_mut_ptr(),
                operations.len(),
                &mut count,
                operands.as_mut_ptr(),
                operands.len(),
                &mut operand_count,
            )
        };
        if status != NO_ROOM {
            answered(status, ())?;
            operations.truncate(count);
            operands.truncate(operand_count);
            return Ok((operations, operands));
        }
        operations.resize(count, Operation::default());
        operands.resize(operand_count, 0);
    }
}

/// The font that a call writes, or its error.
fn written(
    least: usize,
    mut call: impl FnMut(&mut [u8], &mut usize, &mut Refusal) -> i32,
) -> core::result::Result<Vec<u8>, (Error, Refusal)> {
    let (mut font, mut refusal) = (Vec::new(), Refusal::default());
    match with_room(&mut font, least, 0, |room, count| call(room, count, &mut refusal)) {
        Ok(()) => Ok(font),
        Err(e) => Err((e, refusal)),
    }
}

pub fn font_flat(cff: &[u8], limit: u64) -> core::result::Result<Vec<u8>, (Error, Refusal)> {
    written(2 * cff.len() + 1024, |room, count, refusal| unsafe {
        psf_font_flat(cff.as_ptr(), cff.len(), limit, room.as_mut_ptr(), room.len(), count, refusal)
    })
}

pub fn font_subset(
    cff: &[u8],
    glyphs: &[usize],
    keeps: bool,
    limit: u64,
) -> core::result::Result<Vec<u8>, (Error, Refusal)> {
    written(cff.len() + 1024, |room, count, refusal| unsafe {
        psf_font_subset(
            cff.as_ptr(),
            cff.len(),
            glyphs.as_ptr(),
            glyphs.len(),
            keeps.into(),
            limit,
            room.as_mut_ptr(),
            room.len(),
            count,
            refusal,
        )
    })
}

pub fn file_flat(
    file: &[u8],
    face: usize,
    limit: u64,
) -> core::result::Result<Vec<u8>, (Error, Refusal)> {
    written(2 * file.len() + 1024, |room, count, refusal| unsafe {
        psf_file_flat(
            file.as_ptr(),
            file.len(),
            face,
            limit,
            room.as_mut_ptr(),
            room.len(),
            count,
            refusal,
        )
    })
}

/// The contents of a subset.
#[derive(Clone, Debug, Default)]
pub struct Choice {
    pub characters: Vec<u32>,
    pub glyphs: Vec<usize>,
    pub copied: Vec<u32>,
    pub lenient: bool,
    pub keeps: bool,
    pub names: u32,
    pub exact: bool,
    pub features: Vec<u32>,
    pub all: bool,
}

pub fn file_subset(
    file: &[u8],
    face: usize,
    choice: &Choice,
    limit: u64,
) -> core::result::Result<Vec<u8>, (Error, Refusal)> {
    written(file.len() + 1024, |room, count, refusal| unsafe {
        psf_file_subset(
            file.as_ptr(),
            file.len(),
            face,
            choice.characters.as_ptr(),
            choice.characters.len(),
            choice.glyphs.as_ptr(),
            choice.glyphs.len(),
            choice.copied.as_ptr(),
            choice.copied.len(),
            choice.lenient.into(),
            choice.keeps.into(),
            choice.names,
            limit,
            room.as_mut_ptr(),
            room.len(),
            count,
            refusal,
        )
    })
}

pub fn file_subset_layout(
    file: &[u8],
    face: usize,
    choice: &Choice,
    limit: u64,
) -> core::result::Result<(Vec<u8>, Layout), (Error, Refusal)> {
    let mut layout = Layout::default();
    let bytes = written(file.len() + 1024, |room, count, refusal| unsafe {
        psf_file_subset_layout(
            file.as_ptr(),
            file.len(),
            face,
            choice.characters.as_ptr(),
            choice.characters.len(),
            choice.glyphs.as_ptr(),
            choice.glyphs.len(),
            choice.copied.as_ptr(),
            choice.copied.len(),
            choice.lenient.into(),
            choice.keeps.into(),
            choice.names,
            choice.exact.into(),
            choice.features.as_ptr(),
            choice.features.len(),
            choice.all.into(),
            limit,
            room.as_mut_ptr(),
            room.len(),
            count,
            &mut layout,
            refusal,
        )
    })?;
    Ok((bytes, layout))
}

pub fn file_instance(
    file: &[u8],
    face: usize,
    coordinates: &[i32],
    rounded: bool,
    limit: u64,
) -> core::result::Result<Vec<u8>, (Error, Refusal)> {
    written(2 * file.len() + 1024, |room, count, refusal| unsafe {
        psf_file_instance(
            file.as_ptr(),
            file.len(),
            face,
            coordinates.as_ptr(),
            coordinates.len(),
            rounded.into(),
            limit,
            room.as_mut_ptr(),
            room.len(),
            count,
            refusal,
        )
    })
}
