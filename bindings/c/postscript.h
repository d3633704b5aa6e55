/* postscript.h: CFF fonts and their glyphs.
 *
 * The functions come from a static library whose source is proved. For any bytes, any values in a psf_font and any buffer sizes,
 * each call returns, reads only its input, writes only its output buffers, and keeps no pointer. What each result means is
 * proved too: see docs/c.md and docs/API.md.
 *
 * For each call, the caller must ensure:
 *
 *   - Each pointer points to as many bytes or elements as the length next to it says, and is aligned for its type.
 *   - No pointer is null. If a length is 0, pass the address of any variable; it is not read.
 *   - Output buffers do not overlap each other or the input.
 *   - While a call runs, no other thread writes to its input.
 *   - malloc, realloc and free belong to one allocator, and no call is made from a signal handler.
 *
 * Nothing has to be freed. Calls keep no state, so threads may share bytes and a psf_font.
 *
 * Return values: PSF_OK, or a status that says why the call failed. If a buffer is too small, a call returns PSF_NO_ROOM, sets
 * *count to the size that is needed, and does not write to the buffer. On any other error the outputs are unchanged, unless
 * the function says otherwise.
 *
 * Time and memory: a call with a psf_font runs a glyph, with the components of a seac glyph, for at most font->limit units. An
 * operator with the numbers before it costs one unit per byte, a roll 4,096 more, a sqrt 8 more. psf_font_open sets the limit
 * to PSF_LIMIT; you may change it. Memory grows with the result, the numbers on the stack and the DICTs, so it grows with
 * the limit. The calls that write a font take a limit for the whole font. docs/limits.md lists what else takes time, and what was
 * measured.
 *
 * The library is built for 64-bit machines only.
 *
 * Compatibility: libpostscript.so.0 exports only the functions of this header, with the symbol version POSTSCRIPT_0. A program that
 * is linked with it also runs with each later 0.x: functions, parameters, structs and constants stay, and only new ones are added.
 * So a program must take a status that it does not know for an error. Names of fields and parameters may change.
 *
 * Units: coordinates, widths and bounds are in 1/65536 of a font unit. Glyphs, faces and offsets count from 0.
 *
 * Variable fonts: psf_variation_axis and the calls after it, except psf_location_outline, take a whole OpenType file and the index of
 * a face, instead of a CFF table. Axis values are coordinates[0..named]: user coordinates in 1/65536, in the order of the axes. Missing ones are
 * defaults, and all are clamped to their axis. A face without an fvar table has no axes. These calls also return
 * PSF_TOO_MANY_COORDINATES and PSF_MEMORY; PSF_CUT_FVAR, PSF_UNKNOWN_FVAR, PSF_CUT_AVAR or PSF_UNKNOWN_AVAR for a malformed
 * table; and PSF_CUT_FILE, PSF_UNKNOWN_FILE or PSF_NO_FACE for the file.
 */
#ifndef POSTSCRIPT_H
#define POSTSCRIPT_H

#include <stddef.h>
#include <stdint.h>

#ifdef __cplusplus
extern "C" {
#endif

/* The version of this header: major, minor and patch number, a byte each. psf_version returns the library's. */
#define PSF_VERSION 0x000300u

/* Statuses. psf_status_text returns a sentence for each. "Unused": no call of this header returns it. */
enum {
    PSF_OK = 0,
    PSF_UNEXPECTED_EOF = 1,               /* the data ends early, or an offset points past the end */
    PSF_IO = 2,                           /* unused */
    PSF_MEMORY = 3,                       /* out of memory; or Font DICTs of more than 20,000,000 bytes */
    PSF_TAPE_STUCK = 4,                   /* unused */
    PSF_MALFORMED_OFFSET = 5,             /* the offset size of an INDEX is 0 or greater than 4 */
    PSF_MALFORMED_INDEX = 6,              /* unused */
    PSF_MALFORMED_NUMBER = 7,             /* the bytes are no number */
    PSF_OUT_OF_RANGE_NUMBER = 8,          /* a real number with too many digits or too large an exponent; an advance out of range */
    PSF_UNKNOWN_OPERATOR = 9,             /* no operator has this code */
    PSF_MALFORMED_CHAR_SET = 10,          /* unused */
    PSF_UNKNOWN_CHAR_SET_FORMAT = 11,     /* no charset has this format */
    PSF_UNKNOWN_CHAR_STRING_FORMAT = 12,  /* CharstringType is not 2 */
    PSF_MALFORMED_OPERATION = 13,         /* an operand of a DICT is not a 32-bit integer */
    PSF_MISSING_OPERATION = 14,           /* an operator of a DICT is missing, or has too few operands */
    PSF_OUT_OF_RANGE_OFFSET = 15,         /* an offset is negative */
    PSF_UNSUPPORTED = 16,                 /* a feature that is not supported */
    PSF_EXPECTED_OPERAND = 17,            /* an operator needs an operand, and the stack is empty */
    PSF_EXPECTED_INTEGER = 18,            /* a number that must be an integer is not, or is missing */
    PSF_EXPECTED_MORE_OPERANDS = 19,      /* dup, index or roll reaches below the stack */
    PSF_MALFORMED_OPERANDS = 20,          /* too few operands for an operator that draws or declares stems */
    PSF_INVALID_OPERAND = 21,             /* the count of a roll, or the index of put or get, is out of range */
    PSF_MISSING_SUBROUTINE = 22,          /* no subroutine has this number */
    PSF_RETURN_WITHOUT_CALLER = 23,       /* return outside of a subroutine */
    PSF_TRAILING_DATA = 24,               /* bytes after endchar in a subroutine */
    PSF_TOO_DEEP = 25,                    /* an eleventh nested call */
    PSF_OVERFLOW = 26,                    /* a number or a coordinate exceeds 16.16 bits */
    PSF_ZERO_DIVISOR = 27,                /* division by zero */
    PSF_NEGATIVE_ROOT = 28,               /* sqrt of a negative number */
    PSF_TOO_MANY_STEMS = 29,              /* more stems than 32 bits can count */
    PSF_ALREADY_FAILED = 30,              /* unused */
    PSF_NO_GLYPH = 31,                    /* no glyph has this number or name */
    PSF_NO_ROOM = 32,                     /* the buffer is too small; *count is the size that is needed */
    PSF_CUT_FILE = 33,                    /* the file is truncated */
    PSF_UNKNOWN_FILE = 34,                /* not an OpenType file */
    PSF_NO_FACE = 35,                     /* the file has no such face */
    PSF_NO_TABLE = 36,                    /* the face has no such table */
    PSF_NO_MAP = 37,                      /* the cmap table has no subtable of format 4, 6 or 12 */
    PSF_NO_NAME = 38,                     /* the glyph has no name */
    PSF_NO_STATUS = 39,                   /* no status has this number */
    PSF_REFUSED_GLYPH = 40,               /* a glyph has an error, so no font is written */
    PSF_SEVERAL_FONTS = 41,               /* the CFF table has several fonts, or none */
    PSF_NO_PART = 42,                     /* FDSelect gives a glyph of a CID-keyed font no Font DICT */
    PSF_NO_GLYPHS = 43,                   /* no glyphs were named */
    PSF_TOO_LARGE = 45,                   /* the output, or a charstring of it, would be too large */
    PSF_TOO_LONG = 46,                    /* a glyph, or the whole font, costs more than the limit */
    PSF_NO_CODE = 47,                     /* a seac glyph names no codes from 0 to 255 */
    PSF_NO_ACCENTS = 48,                  /* a seac glyph in a CID-keyed font, whose glyphs have no names */
    PSF_NO_COMPONENT = 49,                /* no glyph is the base or the accent of a seac glyph */
    PSF_NESTED_ACCENT = 50,               /* the base or the accent of a seac glyph is a seac glyph */
    PSF_NO_AXIS = 51,                     /* the font has no such axis */
    PSF_NO_INSTANCE = 52,                 /* the font has no such named instance */
    PSF_TOO_MANY_COORDINATES = 53,        /* there are more coordinates than axes */
    PSF_CUT_FVAR = 54,                    /* the fvar table is truncated */
    PSF_UNKNOWN_FVAR = 55,                /* the fvar table has an unknown format */
    PSF_CUT_AVAR = 56,                    /* the avar table is truncated */
    PSF_UNKNOWN_AVAR = 57,                /* the avar table has an unknown format */
    PSF_CUT_HVAR = 58,                    /* the HVAR table is truncated */
    PSF_UNKNOWN_HVAR = 59,                /* the HVAR table has an unknown format */
    PSF_NO_ADVANCES = 60,                 /* the hhea and hmtx tables are truncated */
    PSF_CFF2_HEADER = 61,                 /* the CFF2 table has no header */
    PSF_CFF2_VERSION = 62,                /* the CFF2 table has another major version than 2 */
    PSF_CFF2_DICTIONARY = 63,             /* the Top DICT of the CFF2 table is truncated */
    PSF_CFF2_SUBROUTINES = 64,            /* the Global Subr INDEX of the CFF2 table is malformed */
    PSF_CFF2_OFFSET = 65,                 /* the Top DICT of the CFF2 table lacks an offset */
    PSF_CFF2_INDEX = 66,                  /* an INDEX of the CFF2 table is malformed */
    PSF_CFF2_SELECT = 67,                 /* FDSelect of the CFF2 table is malformed, or of another format than 0, 3 and 4 */
    PSF_CFF2_STORE = 68,                  /* the variation store of the CFF2 table is malformed */
    PSF_CFF2_DATA = 69,                   /* item variation data of the CFF2 table are missing or truncated */
    PSF_NO_CHARACTER = 70,                /* the face has no glyph for a character */
    PSF_OVERLAP = 71,                     /* the tables of the face overlap: together they have more bytes than the file */
    PSF_SAME_TAG = 72,                    /* two tables of the new file would have the same tag */
    PSF_CUT_TABLE = 73,                   /* a table is truncated, for psf_file_subset the maxp table */
    PSF_NOT_VARIABLE = 74,                /* the face has no CFF2 table, or a CFF table too */
    PSF_UNKNOWN_TABLE = 75                /* a table has an unknown format */
};

/* Kinds of segments. */
enum {
    PSF_MOVE = 0,  /* a contour begins at (x, y) */
    PSF_LINE = 1,  /* a line to (x, y) */
    PSF_CURVE = 2, /* a Bézier curve with the control points (x1, y1) and (x2, y2) to (x, y) */
    PSF_CLOSE = 3  /* the contour is closed */
};

/* A table tag, for example PSF_TAG('C', 'F', 'F', ' '). */
#define PSF_TAG(a, b, c, d) \
    ((uint32_t)(uint8_t)(a) << 24 | (uint32_t)(uint8_t)(b) << 16 | (uint32_t)(uint8_t)(c) << 8 | (uint32_t)(uint8_t)(d))

/* What a Private DICT says about glyphs. Widths are truncated towards zero to 1/65536, which changes no integer, and clamped
 * to 64 bits. */
typedef struct psf_part {
    uint64_t local_subroutines; /* the offset of their INDEX; 0: none */
    int64_t default_width;      /* defaultWidthX: the advance of glyphs without a width */
    int64_t nominal_width;      /* nominalWidthX: added to the width of a charstring */
} psf_part;

/* The limit that psf_font_open sets, in units. docs/limits.md says what bounds the other steps of each call. */
#define PSF_LIMIT 20000000u

/* A font: the offsets of its parts. You may copy, store and send it. With other field values a call returns another result or
 * an error, but stays safe. An offset of 0 means "absent". */
typedef struct psf_font {
    uint64_t char_strings;       /* the offset of the CharStrings INDEX */
    uint64_t global_subroutines; /* the offset of the Global Subr INDEX */
    uint64_t font_dictionaries;  /* CID-keyed fonts: the offset of FDArray; otherwise 0 */
    uint64_t fd_select;          /* CID-keyed fonts: the offset of FDSelect; otherwise 0 */
    psf_part part;               /* all other fonts: the Private DICT; CID-keyed fonts: zeros */
    uint64_t glyphs;             /* the number of glyphs */
    uint32_t is_cid;             /* 1 if the font is CID-keyed, otherwise 0 */
    uint64_t limit;              /* how many units a call may spend on a glyph; psf_font_open sets PSF_LIMIT */
} psf_font;

/* A segment of an outline. Coordinates that its kind does not have are 0. */
typedef struct psf_segment {
    uint32_t kind;
    int32_t x1, y1, x2, y2;
    int32_t x, y;
} psf_segment;

/* A glyph, apart from its segments. */
typedef struct psf_glyph {
    int64_t advance;                   /* the advance: defaultWidthX, or nominalWidthX plus the width */
    int32_t left, bottom, right, top;  /* the bounds of all points, including control points; 0 if there are none */
    uint32_t has_bounds;               /* 1 if there is a point, otherwise 0 */
    uint32_t has_width;                /* 1 if the charstring has a width, otherwise 0 */
} psf_glyph;

/* The bounds of the lines and curves of a glyph, with the extrema of its curves, at most 1/65536 too large. */
typedef struct psf_bounds {
    int32_t left, bottom, right, top; /* 0 if there is no point */
    uint32_t has_bounds;              /* 1 if there is a point, otherwise 0 */
} psf_bounds;

/* An operation of a glyph: its operator, and its part of the list of all operands. After its own operands come those of the stems
 * that a mask implies (vstemhm before hintmask may be omitted), and then the bytes of the mask, one number each. */
typedef struct psf_operation {
    uint64_t first;          /* the index of its first operand */
    uint64_t count;          /* the number of its operands */
    uint64_t stems;          /* the number of operands of implied stems; 0 except at a mask */
    uint64_t mask;           /* the number of mask bytes; 0 except at a mask */
    uint32_t operator_code;  /* its code; two-byte codes as 0x0c00 plus the second byte, 0x0c23 for flex */
} psf_operation;

/* A character that has a glyph. */
typedef struct psf_character {
    uint32_t character; /* its Unicode code point */
    uint32_t glyph;     /* its glyph, not 0 */
} psf_character;

/* An axis of a variable font. Its values are user coordinates, in 1/65536. */
typedef struct psf_axis {
    uint32_t tag;           /* for example PSF_TAG('w', 'g', 'h', 't') */
    int32_t minimum;
    int32_t default_value;
    int32_t maximum;
    uint32_t is_hidden;     /* 1 if it should not be shown to users, otherwise 0 */
    uint32_t name;          /* its name ID in the name table */
} psf_axis;

/* A named instance of a variable font, without its coordinates. */
typedef struct psf_instance {
    uint32_t name;           /* its name ID in the name table */
    uint32_t flags;
    int32_t postscript_name; /* the name ID of its PostScript name, or -1 */
} psf_instance;

/* What became of the layout tables in psf_file_subset_layout. The outcome of a table is 0 if the face has no such table (for GDEF,
 * also no glyph classes), 1 if the new file has it, and 2 if none of its features is chosen. Otherwise the table is lost, and the
 * outcome is the reason: PSF_TOO_LARGE, PSF_TOO_LONG, or PSF_CUT_TABLE if its script and feature lists are truncated or too long.
 * That of kern is also 0 without pairs of glyphs of the new file, and 2 if keeps is not 0 or if GPOS kerns in each language. */
typedef struct psf_layout {
    int32_t gsub;
    int32_t gpos;
    int32_t gdef;
    int32_t kern;
    uint64_t left_out; /* the number of chosen lookups that the new GSUB table does not keep */
} psf_layout;

/* Details of an error of psf_font_flat, psf_font_subset, psf_file_flat, psf_file_subset, psf_file_subset_layout and
 * psf_file_instance. */
typedef struct psf_refusal {
    uint64_t glyph; /* the glyph of the error; 0 if there is none. On PSF_TOO_LARGE, 0 is .notdef or no glyph. On
                       PSF_NO_CHARACTER the character, on PSF_NO_TABLE and PSF_SAME_TAG the tag of the table. On errors
                       of psf_file_instance: see there */
    int32_t cause;  /* on PSF_REFUSED_GLYPH the error of the glyph; otherwise 0 */
} psf_refusal;

/* Returns the version of the library, in the form of PSF_VERSION. */
uint32_t psf_version(void);

/* Writes the text of a status, in English and without a terminating 0, to text[0..room].
 * Sets *count to its length on PSF_OK and PSF_NO_ROOM. Other errors: PSF_NO_STATUS. */
int32_t psf_status_text(int32_t status, uint8_t *text, size_t room, size_t *count);

/* Counts the faces of an OpenType file: one, or those of a collection.
 * On an error *faces is unchanged. Errors: PSF_CUT_FILE, PSF_UNKNOWN_FILE. */
int32_t psf_file_faces(const uint8_t *file, size_t length, size_t *faces);

/* Finds a table of a face: the first record with this tag whose table lies within the file.
 * On PSF_OK, *place is its offset in the file and *size its length, and *place + *size is at most length.
 * On an error both are unchanged. Errors: PSF_NO_TABLE, PSF_CUT_FILE, PSF_UNKNOWN_FILE, PSF_NO_FACE. */
int32_t psf_file_table(const uint8_t *file, size_t length, size_t face, uint32_t tag, size_t *place, size_t *size);

/* Looks up the glyph of a character in a cmap table, in its best subtable of format 4, 6 or 12.
 * On PSF_OK *glyph is the glyph, or 0 if there is none. On an error *glyph is unchanged. Errors: PSF_NO_MAP. */
int32_t psf_map_glyph(const uint8_t *cmap, size_t length, uint32_t character, size_t *glyph);

/* Lists all characters that have a glyph in the same subtable, in ascending order, in characters[0..room].
 * Sets *count to their number on PSF_OK and PSF_NO_ROOM. Other errors: PSF_NO_MAP, PSF_MEMORY. */
int32_t psf_map_characters(const uint8_t *cmap, size_t length, psf_character *characters, size_t room, size_t *count);

/* Opens the first font of a CFF table. Errors: from 1 to 15. */
int32_t psf_font_open(const uint8_t *cff, size_t length, psf_font *font);

/* Checks whether all glyphs of a font end within a limit that they share. A small font can nest subroutine calls so that a glyph
 * takes years.
 * A glyph with an error costs the length of its charstring or of the longest subroutine, plus one unit for each subroutine.
 * On PSF_OK each glyph ends, or has an error, within the *limit that was given, and *limit is reduced by the cost of all.
 * On PSF_TOO_LONG the glyphs together cost at least the limit, and *limit is 0. On PSF_MEMORY *limit may have any value. On any
 * other error the font is malformed, and *limit is unchanged. */
int32_t psf_font_fits(const uint8_t *cff, size_t length, uint64_t *limit);

/* Draws a glyph: writes its outline to segments[0..room], and its advance and bounds to *info.
 * An outline consists of contours, each from a PSF_MOVE to a PSF_CLOSE.
 * A seac glyph, whose endchar has the operands adx ady bchar achar (Technical Note 5177, Appendix C), is drawn with its
 * components: its own contours, those of the base, and those of the accent with its origin at (adx, ady). The components are the
 * first glyphs with the names of the two codes in the standard encoding (.notdef for other codes) in the first font of the
 * table. The advance is that of the glyph itself. All three share font->limit.
 * In a CID-keyed font, FDSelect of format 0 or 3 selects the Font DICT, with its subroutines and widths (Technical Note 5176,
 * section 19). If there is only one, FDSelect is ignored.
 * Sets *count and *info on PSF_OK and PSF_NO_ROOM. Other errors: PSF_NO_GLYPH; PSF_NO_PART, also if FDSelect is malformed;
 * PSF_TOO_LONG; of a seac glyph PSF_NO_CODE, PSF_NO_ACCENTS, PSF_NO_COMPONENT, PSF_NESTED_ACCENT; and from 1 to 30. */
int32_t psf_glyph_outline(const uint8_t *cff, size_t length, const psf_font *font, size_t glyph,
                          psf_segment *segments, size_t room, size_t *count, psf_glyph *info);

/* Computes the bounds of the lines and curves of the outline that psf_glyph_outline draws, within the same limit. (The bounds in
 * psf_glyph also include control points.) Errors: those of psf_glyph_outline, except PSF_NO_ROOM. */
int32_t psf_glyph_bounds(const uint8_t *cff, size_t length, const psf_font *font, size_t glyph, psf_bounds *bounds);

/* Writes the charstring of a glyph without subroutine calls to code[0..room]. With any subroutines it has the operations and the
 * width of the glyph. The run keeps to font->limit.
 * Sets *count to its length on PSF_OK and PSF_NO_ROOM. Other errors: PSF_NO_GLYPH, PSF_NO_PART, PSF_TOO_LONG, and from 1 to 30. */
int32_t psf_glyph_flat(const uint8_t *cff, size_t length, const psf_font *font, size_t glyph,
                       uint8_t *code, size_t room, size_t *count);

/* Lists the operations of a glyph in operations[0..room], and the operands of all of them in operands[0..operand_room].
 * operations[i] has operands[first..first + count]. At hintmask and cntrmask, these are followed by `stems` operands of implied
 * stems and by `mask` numbers from 0 to 255, the bytes of the mask. A seac glyph has only its own operations. The run keeps to
 * font->limit.
 * Sets *count and *operand_count on PSF_OK and PSF_NO_ROOM. On PSF_NO_ROOM one of the two buffers is too small, and both are
 * unchanged. Other errors: PSF_NO_GLYPH, PSF_NO_PART, PSF_TOO_LONG, and from 1 to 30. */
int32_t psf_glyph_operations(const uint8_t *cff, size_t length, const psf_font *font, size_t glyph,
                             psf_operation *operations, size_t room, size_t *count,
                             int32_t *operands, size_t operand_room, size_t *operand_count);

/* Writes a CFF table with the same glyphs and no subroutines to flat[0..room]. Each glyph draws the same, and has the same
 * advance, codes, and name or CID.
 * The font must pass psf_font_fits with this limit, otherwise the call returns PSF_TOO_LONG. A good limit is 20 * PSF_LIMIT.
 * Sets *count to the size on PSF_OK and PSF_NO_ROOM; on all other errors sets *refusal instead. Other errors: PSF_REFUSED_GLYPH,
 * PSF_SEVERAL_FONTS, PSF_NO_PART, PSF_TOO_LARGE (also with a glyph whose charstring would have more than 65,535 bytes), and from 1
 * to 16. */
int32_t psf_font_flat(const uint8_t *cff, size_t length, uint64_t limit, uint8_t *flat, size_t room, size_t *count,
                      psf_refusal *refusal);

/* Writes a CFF table with .notdef, glyphs[0..named], and the components of all seac glyphs among them, without subroutines, to
 * subset[0..room].
 * If keeps is 0, glyphs get new numbers in ascending order, and a custom encoding is replaced by the standard one. Otherwise
 * glyphs keep their numbers, and all others are empty.
 * Only the runs of the kept glyphs share the limit; if they exceed it, the call returns PSF_TOO_LONG.
 * Outputs and errors are those of psf_font_flat, and PSF_NO_GLYPHS, PSF_NO_GLYPH, and PSF_NO_NAME if keeps is 0. A glyph that
 * fails need not be the first one. */
int32_t psf_font_subset(const uint8_t *cff, size_t length, const size_t *glyphs, size_t named, uint32_t keeps,
                        uint64_t limit, uint8_t *subset, size_t room, size_t *count, psf_refusal *refusal);

/* Writes a whole font file with one face of file[0..length], without subroutines, to flat[0..room]. All tables other than
 * CFF are copied, except for the digital signature (DSIG).
 * The face must pass psf_font_fits with this limit, otherwise the call returns PSF_TOO_LONG. A good limit is 20 * PSF_LIMIT.
 * Sets *count to the size on PSF_OK and PSF_NO_ROOM; on all other errors sets *refusal instead. Other errors: PSF_CUT_FILE,
 * PSF_UNKNOWN_FILE, PSF_NO_FACE, PSF_NO_TABLE, PSF_OVERLAP, PSF_TOO_LARGE, and those of psf_font_flat. */
int32_t psf_file_flat(const uint8_t *file, size_t length, size_t face, uint64_t limit, uint8_t *flat, size_t room,
                      size_t *count, psf_refusal *refusal);

/* Writes a whole font file with only some characters and glyphs of a face of file[0..length] to subset[0..room], without
 * subroutines. The characters are characters[0..asked], and those of glyphs[0..named]. The glyphs are .notdef, glyphs[0..named],
 * those of all characters, and the components of seac glyphs. Each is drawn, named and measured as before.
 * The tables with the tags copied[0..tables] are copied, such as 0x4f532f32 for the OS/2 table; tags that the face does not have
 * are ignored. There are no other tables besides CFF, cmap, hhea, hmtx, maxp and post, and name if it is asked for, so kerning and
 * ligatures are lost: psf_file_subset_layout keeps them. A variation sequence of a character is kept if its glyph is.
 * If lenient is 0, a character without a glyph is an error; otherwise it is left out. If keeps is 0, glyphs get new numbers in
 * ascending order; otherwise they keep their numbers, and all others are empty, with the metrics of .notdef.
 * If names is 1, a face with a name table gives the file a short one: the names 1 to 6, 16, 17, 21, 22 and 25, without those that only
 * repeat a better one. If names is 2 or more, the table also has the names 0, 7, 13 and 14, about the licence. It is copied if it
 * is truncated, has more than 1,000 records, or has no space for these names. If names is 0, it is copied if its tag is among
 * the tags, and otherwise left out. With both, a face with a name table gives PSF_SAME_TAG.
 * The limit is that of psf_font_subset. Outputs and errors are those of psf_file_flat and of psf_font_subset, and PSF_NO_MAP,
 * PSF_NO_ADVANCES, PSF_NO_CHARACTER, PSF_CUT_TABLE and PSF_SAME_TAG. */
int32_t psf_file_subset(const uint8_t *file, size_t length, size_t face, const uint32_t *characters, size_t asked,
                        const size_t *glyphs, size_t named, const uint32_t *copied, size_t tables, uint32_t lenient,
                        uint32_t keeps, uint32_t names, uint64_t limit, uint8_t *subset, size_t room, size_t *count,
                        psf_refusal *refusal);

/* The same with layout tables: GSUB, GPOS, GDEF, kern, vhea, vmtx and VORG are written for the glyphs of the new file. The
 * substitutions of the features with the tags features[0..tags] are kept, or all substitutions if all is not 0, and also the
 * glyphs that they can make of the others. The variation sequences of the characters are kept, with their glyphs.
 * Positions are kept if kern, mark, mkmk or curs is among the features. If keeps is not 0, all features count, GSUB, GPOS and GDEF
 * are copied, and the others only if their tags are among the tags. If exact is 0, the characters that a shaper may use for text of the given ones are kept too, as far as the
 * face has them, e.g. the parts of composed characters. What is left out: docs/subsets.md.
 * Sets *layout on PSF_OK and PSF_NO_ROOM: a table may be lost. The limit holds for the runs, and once more for the layout tables.
 * Other errors: those of psf_file_subset; PSF_TOO_LONG also if the search for glyphs exceeds the limit. */
int32_t psf_file_subset_layout(const uint8_t *file, size_t length, size_t face, const uint32_t *characters, size_t asked,
                               const size_t *glyphs, size_t named, const uint32_t *copied, size_t tables, uint32_t lenient,
                               uint32_t keeps, uint32_t names, uint32_t exact, const uint32_t *features, size_t tags, uint32_t all,
                               uint64_t limit, uint8_t *subset, size_t room, size_t *count, psf_layout *layout, psf_refusal *refusal);

/* Writes the name of a glyph, without a terminating 0, to name[0..room]. The glyphs of a CID-keyed font have no names.
 * Sets *count to its length on PSF_OK and PSF_NO_ROOM. Other errors: PSF_NO_NAME, and from 1 to 15. */
int32_t psf_glyph_name(const uint8_t *cff, size_t length, size_t glyph, uint8_t *name, size_t room, size_t *count);

/* Lists the charset in identifiers[0..room]: for each glyph the SID of its name, or the CID in a CID-keyed font; -1 if a glyph
 * has neither. psf_font_string returns the string of a SID.
 * Sets *count to the number of glyphs on PSF_OK and PSF_NO_ROOM. Other errors: from 1 to 15. */
int32_t psf_font_identifiers(const uint8_t *cff, size_t length, int32_t *identifiers, size_t room, size_t *count);

/* Writes the string of a SID, standard or from the String INDEX, without a terminating 0, to string[0..room].
 * Sets *count to its length on PSF_OK and PSF_NO_ROOM. Other errors: PSF_NO_NAME, and from 1 to 15. */
int32_t psf_font_string(const uint8_t *cff, size_t length, uint16_t identifier, uint8_t *string, size_t room, size_t *count);

/* Finds the first glyph with a name. Errors: PSF_NO_GLYPH, and from 1 to 15. */
int32_t psf_named_glyph(const uint8_t *cff, size_t length, const uint8_t *name, size_t name_length, size_t *glyph);

/* Returns axis i of a variable font in *axis. Sets *count to the number of axes on PSF_OK and PSF_NO_AXIS.
 * Other errors: PSF_NO_TABLE if the face has no fvar table, PSF_CUT_FVAR, PSF_UNKNOWN_FVAR. */
int32_t psf_variation_axis(const uint8_t *file, size_t length, size_t face, size_t i, psf_axis *axis, size_t *count);

/* Returns named instance i of a variable font in *instance, and its user coordinates, one per axis, in coordinates[0..room].
 * Sets *instance and *count, the number of axes, on PSF_OK and PSF_NO_ROOM.
 * Other errors: PSF_NO_INSTANCE, PSF_NO_TABLE if the face has no fvar table, PSF_CUT_FVAR, PSF_UNKNOWN_FVAR, PSF_MEMORY. */
int32_t psf_variation_instance(const uint8_t *file, size_t length, size_t face, size_t i, psf_instance *instance,
                               int32_t *coordinates, size_t room, size_t *count);

/* Draws a glyph at the given axis values: writes its outline to segments[0..room], and the bounds of all points, including
 * control points, to *bounds. A face with a CFF table and no CFF2 table has no axes and is drawn as by psf_glyph_outline.
 * PSF_LIMIT is a good limit. It bounds the run: each number and operator costs one unit per byte, a blend one more per number on
 * the stack. It also bounds, separately, the location: one unit per region that the variation data name, and per axis.
 * Sets *count and *bounds on PSF_OK and PSF_NO_ROOM. Other errors: PSF_NO_GLYPH, also if the glyph has no Font DICT;
 * PSF_NO_TABLE if the face has neither table; from PSF_CFF2_HEADER to PSF_CFF2_DATA; PSF_TOO_LONG; from 1 to 30; and for a CFF
 * table those of psf_font_open and psf_glyph_outline. */
int32_t psf_variable_outline(const uint8_t *file, size_t length, size_t face, const int32_t *coordinates, size_t named,
                             size_t glyph, uint64_t limit, psf_segment *segments, size_t room, size_t *count, psf_bounds *bounds);

/* Computes the location at the given axis values once, for many calls of psf_location_outline: writes its scalars, one for each region
 * that the variation data name, in units of 1/65536, to scalars[0..room]. They are numbers of the caller: the library keeps nothing.
 * limit bounds the location as in psf_variable_outline.
 * Sets *count on PSF_OK and PSF_NO_ROOM; it may be 0. Other errors: PSF_NO_TABLE if the face has no CFF2 table; from PSF_CFF2_HEADER to
 * PSF_CFF2_DATA; PSF_TOO_LONG. */
int32_t psf_location_scalars(const uint8_t *file, size_t length, size_t face, const int32_t *coordinates, size_t named, uint64_t limit,
                             uint32_t *scalars, size_t room, size_t *count);

/* Draws a glyph of the CFF2 table cff2[0..length], which psf_file_table finds, at the location with these scalars. With those of
 * psf_location_scalars for the same face and limit, the outline is the one of psf_variable_outline. Any other numbers are safe too: they
 * only change the outline. limit bounds the run as in psf_variable_outline.
 * Sets *count and *bounds on PSF_OK and PSF_NO_ROOM. Other errors: PSF_NO_GLYPH, also if the glyph has no Font DICT; from PSF_CFF2_HEADER
 * to PSF_CFF2_DATA, also if there are too few scalars; PSF_TOO_LONG; PSF_MEMORY; from 1 to 30. */
int32_t psf_location_outline(const uint8_t *cff2, size_t length, const uint32_t *scalars, size_t scalar_count, size_t glyph, uint64_t limit,
                             psf_segment *segments, size_t room, size_t *count, psf_bounds *bounds);

/* Counts the glyphs of a face: the charstrings of its CFF2 table, or of its CFF table.
 * Errors: PSF_NO_TABLE if the face has neither; from PSF_CFF2_HEADER to PSF_CFF2_STORE; for a CFF table those of psf_font_open. */
int32_t psf_variable_glyphs(const uint8_t *file, size_t length, size_t face, size_t *count);

/* Returns the advance of a glyph at the given axis values, in whole font units: hmtx plus the HVAR delta, rounded to the nearest
 * unit. A glyph after the last one of hmtx has the last advance.
 * PSF_LIMIT is a good limit. The HVAR delta costs one unit for each region of the glyph's deltas and each axis: with 4 regions and
 * 3 axes it costs 12 units. A face without an HVAR table costs none.
 * Errors: PSF_NO_GLYPH for a number above 65535; PSF_NO_TABLE if the face has no hhea or hmtx table; PSF_NO_ADVANCES;
 * PSF_CUT_HVAR, PSF_UNKNOWN_HVAR; PSF_TOO_LONG; PSF_MEMORY. */
int32_t psf_variable_advance(const uint8_t *file, size_t length, size_t face, const int32_t *coordinates, size_t named,
                             size_t glyph, uint64_t limit, int64_t *advance);

/* Writes a whole font file with a CFF table of a face of file[0..length] at the given axis values, to instance[0..room]. It is a static
 * font: its glyphs, metrics, positions and names are those at the location, and it has no tables of variations. If rounded is not 0,
 * each point is rounded to whole units.
 * The glyphs may cost limit units together, and one glyph an 800th of the limit, since its operations are kept in memory. A glyph may
 * draw one segment for each 1,000 units of the limit. A good limit is 20 * PSF_LIMIT.
 * Sets *count to the size on PSF_OK and PSF_NO_ROOM; on all other errors sets *refusal instead.
 * Errors with the tag of the table, or 0 for a written one: PSF_NO_TABLE, PSF_CUT_TABLE and PSF_UNKNOWN_TABLE. Errors with the glyph:
 * PSF_REFUSED_GLYPH, PSF_NO_PART, and PSF_TOO_LONG, with 0 if a table is too expensive. Other errors: PSF_NOT_VARIABLE, PSF_TOO_LARGE,
 * PSF_SAME_TAG, PSF_NO_GLYPH, from PSF_CFF2_HEADER to PSF_CFF2_DATA, and from 1 to 30. */
int32_t psf_file_instance(const uint8_t *file, size_t length, size_t face, const int32_t *coordinates, size_t named, uint32_t rounded,
                          uint64_t limit, uint8_t *instance, size_t room, size_t *count, psf_refusal *refusal);

#ifdef __cplusplus
}
#endif

#endif
