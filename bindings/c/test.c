/* test FONT.hex ACCENTS.hex VARIABLE.hex WHOLE.hex LAYOUT.hex: calls each function of postscript.h over the fonts whose bytes are spelled there, and
 * compares. */
#include <stdio.h>
#include <stdlib.h>
#include <string.h>

#include "postscript.h"

/* for the runs of all glyphs of a font */
#define LIMIT 400000000u

static int failures;

static void holds(int fact, const char *what) {
    if (!fact) {
        fprintf(stderr, "not so: %s\n", what);
        failures++;
    }
}

/* The bytes that hexadecimal digits spell. */
static size_t read_hex(const char *name, uint8_t *bytes, size_t room) {
    FILE *file = fopen(name, "r");
    unsigned byte;
    size_t length = 0;
    while (file && length < room && fscanf(file, "%2x", &byte) == 1) bytes[length++] = (uint8_t)byte;
    if (file) fclose(file);
    return length;
}

/* The bytes that the hexadecimal digits of a text spell. */
static size_t spell(const char *text, uint8_t *bytes, size_t room) {
    unsigned byte;
    size_t length = 0;
    while (length < room && sscanf(text + 2 * length, "%2x", &byte) == 1) bytes[length++] = (uint8_t)byte;
    return length;
}

/* The outline of the glyph `flower`, in units: by the numbers of its char string. */
static const int flower[][7] = {
    {PSF_MOVE, 0, 0, 0, 0, 100, -10},  {PSF_CURVE, 300, -10, 400, 100, 400, 300},
    {PSF_LINE, 0, 0, 0, 0, 100, 300},  {PSF_CLOSE, 0, 0, 0, 0, 0, 0},
    {PSF_MOVE, 0, 0, 0, 0, 150, 50},   {PSF_LINE, 0, 0, 0, 0, 200, 50},
    {PSF_LINE, 0, 0, 0, 0, 200, 100},  {PSF_CLOSE, 0, 0, 0, 0, 0, 0},
};

static int is_segment(const psf_segment *s, const int *row) {
    const int32_t numbers[6] = {s->x1, s->y1, s->x2, s->y2, s->x, s->y};
    for (int i = 0; i < 6; i++)
        if (numbers[i] != row[i + 1] * 65536) return 0;
    return s->kind == (uint32_t)row[0];
}

static void check_outline(const uint8_t *cff, size_t size, const psf_font *font) {
    psf_segment segments[9];
    psf_glyph info;
    size_t count = 99;
    memset(segments, 0xa5, sizeof segments);
    holds(psf_glyph_outline(cff, size, font, 3, segments, 0, &count, &info) == PSF_NO_ROOM && count == 8, "how much room");
    holds(psf_glyph_outline(cff, size, font, 3, segments, 7, &count, &info) == PSF_NO_ROOM && count == 8, "too small a room");
    holds(segments[7].kind == 0xa5a5a5a5u, "nothing behind the room");
    holds(psf_glyph_outline(cff, size, font, 3, segments, 8, &count, &info) == PSF_OK && count == 8, "the outline");
    for (int i = 0; i < 8; i++) holds(is_segment(&segments[i], flower[i]), "a segment");
    holds(segments[8].kind == 0xa5a5a5a5u, "nothing behind the outline");
    holds(info.advance == 450 * 65536 && info.has_width == 1, "the nominal width and what is told");
    holds(info.has_bounds == 1 && info.left == 100 * 65536 && info.bottom == -10 * 65536, "the low bounds");
    holds(info.right == 400 * 65536 && info.top == 300 * 65536, "the high bounds");
    holds(psf_glyph_outline(cff, size, font, 0, segments, 9, &count, &info) == PSF_OK && count == 0, "an empty outline");
    holds(info.advance == 500 * 65536 && info.has_width == 0 && info.has_bounds == 0, "the default width");
    psf_bounds bounds = {1, 2, 3, 4, 5};
    holds(psf_glyph_bounds(cff, size, font, 4, &bounds) == PSF_NO_GLYPH && bounds.left == 1, "no glyph's bounds");
    holds(psf_glyph_bounds(cff, size, font, 3, &bounds) == PSF_OK && bounds.has_bounds == 1, "the bounds of curves");
    holds(bounds.left == 100 * 65536 && bounds.bottom == -10 * 65536, "their low ends");
    holds(bounds.right == 400 * 65536 && bounds.top == 300 * 65536, "their high ends");
    count = 77;
    holds(psf_glyph_outline(cff, size, font, 4, segments, 9, &count, &info) == PSF_NO_GLYPH && count == 77, "past the end");
}

/* A font with numbers in it that stand for nothing: each call answers a status, and writes nothing behind the room. */
static void check_spoiled(const uint8_t *cff, size_t size, const psf_font *font) {
    psf_segment segments[2];
    psf_glyph info;
    size_t count;
    for (size_t field = 0; field < sizeof *font / 8; field++) {
        for (uint64_t number = 0; number < 200; number++) {
            psf_font spoiled = *font;
            uint64_t value = number < 150 ? number : UINT64_MAX >> (number - 150);
            memcpy((uint8_t *)&spoiled + 8 * field, &value, 8);
            segments[1].kind = 0xa5a5a5a5u;
            int32_t status = psf_glyph_outline(cff, size, &spoiled, 3, segments, 1, &count, &info);
            int is_answer = (status >= 0 && status <= PSF_NO_ROOM) || status == PSF_NO_PART || (status >= PSF_TOO_LONG && status <= PSF_NESTED_ACCENT);
            holds(is_answer, "a status");
            holds(segments[1].kind == 0xa5a5a5a5u, "nothing behind the room of a spoiled font");
        }
    }
}

static void check_names(const uint8_t *cff, size_t size) {
    uint8_t name[16];
    size_t count = 0, glyph = 99;
    memset(name, 0xa5, sizeof name);
    holds(psf_glyph_name(cff, size, 3, name, 5, &count) == PSF_NO_ROOM && count == 6 && name[5] == 0xa5, "no room for a name");
    holds(psf_glyph_name(cff, size, 3, name, 6, &count) == PSF_OK && count == 6, "a name");
    holds(memcmp(name, "flower", 6) == 0 && name[6] == 0xa5, "its bytes");
    holds(psf_glyph_name(cff, size, 0, name, 16, &count) == PSF_OK && memcmp(name, ".notdef", 7) == 0, "a standard name");
    holds(psf_glyph_name(cff, size, 4, name, 16, &count) == PSF_NO_NAME, "no name");
    holds(psf_named_glyph(cff, size, (const uint8_t *)"flower", 6, &glyph) == PSF_OK && glyph == 3, "a named glyph");
    holds(psf_named_glyph(cff, size, (const uint8_t *)"flowe", 5, &glyph) == PSF_NO_GLYPH, "no named glyph");
}

static void check_flat(const uint8_t *cff, size_t size, const psf_font *font) {
    /* 0 hmoveto 250 700 250 -700 rlineto endchar */
    static const uint8_t code[] = {0x8b, 0x16, 0xf7, 0x8e, 0xf9, 0x50, 0xf7, 0x8e, 0xfd, 0x50, 0x05, 0x0e};
    uint8_t flat[16];
    size_t count = 0;
    memset(flat, 0xa5, sizeof flat);
    holds(psf_glyph_flat(cff, size, font, 2, flat, 11, &count) == PSF_NO_ROOM && count == 12 && flat[11] == 0xa5, "no room for code");
    holds(psf_glyph_flat(cff, size, font, 2, flat, 16, &count) == PSF_OK && count == 12, "flat code");
    holds(memcmp(flat, code, 12) == 0 && flat[12] == 0xa5, "its bytes");
    holds(psf_glyph_flat(cff, size, font, 4, flat, 16, &count) == PSF_NO_GLYPH, "no glyph's flat code");
}

static void check_operations(const uint8_t *cff, size_t size, const psf_font *font) {
    /* 0 hmoveto 250 700 250 -700 rlineto endchar, of which endchar tells nothing */
    static const int32_t numbers[] = {0, 250, 700, 250, -700};
    psf_operation operations[4];
    int32_t operands[8];
    size_t count = 77, operand_count = 77;
    memset(operations, 0xa5, sizeof operations);
    memset(operands, 0xa5, sizeof operands);
    holds(psf_glyph_operations(cff, size, font, 2, operations, 4, &count, operands, 8, &operand_count) == PSF_OK, "operations");
    holds(count == 2 && operand_count == 5, "how many");
    holds(operations[0].operator_code == 0x16 && operations[0].first == 0 && operations[0].count == 1, "hmoveto");
    holds(operations[1].operator_code == 0x05 && operations[1].first == 1 && operations[1].count == 4, "rlineto");
    for (size_t i = 0; i < 5; i++) holds(operands[i] == numbers[i] * 65536, "an operand");
    holds(operands[5] == (int32_t)0xa5a5a5a5u, "nothing behind the operands");
    memset(operands, 0xa5, sizeof operands);
    holds(psf_glyph_operations(cff, size, font, 2, operations, 4, &count, operands, 4, &operand_count) == PSF_NO_ROOM, "no room for operands");
    holds(count == 2 && operand_count == 5 && operands[0] == (int32_t)0xa5a5a5a5u, "how many, and nothing written");
    holds(psf_glyph_operations(cff, size, font, 2, operations, 1, &count, operands, 8, &operand_count) == PSF_NO_ROOM, "no room for operations");
    count = 77;
    holds(psf_glyph_operations(cff, size, font, 4, operations, 4, &count, operands, 8, &operand_count) == PSF_NO_GLYPH && count == 77, "past the end");
}

static void check_hints(void) {
    /* a table of one glyph: 1 2 hintmask 10000000 3 hmoveto endchar, of which the mask implies a stem */
    static const uint8_t table[] = {0x01, 0x00, 0x04, 0x01, 0x00, 0x01, 0x01, 0x01, 0x02, 0x41, 0x00, 0x01, 0x01, 0x01, 0x05, 0x1c, 0x00, 0x17,
                                    0x11, 0x00, 0x00, 0x00, 0x00, 0x00, 0x01, 0x01, 0x01, 0x08, 0x8c, 0x8d, 0x13, 0x80, 0x8e, 0x16, 0x0e};
    psf_font font;
    psf_operation operations[2];
    int32_t numbers[4];
    size_t count, number_count;
    holds(psf_font_open(table, sizeof table, &font) == PSF_OK, "a font with a mask");
    holds(psf_glyph_operations(table, sizeof table, &font, 0, operations, 2, &count, numbers, 4, &number_count) == PSF_OK, "its operations");
    holds(count == 2 && number_count == 4, "how many");
    holds(operations[0].operator_code == 0x13 && operations[0].count == 0 && operations[0].stems == 2 && operations[0].mask == 1, "hintmask");
    holds(numbers[0] == 65536 && numbers[1] == 131072 && numbers[2] == 0x80, "the stem that it implies, and its byte");
    holds(operations[1].first == 3 && operations[1].count == 1 && operations[1].stems == 0 && operations[1].mask == 0, "hmoveto");
    holds(numbers[3] == 3 * 65536, "its operand");
}

/* A font that is written is opened, and each of its glyphs draws what a glyph of the old one draws. */
static void check_alike(const uint8_t *cff, size_t size, size_t glyph, const uint8_t *written, size_t length, size_t number) {
    psf_font font, other;
    psf_segment segments[16], others[16];
    psf_glyph info, other_info;
    size_t count = 0, other_count = 0;
    holds(psf_font_open(cff, size, &font) == PSF_OK && psf_font_open(written, length, &other) == PSF_OK, "both fonts");
    holds(other.part.local_subroutines == 0, "no local subroutines");
    holds(psf_glyph_outline(cff, size, &font, glyph, segments, 16, &count, &info) == PSF_OK, "the old glyph");
    holds(psf_glyph_outline(written, length, &other, number, others, 16, &other_count, &other_info) == PSF_OK, "the new glyph");
    holds(count == other_count && memcmp(segments, others, count * sizeof *segments) == 0, "the same outline");
    holds(memcmp(&info, &other_info, sizeof info) == 0, "the same width and bounds");
}

static void check_written(const uint8_t *cff, size_t size) {
    static const size_t flower[] = {3}, past[] = {2, 4};
    uint8_t written[512], name[16];
    size_t count = 0, named = 0;
    psf_refusal refusal = {77, 77};
    psf_font font;
    holds(psf_font_flat(cff, size, LIMIT, written, 0, &count, &refusal) == PSF_NO_ROOM && count > 0 && count < 512, "no room for a font");
    holds(psf_font_flat(cff, size, LIMIT, written, 512, &count, &refusal) == PSF_OK && refusal.glyph == 77, "a flat font");
    for (size_t glyph = 0; glyph < 4; glyph++) check_alike(cff, size, glyph, written, count, glyph);
    holds(psf_font_subset(cff, size, flower, 1, 0, LIMIT, written, 512, &count, &refusal) == PSF_OK, "a font of one glyph");
    holds(psf_font_open(written, count, &font) == PSF_OK && font.glyphs == 2, "and of .notdef");
    check_alike(cff, size, 0, written, count, 0);
    check_alike(cff, size, 3, written, count, 1);
    holds(psf_glyph_name(written, count, 1, name, 16, &named) == PSF_OK && named == 6 && memcmp(name, "flower", 6) == 0, "its name");
    holds(psf_font_subset(cff, size, flower, 1, 1, LIMIT, written, 512, &count, &refusal) == PSF_OK, "a font of one glyph with its number");
    holds(psf_font_open(written, count, &font) == PSF_OK && font.glyphs == 4, "of four glyphs");
    check_alike(cff, size, 3, written, count, 3);
    holds(psf_font_subset(cff, size, flower, 0, 0, LIMIT, written, 512, &count, &refusal) == PSF_NO_GLYPHS, "no glyphs");
    holds(refusal.glyph == 0 && refusal.cause == 0, "which mean none");
    holds(psf_font_subset(cff, size, past, 2, 1, LIMIT, written, 512, &count, &refusal) == PSF_NO_GLYPH && refusal.glyph == 4, "no glyph 4");
    holds(psf_font_flat(cff, 2, LIMIT, written, 512, &count, &refusal) == PSF_UNEXPECTED_EOF && refusal.glyph == 0, "a cut font");
    holds(psf_font_flat(cff, size, 1, written, 512, &count, &refusal) == PSF_TOO_LONG && refusal.glyph == 0, "a flat font past the limit");
    holds(psf_font_subset(cff, size, flower, 1, 0, 1, written, 512, &count, &refusal) == PSF_TOO_LONG, "a font of one glyph past it");
}

/* A font is not written of which a glyph returns from its own code. */
static void check_refused(const uint8_t *cff, size_t size) {
    uint8_t spoiled[512], written[512];
    size_t count = 0, place = 0;
    psf_refusal refusal = {0, 0};
    memcpy(spoiled, cff, size);
    /* the code of the glyph A: 8b 16 f7 .. */
    while (place + 3 < size && memcmp(spoiled + place, "\x8b\x16\xf7", 3) != 0) place++;
    spoiled[place] = 0x0b;
    holds(psf_font_flat(spoiled, size, LIMIT, written, 512, &count, &refusal) == PSF_REFUSED_GLYPH, "a refused glyph");
    holds(refusal.glyph == 2 && refusal.cause == PSF_RETURN_WITHOUT_CALLER, "which, and why");
}

/* The outline of the accented glyph `C`, in units: its base `A`, and its accent `acute`, 30 to the right and 40 down. */
static const int accented[][7] = {
    {PSF_MOVE, 0, 0, 0, 0, 10, 20},  {PSF_LINE, 0, 0, 0, 0, 110, 20},         {PSF_LINE, 0, 0, 0, 0, 110, 70},
    {PSF_CLOSE, 0, 0, 0, 0, 0, 0},   {PSF_MOVE, 0, 0, 0, 0, 31, -38},         {PSF_CURVE, 34, -34, 39, -28, 46, -20},
    {PSF_CLOSE, 0, 0, 0, 0, 0, 0},
};

static int is_blank(const void *room, size_t size) {
    const uint8_t *bytes = room;
    for (size_t i = 0; i < size; i++)
        if (bytes[i] != 0xa5) return 0;
    return 1;
}

/* What a glyph is refused with by both calls that draw it. All that they are lent is left as it was. */
static int32_t refusal_of(const uint8_t *cff, size_t size, size_t glyph) {
    psf_font font;
    psf_segment segments[16];
    psf_glyph info;
    psf_bounds bounds;
    size_t count = 77;
    memset(segments, 0xa5, sizeof segments);
    memset(&info, 0xa5, sizeof info);
    memset(&bounds, 0xa5, sizeof bounds);
    holds(psf_font_open(cff, size, &font) == PSF_OK, "the font of a refused glyph");
    int32_t status = psf_glyph_outline(cff, size, &font, glyph, segments, 16, &count, &info);
    holds(psf_glyph_bounds(cff, size, &font, glyph, &bounds) == status, "the same of its bounds");
    holds(is_blank(segments, sizeof segments) && count == 77 && is_blank(&info, sizeof info), "nothing of its outline");
    holds(is_blank(&bounds, sizeof bounds), "nothing of its bounds");
    return status;
}

static void check_accents(const uint8_t *cff, size_t size) {
    static const size_t named[] = {3};
    psf_font font;
    psf_segment segments[16];
    psf_glyph info;
    psf_bounds bounds;
    uint8_t written[512];
    psf_refusal refusal;
    size_t count = 0;
    holds(psf_font_open(cff, size, &font) == PSF_OK && font.glyphs == 13, "the font of accented glyphs");
    holds(psf_glyph_outline(cff, size, &font, 3, segments, 6, &count, &info) == PSF_NO_ROOM && count == 7, "too small a room");
    holds(psf_glyph_outline(cff, size, &font, 3, segments, 7, &count, &info) == PSF_OK && count == 7, "an accented glyph");
    for (int i = 0; i < 7; i++) holds(is_segment(&segments[i], accented[i]), "a segment of the base or of the accent");
    holds(info.advance == 0 && info.has_width == 0, "its own width, which it does not tell");
    holds(info.has_bounds == 1 && info.left == 10 * 65536 && info.bottom == -38 * 65536, "the low bounds of both");
    holds(info.right == 110 * 65536 && info.top == 70 * 65536, "the high bounds of both");
    holds(psf_glyph_bounds(cff, size, &font, 3, &bounds) == PSF_OK && bounds.has_bounds == 1, "the bounds of curves of both");
    holds(bounds.left == 10 * 65536 && bounds.bottom == -38 * 65536, "their low ends");
    holds(bounds.right == 110 * 65536 && bounds.top == 70 * 65536, "their high ends");
    /* a width of 9 and a contour of its own, and the accent 201 to the right and 300 up */
    holds(psf_glyph_outline(cff, size, &font, 4, segments, 16, &count, &info) == PSF_OK && count == 10, "its own contour too");
    holds(segments[0].x == 5 * 65536 && segments[3].x == 10 * 65536 && segments[7].x == 201 * 65536, "which comes first");
    holds(info.advance == 9 * 65536 && info.has_width == 1, "and its own width");
    holds(psf_font_subset(cff, size, named, 1, 0, LIMIT, written, 512, &count, &refusal) == PSF_OK, "the font of an accented glyph");
    check_alike(cff, size, 3, written, count, 3);
}

/* A CID-keyed font of four glyphs, of which glyph 2 ends over four operands: 0 0 65 65 endchar. */
static const char cid[] =
    "010004010001010102430001010121f81bf81c8b0c1e8177f7c0f824051c004a0f1c0053111c00650c241c00990c2500020101060e41646f6265"
    "4964656e74697479000201010103bd0b02000a0001006400000004010102060b0b0e879f200a8b8bcccc0e00020101161b1e0a0005ff8b8b1e0a"
    "0005ff8b8b0c07931c008512901c009412f88814f8ec1593130001010103160ef78e146d150000000101";

static void check_refused_accents(const uint8_t *cff, size_t size) {
    uint8_t font[sizeof cid / 2];
    holds(refusal_of(cff, size, 5) == PSF_NESTED_ACCENT, "the base is accented itself");
    holds(refusal_of(cff, size, 6) == PSF_NO_COMPONENT, "no glyph is the base");
    holds(refusal_of(cff, size, 7) == PSF_NO_CODE, "65.5 is no code");
    holds(refusal_of(cff, size, 8) == PSF_OVERFLOW, "the accent is moved out of the range");
    holds(refusal_of(cff, size, 11) == PSF_NO_COMPONENT, "no glyph is the accent");
    holds(refusal_of(cff, size, 13) == PSF_NO_GLYPH, "no such glyph");
    holds(refusal_of(font, spell(cid, font, sizeof font), 2) == PSF_NO_ACCENTS, "no accents by CIDs");
    font[sizeof font - 5] = 5;
    holds(refusal_of(font, sizeof font, 2) == PSF_NO_PART, "FDSelect is of format 5");
    holds(refusal_of(font, sizeof font, 4) == PSF_NO_GLYPH, "no such glyph of it");
}

/* Makes a font whose glyph calls the first of ten nested global subroutines. Each but the last calls the next ten times, so that
 * its run has thousands of millions of bytes of phrases. */
static size_t make_nested(uint8_t *cff) {
    static const uint8_t head[] = {
        1, 0, 4, 1,                                         /* the header */
        0, 1, 1, 1, 2, 'N',                                 /* one name */
        0, 1, 1, 1, 8, 0x1c, 0, 228, 17, 0x8b, 0x8b, 0x12,  /* one dictionary: 228 CharStrings 0 0 Private */
        0, 0,                                               /* no string */
        0, 10, 1,                                           /* ten global subroutines, with offsets of a byte */
    };
    /* one char string: the subroutine 0, callgsubr endchar */
    static const uint8_t tail[] = {0, 1, 1, 1, 4, 32, 29, 14};
    uint8_t *at = cff;
    memcpy(at, head, sizeof head);
    at += sizeof head;
    for (int i = 0; i < 10; i++) *at++ = (uint8_t)(1 + 21 * i);
    *at++ = 191;
    for (int next = 1; next < 10; next++) {
        for (int call = 0; call < 10; call++) {
            *at++ = (uint8_t)(32 + next); /* its number, less the bias of 107 */
            *at++ = 29;                   /* callgsubr */
        }
        *at++ = 11; /* return */
    }
    *at++ = 11;
    memcpy(at, tail, sizeof tail);
    return (size_t)(at - cff) + sizeof tail;
}

/* A run that would take minutes is stopped. */
static void check_nested(void) {
    uint8_t cff[512];
    size_t size = make_nested(cff);
    uint64_t limit = 1000000;
    holds(size == 236, "the length of the font of nested calls");
    holds(psf_font_fits(cff, size, &limit) == PSF_TOO_LONG && limit == 0, "it does not fit");
    holds(refusal_of(cff, size, 0) == PSF_TOO_LONG, "nor does its glyph fit the limit of a call");
    psf_font font;
    holds(psf_font_open(cff, size, &font) == PSF_OK && font.limit == PSF_LIMIT, "the limit that is told");
    uint8_t code[8] = {7};
    psf_operation operations[2];
    int32_t operands[2];
    size_t count = 5, operand_count = 6;
    holds(psf_glyph_flat(cff, size, &font, 0, code, sizeof code, &count) == PSF_TOO_LONG, "nor has it flat code");
    holds(psf_glyph_operations(cff, size, &font, 0, operations, 2, &count, operands, 2, &operand_count) == PSF_TOO_LONG, "nor operations");
    holds(code[0] == 7 && count == 5 && operand_count == 6, "nothing is told then");
}

static void check_limit(const uint8_t *cff, size_t size, psf_font font) {
    psf_bounds bounds;
    font.limit = 5;
    holds(psf_glyph_bounds(cff, size, &font, 3, &bounds) == PSF_TOO_LONG, "a limit of the caller's");
    font.limit = 1000;
    holds(psf_glyph_bounds(cff, size, &font, 3, &bounds) == PSF_OK, "another one");
}

static void check_fits(const uint8_t *cff, size_t size) {
    uint64_t limit = 1000;
    holds(psf_font_fits(cff, size, &limit) == PSF_OK && limit > 0 && limit < 1000, "all glyphs come to their ends");
    limit = 1;
    holds(psf_font_fits(cff, size, &limit) == PSF_TOO_LONG && limit == 0, "not with so little limit");
    holds(psf_font_fits(cff, 2, &limit) == PSF_UNEXPECTED_EOF, "nor where the font is cut");
}

/* What fontTools' instancer draws of glyph 1 of the variable font, in units: at the default, and where wght is 650, which avar takes to
 * three quarters of the way to 900, and opsz 12, half way to 8. */
static const int varied[2][4][7] = {
    {{PSF_MOVE, 0, 0, 0, 0, 50, 0}, {PSF_LINE, 0, 0, 0, 0, 250, 700}, {PSF_LINE, 0, 0, 0, 0, 450, 0}, {PSF_CLOSE, 0, 0, 0, 0, 0, 0}},
    {{PSF_MOVE, 0, 0, 0, 0, 65, 0}, {PSF_LINE, 0, 0, 0, 0, 255, 700}, {PSF_LINE, 0, 0, 0, 0, 445, 0}, {PSF_CLOSE, 0, 0, 0, 0, 0, 0}},
};

/* And of glyph 2, at the second place. */
static const int curved[4][7] = {
    {PSF_MOVE, 0, 0, 0, 0, 46, 250},
    {PSF_CURVE, 46, 400, 146, 500, 246, 500},
    {PSF_LINE, 0, 0, 0, 0, 309, 250},
    {PSF_CLOSE, 0, 0, 0, 0, 0, 0},
};

static void check_axes(const uint8_t *file, size_t length) {
    psf_axis axis;
    size_t count = 9;
    memset(&axis, 0xa5, sizeof axis);
    holds(psf_variation_axis(file, length, 1, 0, &axis, &count) == PSF_NO_FACE && count == 9, "no axis of no face");
    holds(psf_variation_axis(file, length, 0, 2, &axis, &count) == PSF_NO_AXIS && count == 2, "no third axis");
    holds(is_blank(&axis, sizeof axis), "which tells nothing");
    holds(psf_variation_axis(file, length, 0, 0, &axis, &count) == PSF_OK && count == 2, "an axis");
    holds(axis.tag == PSF_TAG('w', 'g', 'h', 't') && axis.is_hidden == 0 && axis.name == 256, "its tag and its name");
    holds(axis.minimum == 100 * 65536 && axis.default_value == 400 * 65536 && axis.maximum == 900 * 65536, "its values");
    holds(psf_variation_axis(file, length, 0, 1, &axis, &count) == PSF_OK && axis.tag == PSF_TAG('o', 'p', 's', 'z'), "another axis");
    holds(axis.minimum == 8 * 65536 && axis.default_value == 16 * 65536 && axis.maximum == 16 * 65536, "its own values");
    holds(axis.is_hidden == 1 && axis.name == 257, "it is hidden");
}

static void check_instances(const uint8_t *file, size_t length) {
    psf_instance instance = {7, 7, 7};
    int32_t at[3] = {7, 7, 7};
    size_t count = 9;
    holds(psf_variation_instance(file, length, 0, 2, &instance, at, 3, &count) == PSF_NO_INSTANCE && count == 9, "no instance");
    holds(instance.name == 7 && at[0] == 7, "which tells nothing");
    holds(psf_variation_instance(file, length, 0, 0, &instance, at, 1, &count) == PSF_NO_ROOM && count == 2, "no room for an instance");
    holds(instance.name == 258 && instance.postscript_name == -1 && instance.flags == 0 && at[0] == 7, "which is told all the same");
    holds(psf_variation_instance(file, length, 0, 1, &instance, at, 3, &count) == PSF_OK && count == 2, "an instance");
    holds(instance.name == 259 && instance.postscript_name == 260, "its names");
    holds(at[0] == 900 * 65536 && at[1] == 25 * 32768 && at[2] == 7, "its coordinates");
}

/* What is lent to be told of an outline. */
typedef struct drawn {
    psf_segment segments[5];
    psf_bounds bounds;
    size_t count;
} drawn;

/* The outline of a glyph of a file of one face, into a room of so many segments. */
static int32_t draw(const uint8_t *file, size_t length, const int32_t *place, size_t named, size_t glyph, uint64_t limit, size_t room,
                    drawn *d) {
    return psf_variable_outline(file, length, 0, place, named, glyph, limit, d->segments, room, &d->count, &d->bounds);
}

/* weight 650 and size 12; weight 900; a weight past the end, and a size past the end that is its default */
static const int32_t places[][3] = {{650 * 65536, 12 * 65536, 0}, {900 * 65536, 0, 0}, {1000 * 65536, 99 * 65536, 0}};

static void check_places(const uint8_t *file, size_t length) {
    const int32_t *place = places[0];
    drawn d;
    memset(&d, 0xa5, sizeof d);
    holds(draw(file, length, place, 3, 1, PSF_LIMIT, 5, &d) == PSF_TOO_MANY_COORDINATES, "three axes");
    holds(draw(file, length, place, 2, 3, PSF_LIMIT, 5, &d) == PSF_NO_GLYPH, "no fourth glyph");
    holds(draw(file, length, place, 2, 1, 12, 5, &d) == PSF_TOO_LONG, "a run past the limit");
    holds(is_blank(&d, sizeof d), "nothing is told then");
    holds(draw(file, length, place, 2, 1, PSF_LIMIT, 3, &d) == PSF_NO_ROOM && d.count == 4, "no room");
    holds(is_blank(d.segments, sizeof d.segments), "nothing is written then");
    for (int i = 0; i < 2; i++) {
        /* at the default no coordinate is named, and at the other place both are */
        holds(draw(file, length, place, i == 0 ? 0 : 2, 1, PSF_LIMIT, 5, &d) == PSF_OK && d.count == 4, "an outline");
        for (int k = 0; k < 4; k++) holds(is_segment(&d.segments[k], varied[i][k]), "a segment at a place");
        holds(d.bounds.has_bounds == 1 && d.bounds.left == varied[i][0][5] * 65536, "the bounds of its left side");
        holds(d.bounds.right == varied[i][2][5] * 65536 && d.bounds.bottom == 0 && d.bounds.top == 700 * 65536, "and of the others");
        holds(d.segments[4].kind == 0xa5a5a5a5u, "nothing behind the outline at a place");
    }
    holds(draw(file, length, place, 2, 2, PSF_LIMIT, 5, &d) == PSF_OK && d.count == 4, "a glyph of curves");
    for (int k = 0; k < 4; k++) holds(is_segment(&d.segments[k], curved[k]), "a segment of it");
    holds(draw(file, length, place, 2, 0, PSF_LIMIT, 0, &d) == PSF_OK && d.count == 0, "an empty glyph");
    holds(d.bounds.has_bounds == 0 && d.bounds.left == 0 && d.bounds.top == 0, "has no bounds");
    /* its run is empty, and its place has three regions of two axes: nine units */
    holds(draw(file, length, place, 2, 0, 8, 0, &d) == PSF_TOO_LONG, "a place past the limit");
    holds(draw(file, length, place, 2, 0, 9, 0, &d) == PSF_OK, "a place within the limit");
    holds(draw(file, length, places[2], 2, 1, PSF_LIMIT, 5, &d) == PSF_OK && d.segments[2].x == 550 * 65536, "the ends of axes");
}

/* A location is computed once, and glyphs are drawn from its scalars as from its coordinates. */
static void check_locations(const uint8_t *file, size_t length) {
    const int32_t *place = places[0];
    uint32_t scalars[4];
    size_t count = 9, offset = 0, size = 0;
    drawn d, same;
    memset(scalars, 0xa5, sizeof scalars);
    memset(&d, 0xa5, sizeof d);
    holds(psf_location_scalars(file, length, 1, place, 2, PSF_LIMIT, scalars, 4, &count) == PSF_NO_FACE, "the location of no face");
    holds(psf_location_scalars(file, length, 0, place, 3, PSF_LIMIT, scalars, 4, &count) == PSF_TOO_MANY_COORDINATES, "three axes of a location");
    holds(psf_location_scalars(file, length, 0, place, 2, 8, scalars, 4, &count) == PSF_TOO_LONG && count == 9, "a location past the limit");
    holds(psf_location_scalars(file, length, 0, place, 2, 9, scalars, 2, &count) == PSF_NO_ROOM && count == 3, "no room for its scalars");
    holds(is_blank(scalars, sizeof scalars), "nothing is written then");
    holds(psf_location_scalars(file, length, 0, place, 2, 9, scalars, 4, &count) == PSF_OK && count == 3, "a location within the limit");
    holds(scalars[0] == 49152 && scalars[1] == 0 && scalars[2] == 32768 && scalars[3] == 0xa5a5a5a5u, "its scalars");
    holds(psf_file_table(file, length, 0, PSF_TAG('C', 'F', 'F', '2'), &offset, &size) == PSF_OK, "the table of a location");
    const uint8_t *cff2 = file + offset;
    holds(psf_location_outline(cff2, size, scalars, 2, 1, PSF_LIMIT, d.segments, 5, &d.count, &d.bounds) == PSF_CFF2_DATA, "too few scalars");
    holds(psf_location_outline(cff2, 4, scalars, 3, 1, PSF_LIMIT, d.segments, 5, &d.count, &d.bounds) == PSF_CFF2_HEADER, "no table");
    holds(psf_location_outline(cff2, size, scalars, 3, 3, PSF_LIMIT, d.segments, 5, &d.count, &d.bounds) == PSF_NO_GLYPH, "no glyph there");
    holds(psf_location_outline(cff2, size, scalars, 3, 1, 12, d.segments, 5, &d.count, &d.bounds) == PSF_TOO_LONG, "a run past its limit");
    holds(is_blank(&d, sizeof d), "and nothing is told");
    holds(psf_location_outline(cff2, size, scalars, 3, 1, PSF_LIMIT, d.segments, 3, &d.count, &d.bounds) == PSF_NO_ROOM && d.count == 4, "no room there");
    for (size_t glyph = 0; glyph < 3; glyph++) {
        memset(&d, 0xa5, sizeof d);
        memset(&same, 0xa5, sizeof same);
        /* a scalar more than there are regions is ignored */
        holds(psf_location_outline(cff2, size, scalars, 4, glyph, PSF_LIMIT, d.segments, 5, &d.count, &d.bounds) == PSF_OK, "from scalars");
        holds(draw(file, length, place, 2, glyph, PSF_LIMIT, 5, &same) == PSF_OK && memcmp(&d, &same, sizeof d) == 0, "the same outline");
    }
    /* scalars of 0 are those of the default */
    memset(scalars, 0, sizeof scalars);
    holds(psf_location_outline(cff2, size, scalars, 3, 1, PSF_LIMIT, d.segments, 5, &d.count, &d.bounds) == PSF_OK, "from other numbers");
    for (int k = 0; k < 4; k++) holds(is_segment(&d.segments[k], varied[0][k]), "a segment at the default");
}

static void check_advances(const uint8_t *file, size_t length) {
    const int32_t *place = places[0];
    int64_t advance = 7;
    size_t glyphs = 7;
    holds(psf_variable_glyphs(file, length, 1, &glyphs) == PSF_NO_FACE && glyphs == 7, "the glyphs of no face");
    holds(psf_variable_glyphs(file, length, 0, &glyphs) == PSF_OK && glyphs == 3, "how many glyphs there are");
    holds(psf_variable_advance(file, length, 0, place, 0, 1, PSF_LIMIT, &advance) == PSF_OK && advance == 600, "the advance at the default");
    holds(psf_variable_advance(file, length, 0, place, 2, 1, PSF_LIMIT, &advance) == PSF_OK && advance == 590, "an advance at a place");
    holds(psf_variable_advance(file, length, 0, place, 1, 2, PSF_LIMIT, &advance) == PSF_OK && advance == 620, "where one axis is named");
    holds(psf_variable_advance(file, length, 0, places[1], 1, 1, PSF_LIMIT, &advance) == PSF_OK && advance == 720, "an advance at an end");
    holds(psf_variable_advance(file, length, 0, place, 2, 0, PSF_LIMIT, &advance) == PSF_OK && advance == 500, "an advance that does not vary");
    holds(psf_variable_advance(file, length, 0, place, 3, 1, PSF_LIMIT, &advance) == PSF_TOO_MANY_COORDINATES, "three axes of an advance");
    holds(psf_variable_advance(file, length, 0, place, 2, 65536, PSF_LIMIT, &advance) == PSF_NO_GLYPH && advance == 500, "no such advance");
    /* the HVAR deltas of a glyph have three regions of two axes: six units */
    holds(psf_variable_advance(file, length, 0, place, 2, 1, 0, &advance) == PSF_TOO_LONG && advance == 500, "an advance past a limit of 0");
    holds(psf_variable_advance(file, length, 0, place, 2, 1, 5, &advance) == PSF_TOO_LONG && advance == 500, "an advance past the limit");
    holds(psf_variable_advance(file, length, 0, place, 2, 1, 6, &advance) == PSF_OK && advance == 590, "an advance within the limit");
}

/* What a call answers of a file with another byte at a place of a table: that of an advance, or of an outline. */
static int32_t status_with(const uint8_t *file, size_t length, const char *tag, size_t at, uint8_t byte, int asks_advance) {
    static uint8_t spoiled[1024];
    drawn d;
    int64_t advance = 0;
    size_t place = 0, size = 0;
    memcpy(spoiled, file, length);
    holds(psf_file_table(file, length, 0, PSF_TAG(tag[0], tag[1], tag[2], tag[3]), &place, &size) == PSF_OK && at < size, "a table");
    spoiled[place + at] = byte;
    if (asks_advance) return psf_variable_advance(spoiled, length, 0, places[0], 0, 1, PSF_LIMIT, &advance);
    return draw(spoiled, length, places[0], 0, 1, PSF_LIMIT, 5, &d);
}

/* Each table is refused by statuses of its own. */
static void check_refused_tables(const uint8_t *file, size_t length) {
    holds(status_with(file, length, "fvar", 1, 2, 0) == PSF_UNKNOWN_FVAR, "fvar 2.0");
    holds(status_with(file, length, "fvar", 8, 1, 0) == PSF_UNKNOWN_FVAR, "instances too small for so many axes");
    holds(status_with(file, length, "fvar", 12, 255, 0) == PSF_CUT_FVAR, "too many instances");
    holds(status_with(file, length, "avar", 1, 2, 0) == PSF_UNKNOWN_AVAR, "avar 2.0");
    holds(status_with(file, length, "avar", 8, 255, 1) == PSF_CUT_AVAR, "a segment map too long");
    holds(status_with(file, length, "HVAR", 1, 2, 1) == PSF_UNKNOWN_HVAR, "HVAR 2.0");
    holds(status_with(file, length, "HVAR", 4, 255, 1) == PSF_CUT_HVAR, "a store past the end");
    holds(status_with(file, length, "HVAR", 1, 2, 0) == PSF_OK, "which an outline does not ask");
    holds(status_with(file, length, "hhea", 34, 255, 1) == PSF_NO_ADVANCES, "too many advances");
    holds(status_with(file, length, "CFF2", 0, 1, 0) == PSF_CFF2_VERSION, "CFF2 1.0");
    holds(status_with(file, length, "CFF2", 2, 4, 0) == PSF_CFF2_HEADER, "a header too small");
    holds(status_with(file, length, "CFF2", 3, 255, 0) == PSF_CFF2_DICTIONARY, "a Top DICT past the end");
    holds(status_with(file, length, "CFF2", 0, 1, 1) == PSF_OK, "which an advance does not ask");
}

/* A file of a table CFF has no axes, and is drawn by the same calls. */
static void check_not_variable(const uint8_t *file, size_t length) {
    psf_axis axis;
    psf_instance instance;
    drawn d;
    int64_t advance = 7;
    int32_t coordinate = 0;
    size_t count = 9;
    holds(psf_variation_axis(file, length, 0, 0, &axis, &count) == PSF_NO_TABLE && count == 9, "no axes");
    holds(psf_variation_instance(file, length, 0, 0, &instance, &coordinate, 1, &count) == PSF_NO_TABLE && count == 9, "no instances");
    holds(psf_variable_glyphs(file, length, 0, &count) == PSF_OK && count == 4, "how many glyphs a table CFF has");
    holds(draw(file, length, &coordinate, 0, 2, PSF_LIMIT, 5, &d) == PSF_OK && d.count == 4, "a glyph of a table CFF");
    holds(d.segments[1].kind == 1 && d.segments[1].x == 250 * 65536 && d.segments[1].y == 700 * 65536, "its first line");
    holds(d.bounds.has_bounds && d.bounds.right == 500 * 65536 && d.bounds.top == 700 * 65536, "its bounds");
    holds(draw(file, length, &coordinate, 1, 2, PSF_LIMIT, 5, &d) == PSF_TOO_MANY_COORDINATES, "a coordinate without an axis");
    holds(draw(file, length, &coordinate, 0, 4, PSF_LIMIT, 5, &d) == PSF_NO_GLYPH, "no glyph 4");
    holds(draw(file, length, &coordinate, 0, 3, 5, 5, &d) == PSF_TOO_LONG, "a limit");
    holds(draw(file, 3, &coordinate, 0, 2, PSF_LIMIT, 5, &d) == PSF_CUT_FILE, "a cut file");
    holds(psf_variable_advance(file, length, 0, &coordinate, 0, 2, PSF_LIMIT, &advance) == PSF_NO_TABLE && advance == 7, "no hmtx");
}

/* Whether two files have the same bytes in a table. */
static int same_table(const uint8_t *one, size_t length, const uint8_t *other, size_t size, uint32_t tag) {
    size_t place = 0, count = 0, other_place = 0, other_count = 0;
    return psf_file_table(one, length, 0, tag, &place, &count) == PSF_OK
        && psf_file_table(other, size, 0, tag, &other_place, &other_count) == PSF_OK && count == other_count
        && memcmp(one + place, other + other_place, count) == 0;
}

static void check_flat_file(const uint8_t *file, size_t length) {
    uint8_t written[1024];
    size_t count = 0, place = 0, size = 0;
    psf_refusal refusal = {77, 77};
    psf_font font;
    holds(psf_file_flat(file, length, 0, LIMIT, written, 0, &count, &refusal) == PSF_NO_ROOM && count > 100 && count < 1024, "no room for a file");
    holds(psf_file_flat(file, length, 0, LIMIT, written, 1024, &count, &refusal) == PSF_OK && refusal.glyph == 77, "a flat file");
    holds(same_table(file, length, written, count, PSF_TAG('c', 'm', 'a', 'p')), "its characters");
    holds(psf_file_table(written, count, 0, PSF_TAG('C', 'F', 'F', ' '), &place, &size) == PSF_OK, "its font");
    holds(psf_font_open(written + place, size, &font) == PSF_OK && font.glyphs == 4, "its glyphs");
    holds(psf_file_flat(file, length, 1, LIMIT, written, 1024, &count, &refusal) == PSF_NO_FACE && refusal.glyph == 0, "a flat file of no face");
    holds(psf_file_flat(file, length, 0, 1, written, 1024, &count, &refusal) == PSF_TOO_LONG, "a flat file past the limit");
}

static void check_subset_file(const uint8_t *file, size_t length, const uint8_t *lacking) {
    static const uint32_t letter[] = {'A'}, other[] = {'A', 'B'}, copied[] = {PSF_TAG('n', 'a', 'm', 'e'), PSF_TAG('O', 'S', '/', '2')};
    static const uint32_t twice[] = {PSF_TAG('n', 'a', 'm', 'e'), PSF_TAG('n', 'a', 'm', 'e')};
    static const size_t first[] = {1}, past[] = {9};
    uint8_t written[1024];
    size_t count = 0, place = 0, size = 0, old_place = 0, old_size = 0, glyph = 9;
    psf_refusal refusal = {77, 77};
    psf_font font;
    holds(psf_file_subset(file, length, 0, letter, 1, first, 0, copied, 2, 0, 0, 0, LIMIT, written, 20, &count, &refusal) == PSF_NO_ROOM, "no room for a subset");
    holds(psf_file_subset(file, length, 0, letter, 1, first, 0, copied, 2, 0, 0, 0, LIMIT, written, 1024, &count, &refusal) == PSF_OK, "a subset");
    holds(refusal.glyph == 77 && same_table(file, length, written, count, PSF_TAG('n', 'a', 'm', 'e')), "with its names");
    holds(psf_file_table(written, count, 0, PSF_TAG('h', 'e', 'a', 'd'), &place, &size) == PSF_NO_TABLE, "without head");
    holds(same_table(file, length, written, count, PSF_TAG('h', 'm', 't', 'x')), "with its metrics");
    holds(psf_file_table(written, count, 0, PSF_TAG('c', 'm', 'a', 'p'), &place, &size) == PSF_OK, "with a map");
    holds(psf_map_glyph(written + place, size, 'A', &glyph) == PSF_OK && glyph == 1, "of the character");
    holds(psf_map_glyph(written + place, size, 'B', &glyph) == PSF_OK && glyph == 0, "and no other");
    holds(psf_file_table(file, length, 0, PSF_TAG('C', 'F', 'F', ' '), &old_place, &old_size) == PSF_OK, "the old font");
    holds(psf_file_table(written, count, 0, PSF_TAG('C', 'F', 'F', ' '), &place, &size) == PSF_OK, "the new font");
    holds(psf_font_open(written + place, size, &font) == PSF_OK && font.glyphs == 2, "of two glyphs");
    check_alike(file + old_place, old_size, 1, written + place, size, 1);
    holds(psf_file_subset(file, length, 0, letter, 0, first, 1, copied, 0, 0, 1, 0, LIMIT, written, 1024, &count, &refusal) == PSF_OK, "a subset of a glyph");
    holds(psf_file_subset(file, length, 0, other, 2, first, 0, copied, 0, 0, 0, 0, LIMIT, written, 1024, &count, &refusal) == PSF_NO_CHARACTER
          && refusal.glyph == 'B', "no glyph for B");
    holds(psf_file_subset(file, length, 0, other, 2, first, 0, copied, 0, 1, 0, 0, LIMIT, written, 1024, &count, &refusal) == PSF_OK, "B is left out");
    holds(psf_file_subset(file, length, 0, letter, 0, first, 0, copied, 0, 0, 0, 0, LIMIT, written, 1024, &count, &refusal) == PSF_NO_GLYPHS, "nothing chosen");
    holds(psf_file_subset(file, length, 0, letter, 0, past, 1, copied, 0, 0, 0, 0, LIMIT, written, 1024, &count, &refusal) == PSF_NO_GLYPH
          && refusal.glyph == 9, "no glyph 9");
    holds(psf_file_subset(file, length, 0, letter, 1, first, 0, twice, 2, 0, 0, 0, LIMIT, written, 1024, &count, &refusal) == PSF_SAME_TAG
          && refusal.glyph == PSF_TAG('n', 'a', 'm', 'e'), "a table twice");
    holds(psf_file_subset(file, length, 0, letter, 1, first, 0, copied, 0, 0, 0, 0, 1, written, 1024, &count, &refusal) == PSF_TOO_LONG, "a subset past the limit");
    holds(psf_file_subset(lacking, 228, 0, letter, 1, first, 0, copied, 0, 0, 0, 0, LIMIT, written, 1024, &count, &refusal) == PSF_NO_TABLE
          && refusal.glyph == PSF_TAG('h', 'h', 'e', 'a'), "a file without hhea");
}

/* The name table has "Small" for Macintosh, and for Windows the copyright "(c)" (0), the family "Small" (1), the style "Regular" (2), the licence
 * "MIT" (13), and an axis or feature "Old" (256). The short tables are as fontTools writes them with only these names. */
static void check_subset_names(const uint8_t *file, size_t length, const uint8_t *lacking) {
    static const uint8_t read[54] = {0, 0, 0, 2, 0, 30,
        0, 3, 0, 1, 4, 9, 0, 1, 0, 10, 0, 0,  0, 3, 0, 1, 4, 9, 0, 2, 0, 14, 0, 10,
        0, 'S', 0, 'm', 0, 'a', 0, 'l', 0, 'l',  0, 'R', 0, 'e', 0, 'g', 0, 'u', 0, 'l', 0, 'a', 0, 'r'};
    static const uint8_t all[90] = {0, 0, 0, 4, 0, 54,
        0, 3, 0, 1, 4, 9, 0, 0, 0, 6, 0, 0,  0, 3, 0, 1, 4, 9, 0, 1, 0, 10, 0, 6,
        0, 3, 0, 1, 4, 9, 0, 2, 0, 14, 0, 16,  0, 3, 0, 1, 4, 9, 0, 13, 0, 6, 0, 30,
        0, '(', 0, 'c', 0, ')',  0, 'S', 0, 'm', 0, 'a', 0, 'l', 0, 'l',
        0, 'R', 0, 'e', 0, 'g', 0, 'u', 0, 'l', 0, 'a', 0, 'r',  0, 'M', 0, 'I', 0, 'T'};
    static const size_t none[] = {0};
    static const uint32_t letter[] = {'A'}, name = PSF_TAG('n', 'a', 'm', 'e');
    static uint8_t many[1024];
    uint8_t written[1024];
    size_t count = 0, place = 0, size = 0;
    psf_refusal refusal = {77, 77};
    psf_layout layout;
    for (uint32_t names = 1; names <= 4; names++) {
        const uint8_t *wanted = names == 1 ? read : all;
        size_t length_wanted = names == 1 ? sizeof read : sizeof all;
        holds(psf_file_subset(file, length, 0, letter, 1, none, 0, letter, 0, 0, 0, names, LIMIT, written, 1024, &count, &refusal) == PSF_OK, "with names");
        holds(psf_file_table(written, count, 0, name, &place, &size) == PSF_OK && size == length_wanted && memcmp(written + place, wanted, size) == 0,
              "the short names");
        holds(psf_file_subset_layout(file, length, 0, letter, 1, none, 0, letter, 0, 0, names % 2, names, 0, letter, 0, 1, LIMIT, written, 1024, &count, &layout, &refusal)
              == PSF_OK, "with names and layout");
        holds(psf_file_table(written, count, 0, name, &place, &size) == PSF_OK && size == length_wanted && memcmp(written + place, wanted, size) == 0,
              "the short names and layout");
    }
    holds(psf_file_subset(file, length, 0, letter, 1, none, 0, letter, 0, 0, 0, 0, LIMIT, written, 1024, &count, &refusal) == PSF_OK
          && psf_file_table(written, count, 0, name, &place, &size) == PSF_NO_TABLE, "without names");
    holds(psf_file_subset(file, length, 0, letter, 1, none, 0, &name, 1, 0, 0, 0, LIMIT, written, 1024, &count, &refusal) == PSF_OK
          && same_table(file, length, written, count, name), "with all names");
    holds(psf_file_subset(file, length, 0, letter, 1, none, 0, &name, 1, 0, 0, 1, LIMIT, written, 1024, &count, &refusal) == PSF_SAME_TAG
          && refusal.glyph == name, "names that are copied and shortened");
    holds(psf_file_subset_layout(file, length, 0, letter, 1, none, 0, &name, 1, 0, 0, 1, 1, letter, 0, 0, LIMIT, written, 1024, &count, &layout, &refusal)
          == PSF_SAME_TAG && refusal.glyph == name, "the same with layout");
    /* 1,001 records, of which the table has only a few */
    memcpy(many, file, length);
    holds(psf_file_table(file, length, 0, name, &place, &size) == PSF_OK, "the names");
    many[place + 2] = 1001 / 256;
    many[place + 3] = 1001 % 256;
    holds(psf_file_subset(many, length, 0, letter, 1, none, 0, letter, 0, 0, 0, 1, LIMIT, written, 1024, &count, &refusal) == PSF_OK
          && same_table(many, length, written, count, name), "names that are not shortened");
    holds(psf_file_subset(lacking, 228, 0, letter, 1, none, 0, &name, 1, 0, 0, 1, LIMIT, written, 1024, &count, &refusal) == PSF_NO_TABLE
          && refusal.glyph == PSF_TAG('h', 'h', 'e', 'a'), "a file without names");
}

/* The glyphs are .notdef, a, a.sc and b. smcp substitutes a.sc for a, and kern moves two letters a by -50. */
static void check_subset_layout(const uint8_t *file, size_t length) {
    static const uint32_t letter[] = {'a'}, features[] = {PSF_TAG('s', 'm', 'c', 'p'), PSF_TAG('k', 'e', 'r', 'n')};
    static const uint32_t gpos = PSF_TAG('G', 'P', 'O', 'S'), gsub = PSF_TAG('G', 'S', 'U', 'B'), cff = PSF_TAG('C', 'F', 'F', ' ');
    static const size_t none[] = {0};
    static uint8_t spoiled[1024];
    uint8_t written[1024];
    size_t count = 0, place = 0, size = 0;
    psf_refusal refusal = {77, 77};
    psf_layout layout = {77, 77, 77, 77, 77};
    psf_font font;
    holds(psf_file_subset_layout(file, length, 0, letter, 1, none, 0, letter, 0, 0, 0, 0, 1, features, 2, 0, LIMIT, written, 20, &count, &layout, &refusal)
          == PSF_NO_ROOM && layout.gsub == 1, "no room for a subset with layout");
    holds(psf_file_subset_layout(file, length, 0, letter, 1, none, 0, letter, 0, 0, 0, 0, 1, features, 2, 0, LIMIT, written, 1024, &count, &layout, &refusal)
          == PSF_OK && refusal.glyph == 77, "a subset with layout");
    holds(layout.gsub == 1 && layout.gpos == 1 && layout.gdef == 0 && layout.kern == 0 && layout.left_out == 0, "its layout tables");
    holds(psf_file_table(written, count, 0, gsub, &place, &size) == PSF_OK && psf_file_table(written, count, 0, gpos, &place, &size) == PSF_OK,
          "with GSUB and GPOS");
    holds(psf_file_table(written, count, 0, cff, &place, &size) == PSF_OK && psf_font_open(written + place, size, &font) == PSF_OK
          && font.glyphs == 3, "with a.sc");
    holds(psf_file_subset_layout(file, length, 0, letter, 1, none, 0, letter, 0, 0, 0, 0, 1, features, 0, 0, LIMIT, written, 1024, &count, &layout, &refusal)
          == PSF_OK && layout.gsub == 1 && layout.gpos == 2, "no features");
    holds(psf_file_table(written, count, 0, gpos, &place, &size) == PSF_NO_TABLE, "without GPOS");
    holds(psf_file_table(written, count, 0, cff, &place, &size) == PSF_OK && psf_font_open(written + place, size, &font) == PSF_OK
          && font.glyphs == 2, "without a.sc");
    holds(psf_file_subset_layout(file, length, 0, letter, 1, none, 0, letter, 0, 0, 1, 0, 1, features, 0, 0, LIMIT, written, 1024, &count, &layout, &refusal)
          == PSF_OK && same_table(file, length, written, count, gpos) && same_table(file, length, written, count, gsub), "numbers that are kept");
    holds(psf_file_subset_layout(file, length, 0, letter, 1, none, 0, letter, 0, 0, 0, 0, 1, features, 0, 1, LIMIT, written, 1024, &count, &layout, &refusal)
          == PSF_OK && layout.gpos == 1, "all features");
    holds(psf_file_subset_layout(file, length, 0, letter, 1, none, 0, letter, 0, 0, 0, 0, 0, features, 0, 0, LIMIT, written, 1024, &count, &layout, &refusal)
          == PSF_OK && psf_file_table(written, count, 0, cff, &place, &size) == PSF_OK && psf_font_open(written + place, size, &font) == PSF_OK
          && font.glyphs == 3, "with the space");
    holds(psf_file_subset_layout(file, length, 0, letter, 0, none, 0, letter, 0, 0, 0, 0, 1, features, 2, 0, LIMIT, written, 1024, &count, &layout, &refusal)
          == PSF_NO_GLYPHS, "nothing chosen");
    holds(psf_file_subset_layout(file, length, 1, letter, 1, none, 0, letter, 0, 0, 0, 0, 1, features, 2, 0, LIMIT, written, 1024, &count, &layout, &refusal)
          == PSF_NO_FACE, "no layout of no face");
    /* the only lookup of GSUB is a context of an unknown format */
    memcpy(spoiled, file, length);
    holds(psf_file_table(file, length, 0, gsub, &place, &size) == PSF_OK, "GSUB");
    spoiled[place + 0x31] = 5;
    spoiled[place + 0x39] = 9;
    holds(psf_file_subset_layout(spoiled, length, 0, letter, 1, none, 0, letter, 0, 0, 0, 0, 1, features, 2, 0, LIMIT, written, 1024, &count, &layout, &refusal)
          == PSF_OK && layout.gsub == 1 && layout.left_out == 1, "a lookup that is dropped");
}

/* One location of the variable font as a file: its glyphs draw as the variable font does there. */
static void check_instance(const uint8_t *file, size_t length, const uint8_t *plain, size_t plain_length) {
    static const uint32_t gone[] = {PSF_TAG('C', 'F', 'F', '2'), PSF_TAG('f', 'v', 'a', 'r'), PSF_TAG('a', 'v', 'a', 'r'), PSF_TAG('H', 'V', 'A', 'R')};
    static uint8_t spoiled[1024];
    uint8_t written[1024];
    size_t count = 0, needed = 0, place = 0, size = 0;
    psf_refusal refusal = {77, 77};
    drawn was, is;
    int64_t advance = 0, fixed = 0;
    written[0] = 7;
    holds(psf_file_instance(file, length, 0, places[0], 2, 0, 20 * PSF_LIMIT, written, 20, &needed, &refusal) == PSF_NO_ROOM && needed > 20
          && written[0] == 7, "no room for an instance");
    holds(psf_file_instance(file, length, 0, places[0], 2, 0, 20 * PSF_LIMIT, written, sizeof written, &count, &refusal) == PSF_OK && count == needed
          && refusal.glyph == 77 && refusal.cause == 77, "an instance");
    for (int i = 0; i < 4; i++) holds(psf_file_table(written, count, 0, gone[i], &place, &size) == PSF_NO_TABLE, "without variations");
    holds(psf_file_table(written, count, 0, PSF_TAG('C', 'F', 'F', ' '), &place, &size) == PSF_OK, "with a table CFF");
    holds(same_table(file, length, written, count, PSF_TAG('c', 'm', 'a', 'p')), "with the same characters");
    for (size_t glyph = 0; glyph < 3; glyph++) {
        memset(&was, 0, sizeof was);
        memset(&is, 0, sizeof is);
        holds(draw(file, length, places[0], 2, glyph, PSF_LIMIT, 5, &was) == PSF_OK, "a glyph at the location");
        holds(draw(written, count, places[0], 0, glyph, PSF_LIMIT, 5, &is) == PSF_OK, "the same glyph of the instance");
        holds(memcmp(&was, &is, sizeof was) == 0, "draws the same");
        holds(psf_variable_advance(file, length, 0, places[0], 2, glyph, PSF_LIMIT, &advance) == PSF_OK
              && psf_variable_advance(written, count, 0, places[0], 0, glyph, PSF_LIMIT, &fixed) == PSF_OK && advance == fixed, "with the same advance");
    }
    holds(psf_file_instance(file, length, 0, places[0], 0, 1, 20 * PSF_LIMIT, written, sizeof written, &count, &refusal) == PSF_OK
          && draw(written, count, places[0], 0, 1, PSF_LIMIT, 5, &is) == PSF_OK && is.segments[2].x == 450 * 65536, "a rounded one at the defaults");
    holds(psf_file_instance(file, length, 0, places[0], 3, 0, 20 * PSF_LIMIT, written, sizeof written, &count, &refusal) == PSF_TOO_MANY_COORDINATES
          && refusal.glyph == 0 && refusal.cause == 0, "an instance of three axes");
    holds(psf_file_instance(file, length, 0, places[0], 2, 0, 1, written, sizeof written, &count, &refusal) == PSF_TOO_LONG, "past the limit");
    holds(psf_file_instance(file, length, 1, places[0], 2, 0, 20 * PSF_LIMIT, written, sizeof written, &count, &refusal) == PSF_NO_FACE, "of no face");
    holds(psf_file_instance(plain, plain_length, 0, places[0], 0, 0, 20 * PSF_LIMIT, written, sizeof written, &count, &refusal) == PSF_NOT_VARIABLE,
          "of a font that does not vary");
    memcpy(spoiled, file, length);
    holds(psf_file_table(file, length, 0, PSF_TAG('H', 'V', 'A', 'R'), &place, &size) == PSF_OK, "HVAR");
    spoiled[place + 1] = 2;
    holds(psf_file_instance(spoiled, length, 0, places[0], 2, 0, 20 * PSF_LIMIT, written, sizeof written, &count, &refusal) == PSF_UNKNOWN_TABLE
          && refusal.glyph == PSF_TAG('H', 'V', 'A', 'R'), "HVAR 2.0");
}

static void check_texts(void) {
    uint8_t text[80];
    size_t count = 0;
    holds(psf_version() == PSF_VERSION, "the version of the header");
    for (int32_t status = 0; status <= PSF_UNKNOWN_TABLE; status++)
        holds(psf_status_text(status, text, sizeof text, &count) == PSF_OK && count > 0, "a text");
    holds(psf_status_text(PSF_NO_GLYPH, text, sizeof text, &count) == PSF_OK && memcmp(text, "no such glyph", 13) == 0, "its words");
    holds(psf_status_text(PSF_NO_GLYPH, text, 3, &count) == PSF_NO_ROOM && count == 13, "no room for a text");
    holds(psf_status_text(PSF_UNKNOWN_TABLE + 1, text, sizeof text, &count) == PSF_NO_STATUS, "no text");
    holds(psf_status_text(-1, text, sizeof text, &count) == PSF_NO_STATUS, "no text below 0");
}

int main(int argc, char **argv) {
    uint8_t file[1024], accents[256], variable[1024], whole[1024], layout[1024];
    if (argc != 6) return 2;
    size_t length = read_hex(argv[1], file, sizeof file), faces = 0, place = 0, size = 0, glyph = 99;
    holds(length == 228, "the length of the font");
    holds(psf_file_faces(file, length, &faces) == PSF_OK && faces == 1, "one face");
    holds(psf_file_faces(file, 3, &faces) == PSF_CUT_FILE, "a cut file");
    holds(psf_file_faces(file + 1, length - 1, &faces) == PSF_UNKNOWN_FILE, "no file");
    holds(psf_file_table(file, length, 1, PSF_TAG('C', 'F', 'F', ' '), &place, &size) == PSF_NO_FACE, "no face");
    holds(psf_file_table(file, length, 0, PSF_TAG('g', 'l', 'y', 'f'), &place, &size) == PSF_NO_TABLE, "no table");
    holds(psf_file_table(file, length, 0, PSF_TAG('c', 'm', 'a', 'p'), &place, &size) == PSF_OK, "the character map");
    holds(psf_map_glyph(file + place, size, 'A', &glyph) == PSF_OK && glyph == 2, "a character");
    holds(psf_map_glyph(file + place, size, 0x2698, &glyph) == PSF_OK && glyph == 3, "another character");
    holds(psf_map_glyph(file + place, size, 'B', &glyph) == PSF_OK && glyph == 0, "a character without a glyph");
    holds(psf_map_glyph(file + place, 3, 'A', &glyph) == PSF_NO_MAP, "a cut map");
    psf_character characters[3];
    size_t known = 9;
    holds(psf_map_characters(file + place, 3, characters, 3, &known) == PSF_NO_MAP && known == 9, "no characters of a cut map");
    holds(psf_map_characters(file + place, size, characters, 2, &known) == PSF_NO_ROOM && known == 3, "more characters than the room");
    holds(psf_map_characters(file + place, size, characters, 3, &known) == PSF_OK && known == 3, "three characters");
    holds(characters[0].character == ' ' && characters[0].glyph == 1 && characters[1].character == 'A' && characters[1].glyph == 2
          && characters[2].character == 0x2698 && characters[2].glyph == 3, "their glyphs");
    holds(psf_file_table(file, length, 0, PSF_TAG('C', 'F', 'F', ' '), &place, &size) == PSF_OK, "the font");

    int32_t identifiers[4];
    uint8_t string[8];
    known = 9;
    holds(psf_font_identifiers(file + place, 2, identifiers, 4, &known) == PSF_UNEXPECTED_EOF && known == 9, "no identifiers of a cut font");
    holds(psf_font_identifiers(file + place, size, identifiers, 3, &known) == PSF_NO_ROOM && known == 4, "more identifiers than the room");
    holds(psf_font_identifiers(file + place, size, identifiers, 4, &known) == PSF_OK && known == 4, "four identifiers");
    holds(identifiers[0] == 0 && identifiers[1] == 1 && identifiers[2] == 34 && identifiers[3] == 391, "which they are");
    holds(psf_font_string(file + place, size, 391, string, sizeof string, &known) == PSF_OK && known == 6 && memcmp(string, "flower", 6) == 0, "a string");
    holds(psf_font_string(file + place, size, 1, string, sizeof string, &known) == PSF_OK && known == 5 && memcmp(string, "space", 5) == 0, "a standard string");
    holds(psf_font_string(file + place, size, 60000, string, sizeof string, &known) == PSF_NO_NAME && known == 5, "no such string");

    psf_font font;
    holds(psf_font_open(file + place, size, &font) == PSF_OK && font.glyphs == 4 && font.is_cid == 0, "four glyphs");
    holds(psf_font_open(file + place, 2, &font) == PSF_UNEXPECTED_EOF && font.glyphs == 4, "a cut font");
    holds(psf_font_open(file, 0, &font) == PSF_UNEXPECTED_EOF, "no bytes");
    check_fits(file + place, size);
    check_limit(file + place, size, font);
    check_outline(file + place, size, &font);
    check_spoiled(file + place, size, &font);
    check_names(file + place, size);
    check_flat(file + place, size, &font);
    check_operations(file + place, size, &font);
    check_hints();
    check_written(file + place, size);
    check_refused(file + place, size);
    length = read_hex(argv[2], accents, sizeof accents);
    holds(length == 177, "the length of the font of accented glyphs");
    check_accents(accents, length);
    check_refused_accents(accents, length);
    check_nested();
    check_not_variable(file, 228);
    length = read_hex(argv[3], variable, sizeof variable);
    holds(length == 752, "the length of the variable font");
    check_axes(variable, length);
    check_instances(variable, length);
    check_places(variable, length);
    check_locations(variable, length);
    check_advances(variable, length);
    check_refused_tables(variable, length);
    length = read_hex(argv[1], file, sizeof file);
    check_flat_file(file, length);
    length = read_hex(argv[4], whole, sizeof whole);
    holds(length == 484, "the length of the file with metrics");
    check_subset_file(whole, length, file);
    check_subset_names(whole, length, file);
    length = read_hex(argv[5], layout, sizeof layout);
    holds(length == 600, "the length of the file with layout tables");
    check_subset_layout(layout, length);
    check_instance(variable, 752, whole, 484);
    check_texts();
    printf("postscript.h: %s\n", failures ? "tests failed" : "all tests passed");
    return failures != 0;
}
