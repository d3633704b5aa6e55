/* fuzz.c: calls every function of postscript.h with the input as a font file, and as a CFF table, for libFuzzer.
 *
 *     make check-fuzz
 *
 * The library itself is not instrumented: AddressSanitizer watches its heap and the buffers of this file, and each output buffer
 * is as long as the call is told. It ends on a status that the header does not list, and on a result outside its buffer. */
#include <stdlib.h>
#include <string.h>

#include "postscript.h"

#define LIMIT 20000u
#define GLYPHS 8

static void holds(int fact) {
    if (!fact) abort();
}

/* A status of the header. */
static int32_t known(int32_t status) {
    holds(status >= PSF_OK && status <= PSF_UNKNOWN_TABLE);
    return status;
}

/* A buffer of exactly this size, so that AddressSanitizer sees each byte after it. */
static void *buffer(size_t size) {
    void *bytes = malloc(size ? size : 1);
    holds(bytes != NULL);
    return bytes;
}

static void glyph(const uint8_t *cff, size_t length, const psf_font *font, size_t number) {
    size_t room = 40, count = 0, operands = 0;
    psf_segment *segments = buffer(room * sizeof *segments);
    psf_operation *operations = buffer(room * sizeof *operations);
    int32_t *numbers = buffer(room * sizeof *numbers);
    uint8_t *code = buffer(room);
    psf_glyph info;
    psf_bounds bounds;
    int32_t status = known(psf_glyph_outline(cff, length, font, number, segments, room, &count, &info));
    if (status == PSF_OK) holds(count <= room);
    if (status == PSF_NO_ROOM) holds(count > room);
    known(psf_glyph_bounds(cff, length, font, number, &bounds));
    status = known(psf_glyph_flat(cff, length, font, number, code, room, &count));
    if (status == PSF_OK) holds(count <= room);
    status = known(psf_glyph_operations(cff, length, font, number, operations, room, &count, numbers, room, &operands));
    if (status == PSF_OK) {
        holds(count <= room && operands <= room);
        for (size_t i = 0; i < count; i++)
            holds((uint64_t)operations[i].first + operations[i].count + operations[i].stems + operations[i].mask <= operands);
    }
    known(psf_glyph_name(cff, length, number, code, room, &count));
    free(code);
    free(numbers);
    free(operations);
    free(segments);
}

/* What is written is a font again. */
static void written(const uint8_t *cff, size_t length) {
    static const size_t glyphs[] = {0, 1, 3};
    size_t room = 2 * length + 1024, count = 0;
    uint8_t *font = buffer(room);
    psf_refusal refusal = {0, 0};
    psf_font opened;
    if (known(psf_font_flat(cff, length, LIMIT, font, room, &count, &refusal)) == PSF_OK)
        holds(count <= room && psf_font_open(font, count, &opened) == PSF_OK);
    for (uint32_t keeps = 0; keeps < 2; keeps++)
        if (known(psf_font_subset(cff, length, glyphs, 3, keeps, LIMIT, font, room, &count, &refusal)) == PSF_OK)
            holds(count <= room && psf_font_open(font, count, &opened) == PSF_OK);
    free(font);
}

static void table(const uint8_t *cff, size_t length) {
    size_t room = 16, count = 0, number = 0;
    int32_t *identifiers = buffer(room * sizeof *identifiers);
    uint8_t *text = buffer(room);
    uint64_t limit = LIMIT;
    psf_font font;
    known(psf_font_identifiers(cff, length, identifiers, room, &count));
    known(psf_font_string(cff, length, 391, text, room, &count));
    known(psf_named_glyph(cff, length, (const uint8_t *)"A", 1, &number));
    known(psf_font_fits(cff, length, &limit));
    holds(limit <= LIMIT);
    if (known(psf_font_open(cff, length, &font)) == PSF_OK) {
        font.limit = LIMIT;
        for (size_t i = 0; i < GLYPHS; i++) glyph(cff, length, &font, i);
        /* any numbers in a psf_font are safe */
        memcpy(&font, cff, length < sizeof font ? length : sizeof font);
        font.limit = LIMIT;
        glyph(cff, length, &font, 1);
    }
    written(cff, length);
    free(text);
    free(identifiers);
}

static void characters(const uint8_t *cmap, size_t length) {
    size_t room = 64, count = 0, number = 0;
    psf_character *rows = buffer(room * sizeof *rows);
    known(psf_map_glyph(cmap, length, 'A', &number));
    if (known(psf_map_characters(cmap, length, rows, room, &count)) == PSF_OK) holds(count <= room);
    free(rows);
}

static void places(const uint8_t *file, size_t length) {
    static const int32_t coordinates[] = {650 * 65536, 12 * 65536};
    size_t room = 40, count = 0;
    psf_segment *segments = buffer(room * sizeof *segments);
    int32_t *numbers = buffer(room * sizeof *numbers);
    int64_t advance;
    psf_axis axis;
    psf_instance instance;
    psf_bounds bounds;
    known(psf_variation_axis(file, length, 0, 0, &axis, &count));
    known(psf_variation_instance(file, length, 0, 0, &instance, numbers, room, &count));
    known(psf_variable_glyphs(file, length, 0, &count));
    for (size_t i = 0; i < GLYPHS; i++) {
        int32_t status = known(psf_variable_outline(file, length, 0, coordinates, 2, i, LIMIT, segments, room, &count, &bounds));
        if (status == PSF_OK) holds(count <= room);
        known(psf_variable_advance(file, length, 0, coordinates, 2, i, LIMIT, &advance));
    }
    free(numbers);
    free(segments);
}

/* A location that is computed once gives the outlines of the location; and any numbers are safe as scalars. */
static void locations(const uint8_t *file, size_t length) {
    static const int32_t coordinates[] = {650 * 65536, 12 * 65536};
    size_t room = 40, many = 64, count = 0, scalar_count = 0, place = 0, size = 0;
    psf_segment *segments = buffer(room * sizeof *segments), *same = buffer(room * sizeof *same);
    uint32_t *scalars = buffer(many * sizeof *scalars);
    psf_bounds bounds;
    int32_t status = known(psf_location_scalars(file, length, 0, coordinates, 2, LIMIT, scalars, many, &scalar_count));
    if (status == PSF_OK) holds(scalar_count <= many);
    if (status == PSF_NO_ROOM) holds(scalar_count > many);
    if (status == PSF_OK && psf_file_table(file, length, 0, PSF_TAG('C', 'F', 'F', '2'), &place, &size) == PSF_OK && size > 0)
        for (size_t i = 0; i < GLYPHS; i++) {
            int32_t found = known(psf_location_outline(file + place, size, scalars, scalar_count, i, LIMIT, segments, room, &count, &bounds));
            holds(found == psf_variable_outline(file, length, 0, coordinates, 2, i, LIMIT, same, room, &count, &bounds));
            if (found == PSF_OK) holds(count <= room && memcmp(segments, same, count * sizeof *same) == 0);
        }
    memset(scalars, 0, many * sizeof *scalars);
    memcpy(scalars, file, length < many * sizeof *scalars ? length : many * sizeof *scalars);
    if (place + size <= length && size > 0)
        for (size_t i = 0; i < GLYPHS; i++)
            known(psf_location_outline(file + place, size, scalars, i * 9, i, LIMIT, segments, room, &count, &bounds));
    known(psf_location_outline(file, length, scalars, many, 1, LIMIT, segments, room, &count, &bounds));
    free(scalars);
    free(same);
    free(segments);
}

/* A file that is written has a face with a CFF table. */
static void files(const uint8_t *file, size_t length) {
    static const uint32_t letters[] = {'A', 'e', 0x2698}, tags[] = {PSF_TAG('h', 'e', 'a', 'd'), PSF_TAG('n', 'a', 'm', 'e')};
    static const size_t glyphs[] = {1};
    static const int32_t coordinates[] = {650 * 65536};
    size_t room = 2 * length + 2048, count = 0, place = 0, size = 0;
    uint8_t *written = buffer(room);
    psf_refusal refusal = {0, 0};
    if (known(psf_file_flat(file, length, 0, LIMIT, written, room, &count, &refusal)) == PSF_OK)
        holds(psf_file_table(written, count, 0, PSF_TAG('C', 'F', 'F', ' '), &place, &size) == PSF_OK);
    for (uint32_t keeps = 0; keeps < 2; keeps++)
        if (known(psf_file_subset(file, length, 0, letters, 3, glyphs, 1, tags, 2 - keeps, 1, keeps, keeps, LIMIT, written, room, &count, &refusal))
            == PSF_OK)
            holds(psf_file_table(written, count, 0, PSF_TAG('c', 'm', 'a', 'p'), &place, &size) == PSF_OK);
    for (uint32_t rounded = 0; rounded < 2; rounded++)
        if (known(psf_file_instance(file, length, 0, coordinates, 1, rounded, LIMIT, written, room, &count, &refusal)) == PSF_OK)
            holds(psf_file_table(written, count, 0, PSF_TAG('C', 'F', 'F', ' '), &place, &size) == PSF_OK);
    free(written);
}

static void texts(const uint8_t *bytes, size_t length) {
    size_t room = 40, count = 0;
    int32_t status = 0;
    uint8_t *text = buffer(room);
    memcpy(&status, bytes, length < sizeof status ? length : sizeof status);
    for (int32_t one = 0; one <= PSF_UNKNOWN_TABLE + 1; one++) {
        int32_t found = known(psf_status_text(one, text, room, &count));
        holds(found == PSF_OK ? count <= room : found == PSF_NO_ROOM ? count > room : found == PSF_NO_STATUS);
    }
    known(psf_status_text(status, text, room, &count));
    free(text);
}

int LLVMFuzzerTestOneInput(const uint8_t *bytes, size_t length) {
    static const uint32_t tags[] = {PSF_TAG('C', 'F', 'F', ' '), PSF_TAG('c', 'm', 'a', 'p')};
    size_t faces = 0, place = 0, size = 0;
    /* a pointer is never null */
    if (length == 0) return 0;
    holds(psf_version() == PSF_VERSION);
    texts(bytes, length);
    known(psf_file_faces(bytes, length, &faces));
    if (known(psf_file_table(bytes, length, 0, tags[0], &place, &size)) == PSF_OK) {
        holds(place + size <= length);
        table(bytes + place, size);
    }
    if (known(psf_file_table(bytes, length, 0, tags[1], &place, &size)) == PSF_OK) characters(bytes + place, size);
    table(bytes, length);
    places(bytes, length);
    locations(bytes, length);
    files(bytes, length);
    return 0;
}
