/* hostile_doors FONT: times the calls of the C library over an expensive OpenType file, in seconds of processor time. It prints these
 * columns, with " | " between them:
 *
 * - psf_font_open;
 * - psf_font_fits, with twenty times PSF_LIMIT as its limit;
 * - the slowest call (outline, bounds, flat code, operations) for the first, the second or the last glyph;
 * - all outlines, if the font fits;
 * - the names of all glyphs;
 * - all characters of its map;
 * - the font without subroutines, and the subset of all its glyphs. */
#include <stdio.h>
#include <stdlib.h>
#include <time.h>

#include "postscript.h"

static uint8_t *file, *cff, *room;
static size_t length, table, room_size = 32u << 20;
static psf_font font;
static psf_segment *segments;
static psf_operation *operations;
static int32_t *operands;
enum { SEGMENTS = 1 << 19, OPERANDS = 1 << 22 };

static double seconds(void) {
    struct timespec t;
    clock_gettime(CLOCK_PROCESS_CPUTIME_ID, &t);
    return (double)t.tv_sec + (double)t.tv_nsec / 1e9;
}

static void column(double since) {
    printf("%.2f | ", seconds() - since);
    fflush(stdout);
}

static int outline(size_t glyph) {
    size_t count;
    psf_glyph info;
    return psf_glyph_outline(cff, table, &font, glyph, segments, SEGMENTS, &count, &info);
}

static double slower(double than, double since) {
    double took = seconds() - since;
    return took > than ? took : than;
}

/* Returns the time of the slowest call for a glyph, or `than` if it is longer. */
static double slowest(double than, size_t glyph) {
    size_t count, operand_count;
    psf_bounds bounds;
    double since = seconds();
    outline(glyph);
    than = slower(than, since), since = seconds();
    psf_glyph_bounds(cff, table, &font, glyph, &bounds);
    than = slower(than, since), since = seconds();
    psf_glyph_flat(cff, table, &font, glyph, room, room_size, &count);
    than = slower(than, since), since = seconds();
    psf_glyph_operations(cff, table, &font, glyph, operations, SEGMENTS, &count, operands, OPERANDS, &operand_count);
    return slower(than, since);
}

static void names(void) {
    uint8_t text[64];
    size_t count, glyphs;
    int32_t *all = calloc(font.glyphs + 1, sizeof *all);
    if (psf_font_identifiers(cff, table, all, font.glyphs, &glyphs) == PSF_OK)
        for (size_t i = 0; i < glyphs; i++)
            if (all[i] >= 0) psf_font_string(cff, table, (uint16_t)all[i], text, sizeof text, &count);
    free(all);
}

static void characters(void) {
    size_t place, size, count;
    psf_character *all = calloc(0x110000, sizeof *all);
    if (psf_file_table(file, length, 0, PSF_TAG('c', 'm', 'a', 'p'), &place, &size) == PSF_OK)
        psf_map_characters(file + place, size, all, 0x110000, &count);
    free(all);
}

static void written(void) {
    size_t count, *all = calloc(font.glyphs + 1, sizeof *all);
    psf_refusal refusal;
    double since = seconds();
    psf_font_flat(cff, table, 20 * (uint64_t)PSF_LIMIT, room, room_size, &count, &refusal);
    column(since);
    for (size_t glyph = 0; glyph < font.glyphs; glyph++) all[glyph] = glyph;
    since = seconds();
    psf_font_subset(cff, table, all, font.glyphs, 0, 20 * (uint64_t)PSF_LIMIT, room, room_size, &count, &refusal);
    column(since);
    free(all);
}

static int read_file(const char *path) {
    FILE *from = fopen(path, "rb");
    if (from == NULL) return 0;
    file = malloc(16u << 20);
    length = fread(file, 1, 16u << 20, from);
    fclose(from);
    return 1;
}

int main(int argc, char **argv) {
    size_t place;
    if (argc != 2 || !read_file(argv[1])) return 2;
    room = malloc(room_size);
    segments = calloc(SEGMENTS, sizeof *segments);
    operations = calloc(SEGMENTS, sizeof *operations);
    operands = calloc(OPERANDS, sizeof *operands);
    if (psf_file_table(file, length, 0, PSF_TAG('C', 'F', 'F', ' '), &place, &table) != PSF_OK) return 2;
    cff = file + place;
    double since = seconds();
    int status = psf_font_open(cff, table, &font);
    column(since);
    if (status != PSF_OK) return 1;
    uint64_t limit = 20 * (uint64_t)PSF_LIMIT;
    since = seconds();
    int fits = psf_font_fits(cff, table, &limit);
    column(since);
    double most = slowest(0, 0);
    most = slowest(most, 1);
    printf("%.2f | ", slowest(most, font.glyphs - 1));
    since = seconds();
    for (size_t glyph = 0; fits == PSF_OK && glyph < font.glyphs; glyph++) outline(glyph);
    column(since);
    since = seconds(), names(), column(since);
    since = seconds(), characters(), column(since);
    written();
    return 0;
}
