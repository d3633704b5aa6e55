/* Times a glyph's outline of a variable font at one location, compared with HarfBuzz and FreeType, in turn in one process. See
 * tools/speed/beside_variable.sh. The arguments are a value of the axis wght in whole units, and files. */
#include <ft2build.h>
#include FT_FREETYPE_H
#include FT_MULTIPLE_MASTERS_H
#include FT_OUTLINE_H
#include <hb.h>
#include <stdio.h>
#include <stdlib.h>
#include <string.h>
#include <time.h>

#include "postscript.h"

#define ROUNDS 20
#define SEGMENTS 16384
#define SCALARS 65536
#define AXES 64

typedef struct font {
    const char *name;
    uint8_t *file;
    size_t length, glyphs, axes, scalar_count, cff2, cff2_length;
    int32_t coordinates[AXES];
    FT_Face face;
    hb_font_t *shaped;
} font;

static psf_segment segments[SEGMENTS];
static uint32_t scalars[SCALARS];
static FT_Library library;
static hb_draw_funcs_t *funcs;

static void must(int fact, const char *what) {
    if (fact) return;
    fprintf(stderr, "%s\n", what);
    exit(1);
}

static void move(hb_draw_funcs_t *f, void *count, hb_draw_state_t *s, float x, float y, void *u) { (void)f, (void)s, (void)x, (void)y, (void)u; ++*(size_t *)count; }
static void line(hb_draw_funcs_t *f, void *count, hb_draw_state_t *s, float x, float y, void *u) { (void)f, (void)s, (void)x, (void)y, (void)u; ++*(size_t *)count; }
static void curve(hb_draw_funcs_t *f, void *count, hb_draw_state_t *s, float a, float b, float c, float d, float x, float y, void *u) {
    (void)f, (void)s, (void)a, (void)b, (void)c, (void)d, (void)x, (void)y, (void)u;
    ++*(size_t *)count;
}
static void close(hb_draw_funcs_t *f, void *count, hb_draw_state_t *s, void *u) { (void)f, (void)s, (void)u; ++*(size_t *)count; }

static void read_file(font *f) {
    FILE *stream = fopen(f->name, "rb");
    must(stream != NULL && fseek(stream, 0, SEEK_END) == 0, f->name);
    f->length = (size_t)ftell(stream);
    rewind(stream);
    f->file = malloc(f->length);
    must(f->file != NULL && fread(f->file, 1, f->length, stream) == f->length, f->name);
    fclose(stream);
}

static void open_here(font *f, int32_t weight) {
    psf_axis axis;
    size_t count = 0;
    for (f->axes = 0; f->axes < AXES && psf_variation_axis(f->file, f->length, 0, f->axes, &axis, &count) == PSF_OK; f->axes++)
        f->coordinates[f->axes] = axis.tag == PSF_TAG('w', 'g', 'h', 't') ? weight * 65536 : axis.default_value;
    must(psf_variable_glyphs(f->file, f->length, 0, &f->glyphs) == PSF_OK, "no glyphs");
    must(psf_file_table(f->file, f->length, 0, PSF_TAG('C', 'F', 'F', '2'), &f->cff2, &f->cff2_length) == PSF_OK, "no table CFF2");
}

static void open_others(font *f) {
    FT_Fixed design[AXES];
    hb_blob_t *blob = hb_blob_create((const char *)f->file, (unsigned)f->length, HB_MEMORY_MODE_READONLY, 0, 0);
    hb_face_t *face = hb_face_create(blob, 0);
    hb_variation_t values[AXES];
    must(!FT_New_Memory_Face(library, f->file, (FT_Long)f->length, 0, &f->face), "FreeType");
    f->shaped = hb_font_create(face);
    for (size_t i = 0; i < f->axes; i++) {
        psf_axis axis;
        size_t count = 0;
        psf_variation_axis(f->file, f->length, 0, i, &axis, &count);
        design[i] = f->coordinates[i];
        values[i].tag = axis.tag;
        values[i].value = (float)f->coordinates[i] / 65536;
    }
    must(!FT_Set_Var_Design_Coordinates(f->face, (FT_UInt)f->axes, design), "FreeType's location");
    hb_font_set_variations(f->shaped, values, (unsigned)f->axes);
}

/* Each way draws all glyphs, and returns how many it draws. */
static size_t outlines(font *f) {
    size_t drawn = 0, count = 0;
    psf_bounds bounds;
    for (size_t i = 0; i < f->glyphs; i++)
        drawn += psf_variable_outline(f->file, f->length, 0, f->coordinates, f->axes, i, PSF_LIMIT, segments, SEGMENTS, &count, &bounds) == PSF_OK;
    return drawn;
}

static size_t locations(font *f) {
    size_t drawn = 0, count = 0;
    psf_bounds bounds;
    must(psf_location_scalars(f->file, f->length, 0, f->coordinates, f->axes, PSF_LIMIT, scalars, SCALARS, &f->scalar_count) == PSF_OK, "a location");
    for (size_t i = 0; i < f->glyphs; i++)
        drawn += psf_location_outline(f->file + f->cff2, f->cff2_length, scalars, f->scalar_count, i, PSF_LIMIT, segments, SEGMENTS, &count, &bounds) == PSF_OK;
    return drawn;
}

static size_t harfbuzz(font *f) {
    size_t count = 0;
    for (size_t i = 0; i < f->glyphs; i++) hb_font_get_glyph_shape(f->shaped, (hb_codepoint_t)i, funcs, &count);
    return f->glyphs;
}

static size_t freetype(font *f) {
    size_t drawn = 0;
    for (size_t i = 0; i < f->glyphs; i++) drawn += !FT_Load_Glyph(f->face, (FT_UInt)i, FT_LOAD_NO_SCALE | FT_LOAD_NO_HINTING);
    return drawn;
}

static size_t (*const ways[])(font *) = {outlines, locations, harfbuzz, freetype};
enum { WAYS = sizeof ways / sizeof *ways };

static double now(void) {
    struct timespec at;
    clock_gettime(CLOCK_MONOTONIC, &at);
    return (double)at.tv_sec + (double)at.tv_nsec * 1e-9;
}

static void time_font(font *f) {
    double least[WAYS];
    for (int way = 0; way < WAYS; way++) least[way] = 1e9;
    for (int round = 0; round < ROUNDS; round++)
        for (int way = 0; way < WAYS; way++) {
            double start = now();
            must(ways[way](f) == f->glyphs, "a glyph is not drawn");
            double taken = (now() - start) * 1e6 / (double)f->glyphs;
            if (taken < least[way]) least[way] = taken;
        }
    const char *slash = strrchr(f->name, '/');
    printf("| %s | %zu | %zu |", slash ? slash + 1 : f->name, f->glyphs, f->scalar_count);
    for (int way = 0; way < WAYS; way++) printf(" %.2f µs |", least[way]);
    for (int way = 0; way < 2; way++) printf(" %.2f | %.2f |", least[way] / least[2], least[way] / least[3]);
    printf("\n");
}

int main(int count, char **words) {
    FT_Int major, minor, patch;
    must(count > 2 && !FT_Init_FreeType(&library), "beside_variable WEIGHT FONT..");
    FT_Library_Version(library, &major, &minor, &patch);
    funcs = hb_draw_funcs_create();
    hb_draw_funcs_set_move_to_func(funcs, move, 0, 0);
    hb_draw_funcs_set_line_to_func(funcs, line, 0, 0);
    hb_draw_funcs_set_cubic_to_func(funcs, curve, 0, 0);
    hb_draw_funcs_set_close_path_func(funcs, close, 0, 0);
    hb_draw_funcs_make_immutable(funcs);
    printf("| Font | Glyphs | Scalars | `psf_variable_outline` | `psf_location_outline` | HarfBuzz | FreeType | Ratio of the first to HarfBuzz | to FreeType |"
           " Ratio of the second to HarfBuzz | to FreeType |\n|---|---|---|---|---|---|---|---|---|---|---|\n");
    for (int i = 2; i < count; i++) {
        font f = {.name = words[i]};
        read_file(&f);
        open_here(&f, atoi(words[1]));
        open_others(&f);
        time_font(&f);
    }
    printf("HarfBuzz %s, FreeType %d.%d.%d; the least of %d rounds over all glyphs, by turns\n", hb_version_string(), major, minor, patch, ROUNDS);
    return 0;
}
