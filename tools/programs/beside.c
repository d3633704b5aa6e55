/* HarfBuzz and FreeType for beside.rs: open a font, and get a glyph's outline, unscaled and unhinted. */
#include <ft2build.h>
#include FT_FREETYPE_H
#include FT_OUTLINE_H
#include <hb.h>
#include <stddef.h>
#include <stdio.h>

static FT_Library library;

void *ft_open(const unsigned char *file, size_t length) {
    FT_Face face;
    if (!library && FT_Init_FreeType(&library)) return 0;
    return FT_New_Memory_Face(library, file, (FT_Long)length, 0, &face) ? 0 : face;
}

int ft_glyph(void *face, unsigned glyph) {
    return FT_Load_Glyph(face, glyph, FT_LOAD_NO_SCALE | FT_LOAD_NO_HINTING) ? -1 : ((FT_Face)face)->glyph->outline.n_points;
}

static void move(hb_draw_funcs_t *f, void *count, hb_draw_state_t *s, float x, float y, void *u) { (void)f, (void)s, (void)x, (void)y, (void)u; ++*(int *)count; }
static void line(hb_draw_funcs_t *f, void *count, hb_draw_state_t *s, float x, float y, void *u) { (void)f, (void)s, (void)x, (void)y, (void)u; ++*(int *)count; }
static void curve(hb_draw_funcs_t *f, void *count, hb_draw_state_t *s, float a, float b, float c, float d, float x, float y, void *u) {
    (void)f, (void)s, (void)a, (void)b, (void)c, (void)d, (void)x, (void)y, (void)u;
    ++*(int *)count;
}
static void close(hb_draw_funcs_t *f, void *count, hb_draw_state_t *s, void *u) { (void)f, (void)s, (void)u; ++*(int *)count; }

static hb_draw_funcs_t *funcs;

void *hb_open(const char *file, size_t length) {
    if (!funcs) {
        funcs = hb_draw_funcs_create();
        hb_draw_funcs_set_move_to_func(funcs, move, 0, 0);
        hb_draw_funcs_set_line_to_func(funcs, line, 0, 0);
        hb_draw_funcs_set_cubic_to_func(funcs, curve, 0, 0);
        hb_draw_funcs_set_close_path_func(funcs, close, 0, 0);
        hb_draw_funcs_make_immutable(funcs);
    }
    hb_blob_t *blob = hb_blob_create(file, (unsigned)length, HB_MEMORY_MODE_READONLY, 0, 0);
    hb_face_t *face = hb_face_create(blob, 0);
    hb_font_t *font = hb_font_create(face);
    hb_face_destroy(face);
    hb_blob_destroy(blob);
    return font;
}

/* Returns the number of segments that HarfBuzz passes. */
int hb_glyph(void *font, unsigned glyph) {
    int count = 0;
    hb_font_get_glyph_shape(font, glyph, funcs, &count);
    return count;
}

const char *versions(void) {
    static char text[64];
    FT_Int major, minor, patch;
    FT_Library_Version(library, &major, &minor, &patch);
    snprintf(text, sizeof text, "HarfBuzz %s, FreeType %d.%d.%d", hb_version_string(), major, minor, patch);
    return text;
}
