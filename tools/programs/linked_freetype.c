/* FreeType for linked.rs: loads a glyph, unscaled and unhinted, and gets its segments. */
#include <ft2build.h>
#include FT_FREETYPE_H
#include FT_OUTLINE_H
#include <stdint.h>

static FT_Library library;

void *ft_open(const unsigned char *bytes, size_t length) {
    FT_Face face;
    if (!library && FT_Init_FreeType(&library)) return 0;
    if (FT_New_Memory_Face(library, bytes, (FT_Long)length, 0, &face)) return 0;
    return face;
}

void ft_close(void *face) { FT_Done_Face(face); }

/* Loads a glyph. Returns the number of points of its outline, or -1. */
int ft_glyph(void *face, unsigned glyph) {
    if (FT_Load_Glyph(face, glyph, FT_LOAD_NO_SCALE | FT_LOAD_NO_HINTING)) return -1;
    return ((FT_Face)face)->glyph->outline.n_points;
}

struct kept {
    uint32_t *kinds;
    double *points;
    int count, room;
};

static int keep(struct kept *kept, uint32_t kind, const FT_Vector *a, const FT_Vector *b, const FT_Vector *to) {
    if (kept->count == kept->room) return 1;
    double *points = kept->points + 6 * kept->count;
    points[0] = a ? a->x : 0;
    points[1] = a ? a->y : 0;
    points[2] = b ? b->x : 0;
    points[3] = b ? b->y : 0;
    points[4] = to->x;
    points[5] = to->y;
    kept->kinds[kept->count++] = kind;
    return 0;
}

static int move_to(const FT_Vector *to, void *kept) { return keep(kept, 0, 0, 0, to); }
static int line_to(const FT_Vector *to, void *kept) { return keep(kept, 1, 0, 0, to); }
static int conic_to(const FT_Vector *a, const FT_Vector *to, void *kept) { return keep(kept, 4, a, 0, to); }
static int cubic_to(const FT_Vector *a, const FT_Vector *b, const FT_Vector *to, void *kept) { return keep(kept, 2, a, b, to); }

/* Stores the segments of the glyph that was loaded last, and returns their number. */
int ft_segments(void *face, uint32_t *kinds, double *points, int room) {
    const FT_Outline_Funcs funcs = {move_to, line_to, conic_to, cubic_to, 0, 0};
    struct kept kept = {kinds, points, 0, room};
    FT_Outline_Decompose(&((FT_Face)face)->glyph->outline, &funcs, &kept);
    return kept.count;
}
