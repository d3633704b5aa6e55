/* Counts glyphs that FreeType draws differently in two fonts. The arguments are the paths of the font files. A line of the input is
 * the number of a glyph of the first font and of one of the second. The program prints the number of pairs, of those that differ, and of
 * those that FreeType rejects in both fonts. A pair differs in the points of the outline, unscaled and unhinted, their tags, the ends of
 * contours, or the advance, or if only one of the two is rejected. */
#include <ft2build.h>
#include FT_FREETYPE_H
#include FT_OUTLINE_H
#include <stdio.h>
#include <string.h>

static int load(FT_Face face, long glyph) {
    return FT_Load_Glyph(face, (FT_UInt)glyph, FT_LOAD_NO_SCALE | FT_LOAD_NO_HINTING | FT_LOAD_NO_BITMAP);
}

static int same(FT_GlyphSlot a, FT_GlyphSlot b) {
    FT_Outline *p = &a->outline, *q = &b->outline;
    if (a->format != b->format || a->metrics.horiAdvance != b->metrics.horiAdvance) return 0;
    if (p->n_points != q->n_points || p->n_contours != q->n_contours) return 0;
    for (int i = 0; i < p->n_points; i++)
        if (p->points[i].x != q->points[i].x || p->points[i].y != q->points[i].y || p->tags[i] != q->tags[i]) return 0;
    for (int i = 0; i < p->n_contours; i++)
        if (p->contours[i] != q->contours[i]) return 0;
    return 1;
}

int main(int count, char **words) {
    FT_Library library;
    FT_Face old, new;
    if (count != 3 || FT_Init_FreeType(&library)) return 2;
    if (FT_New_Face(library, words[1], 0, &old) || FT_New_Face(library, words[2], 0, &new)) return 2;
    long pairs = 0, differ = 0, refused = 0, first, second;
    while (scanf("%ld %ld", &first, &second) == 2) {
        int a = load(old, first), b = load(new, second);
        pairs++;
        if (a && b) refused++;
        else if (a || b || !same(old->glyph, new->glyph)) differ++;
    }
    printf("%ld %ld %ld\n", pairs, differ, refused);
    return 0;
}
