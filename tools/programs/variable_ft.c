/* Times FreeType drawing the glyphs of a variable font. The arguments are the path of a file, and normalized coordinates in units of
 * 2 ^ -14. The program prints the number of glyphs drawn, and the least time in nanoseconds of opening the font, of setting the
 * coordinates, and of loading all glyphs, unscaled and unhinted. */
#include <ft2build.h>
#include FT_FREETYPE_H
#include FT_MULTIPLE_MASTERS_H
#include <stdio.h>
#include <stdlib.h>
#include <time.h>

enum { ROUNDS = 50, AXES = 16 };

static long long now(void) {
    struct timespec t;
    clock_gettime(CLOCK_MONOTONIC, &t);
    return t.tv_sec * 1000000000LL + t.tv_nsec;
}

static void keep(long long start, long long *least) {
    long long taken = now() - start;
    if (taken < *least) *least = taken;
}

int main(int count, char **words) {
    FT_Library library;
    FT_Face face;
    FT_Fixed coordinates[AXES];
    long long opened = 1LL << 62, set = 1LL << 62, drawn = 1LL << 62;
    long glyphs = 0;
    if (count < 2 || count > AXES + 2 || FT_Init_FreeType(&library)) return 1;
    for (int i = 2; i < count; i++) coordinates[i - 2] = atol(words[i]) * 4;
    for (int i = 0; i < ROUNDS; i++) {
        long long start = now();
        if (FT_New_Face(library, words[1], 0, &face)) return 1;
        keep(start, &opened);
        start = now();
        if (FT_Set_Var_Blend_Coordinates(face, count - 2, coordinates)) return 1;
        keep(start, &set);
        start = now();
        glyphs = 0;
        for (long glyph = 0; glyph < face->num_glyphs; glyph++) glyphs += !FT_Load_Glyph(face, glyph, FT_LOAD_NO_SCALE | FT_LOAD_NO_HINTING);
        keep(start, &drawn);
        FT_Done_Face(face);
    }
    printf("%ld %lld %lld %lld\n", glyphs, opened, set, drawn);
    return 0;
}
