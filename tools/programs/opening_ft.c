/* Times FreeType opening fonts. A line of the input is the path of a file with the bytes of a `CFF ` table. The program prints the
 * path, the number of glyphs, and the least time of an opening in nanoseconds. Both numbers are 0 if FreeType rejects the font. */
#include <ft2build.h>
#include FT_FREETYPE_H
#include <stdio.h>
#include <stdlib.h>
#include <string.h>
#include <time.h>

static const int ROUNDS = 20;

static long long now(void) {
    struct timespec t;
    clock_gettime(CLOCK_MONOTONIC, &t);
    return t.tv_sec * 1000000000LL + t.tv_nsec;
}

int main(void) {
    static char path[4096];
    FT_Library library;
    if (FT_Init_FreeType(&library)) return 1;
    while (fgets(path, sizeof path, stdin)) {
        path[strcspn(path, "\n")] = 0;
        FILE *file = fopen(path, "rb");
        if (!file) return 1;
        fseek(file, 0, SEEK_END);
        long size = ftell(file);
        rewind(file);
        unsigned char *bytes = malloc(size);
        if (!bytes || fread(bytes, 1, size, file) != (size_t)size) return 1;
        fclose(file);
        long glyphs = 0;
        long long least = 0;
        for (int i = 0; i < ROUNDS; i++) {
            FT_Face face;
            long long start = now();
            if (FT_New_Memory_Face(library, bytes, size, 0, &face)) break;
            glyphs = face->num_glyphs;
            FT_Done_Face(face);
            long long taken = now() - start;
            if (i == 0 || taken < least) least = taken;
        }
        printf("%s %ld %lld\n", path, glyphs, least);
        free(bytes);
    }
    return 0;
}
