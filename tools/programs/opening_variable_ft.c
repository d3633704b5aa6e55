/* Times FreeType opening variable fonts. The lines of the input are those of opening_variable.rt.txt. The program prints the number of
 * glyphs, and the least time in nanoseconds of opening the bytes of the file, and of setting the coordinates. */
#include <ft2build.h>
#include FT_FREETYPE_H
#include FT_MULTIPLE_MASTERS_H
#include <stdio.h>
#include <stdlib.h>
#include <string.h>
#include <time.h>

enum { ROUNDS = 200, AXES = 16 };

static long long now(void) {
    struct timespec t;
    clock_gettime(CLOCK_MONOTONIC, &t);
    return t.tv_sec * 1000000000LL + t.tv_nsec;
}

static void keep(long long start, long long *least) {
    long long taken = now() - start;
    if (taken < *least) *least = taken;
}

static unsigned char *bytes_of(const char *path, long *size) {
    FILE *file = fopen(path, "rb");
    if (!file || fseek(file, 0, SEEK_END)) exit(1);
    *size = ftell(file);
    rewind(file);
    unsigned char *bytes = malloc(*size);
    if (!bytes || fread(bytes, 1, *size, file) != (size_t)*size) exit(1);
    fclose(file);
    return bytes;
}

int main(void) {
    static char line[4096];
    FT_Library library;
    if (FT_Init_FreeType(&library)) return 1;
    while (fgets(line, sizeof line, stdin)) {
        FT_Fixed coordinates[AXES];
        long size, glyphs = 0;
        long long opened = 1LL << 62, set = 1LL << 62;
        int count = 0;
        char *word = line;
        line[strcspn(line, "\n")] = 0;
        for (; *word != '/' && count < AXES; count++) {
            coordinates[count] = strtol(word, &word, 10);
            word += strspn(word, " ");
        }
        unsigned char *bytes = bytes_of(word, &size);
        for (int i = 0; i < ROUNDS; i++) {
            FT_Face face;
            long long start = now();
            if (FT_New_Memory_Face(library, bytes, size, 0, &face)) return 1;
            keep(start, &opened);
            start = now();
            if (FT_Set_Var_Design_Coordinates(face, count, coordinates)) return 1;
            keep(start, &set);
            glyphs = face->num_glyphs;
            FT_Done_Face(face);
        }
        printf("%ld %lld %lld\n", glyphs, opened, set);
        free(bytes);
    }
    return 0;
}
