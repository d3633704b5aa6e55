/* hostile_variable_doors FONT: times the calls of the C library over an expensive variable font, in seconds of processor time. It prints
 * these columns, with " | " between them:
 *
 * - all axes by psf_variation_axis;
 * - all instances by psf_variation_instance;
 * - the slowest outline, and the slowest advance, of the first, the second and the last glyph, at 650 on each axis;
 * - all outlines, and all advances, in a loop. */
#include <stdio.h>
#include <stdlib.h>
#include <time.h>

#include "postscript.h"

enum { SEGMENTS = 1 << 20, COORDINATES = 1 << 17 };

static uint8_t *file;
static size_t length, axes;
static psf_segment *segments;
static int32_t *asked, *told;

static double seconds(void) {
    struct timespec t;
    clock_gettime(CLOCK_PROCESS_CPUTIME_ID, &t);
    return (double)t.tv_sec + (double)t.tv_nsec / 1e9;
}

static void column(double took) {
    printf("%.2f | ", took);
    fflush(stdout);
}

static double outline(size_t glyph) {
    size_t count;
    psf_bounds bounds;
    double since = seconds();
    psf_variable_outline(file, length, 0, asked, axes, glyph, PSF_LIMIT, segments, SEGMENTS, &count, &bounds);
    return seconds() - since;
}

static double advance(size_t glyph) {
    int64_t units;
    double since = seconds();
    psf_variable_advance(file, length, 0, asked, axes, glyph, PSF_LIMIT, &units);
    return seconds() - since;
}

/* Returns the slowest time of a call for the first, the second and the last glyph. */
static double slowest(double (*call)(size_t), size_t glyphs) {
    size_t some[] = {0, 1, glyphs - 1};
    double most = 0;
    for (int i = 0; i < 3; i++) {
        double took = call(some[i]);
        most = took > most ? took : most;
    }
    return most;
}

static double every(double (*call)(size_t), size_t glyphs) {
    double sum = 0;
    for (size_t glyph = 0; glyph < glyphs; glyph++) sum += call(glyph);
    return sum;
}

/* Returns the number of glyphs in maxp. */
static size_t glyphs_of(void) {
    size_t place, size;
    if (psf_file_table(file, length, 0, PSF_TAG('m', 'a', 'x', 'p'), &place, &size) != PSF_OK || size < 6) return 2;
    return (size_t)file[place + 4] << 8 | file[place + 5];
}

static int read_file(const char *path) {
    FILE *from = fopen(path, "rb");
    if (from == NULL) return 0;
    file = malloc(16u << 20);
    length = fread(file, 1, 16u << 20, from);
    fclose(from);
    return 1;
}

int main(int argc, char **argv) {
    psf_axis axis;
    psf_instance instance;
    size_t count;
    if (argc != 2 || !read_file(argv[1])) return 2;
    segments = calloc(SEGMENTS, sizeof *segments);
    asked = calloc(COORDINATES, sizeof *asked);
    told = calloc(COORDINATES, sizeof *told);
    double since = seconds();
    while (psf_variation_axis(file, length, 0, axes, &axis, &count) == PSF_OK) asked[axes++] = 650 << 16;
    column(seconds() - since);
    since = seconds();
    for (size_t i = 0; psf_variation_instance(file, length, 0, i, &instance, told, COORDINATES, &count) == PSF_OK; i++) continue;
    column(seconds() - since);
    column(slowest(outline, glyphs_of()));
    column(slowest(advance, glyphs_of()));
    column(every(outline, glyphs_of()));
    column(every(advance, glyphs_of()));
    return 0;
}
