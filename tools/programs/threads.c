/* threads COUNT FONT..: COUNT threads share a psf_font and draw all glyphs of each font, and then one thread draws them alone.
 *
 * Each thread must get the same segments, measures and statuses. The program prints the time of one thread for a share of the work, divided by
 * the time of all threads for as much work each: COUNT threads that do not disturb each other do COUNT times the work. The Makefile of
 * bindings/c also runs it under helgrind, which reports unsynchronized accesses. */
#include <pthread.h>
#include <stdio.h>
#include <stdlib.h>
#include <time.h>

#include "postscript.h"

#define MOST 64
#define ROOM 4096

struct job {
    const uint8_t *cff;
    size_t length;
    const psf_font *font;
    uint64_t hash;
};

/* Adds a number to a hash (FNV-1a, by bytes from the lowest). */
static uint64_t added(uint64_t hash, uint64_t number) {
    for (int i = 0; i < 8; i++) hash = (hash ^ (number >> 8 * i & 255)) * 1099511628211u;
    return hash;
}

static void *draw_all(void *argument) {
    struct job *job = argument;
    psf_segment *segments = malloc(ROOM * sizeof *segments);
    uint64_t hash = 1469598103934665603u;
    for (size_t glyph = 0; segments && glyph < job->font->glyphs; glyph++) {
        size_t count = 0;
        psf_glyph info;
        int32_t status = psf_glyph_outline(job->cff, job->length, job->font, glyph, segments, ROOM, &count, &info);
        hash = added(hash, (uint32_t)status);
        if (status != PSF_OK) continue;
        hash = added(hash, (uint64_t)info.advance);
        for (size_t i = 0; i < count; i++)
            hash = added(added(added(hash, segments[i].kind), (uint32_t)segments[i].x), (uint32_t)segments[i].y);
    }
    free(segments);
    job->hash = hash;
    return NULL;
}

static double now(void) {
    struct timespec time;
    clock_gettime(CLOCK_MONOTONIC, &time);
    return (double)time.tv_sec + (double)time.tv_nsec / 1e9;
}

/* Returns the bytes of a file. */
static uint8_t *bytes_of(const char *name, size_t *length) {
    FILE *file = fopen(name, "rb");
    if (!file || fseek(file, 0, SEEK_END) != 0) {
        perror(name);
        exit(2);
    }
    *length = (size_t)ftell(file);
    uint8_t *bytes = malloc(*length + 1);
    rewind(file);
    if (!bytes || fread(bytes, 1, *length, file) != *length) exit(2);
    fclose(file);
    return bytes;
}

/* Draws a font by one thread, and by all. Returns whether all results are the same, and adds up the times. */
static int agree(const char *name, size_t threads, double *alone, double *together) {
    size_t length, place, size;
    uint8_t *file = bytes_of(name, &length);
    psf_font font;
    if (psf_file_table(file, length, 0, PSF_TAG('C', 'F', 'F', ' '), &place, &size) != PSF_OK ||
        psf_font_open(file + place, size, &font) != PSF_OK) {
        fprintf(stderr, "%s: no CFF font\n", name);
        exit(2);
    }
    struct job one = {file + place, size, &font, 0}, jobs[MOST];
    pthread_t ids[MOST];
    double begun = now();
    for (size_t i = 0; i < threads; i++) {
        jobs[i] = one;
        if (pthread_create(&ids[i], NULL, draw_all, &jobs[i]) != 0) exit(2);
    }
    for (size_t i = 0; i < threads; i++) pthread_join(ids[i], NULL);
    *together += now() - begun;
    begun = now();
    draw_all(&one);
    *alone += now() - begun;
    int same = 1;
    for (size_t i = 0; i < threads; i++) same = same && jobs[i].hash == one.hash;
    free(file);
    return same;
}

int main(int argc, char **argv) {
    size_t threads = argc > 2 ? strtoul(argv[1], NULL, 10) : 0;
    if (threads < 1 || threads > MOST) {
        fprintf(stderr, "usage: threads COUNT FONT..\n");
        return 2;
    }
    double alone = 0, together = 0;
    int differ = 0;
    for (int i = 2; i < argc; i++) differ += !agree(argv[i], threads, &alone, &together);
    printf("%zu threads, %d fonts, %d differ; together they do %.2f times the work of one\n", threads, argc - 2, differ, (double)threads * alone / together);
    return differ != 0;
}
