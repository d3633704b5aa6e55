/* spoiled FONT ROUNDS SEED: calls the C library over a `CFF ` table with changed bytes, and a psf_font with changed numbers. Each buffer
 * has exactly the size that it needs. With GUARD each buffer ends at an inaccessible page, so that accesses past it are caught, also in the
 * library. Otherwise compile it with the address sanitizer. */
#include <stdio.h>
#include <stdlib.h>
#include <string.h>

#include "postscript.h"

#ifdef GUARD
#include <sys/mman.h>

static void *block(size_t n) {
    size_t pages = (n + 4095) / 4096 * 4096;
    char *at = mmap(0, pages + 4096, PROT_READ | PROT_WRITE, MAP_PRIVATE | MAP_ANONYMOUS, -1, 0);
    mprotect(at + pages, 4096, PROT_NONE);
    return at + pages - n;
}

static void drop(void *at, size_t n) {
    size_t pages = (n + 4095) / 4096 * 4096;
    munmap((char *)at + n - pages, pages + 4096);
}
#else
static void *block(size_t n) { return malloc(n ? n : 1); }
static void drop(void *at, size_t n) {
    (void)n;
    free(at);
}
#endif

static uint64_t state;

static uint64_t next(void) {
    state ^= state << 13;
    state ^= state >> 7;
    state ^= state << 17;
    return state;
}

static uint64_t below(uint64_t n) { return next() % n; }

#define STATUSES 256

static long counts[STATUSES];

/* Calls over a font in which one number may be changed, with a buffer of few or many segments. */
static void call(const uint8_t *bytes, size_t length, const psf_font *font) {
    psf_font spoiled = *font;
    if (below(2)) {
        uint64_t number = below(4) ? below(length + 9) : next();
        memcpy((uint8_t *)&spoiled + 8 * below(sizeof spoiled / 8), &number, 8);
    }
    size_t room = below(4) ? 300 : 1 + below(20), count = 0, glyph = below(below(9) ? 12000 : 70000);
    psf_segment *segments = block(room * sizeof *segments);
    psf_glyph info;
    psf_bounds bounds;
    counts[psf_glyph_bounds(bytes, length, &spoiled, glyph, &bounds)]++;
    counts[psf_glyph_outline(bytes, length, &spoiled, glyph, segments, room, &count, &info)]++;
    counts[psf_glyph_flat(bytes, length, &spoiled, glyph, (uint8_t *)segments, room, &count)]++;
    drop(segments, room * sizeof *segments);
}

int main(int argc, char **argv) {
    if (argc != 4) return 2;
    FILE *file = fopen(argv[1], "rb");
    if (!file) return 2;
    fseek(file, 0, SEEK_END);
    size_t whole = (size_t)ftell(file), place, size;
    rewind(file);
    uint8_t *all = malloc(whole);
    if (fread(all, 1, whole, file) != whole) return 2;
    if (psf_file_table(all, whole, 0, PSF_TAG('C', 'F', 'F', ' '), &place, &size) != PSF_OK) return 2;
    state = strtoull(argv[3], 0, 10) * 2 + 1;
    long opened = 0;
    for (long round = atol(argv[2]); round > 0; round--) {
        size_t length = below(8) ? size : 1 + below(size);
        uint8_t *bytes = block(length);
        memcpy(bytes, all + place, length);
        for (int i = (int)below(6); i > 0; i--) bytes[below(below(2) || length < 64 ? length : 64)] = (uint8_t)next();
        psf_font font;
        memset(&font, (int)next(), sizeof font);
        if (psf_font_open(bytes, length, &font) == PSF_OK) opened++;
        for (int i = 0; i < 10; i++) call(bytes, length, &font);
        size_t glyph, count;
        uint8_t name[16];
        counts[psf_glyph_name(bytes, length, below(12000), name, sizeof name, &count)]++;
        if (below(50) == 0) counts[psf_named_glyph(bytes, length, (const uint8_t *)"quoteright", 10, &glyph)]++;
        drop(bytes, length);
    }
    printf("%s rounds, seed %s: opened %ld; calls by their status:", argv[2], argv[3], opened);
    for (int i = 0; i < STATUSES; i++)
        if (counts[i]) printf(" %d: %ld", i, counts[i]);
    printf("\n");
    free(all);
    return 0;
}
