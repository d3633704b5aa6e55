/* slowest CASES SEED FONT..: changes bytes of `CFF ` tables, calls the glyph functions, and prints the slowest call of each function, in
 * wall-clock time. Each case changes one to four bytes of a table, opens it, calls each function for two glyphs, and restores the bytes. */
#include <stdio.h>
#include <stdlib.h>
#include <string.h>
#include <time.h>

#include "postscript.h"

#define MAX_CHANGES 4
#define SEGMENTS 4096
#define MAX_FONTS 64
#define STATUSES 256

enum { OPEN, BOUNDS, OUTLINE, FLAT, OPERATIONS, NAME, CALLS };

static const char *const names[CALLS] = {"psf_font_open", "psf_glyph_bounds", "psf_glyph_outline", "psf_glyph_flat", "psf_glyph_operations", "psf_glyph_name"};

typedef struct {
    const char *name;
    uint8_t *file, *table;
    size_t length;
    psf_font font;
} subject;

typedef struct {
    uint64_t calls, nanoseconds, slowest, at;
    long told[STATUSES];
} tally;

static tally tallies[CALLS];
static uint64_t state, started, now_case;

static uint64_t next(void) {
    state ^= state << 13;
    state ^= state >> 7;
    state ^= state << 17;
    return state;
}

static uint64_t below(uint64_t n) { return n ? next() % n : 0; }

static uint64_t nanoseconds(void) {
    struct timespec t;
    clock_gettime(CLOCK_MONOTONIC, &t);
    return (uint64_t)t.tv_sec * 1000000000u + (uint64_t)t.tv_nsec;
}

static void begin(void) { started = nanoseconds(); }

static int32_t end(int call, int32_t status) {
    uint64_t took = nanoseconds() - started;
    tally *t = &tallies[call];
    t->calls++;
    t->nanoseconds += took;
    t->told[status]++;
    if (took > t->slowest) {
        t->slowest = took;
        t->at = now_case;
    }
    return status;
}

/* Makes all calls for a glyph. */
static void glyph_calls(const subject *s, const psf_font *font, size_t glyph) {
    static psf_segment segments[SEGMENTS];
    static psf_operation operations[SEGMENTS];
    static int32_t operands[8 * SEGMENTS];
    static uint8_t bytes[8 * SEGMENTS];
    psf_bounds bounds;
    psf_glyph info;
    size_t count, operand_count;
    begin(), end(BOUNDS, psf_glyph_bounds(s->table, s->length, font, glyph, &bounds));
    begin(), end(OUTLINE, psf_glyph_outline(s->table, s->length, font, glyph, segments, SEGMENTS, &count, &info));
    begin(), end(FLAT, psf_glyph_flat(s->table, s->length, font, glyph, bytes, sizeof bytes, &count));
    begin(), end(OPERATIONS, psf_glyph_operations(s->table, s->length, font, glyph, operations, SEGMENTS, &count, operands, 8 * SEGMENTS, &operand_count));
    begin(), end(NAME, psf_glyph_name(s->table, s->length, glyph, bytes, sizeof bytes, &count));
}

/* Returns the offset of a change: in the first bytes, which have counts, offsets and DICTs; after the start of the subroutines or of the
   charstrings; or anywhere. */
static size_t place_of(const subject *s) {
    uint64_t near = 0;
    switch (below(4)) {
    case 0: break;
    case 1: near = s->font.global_subroutines; break;
    case 2: near = s->font.char_strings; break;
    default: return below(s->length);
    }
    size_t place = near + below(below(2) ? 64 : 4096);
    return place < s->length ? place : below(s->length);
}

/* Changes a byte: to any value, by one bit, to an operator, or to a byte at another offset. */
static uint8_t changed(const subject *s, uint8_t byte) {
    static const uint8_t operators[] = {10, 29, 11, 14, 12, 19, 20, 28, 255, 0, 139};
    switch (below(4)) {
    case 0: return (uint8_t)next();
    case 1: return byte ^ (uint8_t)(1u << below(8));
    case 2: return operators[below(sizeof operators)];
    default: return s->table[below(s->length)];
    }
}

static void one_case(subject *s) {
    size_t places[MAX_CHANGES];
    uint8_t before[MAX_CHANGES];
    int changes = 1 + (int)below(MAX_CHANGES);
    for (int i = 0; i < changes; i++) {
        places[i] = place_of(s);
        before[i] = s->table[places[i]];
        s->table[places[i]] = changed(s, before[i]);
    }
    psf_font font;
    begin();
    if (end(OPEN, psf_font_open(s->table, s->length, &font)) == PSF_OK)
        for (int i = 0; i < 2; i++) glyph_calls(s, &font, below(font.glyphs + 1));
    for (int i = changes; i > 0; i--) s->table[places[i - 1]] = before[i - 1];
}

static int load(subject *s, const char *name) {
    size_t place, size;
    FILE *file = fopen(name, "rb");
    if (!file) return 0;
    fseek(file, 0, SEEK_END);
    size_t whole = (size_t)ftell(file);
    rewind(file);
    s->name = name;
    s->file = malloc(whole);
    if (fread(s->file, 1, whole, file) != whole) return 0;
    fclose(file);
    if (psf_file_table(s->file, whole, 0, PSF_TAG('C', 'F', 'F', ' '), &place, &size) != PSF_OK) return 0;
    s->table = s->file + place;
    s->length = size;
    return psf_font_open(s->table, s->length, &s->font) == PSF_OK;
}

static void print(int call, uint64_t cases, int fonts, char **paths) {
    const tally *t = &tallies[call];
    if (t->calls == 0) return;
    printf("%-21s %11llu calls, %7.0f ns each; slowest %9.3f ms, case %llu of %s; by status:", names[call], (unsigned long long)t->calls,
           (double)t->nanoseconds / (double)t->calls, (double)t->slowest / 1e6, (unsigned long long)t->at, paths[t->at % (uint64_t)fonts]);
    for (int i = 0; i < STATUSES; i++)
        if (t->told[i]) printf(" %d: %ld", i, t->told[i]);
    printf("\n");
    (void)cases;
}

int main(int argc, char **argv) {
    static subject subjects[MAX_FONTS];
    int fonts = argc - 3;
    if (fonts < 1 || fonts > MAX_FONTS) return 2;
    uint64_t cases = strtoull(argv[1], 0, 10), seed = strtoull(argv[2], 0, 10);
    for (int i = 0; i < fonts; i++)
        if (!load(&subjects[i], argv[i + 3])) return fprintf(stderr, "%s: not read\n", argv[i + 3]), 2;
    for (now_case = 0; now_case < cases; now_case++) {
        /* each case has its own random state, so that it can be repeated separately */
        state = (seed + 1) * 0x9e3779b97f4a7c15u ^ (now_case + 1) * 0xbf58476d1ce4e5b9u;
        if (state == 0) state = 1;
        next();
        one_case(&subjects[now_case % (uint64_t)fonts]);
    }
    printf("%llu cases of %d fonts, seed %llu, limit %llu\n", (unsigned long long)cases, fonts, (unsigned long long)seed, (unsigned long long)subjects[0].font.limit);
    for (int call = 0; call < CALLS; call++) print(call, cases, fonts, argv + 3);
    return 0;
}
