/* classes CASES SEED FONT..: opens changed CFF tables and draws glyphs of each, and prints how often each status came.
 *
 * A case takes a font, changes one to four bytes of its CFF table, all by SEED, opens the table and draws 4 of its glyphs. Each line has a
 * function, a status and a count. The last line has a hash of all statuses, fields, segments and measures in their order. The Makefile of
 * bindings/c compares what this prints on x86-64 and on aarch64. */
#include <stdio.h>
#include <stdlib.h>
#include <string.h>

#include "postscript.h"

#define ROOM 4096
#define GLYPHS 4
#define STATUSES 128

struct table {
    uint8_t *bytes;
    size_t length;
};

static uint64_t state, hash = 1469598103934665603u;
static psf_segment segments[ROOM];

/* A random number below a bound (xorshift64). */
static uint64_t below(uint64_t bound) {
    state ^= state << 13;
    state ^= state >> 7;
    state ^= state << 17;
    return (state >> 11) % bound;
}

/* Adds a number to the hash (FNV-1a, by bytes from the lowest). */
static void add(uint64_t number) {
    for (int i = 0; i < 8; i++) hash = (hash ^ (number >> 8 * i & 255)) * 1099511628211u;
}

static void add_segment(const psf_segment *s) {
    add(s->kind);
    add((uint32_t)s->x1), add((uint32_t)s->y1), add((uint32_t)s->x2), add((uint32_t)s->y2);
    add((uint32_t)s->x), add((uint32_t)s->y);
}

static struct table table_of(const char *name) {
    FILE *file = fopen(name, "rb");
    if (!file || fseek(file, 0, SEEK_END) != 0) {
        perror(name);
        exit(2);
    }
    size_t length = (size_t)ftell(file), place, size;
    uint8_t *bytes = malloc(length + 1);
    rewind(file);
    if (!bytes || fread(bytes, 1, length, file) != length || psf_file_table(bytes, length, 0, PSF_TAG('C', 'F', 'F', ' '), &place, &size) != PSF_OK) {
        fprintf(stderr, "%s: no CFF table\n", name);
        exit(2);
    }
    fclose(file);
    return (struct table){bytes + place, size};
}

static int32_t counted(uint64_t *counts, int32_t status) {
    if (status < 0 || status >= STATUSES) exit(3);
    counts[status]++;
    add((uint32_t)status);
    return status;
}

static void draw(const struct table *table, const psf_font *font, uint64_t *counts) {
    size_t count = 0;
    psf_glyph info;
    size_t glyph = below(font->glyphs ? font->glyphs : 1);
    int32_t status = counted(counts, psf_glyph_outline(table->bytes, table->length, font, glyph, segments, ROOM, &count, &info));
    if (status != PSF_OK) return;
    for (size_t i = 0; i < count; i++) add_segment(&segments[i]);
    add((uint64_t)info.advance), add((uint32_t)info.left), add((uint32_t)info.bottom), add((uint32_t)info.right), add((uint32_t)info.top);
}

static void try_case(const struct table *table, uint64_t *opened, uint64_t *drawn) {
    size_t places[4];
    uint8_t old[4];
    size_t changes = 1 + below(4);
    for (size_t i = 0; i < changes; i++) {
        /* half of the changes are in the first 1,000 bytes, where the header and most DICTs are */
        places[i] = below(2) && table->length > 1000 ? below(1000) : below(table->length);
        old[i] = table->bytes[places[i]];
        table->bytes[places[i]] = (uint8_t)below(256);
    }
    psf_font font;
    if (counted(opened, psf_font_open(table->bytes, table->length, &font)) == PSF_OK) {
        add(font.char_strings), add(font.global_subroutines), add(font.fd_select), add(font.glyphs), add(font.is_cid);
        font.limit = 100000;
        for (int i = 0; i < GLYPHS; i++) draw(table, &font, drawn);
    }
    for (size_t i = changes; i-- > 0;) table->bytes[places[i]] = old[i];
}

int main(int argc, char **argv) {
    if (argc < 4) {
        fprintf(stderr, "usage: classes CASES SEED FONT..\n");
        return 2;
    }
    uint64_t cases = strtoull(argv[1], NULL, 10), opened[STATUSES] = {0}, drawn[STATUSES] = {0};
    size_t fonts = (size_t)argc - 3;
    struct table *tables = malloc(fonts * sizeof *tables);
    if (!tables) return 2;
    for (size_t i = 0; i < fonts; i++) tables[i] = table_of(argv[3 + i]);
    state = strtoull(argv[2], NULL, 10) * 2654435769u + 1;
    for (uint64_t i = 0; i < cases; i++) try_case(&tables[below(fonts)], opened, drawn);
    for (int i = 0; i < STATUSES; i++)
        if (opened[i]) printf("psf_font_open %d %llu\n", i, (unsigned long long)opened[i]);
    for (int i = 0; i < STATUSES; i++)
        if (drawn[i]) printf("psf_glyph_outline %d %llu\n", i, (unsigned long long)drawn[i]);
    printf("%llu cases, hash %016llx\n", (unsigned long long)cases, (unsigned long long)hash);
    return 0;
}
