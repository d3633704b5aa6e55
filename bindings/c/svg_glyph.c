/* svg_glyph FONT CHARACTER: prints the glyph of a character of an OpenType font with a CFF table as an SVG picture. */
#include <stdio.h>
#include <stdlib.h>

#include "postscript.h"

/* Prints why a call is refused, and ends the program. */
static void fail(const char *what, int32_t status) {
    uint8_t text[80];
    size_t count = 0;
    if (psf_status_text(status, text, sizeof text, &count) != PSF_OK) count = 0;
    fprintf(stderr, "%s: %.*s\n", what, (int)count, (const char *)text);
    exit(1);
}

/* The bytes of a file. */
static uint8_t *read_file(const char *name, size_t *length) {
    FILE *file = fopen(name, "rb");
    if (!file || fseek(file, 0, SEEK_END) != 0) {
        perror(name);
        exit(1);
    }
    *length = (size_t)ftell(file);
    rewind(file);
    uint8_t *bytes = malloc(*length + 1);
    if (!bytes || fread(bytes, 1, *length, file) != *length) {
        perror(name);
        exit(1);
    }
    fclose(file);
    return bytes;
}

static double units(int64_t n) { return (double)n / 65536.0; }

static void print_segment(const psf_segment *s) {
    switch (s->kind) {
    case PSF_MOVE: printf("M%g %g", units(s->x), units(s->y)); break;
    case PSF_LINE: printf("L%g %g", units(s->x), units(s->y)); break;
    case PSF_CURVE:
        printf("C%g %g %g %g %g %g", units(s->x1), units(s->y1), units(s->x2), units(s->y2), units(s->x), units(s->y));
        break;
    default: printf("Z");
    }
}

int main(int argc, char **argv) {
    if (argc != 3) {
        fprintf(stderr, "usage: svg_glyph FONT CHARACTER (as 65 or 0x41)\n");
        return 2;
    }
    size_t length, place, size, glyph, count;
    uint8_t *file = read_file(argv[1], &length);
    int32_t status = psf_file_table(file, length, 0, PSF_TAG('c', 'm', 'a', 'p'), &place, &size);
    if (status != PSF_OK) fail(argv[1], status);
    status = psf_map_glyph(file + place, size, (uint32_t)strtoul(argv[2], NULL, 0), &glyph);
    if (status != PSF_OK) fail(argv[1], status);
    status = psf_file_table(file, length, 0, PSF_TAG('C', 'F', 'F', ' '), &place, &size);
    if (status != PSF_OK) fail(argv[1], status);
    const uint8_t *cff = file + place;

    psf_font font;
    status = psf_font_open(cff, size, &font);
    if (status != PSF_OK) fail(argv[1], status);
    size_t room = 256;
    psf_segment *segments = malloc(room * sizeof *segments);
    psf_glyph info;
    while (segments && (status = psf_glyph_outline(cff, size, &font, glyph, segments, room, &count, &info)) == PSF_NO_ROOM) {
        room = count;
        free(segments);
        segments = malloc(room * sizeof *segments);
    }
    if (!segments) fail(argv[1], PSF_MEMORY);
    if (status != PSF_OK) fail(argv[1], status);

    printf("<svg xmlns=\"http://www.w3.org/2000/svg\" viewBox=\"%g %g %g %g\"><path transform=\"scale(1 -1)\" d=\"",
           units(info.left), -units(info.top), units((int64_t)info.right - info.left), units((int64_t)info.top - info.bottom));
    for (size_t i = 0; i < count; i++) print_segment(&segments[i]);
    printf("\"/></svg>\n");
    free(segments);
    free(file);
    return 0;
}
