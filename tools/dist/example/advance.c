/* advance FONT CHARACTER: prints the advance width of a character's glyph, in font units. */
#include <postscript.h>
#include <stdio.h>
#include <stdlib.h>

static uint8_t bytes[1 << 26];

int main(int argc, char **argv) {
    FILE *file = argc == 3 ? fopen(argv[1], "rb") : NULL;
    if (!file) return 2;
    size_t length = fread(bytes, 1, sizeof bytes, file), place, size, glyph, count;
    psf_font font;
    psf_glyph info;
    psf_segment segments[4096];
    if (psf_file_table(bytes, length, 0, PSF_TAG('c', 'm', 'a', 'p'), &place, &size) != PSF_OK) return 1;
    if (psf_map_glyph(bytes + place, size, (uint32_t)strtoul(argv[2], NULL, 0), &glyph) != PSF_OK) return 1;
    if (psf_file_table(bytes, length, 0, PSF_TAG('C', 'F', 'F', ' '), &place, &size) != PSF_OK) return 1;
    if (psf_font_open(bytes + place, size, &font) != PSF_OK) return 1;
    if (psf_glyph_outline(bytes + place, size, &font, glyph, segments, 4096, &count, &info) != PSF_OK) return 1;
    printf("%g\n", (double)info.advance / 65536);
    return 0;
}
