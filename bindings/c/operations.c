/* operations FONT GLYPH: prints the operations of a glyph of an OpenType font with a CFF table, one per line: its operands, and at a
 * mask those of the stems that it implies; the code of its operator; and the bytes of the mask. */
#include <stdio.h>
#include <stdlib.h>

#include "postscript.h"

/* Prints why a call is refused, and ends the program. */
static void fail(const char *what, int32_t status) {
    uint8_t text[80];
    size_t count = 0;
    if (psf_status_text(status, text, sizeof text, &count) != PSF_OK) count = 0;
    fprintf(stderr, "%s: %.*s\n", what, (int)count, (const char *)text);
    exit(1);
}

/* The bytes of a file. */
static uint8_t *read_file(const char *name, size_t *length) {
    FILE *file = fopen(name, "rb");
    if (!file || fseek(file, 0, SEEK_END) != 0) {
        perror(name);
        exit(1);
    }
    *length = (size_t)ftell(file);
    rewind(file);
    uint8_t *bytes = malloc(*length + 1);
    if (!bytes || fread(bytes, 1, *length, file) != *length) {
        perror(name);
        exit(1);
    }
    fclose(file);
    return bytes;
}

int main(int argc, char **argv) {
    if (argc != 3) {
        fprintf(stderr, "usage: operations FONT GLYPH\n");
        return 2;
    }
    size_t length, place, size, count, operand_count;
    uint8_t *file = read_file(argv[1], &length);
    size_t glyph = (size_t)strtoul(argv[2], NULL, 0);
    int32_t status = psf_file_table(file, length, 0, PSF_TAG('C', 'F', 'F', ' '), &place, &size);
    if (status != PSF_OK) fail(argv[1], status);
    const uint8_t *cff = file + place;
    psf_font font;
    status = psf_font_open(cff, size, &font);
    if (status != PSF_OK) fail(argv[1], status);
    /* asked for with no room first, which tells how much is needed */
    psf_operation none;
    int32_t nothing;
    status = psf_glyph_operations(cff, size, &font, glyph, &none, 0, &count, &nothing, 0, &operand_count);
    if (status != PSF_OK && status != PSF_NO_ROOM) fail(argv[2], status);
    psf_operation *operations = malloc((count + 1) * sizeof *operations);
    int32_t *operands = malloc((operand_count + 1) * sizeof *operands);
    if (!operations || !operands) fail(argv[2], PSF_MEMORY);
    status = psf_glyph_operations(cff, size, &font, glyph, operations, count, &count, operands, operand_count, &operand_count);
    if (status != PSF_OK) fail(argv[2], status);
    for (size_t i = 0; i < count; i++) {
        uint64_t numbers = operations[i].count + operations[i].stems;
        const int32_t *own = operands + operations[i].first;
        for (uint64_t k = 0; k < numbers; k++) printf("%g ", own[k] / 65536.0);
        printf("0x%02x", (unsigned)operations[i].operator_code);
        for (uint64_t k = 0; k < operations[i].mask; k++) printf(" %02x", (unsigned)own[numbers + k]);
        printf("\n");
    }
    free(operands);
    free(operations);
    free(file);
    return 0;
}
