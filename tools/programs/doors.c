/* Writes one font file of another by the C library, for tools/evidence/doors.py:
 *
 *     doors flat IN OUT
 *     doors subset IN OUT KEEPS NAMES FEATURES TABLES CHARACTERS    1 or 0; 1 or 2; tags; tags; characters in hex
 *     doors instance IN OUT ROUNDED PLACE                           1 or 0; TAG=VALUE..
 *
 * Lists have commas. The exit status is 1 if the library returns an error, which is printed. */
#include <math.h>
#include <stdio.h>
#include <stdlib.h>
#include <string.h>

#include "postscript.h"

enum { MOST = 1 << 16 };

static uint8_t *file;
static size_t length, count, asked, tables, tags, named;
static uint32_t keeps, names, characters[MOST], copied[MOST], features[MOST];
static int32_t coordinates[MOST];
static const uint64_t limit = 20ull * PSF_LIMIT;

static uint32_t tag_of(const char *word) {
    return PSF_TAG(word[0], word[1], word[2], word[3]);
}

static uint32_t hex_of(const char *word) {
    return (uint32_t)strtoul(word, NULL, 16);
}

/* Reads a list of numbers, and returns how many there are. */
static size_t listed(char *words, uint32_t (*number_of)(const char *), uint32_t *numbers) {
    size_t found = 0;
    for (char *word = strtok(words, ","); word && found < MOST; word = strtok(NULL, ","))
        numbers[found++] = number_of(word);
    return found;
}

/* Reads the coordinates: the defaults of all axes, and then those of the list. */
static void placed(char *words) {
    psf_axis axis;
    for (named = 0; named < MOST && psf_variation_axis(file, length, 0, named, &axis, &count) == PSF_OK; named++)
        coordinates[named] = axis.default_value;
    for (char *word = strtok(words, ","); word; word = strtok(NULL, ","))
        for (size_t i = 0; i < named; i++)
            if (psf_variation_axis(file, length, 0, i, &axis, &count) == PSF_OK && axis.tag == tag_of(word))
                coordinates[i] = (int32_t)lround(strtod(word + 5, NULL) * 65536);
}

/* Writes the file that a word names to out[0..room]. */
static int32_t written(const char *what, uint8_t *out, size_t room) {
    psf_refusal refusal;
    psf_layout layout;
    if (!strcmp(what, "flat"))
        return psf_file_flat(file, length, 0, limit, out, room, &count, &refusal);
    if (!strcmp(what, "instance"))
        return psf_file_instance(file, length, 0, coordinates, named, keeps, limit, out, room, &count, &refusal);
    return psf_file_subset_layout(file, length, 0, characters, asked, &asked, 0, copied, tables, 0, keeps, names, 0, features, tags, 0,
                                  limit, out, room, &count, &layout, &refusal);
}

int main(int words, char **word) {
    FILE *in = words < 4 ? NULL : fopen(word[2], "rb");
    if (!in || fseek(in, 0, SEEK_END)) return 2;
    length = (size_t)ftell(in);
    rewind(in);
    file = malloc(length + 1);
    if (!file || fread(file, 1, length, in) != length) return 2;
    if (words > 4) keeps = word[4][0] == '1';
    if (words == 6) placed(word[5]);
    if (words == 9) {
        names = (uint32_t)(word[5][0] - '0');
        tags = listed(word[6], tag_of, features);
        tables = listed(word[7], tag_of, copied);
        asked = listed(word[8], hex_of, characters);
    }
    size_t room = 2 * length + 1024;
    uint8_t *out = malloc(room);
    int32_t status = out ? written(word[1], out, room) : PSF_MEMORY;
    if (status == PSF_NO_ROOM && (out = realloc(out, count))) status = written(word[1], out, count);
    if (status != PSF_OK) return fprintf(stderr, "status %d\n", (int)status), 1;
    FILE *to = fopen(word[3], "wb");
    return !to || fwrite(out, 1, count, to) != count || fclose(to) ? 2 : 0;
}
