/* Counts glyphs that HarfBuzz draws differently in two fonts. The arguments are the paths of the font files. A line of the input is the
 * number of a glyph of the first font and of one of the second. The program prints the number of pairs, and of those that differ in a
 * segment of the unscaled outline or in the advance. */
#include <hb.h>
#include <stdio.h>
#include <stdlib.h>
#include <string.h>

typedef struct {
    float *numbers;
    size_t count, room;
} drawing;

static void keep(drawing *kept, int kind, const float *numbers, size_t count) {
    if (kept->count + count + 1 > kept->room) {
        kept->room = 2 * kept->room + 64;
        kept->numbers = realloc(kept->numbers, kept->room * sizeof(float));
        if (!kept->numbers) exit(2);
    }
    kept->numbers[kept->count++] = (float)kind;
    memcpy(kept->numbers + kept->count, numbers, count * sizeof(float));
    kept->count += count;
}

static void move(hb_draw_funcs_t *f, void *data, hb_draw_state_t *s, float x, float y, void *user) {
    (void)f, (void)s, (void)user;
    keep(data, 0, (float[]){x, y}, 2);
}

static void line(hb_draw_funcs_t *f, void *data, hb_draw_state_t *s, float x, float y, void *user) {
    (void)f, (void)s, (void)user;
    keep(data, 1, (float[]){x, y}, 2);
}

static void cubic(hb_draw_funcs_t *f, void *data, hb_draw_state_t *s, float a, float b, float c, float d, float x, float y, void *user) {
    (void)f, (void)s, (void)user;
    keep(data, 2, (float[]){a, b, c, d, x, y}, 6);
}

static void close(hb_draw_funcs_t *f, void *data, hb_draw_state_t *s, void *user) {
    (void)f, (void)s, (void)user;
    keep(data, 3, (float[]){0}, 0);
}

static hb_font_t *opened(const char *path) {
    hb_blob_t *blob = hb_blob_create_from_file_or_fail(path);
    if (!blob) exit(2);
    return hb_font_create(hb_face_create(blob, 0));
}

int main(int count, char **words) {
    if (count != 3) return 2;
    hb_font_t *fonts[2] = {opened(words[1]), opened(words[2])};
    hb_draw_funcs_t *pen = hb_draw_funcs_create();
    hb_draw_funcs_set_move_to_func(pen, move, NULL, NULL);
    hb_draw_funcs_set_line_to_func(pen, line, NULL, NULL);
    hb_draw_funcs_set_cubic_to_func(pen, cubic, NULL, NULL);
    hb_draw_funcs_set_close_path_func(pen, close, NULL, NULL);
    drawing drawn[2] = {{0}, {0}};
    long pairs = 0, differ = 0, glyphs[2];
    while (scanf("%ld %ld", &glyphs[0], &glyphs[1]) == 2) {
        hb_position_t advances[2];
        for (int i = 0; i < 2; i++) {
            drawn[i].count = 0;
            hb_font_get_glyph_shape(fonts[i], (hb_codepoint_t)glyphs[i], pen, &drawn[i]);
            advances[i] = hb_font_get_glyph_h_advance(fonts[i], (hb_codepoint_t)glyphs[i]);
        }
        int same = advances[0] == advances[1] && drawn[0].count == drawn[1].count;
        for (size_t i = 0; same && i < drawn[0].count; i++) same = drawn[0].numbers[i] == drawn[1].numbers[i];
        pairs++;
        differ += !same;
    }
    printf("%ld %ld\n", pairs, differ);
    return 0;
}
