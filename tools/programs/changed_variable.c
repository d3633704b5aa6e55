/* Compares FreeType with the output of changed_variable.rt.txt, which it reads from standard input. The arguments are the paths of
 * the same files, in the same order. For each case the bytes are changed in memory and the face is opened. Each glyph that was drawn is
 * loaded at 2 pixels per unit, the highest size at which FreeType keeps fractions.
 *
 * Each of FreeType's points must be ours, rounded down to 1/128 unit. For glyphs that FreeType moves by their hints, hinting is switched
 * off. Then each point must be ours, rounded down to a unit, or the next unit if ours is less than 1/1024 below it. Three kinds of
 * differences are counted separately:
 *
 * - glyphs that are alike without lines of no length;
 * - glyphs with a coordinate that FreeType cannot hold at this size;
 * - glyphs with a contour that ends within a unit of its start. Its last point may or may not be the first one after rounding.
 *
 * Each other glyph gives a line `unlike` on standard error, with its case. So does each coordinate and each advance that differs from
 * FreeType's, with both values. The program prints the number of each kind. */
#include <ft2build.h>
#include FT_FREETYPE_H
#include FT_MULTIPLE_MASTERS_H
#include <stdio.h>
#include <stdlib.h>
#include <string.h>

enum { FONTS = 16, GLYPHS = 65536, POINTS = 400000, CONTOURS = 40000, AXES = 16, LEAST = 64, FAR = 16383 };

typedef struct { long x, y; } point;
typedef struct { int contours, ends[CONTOURS]; point points[POINTS]; char lines[POINTS]; } shape;
typedef struct { unsigned char *bytes, *whole; long length, advances[GLYPHS]; int axes, glyphs; } subject;

static subject fonts[FONTS];
static shape ours, low, high, exact, theirs;
static FT_Library library;

enum { TABLES, UNREAD, NOWHERE, UNOPENED, ALIKE, UNITS, OTHERWISE, REFUSED_THERE, REFUSED_HERE, REFUSED_BOTH, NO_LENGTH, TOO_FAR, CLOSES, BYTES, OTHER_TABLES, OTHER_UNREAD,
       OTHER_UNOPENED, COORDINATES, OTHER_COORDINATES, ADVANCES, BY_ONE, OTHER_ADVANCES, KINDS };
static const char *const words[KINDS] = {
    "cases", "tables CFF2 refused here", "without a place", "glyphs with a face that FreeType refuses", "glyphs alike", "glyphs alike in whole units",
    "glyphs otherwise", "glyphs drawn here alone", "glyphs drawn by FreeType alone", "glyphs refused by both", "glyphs alike but for lines of no length",
    "glyphs with coordinates past 16,383 units",
    "glyphs otherwise with a contour that ends within a unit of where it began", "bytes changed",
    "cases of fvar or avar or HVAR", "of them refused here", "of them refused by FreeType", "coordinates within 2^-14", "other coordinates", "advances alike",
    "advances one unit away", "other advances",
};
static long counts[KINDS];

static long down(long n, long d) { return n >= 0 ? n / d : -((d - 1 - n) / d); }

/* rounds our coordinates down; drops contours of one point, and last points equal to the first */
static void cut(shape *to, long unit, long more) {
    int from = 0, at = 0;
    to->contours = 0;
    for (int c = 0; c < ours.contours; c++) {
        int begin = at;
        for (int i = from; i < ours.ends[c]; i++, at++) {
            to->points[at].x = down(down(ours.points[i].x + more, unit) * unit, 512);
            to->points[at].y = down(down(ours.points[i].y + more, unit) * unit, 512);
        }
        from = ours.ends[c];
        if (at - begin > 1 && to->points[begin].x == to->points[at - 1].x && to->points[begin].y == to->points[at - 1].y) at--;
        if (at - begin > 1) to->ends[to->contours++] = at;
        else at = begin;
    }
}

static int load(FT_Face face, int glyph, int flags) {
    if (FT_Load_Glyph(face, glyph, flags)) return 0;
    FT_Outline *outline = &face->glyph->outline;
    int from = 0, at = 0;
    theirs.contours = 0;
    for (int c = 0; c < outline->n_contours; c++) {
        int begin = at, end = outline->contours[c] + 1;
        for (int i = from; i < end; i++, at++) theirs.points[at] = (point){outline->points[i].x, outline->points[i].y};
        from = end;
        if (at - begin > 1) theirs.ends[theirs.contours++] = at;
        else at = begin;
    }
    return 1;
}

static int same_form(const shape *a, const shape *b) {
    return a->contours == b->contours && !memcmp(a->ends, b->ends, a->contours * sizeof a->ends[0]);
}

static int points_in(const shape *a) { return a->contours ? a->ends[a->contours - 1] : 0; }

static int either(void) {
    cut(&low, 65536, 0);
    cut(&high, 65536, LEAST);
    if (!same_form(&theirs, &low) || !same_form(&theirs, &high)) return 0;
    for (int i = 0; i < points_in(&theirs); i++) {
        point t = theirs.points[i], a = low.points[i], b = high.points[i];
        if ((t.x != a.x && t.x != b.x) || (t.y != a.y && t.y != b.y)) return 0;
    }
    return 1;
}

static int alike(FT_Face face, int glyph) {
    load(face, glyph, FT_LOAD_NO_AUTOHINT);
    cut(&exact, 512, 0);
    if (same_form(&theirs, &exact) && !memcmp(theirs.points, exact.points, points_in(&exact) * sizeof(point))) return ALIKE;
    return load(face, glyph, FT_LOAD_NO_HINTING) && either() ? UNITS : OTHERWISE;
}

/* drops lines of no length, as FreeType does */
static int drop_lines(void) {
    int from = 0, at = 0, dropped = 0;
    for (int c = 0; c < ours.contours; c++) {
        int begin = at, end = ours.ends[c];
        for (int i = from; i < end; i++) {
            point p = ours.points[i];
            if (ours.lines[i] && at > begin && ours.points[at - 1].x == p.x && ours.points[at - 1].y == p.y) {
                dropped++;
                continue;
            }
            ours.lines[at] = ours.lines[i];
            ours.points[at++] = p;
        }
        from = end;
        ours.ends[c] = at;
    }
    return dropped;
}

/* FreeType cannot hold larger coordinates at 2 pixels per unit */
static int is_far(void) {
    for (int i = 0; i < points_in(&ours); i++)
        if (labs(ours.points[i].x) > FAR * 65536L || labs(ours.points[i].y) > FAR * 65536L) return 1;
    return 0;
}

/* whether a contour's last point is not the first one, but may be after rounding */
static int nearly_closes(void) {
    int from = 0;
    for (int c = 0; c < ours.contours; c++) {
        point a = ours.points[from], b = ours.points[ours.ends[c] - 1];
        if (ours.ends[c] > from && (a.x != b.x || a.y != b.y) && labs(a.x - b.x) <= 65536 && labs(a.y - b.y) <= 65536) return 1;
        from = ours.ends[c];
    }
    return 0;
}

static int how(FT_Face face, int glyph) {
    if (!load(face, glyph, FT_LOAD_NO_AUTOHINT)) return REFUSED_THERE;
    int kind = alike(face, glyph);
    if (kind != OTHERWISE) return kind;
    if (is_far()) return TOO_FAR;
    if (drop_lines() && alike(face, glyph) != OTHERWISE) return NO_LENGTH;
    return nearly_closes() ? CLOSES : OTHERWISE;
}

static FT_Face opened(subject *s) {
    FT_Face face;
    if (FT_New_Memory_Face(library, s->bytes, s->length, 0, &face)) return NULL;
    if (!FT_Set_Pixel_Sizes(face, face->units_per_EM * 2, face->units_per_EM * 2)) return face;
    FT_Done_Face(face);
    return NULL;
}

static void take(subject *s, const char *path) {
    FILE *file = fopen(path, "rb");
    if (!file || fseek(file, 0, SEEK_END)) exit(1);
    s->length = ftell(file);
    rewind(file);
    s->bytes = malloc(s->length);
    s->whole = malloc(s->length);
    if (fread(s->bytes, 1, s->length, file) != (size_t)s->length) exit(1);
    memcpy(s->whole, s->bytes, s->length);
    fclose(file);
    FT_Face face = opened(s);
    if (!face) exit(1);
    s->glyphs = face->num_glyphs;
    for (int glyph = 0; glyph < s->glyphs && glyph < GLYPHS; glyph++)
        s->advances[glyph] = FT_Load_Glyph(face, glyph, FT_LOAD_NO_SCALE | FT_LOAD_NO_HINTING) ? 0 : face->glyph->metrics.horiAdvance;
    FT_Done_Face(face);
}

static int numbers(const char *line, long *found, int most) {
    int count = 0;
    char *end;
    for (;; line = end) {
        long n = strtol(line, &end, 10);
        if (end == line || count == most) return count;
        found[count++] = n;
    }
}

static void add(long x, long y, int is_line) {
    int at = ours.contours ? ours.ends[ours.contours - 1] : 0;
    if (at == POINTS || !ours.contours) return;
    ours.points[at] = (point){x, y};
    ours.lines[at] = is_line;
    ours.ends[ours.contours - 1]++;
}

static char told[4096], asked[256], shown[256];
static subject *now;
static FT_Face face;
static int glyph = -1, is_refused, is_other;

/* compares the glyph whose lines are complete */
static void close_glyph(void) {
    int kind;
    if (glyph < 0) return;
    if (!face) kind = UNOPENED;
    else if (is_refused) kind = load(face, glyph, FT_LOAD_NO_AUTOHINT) ? REFUSED_HERE : REFUSED_BOTH;
    else kind = how(face, glyph);
    counts[kind]++;
    if (kind == OTHERWISE || kind == REFUSED_THERE || kind == REFUSED_HERE || kind == UNOPENED)
        fprintf(stderr, "unlike %d %d%s |%s |%s\n", kind, glyph, told, asked, is_refused ? shown : "");
    glyph = -1;
}

static void close_case(void) {
    close_glyph();
    if (face) FT_Done_Face(face);
    face = NULL;
    if (now) memcpy(now->bytes, now->whole, now->length);
}

static void change(const char *line) {
    long found[64];
    int count = numbers(line, found, 64);
    now = &fonts[found[0]];
    counts[TABLES]++;
    snprintf(told, sizeof told, "%s", line);
    for (int i = 1; i + 1 < count; i += 2) now->bytes[found[i]] = found[i + 1], counts[BYTES]++;
    is_other = 1;
}

static void open_at(const char *line) {
    long found[AXES];
    FT_Fixed at[AXES];
    int count = numbers(line, found, AXES);
    snprintf(asked, sizeof asked, "%s", line);
    is_other = 0;
    for (int i = 0; i < count; i++) at[i] = found[i] * 4;
    face = opened(now);
    if (face && FT_Set_Var_Blend_Coordinates(face, count, at)) FT_Done_Face(face), face = NULL;
}

static void open_user(const char *line) {
    long found[AXES];
    FT_Fixed at[AXES];
    int count = numbers(line, found, AXES);
    counts[OTHER_TABLES]++;
    snprintf(asked, sizeof asked, "%s", line);
    for (int i = 0; i < count; i++) at[i] = found[i];
    face = opened(now);
    if (face && FT_Set_Var_Design_Coordinates(face, count, at)) FT_Done_Face(face), face = NULL;
    if (!face) counts[OTHER_UNOPENED]++;
}

/* compares the coordinates of a case in fvar, avar or HVAR */
static void compare_coordinates(const char *line) {
    long found[AXES];
    FT_Fixed at[AXES];
    int count = numbers(line, found, AXES);
    if (!face || FT_Get_Var_Blend_Coordinates(face, count, at)) return;
    for (int i = 0; i < count; i++) {
        int kind = labs(found[i] * 4 - at[i]) <= 4 ? COORDINATES : OTHER_COORDINATES;
        counts[kind]++;
        if (kind == OTHER_COORDINATES) fprintf(stderr, "unlike %d %d%s |%s | %ld %ld\n", kind, i, told, asked, found[i], at[i]);
    }
}

/* prints the two variations, then the glyph's default advance and FreeType's coordinates */
static void show_advance(int kind, const long *found, long theirs) {
    FT_Fixed at[AXES];
    long words[AXES];
    int count = numbers(asked, words, AXES);
    fprintf(stderr, "unlike %d %ld%s |%s | %ld %ld %ld", kind, found[0], told, asked, found[1], theirs, now->advances[found[0]]);
    if (!FT_Get_Var_Blend_Coordinates(face, count, at))
        for (int i = 0; i < count; i++) fprintf(stderr, " %ld", at[i]);
    fprintf(stderr, "\n");
}

static void compare_advance(const char *line) {
    long found[2];
    if (!face || numbers(line, found, 2) < 2 || FT_Load_Glyph(face, found[0], FT_LOAD_NO_SCALE | FT_LOAD_NO_HINTING)) return;
    long theirs = face->glyph->metrics.horiAdvance - now->advances[found[0]];
    long off = labs(theirs - found[1]);
    int kind = off == 0 ? ADVANCES : off == 1 ? BY_ONE : OTHER_ADVANCES;
    counts[kind]++;
    if (off) show_advance(kind, found, theirs);
}

static void segment(const char *line) {
    long n[6];
    int count = numbers(line + 1, n, 6);
    if (line[0] == 'M' && ours.contours < CONTOURS) {
        int at = ours.contours ? ours.ends[ours.contours - 1] : 0;
        ours.ends[ours.contours++] = at;
    }
    for (int i = 0; i + 1 < count; i += 2) add(n[i], n[i + 1], line[0] == 'L');
}

static void take_line(const char *line) {
    switch (line[0]) {
    case 'T': close_case(); change(line + 1); break;
    case 'A': open_at(line + 1); break;
    case 'U': counts[is_other ? OTHER_UNREAD : UNREAD]++; counts[OTHER_TABLES] += is_other; break;
    case 'N': counts[NOWHERE]++; break;
    case 'G': close_glyph(); glyph = atoi(line + 1); ours.contours = 0; is_refused = 0; break;
    case 'R': is_refused = 1; snprintf(shown, sizeof shown, "%s", line + 1); break;
    case 'S': open_user(line + 1); break;
    case 'X': compare_coordinates(line + 1); break;
    case 'W': compare_advance(line + 1); break;
    case 'M': case 'L': case 'C': segment(line); break;
    }
}

int main(int count, char **paths) {
    char *line = NULL;
    size_t room = 0;
    ssize_t length;
    if (count < 2 || count > FONTS + 1 || FT_Init_FreeType(&library)) return 1;
    for (int i = 1; i < count; i++) take(&fonts[i - 1], paths[i]);
    while ((length = getline(&line, &room, stdin)) > 0) {
        if (line[length - 1] == '\n') line[length - 1] = 0;
        take_line(line);
    }
    close_case();
    for (int kind = 0; kind < KINDS; kind++) printf("%ld %s%s", counts[kind], words[kind], kind + 1 < KINDS ? ", " : "\n");
    return 0;
}
