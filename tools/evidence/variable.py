#!/usr/bin/python3
"""Compares the outlines of variable fonts with fontTools and FreeType, and reports the results for damaged tables.

    tools/evidence/variable.py SEED PLACES CHANGES WORD..

Each WORD is an OpenType file with a `CFF2` table, or a Debian package; the script downloads the package (without installing it) and takes
each such file. pango1.0-tests has Cantarell-VF.otf. The script also builds four fonts from EB Garamond (tools/variable_fonts.py): with two
and three axes, each plain and with subroutines, a second ItemVariationData selected by vsindex, stems and masks.

It compares every outline at the default, at each end of each axis and at PLACES random locations. fontTools draws in floats; no coordinate
may be more than 1/16 unit from ours. FreeType draws at 2 pixels per unit, the largest size at which it keeps fractions. Each of its points
must be ours truncated to 1/128 unit. If FreeType moves a glyph's points by hints, the glyph is compared without hinting. Each point must
then be ours truncated to a unit, or the next unit if ours is less than 1/1024 below it.

Then the script makes CHANGES tables with bytes changed at random in the first 64 bytes, which contain the offsets, and CHANGES with bytes
changed after the first 200. The program must end with status 0. The script counts how FreeType draws our glyphs, and what either rejects.
It also prints the time of both, the least of 50 runs.

Needs `rt` and `gcc` on the path and Debian's python3-fonttools and libfreetype-dev. The program is tools/programs/variable.rt.txt, proved
in a copy with the crates' results in out/, or the program in the environment variable PROGRAM. The exit status is 1 if anything differs.
"""

import collections
import ctypes
import os
import pathlib
import random
import subprocess
import sys
import tempfile
from ctypes import POINTER, byref, c_char, c_char_p, c_int, c_long, c_short, c_uint, c_ushort, c_void_p

sys.dont_write_bytecode = True
sys.path.insert(0, str(pathlib.Path(__file__).resolve().parents[1]))

from fontTools.pens.recordingPen import RecordingPen
from fontTools.ttLib import TTFont

import building
from variable_fonts import files_in, mixed, variable

USES = ("postscript_sfnt postscript_base postscript_compact1 postscript_type2 postscript_view postscript_outline postscript_drawing"
        " postscript_variation postscript_cff2 postscript_variable postscript_variable_font anyhow")
NEAR, LEAST = 4096, 64
NO_HINTING, NO_AUTOHINT = 2, 0x8000


def places_of(chance, axes, count):
    """Returns the default, the ends of each axis, and random locations, in units of 2^-14."""
    ends = [tuple(end if i == j else 0 for j in range(axes)) for i in range(axes) for end in (-16384, 16384)]
    return [(0,) * axes, *ends, *(tuple(chance.randint(-16384, 16384) for _ in range(axes)) for _ in range(count))]


def told(program, lines):
    """Returns the program's answer to each line: the contours of each glyph, in 16.16, or the error."""
    done = subprocess.run([program], input="".join(f"{line}\n" for line in lines).encode(), stdout=subprocess.PIPE, check=False)
    if done.returncode:
        sys.exit(f"the program ended with status {done.returncode}")
    answers, glyphs, contours = [], {}, []
    for line in done.stdout.decode().splitlines():
        word, *more = line.split()
        if word == "font":
            glyphs = {}
            answers.append(glyphs)
        elif word == "glyph":
            contours = glyphs[int(more[0])] = []
        elif word in ("unread", "nowhere"):
            glyphs[word] = line
        elif word == "refused":
            contours.append(line)
        elif word == "M":
            contours.append([(word, *map(int, more))])
        elif word in ("L", "C"):
            contours[-1].append((word, *map(int, more)))
    return answers


def points_of(contour):
    """Returns the points of a contour."""
    return [point for _, *numbers in contour for point in zip(numbers[::2], numbers[1::2])]


def shapes_of(contours, far=0):
    """Returns the contours with more than one point. The last point is dropped if each of its coordinates is at most `far` from the
    first point's."""
    near = lambda p, q: abs(p[0] - q[0]) <= far and abs(p[1] - q[1]) <= far
    shorter = [points[:-1] if len(points) > 1 and near(points[0], points[-1]) else points for points in contours]
    return [points for points in shorter if len(points) > 1]


def drawn_by_fonttools(font, place):
    """Yields the contours of each glyph, as floats in 16.16."""
    location = {axis.axisTag: value / 16384 for axis, value in zip(font["fvar"].axes, place)}
    glyphs = font.getGlyphSet(location=location, normalized=True)
    for name in font.getGlyphOrder():
        pen = RecordingPen()
        glyphs[name].draw(pen)
        contours = []
        for word, points in pen.value:
            if word == "moveTo":
                contours.append([])
            if points:
                contours[-1] += [(x * 65536, y * 65536) for x, y in points]
        yield shapes_of(contours, NEAR)


class Vector(ctypes.Structure):
    _fields_ = [("x", c_long), ("y", c_long)]


class Outline(ctypes.Structure):
    _fields_ = [("n_contours", c_short), ("n_points", c_short), ("points", POINTER(Vector)), ("tags", POINTER(c_char)),
                ("contours", POINTER(c_short)), ("flags", c_int)]


class Bitmap(ctypes.Structure):
    _fields_ = [("rows", c_uint), ("width", c_uint), ("pitch", c_int), ("buffer", c_void_p), ("num_grays", c_ushort), ("pixel_mode", ctypes.c_ubyte),
                ("palette_mode", ctypes.c_ubyte), ("palette", c_void_p)]


class Slot(ctypes.Structure):
    _fields_ = [("library", c_void_p), ("face", c_void_p), ("next", c_void_p), ("glyph_index", c_uint), ("generic", c_void_p * 2),
                ("metrics", c_long * 8), ("advances", c_long * 2), ("advance", Vector), ("format", c_int), ("bitmap", Bitmap), ("bitmap_left", c_int),
                ("bitmap_top", c_int), ("outline", Outline)]


class Face(ctypes.Structure):
    _fields_ = [("numbers", c_long * 5), ("family_name", c_char_p), ("style_name", c_char_p), ("num_fixed_sizes", c_int), ("available_sizes", c_void_p),
                ("num_charmaps", c_int), ("charmaps", c_void_p), ("generic", c_void_p * 2), ("bbox", c_long * 4), ("units_per_EM", c_ushort),
                ("heights", c_short * 7), ("glyph", POINTER(Slot))]


class FreeType:
    """The library, and the fonts that it draws."""

    def __init__(self):
        self.calls = ctypes.CDLL("libfreetype.so.6")
        self.library = c_void_p()
        self.calls.FT_Init_FreeType(byref(self.library))
        version = [c_int(), c_int(), c_int()]
        self.calls.FT_Library_Version(self.library, *map(byref, version))
        self.version = ".".join(str(number.value) for number in version)

    def face(self, path):
        face = POINTER(Face)()
        if self.calls.FT_New_Face(self.library, str(path).encode(), c_long(0), byref(face)):
            return None
        size = face.contents.units_per_EM * 2
        return None if self.calls.FT_Set_Pixel_Sizes(face, size, size) else face

    def put(self, face, place):
        self.calls.FT_Set_Var_Blend_Coordinates(face, c_uint(len(place)), (c_long * len(place))(*[value * 4 for value in place]))

    def shapes(self, face, glyph, flags):
        """Returns the points of each contour in 1/128 unit, or None if the glyph is rejected."""
        if self.calls.FT_Load_Glyph(face, c_uint(glyph), flags):
            return None
        outline, start, found = face.contents.glyph.contents.outline, 0, []
        for number in range(outline.n_contours):
            end = outline.contours[number] + 1
            found.append([(outline.points[i].x, outline.points[i].y) for i in range(start, end)])
            start = end
        return [points for points in found if len(points) > 1]

    def draws(self, face, glyph, contours):
        """Returns how FreeType draws this glyph compared with these contours, or None if it rejects the glyph."""
        ours = list(map(points_of, contours))
        cut = lambda to, more=0: shapes_of([((x + more) // to * to // 512, (y + more) // to * to // 512) for x, y in points] for points in ours)
        if (shape := self.shapes(face, glyph, NO_AUTOHINT)) is None:
            return None
        if shape == cut(512):
            return "alike"
        theirs, low, high = self.shapes(face, glyph, NO_HINTING), cut(65536), cut(65536, LEAST)
        if list(map(len, theirs)) == list(map(len, low)) == list(map(len, high)):
            each = (trio for shapes in zip(theirs, low, high) for points in zip(*shapes) for trio in zip(*points))
            if all(t in (a, b) for t, a, b in each):
                return "alike in whole units"
        return "otherwise"


def compare_font(program, freetype, path, chance, count):
    """Compares a font at its locations; returns the number of differing outlines."""
    font = TTFont(path)
    places = places_of(chance, len(font["fvar"].axes), count)
    answers = told(program, [f"1 {' '.join(map(str, place))} {path}" for place in places])
    face = freetype.face(path)
    counts, worst, differ = collections.Counter(), 0.0, 0
    for place, answer in zip(places, answers):
        freetype.put(face, place)
        for glyph, theirs in enumerate(drawn_by_fonttools(font, place)):
            contours = answer.get(glyph, ["no answer"])
            if any(isinstance(contour, str) for contour in contours):
                differ += 1
                print(f"{path} {place} {glyph}: {contours}", file=sys.stderr)
                continue
            ours = shapes_of(map(points_of, contours), NEAR)
            counts["outlines"] += 1
            counts["points"] += sum(map(len, ours))
            if list(map(len, ours)) != list(map(len, theirs)):
                counts["of another shape than fontTools'"] += 1
                differ += 1
            else:
                far = max((abs(a - b) for p, q in zip(ours, theirs) for s, t in zip(p, q) for a, b in zip(s, t)), default=0)
                worst = max(worst, far)
                differ += far > NEAR
            how = freetype.draws(face, glyph, contours)
            counts[f"{how or 'refused'} by FreeType"] += 1
            differ += how not in ("alike", "alike in whole units")
    axes = len(font["fvar"].axes)
    print(f"{path.name}: {axes} axes, {len(places)} places, {', '.join(f'{count} {word}' for word, count in counts.items())};"
          f" worst from fontTools {worst / 65536:.5f} unit; FreeType {freetype.version}")
    return differ


def changed(chance, path, folder, number, first):
    """Writes a font with some bytes of its table changed, all at or after offset `first`, or in the first 64 bytes if that is 0."""
    font = bytearray(path.read_bytes())
    tables = {bytes(font[12 + 16 * i:16 + 16 * i]): 12 + 16 * i for i in range(int.from_bytes(font[4:6], "big"))}
    record = tables[b"CFF2"]
    start, length = (int.from_bytes(font[record + at:record + at + 4], "big") for at in (8, 12))
    for _ in range(chance.choice([1, 1, 2, 4, 16])):
        place = chance.randrange(first, length if first else 64)
        font[start + place] = chance.choice([0, 1, 0x7F, 0x80, 0xFF, chance.randrange(256)])
    own = folder / f"changed{number}.otf"
    own.write_bytes(font)
    return own


def compare_changed(program, freetype, fonts, chance, count, folder, behind):
    """Draws fonts with bytes changed at or after offset `behind`, or in the first 64 bytes if that is 0; counts how FreeType draws them."""
    counts = collections.Counter()
    for first in range(0, count, 50):
        batch = []
        for number in range(first, min(first + 50, count)):
            source = chance.choice(fonts)
            axes = len(TTFont(source, lazy=True)["fvar"].axes)
            place = chance.choice(places_of(chance, axes, 2))
            batch.append((changed(chance, source, folder, number - first, behind), place, chance.choice([7, 13, 29])))
        answers = told(program, [f"{stride} {' '.join(map(str, place))} {path}" for path, place, stride in batch])
        for (path, place, _), answer in zip(batch, answers):
            counts["tables"] += 1
            if "unread" in answer or "nowhere" in answer:
                counts["tables refused"] += 1
                continue
            face = freetype.face(path)
            if face is None:
                counts["tables that FreeType refuses and we read"] += 1
                continue
            freetype.put(face, place)
            for glyph, contours in answer.items():
                if refused := [contour for contour in contours if isinstance(contour, str)]:
                    theirs = freetype.shapes(face, glyph, NO_AUTOHINT)
                    counts[f"glyphs {refused[0]}, {'by FreeType too' if theirs is None else 'drawn by FreeType'}"] += 1
                elif (how := freetype.draws(face, glyph, contours)) is None:
                    counts["glyphs drawn that FreeType refuses"] += 1
                else:
                    counts[f"glyphs drawn {how}"] += 1
            freetype.calls.FT_Done_Face(face)
    told_so = "; ".join(f"{number} {word}" for word, number in counts.most_common())
    print(f"changed {'behind the first 200 bytes' if behind else 'in the first 64 bytes'}: {told_so}")


def times(program, folder, path):
    """Prints our time and FreeType's, for one location of a font."""
    place = [8000] * len(TTFont(path, lazy=True)["fvar"].axes)
    given = folder / "times"
    given.write_text(f"1 {' '.join(map(str, place))} {path}\n")
    ours = list(map(int, building.printed(program, "times", given=given).split("times ")[1].split()))
    flags = building.printed("pkg-config", "--cflags", "--libs", "freetype2").split()
    building.printed("gcc", "-O2", building.PROGRAMS / "variable_ft.c", "-o", folder / "freetype", *flags)
    theirs = list(map(int, building.printed(folder / "freetype", path, *map(str, place)).split()))
    micros = lambda row: f"read {row[1] / 1000:.2f} µs, place {row[2] / 1000:.2f} µs, {row[0]} glyphs {row[3] / row[0] / 1000:.2f} µs each"
    print(f"{path.name}: here {micros(ours)}; FreeType {micros(theirs)}; it takes {theirs[3] / ours[3]:.1f} times as long a glyph")


def main():
    seed, places, changes, *words = sys.argv[1:]
    print(f"seed {seed}")
    freetype, differ = FreeType(), 0
    with tempfile.TemporaryDirectory() as name:
        folder = pathlib.Path(name)
        (folder / "fonts").mkdir()
        fonts = [path for word in words for path in files_in(folder, word)]
        for count in (2, 3):
            made = variable(folder / "fonts", count)
            fonts += [made, mixed(made)]
        program = os.environ.get("PROGRAM") or building.proved(folder / "program", "variable", USES)
        for path in fonts:
            differ += compare_font(program, freetype, path, random.Random(f"{seed} {path.name}"), int(places))
        for path in fonts:
            times(program, folder, path)
        for behind in (0, 200):
            compare_changed(program, freetype, fonts, random.Random(f"{seed} {behind}"), int(changes), folder, behind)
    print(f"{differ} differ")
    sys.exit(differ > 0)


if __name__ == "__main__":
    main()
