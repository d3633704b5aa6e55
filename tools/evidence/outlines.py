#!/usr/bin/python3
"""Compares the path of each glyph with the one that fontTools draws.

    tools/evidence/outlines.py WORD..
    tools/evidence/outlines.py --sheet FONT

Each WORD is a font file, a folder, or an installed Debian package; of the last two, the script takes each .otf file. Fonts without a `CFF
` table and CID-keyed fonts are left out. So are glyphs whose `endchar` names two others (`seac`). Each segment and each coordinate is
compared as an exact fraction, and so is the width, from `nominalWidthX` or `defaultWidthX`. The bounds must be those of ControlBoundsPen.
The tight bounds must be those of BoundsPen, rounded outwards to 65536ths. A side may be one 65536th further out, or one further in if the
float before rounding is within a thousandth of an integer. The exit status is 1 if a glyph differs.

With --sheet, the script writes forty glyphs of a font file, as we draw them, as SVG.

Needs `rt` on the path, and Debian's python3-fonttools. The program is tools/programs/outlines.rt.txt, proved in a copy with the crates'
results in out/.
"""

import collections
import concurrent.futures
import math
import pathlib
import re
import subprocess
import sys
import tempfile
from fractions import Fraction
from xml.sax.saxutils import escape

sys.dont_write_bytecode = True
sys.path.insert(0, str(pathlib.Path(__file__).resolve().parents[1]))

from fontTools.pens.boundsPen import BoundsPen, ControlBoundsPen
from fontTools.pens.recordingPen import RecordingPen
from fontTools.ttLib import TTFont

import building
from font_files import files_of, glyph_lines, spelled

USES = "postscript_drawing postscript_outline postscript_type2 postscript_base hex anyhow"
LETTERS = "ABCDEFGHIJKLMNOPQRSTUVWXYZabcdefghijklmn"
NAMES = {"M": "moveTo", "L": "lineTo", "C": "curveTo", "Z": "closePath"}


def segments_of(path):
    """Yields the segments of path data, with fontTools' names."""
    for letter, rest in re.findall(r"([MLCZ])([^MLCZ]*)", path):
        numbers = [Fraction(text) for text in rest.split()]
        yield NAMES[letter], tuple(zip(numbers[::2], numbers[1::2]))


def drawn(recorded):
    """Returns what fontTools draws."""
    return [(kind, tuple((Fraction(x), Fraction(y)) for x, y in points)) for kind, points in recorded.value if kind != "addComponent"]


def sides_of(text):
    return None if text == "-" else [int(side) for side in text.split(",")]


def is_bounds(found, recorded):
    """Returns whether these are the bounds of all points."""
    pen = ControlBoundsPen(None)
    recorded.replay(pen)
    wanted = None if pen.bounds is None else [Fraction(side) * 65536 for side in pen.bounds]
    return found == wanted


def excess_of(side, exact, outwards):
    """Returns by how many 65536ths a side is further out than fontTools', rounded outwards; None if it cuts the curve."""
    exact *= 65536
    further = math.floor(exact) - side if outwards < 0 else side - math.ceil(exact)
    return 0 if further == -1 and abs(exact - round(exact)) < 0.001 else further if further >= 0 else None


def tightness(found, recorded):
    """Returns how many sides are one 65536th further out than fontTools', or None if a side differs otherwise."""
    pen = BoundsPen(None)
    recorded.replay(pen)
    if found is None or pen.bounds is None:
        return 0 if found is None and pen.bounds is None else None
    excess = [excess_of(*sides) for sides in zip(found, pen.bounds, (-1, -1, 1, 1), strict=True)]
    return None if None in excess or max(excess) > 1 else sum(excess)


def is_accented(recorded):
    """Returns whether the glyph is made of two others (`seac`)."""
    return any(kind == "addComponent" for kind, _ in recorded.value)


def width_of(word, private):
    return Fraction(private.defaultWidthX) if word == "-" else private.nominalWidthX + Fraction(int(word), 65536)


def compare(program, path):
    """Counts the glyphs of a font file, and lists those that differ."""
    counts, told = collections.Counter(), []
    lines = glyph_lines(path)
    if not lines:
        return counts, told
    printed = subprocess.run([program], input=spelled(lines).encode(), stdout=subprocess.PIPE, check=True).stdout.decode().split("\n")
    font = TTFont(path, lazy=True)
    strings = font["CFF "].cff[0].CharStrings
    counts["fonts"] += 1
    for name, line in zip(font.getGlyphOrder(), printed, strict=False):
        char_string, recorded = strings[name], RecordingPen()
        char_string.draw(recorded)
        if is_accented(recorded):
            counts["left out"] += 1
            continue
        word, bounds, tight, data = (line.split(" ", 3) + ["-", "-", ""])[:4]
        wanted = drawn(recorded)
        further = tightness(sides_of(tight), recorded) if word != "refused" else None
        found = list(segments_of(data))
        counts["glyphs"] += 1
        counts["segments"] += len(wanted)
        counts["sides one further"] += further or 0
        if further is None or not is_bounds(sides_of(bounds), recorded) or found != wanted or width_of(word, char_string.private) != Fraction(char_string.width):
            counts["different"] += 1
            told.append(f"{path}: {name}: {line[:60]}")
    return counts, told


def compare_all(program, words):
    """Compares the fonts with one process per processor, and adds up the counts."""
    counts = collections.Counter({"different": 0, "left out": 0})
    paths = [path for word in words for path in files_of(word)]
    with concurrent.futures.ProcessPoolExecutor() as pool:
        for found, told in pool.map(compare, [program] * len(paths), paths):
            counts.update(found)
            print("".join(f"{line}\n" for line in told), end="", flush=True)
    return counts


def sheet(program, path):
    """Writes forty glyphs as SVG, eight in a row, with the font's name and licence."""
    printed = subprocess.run([program], input=spelled(glyph_lines(path)).encode(), stdout=subprocess.PIPE, check=True).stdout.decode().split("\n")
    font = TTFont(path, lazy=True)
    drawn_paths = dict(zip(font.getGlyphOrder(), (line.split(" ", 3)[-1] for line in printed), strict=False))
    character_map = font.getBestCmap()
    unit = font["head"].unitsPerEm
    names = [character_map[ord(letter)] for letter in LETTERS]
    print(f'<svg xmlns="http://www.w3.org/2000/svg" viewBox="0 0 {9 * unit} {7 * unit}">')
    print(f"<title>{escape(font['name'].getDebugName(4))}</title>")
    notices = "\n\n".join(font["name"].getDebugName(number) or "" for number in (0, 13))
    paragraphs = [" ".join(text.split()) for text in notices.split("\n\n")]
    rights = [text for text in paragraphs if re.search("copyright|licensed", text, re.IGNORECASE)]
    print(f"<desc>{escape(' '.join(rights[:2]))}</desc>")
    print(f'<rect width="{9 * unit}" height="{7 * unit}" fill="white"/>')
    for place, name in enumerate(names):
        x, y = place % 8 * unit * 11 // 10 + unit // 4, (place // 8 + 1) * unit * 13 // 10
        print(f'<path transform="translate({x} {y}) scale(1 -1)" d="{drawn_paths[name]}"/>')
    print("</svg>")


def main(words):
    if not words or words == ["--sheet"]:
        sys.exit(__doc__)
    with tempfile.TemporaryDirectory() as folder:
        program = building.proved(pathlib.Path(folder), "outlines", USES)
        if words[0] == "--sheet":
            sheet(program, words[1])
            return
        counts = compare_all(program, words)
    print(", ".join(f"{count} {kind}" for kind, count in sorted(counts.items())))
    sys.exit(counts["different"] > 0)


if __name__ == "__main__":
    main(sys.argv[1:])
