#!/usr/bin/python3
"""Compares the static charstrings and tables of `postscript_instance` with the variable fonts at the same locations.

    tools/evidence/instance.py SEED PLACES WORD..

Each WORD is an OpenType file with a `CFF2` table, or a Debian package; the script downloads the package (without installing it) and takes
each such file. pango1.0-tests has Cantarell-VF.otf. The script also builds the fonts of tools/variable_fonts.py from EB Garamond (Debian's
fonts-ebgaramond). Their glyphs call subroutines, select a second ItemVariationData by vsindex, and have stems and masks.

The locations are the default, the named instances, each end of each axis, and PLACES random ones. At each, the program writes a charstring
for each glyph and a `CFF ` table for the font. The checks on each charstring, as read by fontTools, are:
- Its operators and operands are exactly those of the CFF2 charstring, in 16.16.
- If an operator of the CFF2 charstring has more than 48 operands, no operator of the static one may. Its lines and curves must then be
  equal one by one, as listed by fontTools' generalizeCommands.
- Its width is the given one, its masks are those of the CFF2 charstring, and it has no calls and ends with endchar.
Only glyphs with a stem operator of 48 operands or more may be rejected.

Each table goes into a font file, whose charstrings must be those above. Its outlines in fontTools are at most 1/16 unit from fontTools'
outlines of the variable font in floats. In FreeType they are at most one unit from FreeType's own outlines of the variable font.

Needs `rt` on the path and Debian's python3-fonttools and libfreetype6. The program is tools/programs/instance.rt.txt, proved in a copy
with the crates' results in out/, or the program in the environment variable PROGRAM. The exit status is 1 if anything differs.
"""

import collections
import os
import pathlib
import random
import subprocess
import sys
import tempfile

sys.dont_write_bytecode = True
sys.path.insert(0, str(pathlib.Path(__file__).resolve().parents[1]))

from fontTools.cffLib.specializer import generalizeCommands
from fontTools.misc.psCharStrings import T2CharString
from fontTools.pens.recordingPen import RecordingPen
from fontTools.ttLib import TTFont
from fontTools.ttLib.tables.DefaultTable import DefaultTable
from fontTools.varLib.models import normalizeLocation, piecewiseLinearMap

import building
from variable import NEAR, NO_HINTING, FreeType, drawn_by_fonttools, places_of, shapes_of
from variable_fonts import files_in, mixed, variable

USES = ("postscript_sfnt postscript_base postscript_compact1 postscript_type2 postscript_view postscript_outline"
        " postscript_drawing postscript_variation postscript_cff2"
        " postscript_variable postscript_variable_font postscript_instance anyhow")
STACK = 48
GONE = ["CFF2", "fvar", "avar", "HVAR", "MVAR", "VVAR", "STAT"]


def named(font):
    """Yields the locations of the named instances, in units of 2^-14."""
    axes = {axis.axisTag: (axis.minValue, axis.defaultValue, axis.maxValue) for axis in font["fvar"].axes}
    maps = font["avar"].segments if "avar" in font else {}
    for instance in font["fvar"].instances:
        place = normalizeLocation(instance.coordinates, axes)
        yield tuple(round(piecewiseLinearMap(place[tag], maps[tag] if maps.get(tag) else {-1: -1, 0: 0, 1: 1}) * 16384) for tag in axes)


def told(program, lines):
    """Returns the program's answer to each line: the table, if any, and the charstring and operations of each glyph."""
    done = subprocess.run([program], input="".join(f"{line}\n" for line in lines).encode(), capture_output=True, check=False)
    if done.returncode:
        sys.exit(f"the program ended with status {done.returncode}: {done.stderr.decode()}")
    answers = []
    for line in done.stdout.decode().splitlines():
        word, *more = line.split()
        if word == "font":
            answers.append([None, []])
        elif word == "table":
            answers[-1][0] = bytes.fromhex(more[0])
        elif word == "glyph":
            answers[-1][1].append([None, []])
        elif word == "code":
            answers[-1][1][-1][0] = bytes.fromhex(more[0])
        elif word == "op":
            answers[-1][1][-1][1].append((more[0].lower(), tuple(map(int, more[1:]))))
    return answers


def static(path, table, folder):
    """Writes a font file with this `CFF ` table instead of the variation tables."""
    font = TTFont(path, recalcBBoxes=False)
    for tag in GONE:
        if tag in font:
            del font[tag]
    made = DefaultTable("CFF ")
    made.data = table
    font["CFF "] = made
    font.sfntVersion = "OTTO"
    own = folder / f"static_{path.name}"
    font.save(own)
    return own


def masks_of(string):
    """Returns the mask bytes of a charstring without subroutines."""
    return [word for word in string.program if isinstance(word, bytes)]


def masks_beneath(string, shared, local):
    """Returns the masks of a charstring, including those in its subroutines."""
    string.decompile()
    found, program = [], string.program
    for before, word in zip([None, *program], program):
        if isinstance(word, bytes):
            found.append(word)
        elif word in ("callsubr", "callgsubr"):
            items = local if word == "callsubr" else shared
            found += masks_beneath(items[before + items_bias(items)], shared, local)
    return found


def items_bias(items):
    """Returns the bias of subroutine numbers."""
    return 107 if len(items) < 1240 else 1131 if len(items) < 33900 else 32768


def drawn(font):
    """Yields the contours of each glyph of a static font, in 16.16."""
    glyphs = font.getGlyphSet()
    for name in font.getGlyphOrder():
        pen, contours = RecordingPen(), []
        glyphs[name].draw(pen)
        for word, points in pen.value:
            if word == "moveTo":
                contours.append([])
            if points:
                contours[-1] += [(x * 65536, y * 65536) for x, y in points]
        yield shapes_of(contours, NEAR)


def farthest(ours, theirs):
    """Returns the largest distance between corresponding coordinates, or None if the numbers of points differ."""
    if list(map(len, ours)) != list(map(len, theirs)):
        return None
    return max((abs(a - b) for p, q in zip(ours, theirs) for s, t in zip(p, q) for a, b in zip(s, t)), default=0)


def is_same(found, wanted):
    """Returns whether operations are the wanted ones. Those with more operands than the stack holds must be in pieces."""
    if all(len(operands) <= STACK for _, operands in wanted):
        return found == wanted
    alone = [[(word, tuple(operands)) for word, operands in generalizeCommands([(w, list(o)) for w, o in both])] for both in (found, wanted)]
    return all(len(operands) <= STACK for _, operands in found) and alone[0] == alone[1]


def says_same(name, string, wanted, width, masks, faults):
    """Compares a static charstring with its wanted operations, width and masks."""
    string.decompile()
    words = [word for word in string.program if isinstance(word, str)]
    if words[-1] != "endchar" or words.count("endchar") != 1 or {"callsubr", "callgsubr", "return"} & set(words):
        faults.append(f"{name}: how it ends")
    numbers, found, told_width = [], [], None
    for word in string.program:
        if isinstance(word, bytes):
            continue
        if not isinstance(word, str):
            numbers.append(word * 65536)
            continue
        many = len(wanted[len(found)][1]) if len(found) < len(wanted) else 0
        if word in ("hintmask", "cntrmask"):
            many = len(numbers) - len(numbers) % 2
        if told_width is None:
            told_width = numbers[0] if len(numbers) > many else "none"
            numbers = numbers[1:] if len(numbers) > many else numbers
        if word != "endchar":
            found.append((word, () if word in ("hintmask", "cntrmask") else tuple(numbers)))
        numbers = []
    if not is_same(found, wanted):
        faults.append(f"{name}: its operations")
    if told_width != width * 65536:
        faults.append(f"{name}: its width {told_width}")
    if masks_of(string) != masks:
        faults.append(f"{name}: its masks")


def compare_glyphs(font, glyphs, counts):
    """Compares the charstrings of glyphs with their operations; returns the faults."""
    varying, faults = font["CFF2"].cff, []
    for number, (name, (code, wanted)) in enumerate(zip(font.getGlyphOrder(), glyphs)):
        string, _ = varying.topDictIndex[0].CharStrings.getItemAndSelector(name)
        masks = masks_beneath(string, varying.GlobalSubrs, getattr(string.private, "Subrs", []))
        counts["glyphs"] += 1
        if code is None:
            counts["refused"] += 1
            if all(len(operands) < STACK for word, operands in wanted if "stem" in word):
                faults.append(f"{number}: it is refused")
            continue
        counts["operations"] += len(wanted)
        counts["pieces"] += any(len(operands) > STACK for _, operands in wanted)
        counts["masks"] += len(masks)
        says_same(f"{number}", T2CharString(bytecode=code), wanted, number, masks, faults)
    return faults


def compare_outlines(path, font, place, answer, folder, freetype, face, counts):
    """Compares the outlines of the static table at a location, and its charstrings with those of the glyphs; returns the faults."""
    table, glyphs = answer
    own, faults = static(path, table, folder), []
    made = TTFont(own)
    strings = made["CFF "].cff.topDictIndex[0].CharStrings.charStringsIndex
    if [strings[number].bytecode for number in range(len(strings))] != [code for code, _ in glyphs]:
        faults.append("its charstrings")
    own_face = freetype.face(own)
    freetype.put(face, place)
    for number, (ours, theirs) in enumerate(zip(drawn(made), drawn_by_fonttools(font, place))):
        counts["outlines"] += 1
        far = farthest(ours, theirs)
        if far is None or far > NEAR:
            faults.append(f"{number}: its outline {far}")
        else:
            counts["worst"] = max(counts["worst"], far)
        here, there = (freetype.shapes(one, number, NO_HINTING) for one in (own_face, face))
        apart = None if here is None or there is None else farthest(here, there)
        if apart is None or apart > 128:
            faults.append(f"{number}: its outline by FreeType {apart}")
        else:
            counts["apart"] = max(counts["apart"], apart)
    freetype.calls.FT_Done_Face(own_face)
    return faults


def compare_font(program, path, chance, count, folder, freetype):
    """Compares the static tables of a font; returns the number of faults."""
    font = TTFont(path)
    places = list(dict.fromkeys([*places_of(chance, len(font["fvar"].axes), count), *named(font)]))
    answers = told(program, [f"{' '.join(map(str, place))} {path}" for place in places])
    counts, differ, face = collections.Counter(), 0, freetype.face(path)
    for place, answer in zip(places, answers):
        faults = compare_glyphs(font, answer[1], counts)
        if answer[0] is not None:
            faults += compare_outlines(path, font, place, answer, folder, freetype, face, counts)
        differ += len(faults)
        for fault in faults[:5]:
            print(f"{path.name} {place} {fault}", file=sys.stderr)
    print(f"{path.name}: {len(places)} places, {counts['glyphs']} glyphs, {counts['refused']} of them refused, {counts['pieces']} with operators in pieces, {counts['operations']} operations"
          f" and {counts['masks']} masks; {counts['outlines']} outlines of whole tables; {differ} differ;"
          f" worst from fontTools {counts['worst'] / 65536:.5f} unit, from FreeType {counts['apart'] / 128:.5f} unit")
    return differ


def main():
    seed, places, *words = sys.argv[1:]
    print(f"seed {seed}")
    freetype, differ = FreeType(), 0
    with tempfile.TemporaryDirectory() as name:
        folder = pathlib.Path(name)
        (folder / "fonts").mkdir()
        fonts = [path for word in words for path in files_in(folder, word)]
        for count in (2, 3):
            made = variable(folder / "fonts", count)
            fonts += [made, mixed(made)]
        program = os.environ.get("PROGRAM") or building.proved(folder / "program", "instance", USES)
        for path in fonts:
            differ += compare_font(program, path, random.Random(f"{seed} {path.name}"), int(places), folder, freetype)
    print(f"{differ} differ")
    sys.exit(differ > 0)


if __name__ == "__main__":
    main()
