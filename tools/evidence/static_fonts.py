#!/usr/bin/python3
"""Compares the static fonts that `psotf instance` writes with the variable fonts they come from.

    (cd crates/psotf && rt run -- --help)
    tools/evidence/static_fonts.py SEED PLACES [--round] WORD..

Each WORD is an OpenType file with a `CFF2` table, or a Debian package; the script downloads the package (without installing it) and takes
each such file. pango1.0-tests has Cantarell-VF.otf. The script also builds the fonts of tools/variable_fonts.py from EB Garamond (Debian's
fonts-ebgaramond): two and three axes, with and without subroutines, and GPOS lookups of each kind with varying values. It builds them
twice, the second time with fewer than 48 operands per operator. No font may be rejected.

It writes one file for each named instance, each end of each axis and PLACES random locations. The checks on each file are:
- fontTools reads each table, ots-sanitize accepts the file, and FreeType loads each glyph.
- `psotf glyph --all --json` prints the same segments and advances as for the variable font at that location.
- In fontTools, each charstring has the width of `hmtx`, and each outline the side bearing of `hmtx`. No coordinate is more than 1/16 unit
  from fontTools' outline of the variable font, computed in floats.
- hb-shape shapes a sample line and 300 lines of random characters as it does with the variable font, including kerning and marks.
- Advances and MVAR metrics are at most one unit from those of fontTools' varLib.mutator (its instancer does not support CFF2). The mutator
  rounds each difference between points, so only the largest distance of its outlines is printed.
- The names of a named instance are those of its style. A font with one Font DICT keeps its glyph names.
- Each hint in a Private DICT is the blended value in floats, rounded to the nearest unit.

With --round the files are written with `--round`. Each point must then be the variable font's, rounded to the nearest whole unit, halves
up. The outlines are then not compared in floats. The script prints up to eight faults per location. It also prints file sizes, next to
those of the mutator's files, which keep CFF2.

It runs crates/psotf/out/psotf, or the program in the environment variable PSOTF. Needs Debian's python3-fonttools, libfreetype6,
libharfbuzz-bin and opentype-sanitizer. The exit status is 1 if anything differs.
"""

import collections
import decimal
import itertools
import json
import math
import operator
import pathlib
import random
import subprocess
import sys
import tempfile
from fractions import Fraction

sys.dont_write_bytecode = True
sys.path.insert(0, str(pathlib.Path(__file__).resolve().parents[1]))

from fontTools.misc.psCharStrings import T2WidthExtractor
from fontTools.pens.boundsPen import BoundsPen
from fontTools.pens.recordingPen import RecordingPen
from fontTools.ttLib import TTFont
import fontTools.varLib.cff
from fontTools.feaLib.builder import addOpenTypeFeaturesFromString
from fontTools.varLib import mutator
from fontTools.varLib.models import normalizeLocation, piecewiseLinearMap
from fontTools.varLib.mvar import MVAR_ENTRIES
from fontTools.varLib.varStore import VarStoreInstancer

from building import PSOTF
from instance import drawn, farthest
from variable import NEAR, NO_HINTING, FreeType, shapes_of
from variable_fonts import files_in, mixed, variable

TEXT = "Hamburgefonts fi AVAToWa, 0123456789"
LINES, LONG = 300, 12
FEATURES = """
languagesystem DFLT dflt;
markClass [grave] <anchor (wght=100:90 wght=400:100 wght=900:160) 400> @TOP;
markClass [asciicircum] <anchor 120 (wght=400:380 wght=900:430)> @TOP;
feature kern {
    pos T <(wght=400:10 wght=900:30) 0 (wght=400:20 wght=900:61) 0>;
    pos A V (wght=100:-10 wght=400:-50 wght=900:-120);
    pos A W <0 (wght=400:5 wght=900:9) (wght=400:-30 wght=900:-77) 0>;
    pos [a e o] [v w y] (wght=100:-5 wght=400:-20 wght=900:-71);
} kern;
feature curs {
    pos cursive n <anchor 0 (wght=400:10 wght=900:50)> <anchor 300 (wght=400:30 wght=900:90)>;
    pos cursive u <anchor (wght=400:7 wght=900:11) 20> <anchor 310 (wght=400:40 wght=900:80)>;
} curs;
feature mark {
    pos base [H b g] <anchor (wght=400:250 wght=900:400) 650> mark @TOP;
    pos ligature [f] <anchor (wght=400:50 wght=900:90) 700> mark @TOP ligComponent <anchor 200 (wght=400:600 wght=900:666)> mark @TOP;
} mark;
feature mkmk {
    pos mark [grave asciicircum] <anchor (wght=400:100 wght=900:140) (wght=400:500 wght=900:590)> mark @TOP;
} mkmk;
table GDEF {
    GlyphClassDef [A-Z a b g n u v w y e o], [f], [grave asciicircum], ;
} GDEF;
"""
LINKED = {"Regular", "Bold", "Italic", "Bold Italic"}


def run(*words, status=0):
    """Runs psotf, and returns its output and its messages."""
    done = subprocess.run([str(PSOTF), *map(str, words)], capture_output=True, check=False)
    assert done.returncode == status, f"psotf {' '.join(map(str, words))}: status {done.returncode}: {done.stderr.decode()}"
    return done.stdout.decode(), done.stderr.decode()


def glyphs_of(path, *words):
    """Returns the advance and the segments of each glyph, as psotf prints them."""
    printed = run("glyph", path, "--all", "--json", *words)[0].splitlines()
    lines = [json.loads(line, parse_float=decimal.Decimal) for line in printed]
    return [(line["advance"], line["segments"]) for line in lines]


def places_of(font, chance, count):
    """Yields locations: their command-line arguments, their axis values and, for named instances, the name."""
    axes = font["fvar"].axes
    default = {axis.axisTag: axis.defaultValue for axis in axes}
    for instance in font["fvar"].instances:
        name = font["name"].getDebugName(instance.subfamilyNameID)
        yield ["--instance", name], dict(instance.coordinates), name
    for axis in axes:
        for end in (axis.minValue, axis.maxValue):
            yield ["--variations", f"{axis.axisTag}={end:g}"], {**default, axis.axisTag: end}, None
    for _ in range(count):
        values = {axis.axisTag: chance.randint(round(axis.minValue * 4), round(axis.maxValue * 4)) / 4 for axis in axes}
        yield ["--variations", ",".join(f"{tag}={value:g}" for tag, value in values.items())], values, None


def lines_of(font, chance):
    """Returns a line of text, and lines of random characters of the font."""
    characters = [char for char in sorted(font.getBestCmap()) if chr(char).isprintable()]
    some = [ord(char) for char in "AVWTaeovwynuHbgf`^`^" if ord(char) in characters]
    lines = ["".join(map(chr, chance.choices(by_turns, k=LONG))) for by_turns in (characters, some) for _ in range(LINES // 2)]
    return [TEXT, *lines]


def set_by_harfbuzz(path, lines, *words):
    """Returns the glyphs of lines of text, with their positions and advances."""
    done = subprocess.run(
        ["hb-shape", *words, "--no-glyph-names", "--no-clusters", str(path)], input="\n".join(lines), capture_output=True, text=True, check=True,
    )
    return done.stdout.splitlines()


def names_are(static, font, name, faults):
    """Compares the names with those of a style."""
    family = font["name"].getBestFamilyName()
    told = {i: static["name"].getDebugName(i) for i in (1, 2, 4, 6, 16, 17)}
    linked = name in LINKED
    wanted = {1: family if linked else f"{family} {name}", 2: name if linked else "Regular", 4: f"{family} {name}"}
    wanted |= {16: None, 17: None} if linked else {16: family, 17: name}
    for i, text in wanted.items():
        if told[i] != text:
            faults.append(f"name {i}: {told[i]}")
    if static["CFF "].cff.fontNames != [told[6]] or " " in told[6]:
        faults.append(f"the PostScript name {told[6]}")
    bold, italic = "Bold" in wanted[2], "Italic" in wanted[2]
    if static["head"].macStyle != bold + 2 * italic or static["OS/2"].fsSelection & 0x61 != (bold * 32 + italic or 64):
        faults.append("the bits of the style")


def widths_are(static, faults):
    """Compares charstring widths and side bearings with `hmtx`."""
    top = static["CFF "].cff.topDictIndex[0]
    glyphs = static.getGlyphSet()
    for number, name in enumerate(static.getGlyphOrder()):
        string = top.CharStrings[name]
        extractor = T2WidthExtractor([], string.globalSubrs, string.private.nominalWidthX, string.private.defaultWidthX, string.private)
        extractor.execute(string)
        pen = BoundsPen(glyphs)
        glyphs[name].draw(pen)
        bearing = pen.bounds[0] // 1 if pen.bounds else 0
        if extractor.width != static["hmtx"][name][0]:
            faults.append(f"{number}: its width")
        if abs(bearing - static["hmtx"][name][1]) > (pen.bounds is not None and pen.bounds[0] % 1 < 0.001):
            faults.append(f"{number}: its bearing {static['hmtx'][name][1]}, not {bearing}")


def moved_metrics(static, made, faults):
    """Compares the MVAR metrics, the weight and width classes, and hhea's ascent and descent with the mutator's."""
    for tag, field in [*MVAR_ENTRIES.values(), ("OS/2", "usWeightClass"), ("OS/2", "usWidthClass"), ("hhea", "ascent"), ("hhea", "descent")]:
        if tag in made and tag in static:
            ours, theirs = getattr(static[tag], field, None), getattr(made[tag], field, None)
            if ours is not None and theirs is not None and abs(ours - theirs) > 1:
                faults.append(f"{tag} {field}: {ours}, not {theirs}")


def scalars_of(font, values, number):
    """Returns the scalars of the regions of item variation data at a location."""
    top = font["CFF2"].cff.topDictIndex[0]
    if getattr(top, "VarStore", None) is None:
        return []
    axes = {axis.axisTag: (axis.minValue, axis.defaultValue, axis.maxValue) for axis in font["fvar"].axes}
    maps = font["avar"].segments if "avar" in font else {}
    place = {tag: piecewiseLinearMap(value, maps.get(tag) or {-1: -1, 0: 0, 1: 1}) for tag, value in normalizeLocation(values, axes).items()}
    store = top.VarStore.otVarStore
    at = VarStoreInstancer(store, font["fvar"].axes, place)
    return [at._getScalar(region) for region in store.VarData[number].VarRegionIndex] if number < len(store.VarData) else []


def hints_are(font, static, values, faults):
    """Compares each hint with its blended value at the location."""
    old, new = font["CFF2"].cff.topDictIndex[0], static["CFF "].cff.topDictIndex[0]
    news = [part.Private for part in new.FDArray] if hasattr(new, "ROS") else [new.Private]
    for part, private in zip(old.FDArray, news, strict=True):
        raw = part.Private.rawDict
        scalars = scalars_of(font, values, raw.get("vsindex", 0))
        for name, told in raw.items():
            if name in ("Subrs", "vsindex"):
                continue
            several = isinstance(told, list) and name not in ("StdHW", "StdVW", "BlueScale", "BlueShift", "BlueFuzz")
            edges = told if several else [told]
            # fontTools adds up the default values, but not their deltas
            moved = itertools.accumulate(sum(map(operator.mul, edge[1:], scalars)) if isinstance(edge, list) else 0 for edge in edges)
            wanted = [(edge[0] if isinstance(edge, list) else edge) + far for edge, far in zip(edges, moved, strict=True)]
            found = private.rawDict.get(name)
            found = found if several else [found]
            if found is None or None in found or len(found) != len(wanted) or any(abs(a - b) > 0.501 for a, b in zip(found, wanted)):
                faults.append(f"{name}: {found}, not {wanted}")


def names_are_kept(font, static, faults):
    """Compares the glyph names."""
    has_one = len(font["CFF2"].cff.topDictIndex[0].FDArray) == 1
    if has_one and (hasattr(static["CFF "].cff.topDictIndex[0], "ROS") or static.getGlyphOrder() != font.getGlyphOrder()):
        faults.append("names of glyphs")


def at_units(told):
    """Rounds each number of a list to the nearest whole unit, halves up."""
    if isinstance(told, (list, tuple)):
        return type(told)(map(at_units, told))
    return told if isinstance(told, str) else math.floor(Fraction(told) + Fraction(1, 2))


def near_mutator(path, values, static, folder, faults):
    """Compares with fontTools' mutator at this location; returns the size of its file, and the largest distance of points."""
    made = mutator.instantiateVariableFont(TTFont(path), dict(values))
    made.save(folder / "mutated.otf")
    made = TTFont(folder / "mutated.otf")
    moved_metrics(static, made, faults)
    far = [farthest(ours, others) for ours, others in zip(drawn(static), drawn(made), strict=True)]
    for number, (ours, others) in enumerate(zip(static.getGlyphOrder(), made.getGlyphOrder(), strict=True)):
        if abs(static["hmtx"][ours][0] - made["hmtx"][others][0]) > 1:
            faults.append(f"{number}: its advance is not the mutator's")
    return (folder / "mutated.otf").stat().st_size, max((one for one in far if one is not None), default=0)


def near_floats(font, values, static, faults):
    """Compares with fontTools' outlines at this location in floats; returns the largest distance of points."""
    glyphs, worst = font.getGlyphSet(location=values), 0
    for number, (ours, name) in enumerate(zip(drawn(static), font.getGlyphOrder(), strict=True)):
        pen, contours = RecordingPen(), []
        glyphs[name].draw(pen)
        for word, points in pen.value:
            if word == "moveTo":
                contours.append([])
            if points:
                contours[-1] += [(x * 65536, y * 65536) for x, y in points]
        far = farthest(ours, shapes_of(contours, NEAR))
        if far is None or far > NEAR:
            faults.append(f"{number}: its outline is {far} from that of fontTools")
        else:
            worst = max(worst, far)
    return worst


def compare_place(path, font, words, values, name, folder, freetype, lines, rounds, counts):
    """Compares the file of a location; returns the faults."""
    out, faults = folder / "static.otf", []
    _, said = run("instance", path, *words, *rounds, "-o", out)
    counts["said"] |= {said.strip()}
    static = TTFont(out)
    for tag in static.keys():
        static[tag]
    if {"fvar", "avar", "HVAR", "MVAR", "STAT", "CFF2"} & set(static.keys()):
        faults.append("a table that varies")
    done = subprocess.run(["ots-sanitize", str(out)], capture_output=True, text=True, check=False)
    if done.returncode or done.stderr.strip():
        faults.append(f"ots-sanitize: {done.stderr.strip()}")
    place = ["--variations", ",".join(f"{tag}={value:g}" for tag, value in values.items())]
    ours, theirs = glyphs_of(out), glyphs_of(path, *place)
    theirs = at_units(theirs) if rounds else theirs
    counts["glyphs"] += len(ours)
    for number, (one, other) in enumerate(zip(ours, theirs, strict=True)):
        if one != other:
            faults.append(f"{number}: its outline or its advance")
    widths_are(static, faults)
    names_are_kept(font, static, faults)
    hints_are(font, static, values, faults)
    face = freetype.face(out)
    if face is None or any(freetype.shapes(face, number, NO_HINTING) is None for number in range(len(ours))):
        faults.append("FreeType")
    else:
        freetype.calls.FT_Done_Face(face)
    for ours, theirs, line in zip(set_by_harfbuzz(out, lines), set_by_harfbuzz(path, lines, f"--variations={place[1]}"), lines, strict=True):
        if ours != theirs:
            faults.append(f"hb-shape: {line!a}: {ours}, not {theirs}")
    counts["lines"] += len(lines)
    if name is not None:
        names_are(static, font, name, faults)
    if not rounds:
        counts["floats"] = max(counts["floats"], near_floats(font, values, static, faults))
    size, worst = near_mutator(path, values, static, folder, faults)
    counts["size"], counts["mutated"] = counts["size"] + out.stat().st_size, counts["mutated"] + size
    counts["worst"] = max(counts["worst"], worst)
    return faults


def refused(path, words, folder):
    """Returns the error message, or None if there is no error."""
    done = subprocess.run([str(PSOTF), "instance", str(path), *words, "-o", str(folder / "none.otf")], capture_output=True, text=True, check=False)
    return done.stderr if done.returncode else None


def compare_font(path, chance, count, folder, freetype, rounds):
    """Compares the static fonts of a font; returns the number of faults."""
    font, differ, refusals = TTFont(path), 0, collections.Counter()
    counts = {"glyphs": 0, "lines": 0, "size": 0, "mutated": 0, "worst": 0, "floats": 0, "said": set()}
    places, lines = list(places_of(font, chance, count)), lines_of(font, chance)
    for words, values, name in places:
        if (said := refused(path, words, folder)) is not None:
            refusals[said.strip().rsplit(": ", 1)[-1]] += 1
            faults = [said]
        else:
            (folder / "none.otf").unlink()
            faults = compare_place(path, font, words, values, name, folder, freetype, lines, rounds, counts)
        differ += len(faults)
        for fault in faults[:8]:
            print(f"{path.name} {' '.join(words)}: {fault}", file=sys.stderr)
    print(f"{path.name}: {len(places)} places, {counts['glyphs']} glyphs, {counts['lines']} lines; refused: {dict(refusals)}; {differ} differ; furthest from floats"
          f" {counts['floats'] / 65536:.5f} unit, from the mutator {counts['worst'] / 65536:.3f}; {counts['size']} bytes, the mutator's {counts['mutated']};"
          f" said: {sorted(counts['said'])}", flush=True)
    return differ


def with_features(path):
    """Adds GPOS lookups of each kind with varying values to the font."""
    font = TTFont(path)
    addOpenTypeFeaturesFromString(font, FEATURES)
    assert font["GDEF"].table.VarStore and {lookup.LookupType for lookup in font["GPOS"].table.LookupList.Lookup} == {1, 2, 3, 4, 5, 6}
    font.save(path)
    return path


def main():
    seed, places, *words = sys.argv[1:]
    rounds = [word for word in words if word == "--round"]
    words = [word for word in words if word != "--round"]
    print(f"seed {seed}")
    freetype, differ = FreeType(), 0
    with tempfile.TemporaryDirectory() as name:
        folder = pathlib.Path(name)
        fonts = [path for word in words for path in files_in(folder, word)]
        for few in (False, True):
            fontTools.varLib.cff.maxStackLimit = 48 if few else 513
            (folder / f"fonts{few}").mkdir()
            for count in (2, 3):
                made = with_features(variable(folder / f"fonts{few}", count))
                fonts += [made, mixed(made)]
        for path in fonts:
            differ += compare_font(path, random.Random(f"{seed} {path.name}"), int(places), folder, freetype, rounds)
    print(f"{differ} differ")
    sys.exit(differ > 0)


if __name__ == "__main__":
    main()
