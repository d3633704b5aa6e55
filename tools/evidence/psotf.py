#!/usr/bin/python3
"""Compares the output of `psotf inspect` and `psotf glyph` with fontTools, for each face and each glyph.

    (cd crates/psotf && rt run -- --help)
    /usr/bin/python3 tools/evidence/psotf.py WORD..

Each WORD is a font file or collection, a folder, or an installed Debian package; of the last two, the script takes each .otf file. It
takes each face with a `CFF ` table.

For each glyph it compares the glyph ID, the name or CID, the characters, the advance, the width (from `nominalWidthX` or `defaultWidthX`),
each operation and each segment. Numbers are compared as exact fractions. The bounds of all points must be equal. The bounds of the curves
are rounded outwards to 65536ths, and a side may be one 65536th further out. Glyphs made of two others (`seac`) are left out.

For each face it compares each field of `inspect` except the errors: operands of the DICTs as floats, since fontTools reads floats, the
strings of the Top DICT, and the number of glyphs with hints, found by fontTools' charstring decompiler.

It prints each face and glyph that differs, and then the totals. Nothing is random. Needs Debian's python3-fonttools. The exit status is 1
if anything differs.
"""

import concurrent.futures
import decimal
import itertools
import json
import pathlib
import re
import subprocess
import sys
import unicodedata
from fractions import Fraction

sys.dont_write_bytecode = True
sys.path.insert(0, str(pathlib.Path(__file__).resolve().parents[1]))

from fontTools.misc.psCharStrings import SimpleT2Decompiler, T2WidthExtractor
from fontTools.pens.recordingPen import RecordingPen
from fontTools.ttLib import TTFont

from building import PSOTF
from font_files import files_of
from outlines import is_accented, is_bounds, tightness
from sfnt import faces_of, name_of

LETTERS = {"moveTo": "M", "lineTo": "L", "curveTo": "C", "closePath": "Z", "endPath": "Z"}
SETS = {0: "ISOAdobe", 1: "Expert", 2: "ExpertSubset"}
TOP = {
    "isFixedPitch": "IsFixedPitch", "ItalicAngle": "ItalicAngle", "UnderlinePosition": "UnderlinePosition",
    "UnderlineThickness": "UnderlineThickness", "PaintType": "PaintType", "CharstringType": "CharStringType",
    "FontMatrix": "FontMatrix", "FontBBox": "FontBBox", "StrokeWidth": "StrokeWidth",
}  # fmt: skip
STRINGS = {
    "version": "Version", "Notice": "Notice", "Copyright": "Copyright", "FullName": "FullName", "FamilyName": "FamilyName", "Weight": "Weight",
    "PostScript": "PostScript", "BaseFontName": "BaseFontName", "FontName": "FontName",
}  # fmt: skip
PRIVATE = {
    "StdHW": "StdHW", "StdVW": "StdVW", "BlueScale": "BlueScale", "BlueShift": "BlueShift", "BlueFuzz": "BlueFuzz",
    "ForceBold": "ForceBold", "LanguageGroup": "LanguageGroup", "ExpansionFactor": "ExpansionFactor",
    "initialRandomSeed": "InitialRandomSeed", "defaultWidthX": "DefaultWidthX", "nominalWidthX": "NominalWidthX",
}  # fmt: skip
DELTAS = ("BlueValues", "OtherBlues", "FamilyBlues", "FamilyOtherBlues", "StemSnapH", "StemSnapV")


class Hints(SimpleT2Decompiler):
    """Runs a charstring, and records whether it has a stem or a mask."""

    met = False

    def countHints(self):
        self.met = True
        super().countHints()

    def op_hintmask(self, index):
        self.met = True
        return super().op_hintmask(index)

    op_cntrmask = op_hintmask


class Operations(T2WidthExtractor):
    """Runs a charstring, and records each operation: its name, and its operands without the width."""

    def __init__(self, char_string):
        private = char_string.private
        super().__init__(getattr(private, "Subrs", []), char_string.globalSubrs, 0, 0, private)
        self.listed = []

    def keep(self, name, operands):
        self.listed.append((name, [Fraction(operand) for operand in operands]))

    def countHints(self):
        self.stems = self.popallWidth()
        self.hintCount += len(self.stems) // 2

    # stems before a mask are counted, and are not operands of the mask
    def op_hintmask(self, index):
        self.keep("hintmask", [])
        return super().op_hintmask(index)

    def op_cntrmask(self, index):
        self.keep("cntrmask", [])
        return super().op_hintmask(index)


def kept(name, operands_of):
    def operator(self, index):
        self.keep(name, operands_of(self))

    return operator


for name in ("rlineto hlineto vlineto rrcurveto hhcurveto vvcurveto hvcurveto vhcurveto rcurveline rlinecurve hflex flex hflex1 flex1").split():
    setattr(Operations, f"op_{name}", kept(name, lambda run: run.popall()))
for name in ("hmoveto", "vmoveto"):
    setattr(Operations, f"op_{name}", kept(name, lambda run: run.popallWidth(1)))
Operations.op_rmoveto = kept("rmoveto", lambda run: run.popallWidth())
for name in ("hstem", "vstem", "hstemhm", "vstemhm"):
    setattr(Operations, f"op_{name}", kept(name, lambda run: run.countHints() or run.stems))


def operations_of(char_string):
    run = Operations(char_string)
    run.execute(char_string)
    return run.listed


def operation_of(operation):
    """Returns an operation as psotf writes it."""
    name, *operands = operation
    return name.lower(), [Fraction(operand) for operand in operands]


def has_hint(char_string):
    hints = Hints(char_string.private and getattr(char_string.private, "Subrs", []), char_string.globalSubrs, char_string.private)
    hints.execute(char_string)
    return hints.met


def told(*words):
    """Returns the objects that psotf prints, one per line."""
    done = subprocess.run([PSOTF, *words, "--json"], capture_output=True, check=True)
    return [json.loads(line, parse_float=decimal.Decimal) for line in done.stdout.splitlines()]


def recorded(char_string):
    """Records what fontTools draws."""
    pen = RecordingPen()
    char_string.draw(pen)
    return pen


def segments_of(drawing):
    return [[LETTERS[kind], *(Fraction(x) for point in points for x in point)] for kind, points in drawing.value]


def sides_of(numbers):
    return None if numbers is None else [int(Fraction(number) * 65536) for number in numbers]


# The suffix that fontTools adds to a repeated name.

ONCE_MORE = re.compile(r"#\d+$")


def named_of(glyph, is_cid):
    """Returns the name of a glyph as fontTools makes it."""
    return f"cid{glyph['cid']:05d}" if is_cid and glyph["name"] is None and glyph["gid"] else glyph["name"] or ".notdef"


def drawing_differs(glyph, char_string, drawing):
    return (
        [[segment[0], *map(Fraction, segment[1:])] for segment in glyph["segments"]] != segments_of(drawing)
        or Fraction(glyph["width"]) != Fraction(char_string.width)
        or not is_bounds(sides_of(glyph["bounds"]), drawing)
        or tightness(sides_of(glyph["tight_bounds"]), drawing) is None
    )


def glyph_differs(glyph, number, name, font, char_string, drawing, characters):
    return (
        "refused" in glyph
        or glyph["gid"] != number
        or named_of(glyph, "cid" in glyph) not in (name, ONCE_MORE.sub("", name))
        or glyph["advance"] != font["hmtx"][name][0]
        or sorted(glyph["chars"]) != (sorted(characters) if number else [])
        or [operation_of(operation) for operation in glyph["operations"]] != operations_of(char_string)
        or drawing_differs(glyph, char_string, drawing)
    )


def floats_of(numbers):
    return None if numbers is None else [float(Fraction(number)) for number in numbers]


def values_of(value):
    return None if value is None else [float(number) for number in (value if isinstance(value, list) else [value])]


def private_differs(found, private):
    """Returns whether the operands of a Private DICT differ from those that fontTools reads; deltas are added up."""
    return any(floats_of(found.get(ours)) != values_of(getattr(private, theirs, None)) for theirs, ours in PRIVATE.items()) or any(
        list(itertools.accumulate(floats_of(found.get(name, [])))) != (values_of(getattr(private, name, None)) or []) for name in DELTAS
    )


def printed(string):
    """A string of a font as psotf prints it: UTF-8, without control characters. fontTools reads Latin-1."""
    text = string.encode("latin-1").decode("utf-8", "replace")
    return "".join("?" if unicodedata.category(char) == "Cc" else char for char in text)


def strings_of(top):
    """Returns the strings of a DICT under psotf's names, and the registry, the ordering and the supplement."""
    found = {ours: [printed(top.rawDict[theirs])] for theirs, ours in STRINGS.items() if theirs in top.rawDict}
    if "ROS" in top.rawDict:
        registry, ordering, supplement = top.rawDict["ROS"]
        found["ROS"] = [printed(registry), printed(ordering), supplement]
    return found


def text_of(font, *identifiers):
    points = name_of(font, identifiers)
    return points and "".join(map(chr, points))


def facts_of(face):
    """Returns the values that psotf prints for a face and that are compared unchanged."""
    cff = face["cff"]
    fields = ("name", "is_cid", "fds", "glyphs", "hinted", "encoding", "char_set", "global_subroutines", "local_subroutines")
    return [face[field] for field in ("units_per_em", "glyphs", "family", "style", "version", "faces")] + [cff[field] for field in fields]


def wanted_facts(path, font, top, privates):
    cff = font["CFF "].cff
    encoding = top.rawDict.get("Encoding", 0)
    return [
        font["head"].unitsPerEm, font["maxp"].numGlyphs, text_of(font, 16, 1), text_of(font, 17, 2), text_of(font, 5), faces_of(path),
        cff.fontNames[0], hasattr(top, "ROS"), len(privates) if hasattr(top, "ROS") else 0, len(top.CharStrings),
        sum(has_hint(top.CharStrings[name]) for name in font.getGlyphOrder()), {0: "Standard", 1: "Expert"}.get(encoding, "custom"),
        SETS.get(top.rawDict.get("charset", 0), "custom"), len(cff.GlobalSubrs), [len(getattr(private, "Subrs", [])) for private in privates],
    ]  # fmt: skip


def face_differs(face, path, font, top):
    privates = [font_dictionary.Private for font_dictionary in top.FDArray] if hasattr(top, "ROS") else [top.Private]
    found = face["cff"].get("privates") or [face["cff"]["private"]]
    return (
        facts_of(face) != wanted_facts(path, font, top, privates)
        or any(floats_of(face["cff"]["top"].get(ours)) != values_of(getattr(top, theirs, None)) for theirs, ours in TOP.items())
        or {name: face["cff"]["top"][name] for name in (*STRINGS.values(), "ROS") if name in face["cff"]["top"]} != strings_of(top)
        or any(private_differs(*pair) for pair in zip(found, privates, strict=True))
    )


def compare(face):
    """Returns a face's number of glyphs, their number of segments, the number of glyphs left out, and a line for each difference."""
    path, number = face
    font = TTFont(path, lazy=True, fontNumber=number)
    top = font["CFF "].cff.topDictIndex[0]
    characters = {}
    for code, name in (font.getBestCmap() or {}).items():
        characters.setdefault(name, []).append(f"U+{code:04X}")
    names = font.getGlyphOrder()
    glyphs = told("glyph", path, "--face", str(number), "--all")
    different, left_out = [f"{path}: {len(glyphs)} glyphs"] * (len(glyphs) != len(names)), 0
    if face_differs(told("inspect", path, "--face", str(number))[0], path, font, top):
        different.append(f"{path}: face {number}")
    for gid, (name, glyph) in enumerate(zip(names, glyphs, strict=False)):
        char_string = top.CharStrings[name]
        drawing = recorded(char_string)
        if is_accented(drawing):
            left_out += 1
        elif glyph_differs(glyph, gid, name, font, char_string, drawing, characters.get(name, [])):
            different.append(f"{path}: {name}")
    return len(names), sum(len(glyph["segments"] or []) for glyph in glyphs), left_out, different


def main(words):
    if not words:
        sys.exit(__doc__)
    faces = [(path, number) for path in files_of(*words) for number in range(faces_of(path))]
    faces = [(path, number) for path, number in faces if "CFF " in TTFont(path, lazy=True, fontNumber=number).reader]
    glyphs = segments = left_out = different = 0
    with concurrent.futures.ProcessPoolExecutor() as pool:
        for count, pieces, left, lines in pool.map(compare, faces):
            glyphs, segments, left_out, different = glyphs + count, segments + pieces, left_out + left, different + len(lines)
            print(*lines, sep="\n", end="\n" * bool(lines), flush=True)
    print(f"{len(faces)} faces, {glyphs} glyphs, {segments} segments, {left_out} left out, {different} different")
    sys.exit(different > 0)


if __name__ == "__main__":
    main(sys.argv[1:])
