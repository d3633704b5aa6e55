#!/usr/bin/python3
"""Makes the small variable font of the bindings' tests, and prints its advances and outlines by fontTools.

    tools/bindings/small_variable.py            compares bindings/variable.hex, and the example of the Rust bindings, with the font that is made
    tools/bindings/small_variable.py --write    writes both

The font has two axes, wght from 100 to 900 with the default 400, and opsz from 8 to 16, which is hidden. A segment map takes 0.5 on wght
to 0.75. There are two named instances, of which the second has a PostScript name. There are three glyphs, of which the third has curves,
and the advances vary.

The script prints a line for each location and glyph that the tests use: the advance and the outline from fontTools' instancer. The
instancer rounds to whole units, so the locations are chosen to give whole numbers. Needs Debian's python3-fonttools. The status is 1 if
the font differs.
"""

import io
import pathlib
import sys

from fontTools.fontBuilder import FontBuilder
from fontTools.misc.psCharStrings import T2CharString
from fontTools.pens.recordingPen import RecordingPen
from fontTools.ttLib import TTFont, newTable
from fontTools.ttLib.tables import otTables
from fontTools.ttLib.tables._f_v_a_r import Axis, NamedInstance
from fontTools.varLib import builder
from fontTools.varLib.mutator import instantiateVariableFont

BINDINGS = pathlib.Path(__file__).resolve().parents[2] / "bindings"
HEX, EXAMPLE = BINDINGS / "variable.hex", BINDINGS / "rust" / "examples" / "variable.otf"
REGIONS = [{"wght": (0, 1, 1)}, {"wght": (-1, -1, 0)}, {"opsz": (-1, -1, 0)}]
#: the operands of each operator, each with its deltas in the three regions
GLYPHS = {
    ".notdef": (500, (0, 0, 0), []),
    "A": (
        600,
        (120, -40, -200),
        [
            ("rmoveto", [(50, 20, -10, 0), (0, 0, 0, 0)]),
            ("rlineto", [(200, 40, -40, -80), (700, 0, 0, 0)]),
            ("rlineto", [(200, 40, -40, -80), (-700, 0, 0, 0)]),
        ],
    ),
    "o": (
        560,
        (80, -20, -160),
        [
            ("rmoveto", [(40, 8, -4, 0), (250, 0, 0, 0)]),
            ("rrcurveto", [(0, 0, 0, 0), (120, 40, -20, 0), (80, 40, 0, -20), (100, 0, 0, 0), (120, 0, -12, -40), (0, 0, 0, 0)]),
            ("rlineto", [(60, 12, 0, -12), (-220, -40, 20, 0)]),
        ],
    ),
}
PLACES = [{}, {"wght": 900}, {"wght": 650}, {"wght": 100}, {"opsz": 8}, {"opsz": 12, "wght": 650}]


def program(operations):
    """Returns the charstring of operations with varying operands."""
    words = []
    for operator, rows in operations:
        words += [row[0] for row in rows] + [delta for row in rows for delta in row[1:]] + [len(rows), "blend", operator]
    return T2CharString(program=words)


def axis(tag, least, default, most, flags, name):
    found = Axis()
    found.axisTag, found.minValue, found.defaultValue, found.maxValue = tag, least, default, most
    found.flags, found.axisNameID = flags, name
    return found


def instance(name, wght, opsz, postscript):
    found = NamedInstance()
    found.subfamilyNameID, found.coordinates, found.postscriptNameID = name, {"wght": wght, "opsz": opsz}, postscript
    return found


def made():
    """Returns the bytes of the font."""
    font = FontBuilder(1000, isTTF=False)
    font.setupGlyphOrder(list(GLYPHS))
    font.setupCharacterMap({0x41: "A", 0x6F: "o"})
    font.setupHorizontalMetrics({name: (advance, 0) for name, (advance, _, _) in GLYPHS.items()})
    font.setupHorizontalHeader(ascent=800, descent=-200)
    fvar = font.font["fvar"] = newTable("fvar")
    fvar.axes = [axis("wght", 100, 400, 900, 0, 256), axis("opsz", 8, 16, 16, 1, 257)]
    fvar.instances = [instance(258, 650, 16, 0xFFFF), instance(259, 900, 12.5, 260)]
    avar = font.font["avar"] = newTable("avar")
    avar.segments = {"wght": {-1.0: -1.0, 0.0: 0.0, 0.5: 0.75, 1.0: 1.0}, "opsz": {-1.0: -1.0, 0.0: 0.0, 1.0: 1.0}}
    font.setupCFF2({name: program(operations) for name, (_, _, operations) in GLYPHS.items()}, regions=REGIONS)
    regions = builder.buildVarRegionList(REGIONS, ["wght", "opsz"])
    data = builder.buildVarData([0, 1, 2], [list(more) for _, more, _ in GLYPHS.values()], optimize=False)
    hvar = font.font["HVAR"] = newTable("HVAR")
    hvar.table = otTables.HVAR()
    hvar.table.Version, hvar.table.VarStore = 0x00010000, builder.buildVarStore(regions, [data])
    hvar.table.AdvWidthMap = hvar.table.LsbMap = hvar.table.RsbMap = None
    font.font["head"].created = font.font["head"].modified = 2082844800
    font.font.recalcTimestamp = False
    file = io.BytesIO()
    font.font.save(file)
    return file.getvalue()


def told(file, place):
    """Yields the name, advance and outline of each glyph, as fontTools instantiates the font at a location."""
    font = instantiateVariableFont(TTFont(io.BytesIO(file)), dict(place))
    glyphs = font.getGlyphSet()
    for name in GLYPHS:
        pen = RecordingPen()
        glyphs[name].draw(pen)
        yield name, font["hmtx"][name][0], pen.value


def main():
    file = made()
    lines = "".join(f"{file[i:i + 64].hex()}\n" for i in range(0, len(file), 64))
    if "--write" in sys.argv[1:]:
        HEX.write_text(lines)
        EXAMPLE.write_bytes(file)
    for place in PLACES:
        for name, advance, outline in told(file, place):
            print(place, name, advance, outline)
    return HEX.read_text() != lines or EXAMPLE.read_bytes() != file


if __name__ == "__main__":
    sys.exit(main())
