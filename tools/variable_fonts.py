"""Variable fonts with a `CFF2` table: from files and Debian packages, and some made from EB Garamond.

Made fonts have two or three axes, and their masters are transformed. `mixed` adds subroutines, a second ItemVariationData selected by
vsindex, stems and masks to a font. Needs Debian's python3-fonttools and fonts-ebgaramond.
"""

import pathlib

from fontTools import subset, varLib
from fontTools.cffLib import SubrsIndex
from fontTools.designspaceLib import AxisDescriptor, DesignSpaceDocument, SourceDescriptor
from fontTools.misc.psCharStrings import T2CharString
from fontTools.pens.t2CharStringPen import T2CharStringPen
from fontTools.pens.transformPen import TransformPen
from fontTools.ttLib import TTFont
from fontTools.ttLib.tables import otTables

import building

GARAMOND = "/usr/share/fonts/opentype/ebgaramond/EBGaramond12-Regular.otf"
AXES = [("wght", "Weight", 100, 400, 900), ("wdth", "Width", 50, 100, 200), ("slnt", "Slant", -20, 0, 0)]
MASTERS = [
    ({}, (1, 0), (0, 1)), ({"Weight": 900}, (1.11, 0.01), (0, 1.02)), ({"Weight": 100}, (0.93, 0), (0, 0.98)), ({"Width": 200}, (1.7, 0), (0, 1)),
    ({"Width": 60}, (0.6, 0), (0, 1)), ({"Width": 200, "Weight": 900}, (1.95, 0.02), (0, 1.03)), ({"Weight": 650}, (1.03, 0), (0.01, 1.01)),
    ({"Slant": -20}, (1, 0.2), (0, 1)), ({"Slant": -20, "Weight": 900, "Width": 200}, (1.9, 0.3), (0, 1.04)),
]


def moved(folder, path, across, up):
    """Writes a master: each point (x, y) of the small font moves to x * across + y * up."""
    font = TTFont(GARAMOND)
    options = subset.Options(desubroutinize=True, hinting=False, notdef_outline=True, glyph_names=True)
    options.drop_tables += ["GPOS", "GSUB", "GDEF", "kern", "DSIG", "FFTM"]
    small = subset.Subsetter(options)
    small.populate(unicodes=range(0x20, 0x7F))
    small.subset(font)
    strings = font["CFF "].cff.topDictIndex[0].CharStrings
    glyphs = font.getGlyphSet()
    programs = {}
    for name in font.getGlyphOrder():
        pen = T2CharStringPen(max(0, round(font["hmtx"][name][0] * across[0])), glyphs, roundTolerance=0.5)
        glyphs[name].draw(TransformPen(pen, (*across, *up, 0, 0)))
        programs[name] = pen.getCharString(strings[name].private, strings[name].globalSubrs).program
    for name, program in programs.items():
        strings[name].program, strings[name].bytecode = program, None
    font.save(folder / path)


def variable(folder, count):
    """Makes a variable font with `count` axes."""
    document = DesignSpaceDocument()
    for tag, name, minimum, default, maximum in AXES[:count]:
        document.addAxis(AxisDescriptor(tag=tag, name=name, minimum=minimum, default=default, maximum=maximum))
    for number, (location, across, up) in enumerate(MASTERS):
        if all(name in [axis[1] for axis in AXES[:count]] for name in location):
            path = f"master{count}_{number}.otf"
            moved(folder, path, across, up)
            source = SourceDescriptor(path=str(folder / path), name=f"m{number}", familyName="M", styleName=f"m{number}")
            source.location = {name: location.get(name, default) for _, name, _, default, _ in AXES[:count]}
            document.addSource(source)
    document.write(folder / f"axes{count}.designspace")
    font, _, _ = varLib.build(str(folder / f"axes{count}.designspace"))
    font.save(folder / f"axes{count}.otf")
    return folder / f"axes{count}.otf"


def turned(program, regions):
    """Returns a program whose blends have their deltas in reverse order."""
    stack = []
    for word in program:
        if word == "blend":
            n = stack.pop()
            base = len(stack) - n * (regions + 1)
            deltas = [list(reversed(stack[base + n + i * regions:base + n + (i + 1) * regions])) for i in range(n)]
            stack = stack[:base + n] + sum(deltas, []) + [n, "blend"]
        else:
            stack.append(word)
    return stack


def mixed(path):
    """Makes the same font with subroutines, ten nested calls, vsindex, stems and masks."""
    font = TTFont(path)
    top = font["CFF2"].cff.topDictIndex[0]
    store = top.VarStore.otVarStore
    regions = store.VarData[0].VarRegionIndex
    data = otTables.VarData()
    data.VarRegionIndex, data.VarRegionCount, data.ItemCount, data.NumShorts, data.Item = list(reversed(regions)), len(regions), 0, 0, []
    store.VarData.append(data)
    store.VarDataCount = len(store.VarData)
    shared, private = font["CFF2"].cff.GlobalSubrs, top.FDArray[0].Private
    local = private.Subrs = SubrsIndex()
    subroutine = lambda program: T2CharString(program=program, private=private, globalSubrs=shared)
    for number, name in enumerate(font.getGlyphOrder()):
        string = top.CharStrings[name]
        string.decompile()
        program = list(string.program)
        at = len(program) * 2 // 3
        if number % 5 == 1 and at > 1:
            local.append(subroutine(program[at:]))
            shared.append(subroutine([len(local) - 108, "callsubr"]))
            program = program[:at] + [len(shared) - 108, "callgsubr"]
        elif number % 5 == 2 and at > 1 and "vsindex" not in program:
            program = [1, "vsindex"] + turned(program, len(regions))
        elif number % 5 == 3:
            deltas = [(number * 7 + j * 5) % 23 - 11 for j in range(2 * len(regions))]
            program = [40, 20] + deltas + [2, "blend", "hstemhm", 30.5, 10, 100, 9, "hintmask", bytes([0xA0])] + program
        elif number % 5 == 4 and at > 1 and len(shared) < 200:
            tail = program[at:]
            for depth in range(10):
                items, call = (local, "callsubr") if depth % 2 else (shared, "callgsubr")
                items.append(subroutine(tail))
                tail = [len(items) - 108, call]
            program = program[:at] + tail
        string.program, string.bytecode = program, None
    assert len(shared) < 1240 and len(local) < 1240
    top.VarStore.compile()
    font.save(path.with_name(f"mixed_{path.name}"))
    return path.with_name(f"mixed_{path.name}")


def files_in(folder, word):
    """Returns the fonts of a word: the file, or those of a package, which it downloads."""
    if pathlib.Path(word).is_file():
        return [pathlib.Path(word).resolve()]
    place = folder / word
    place.mkdir()
    building.printed("apt-get", "download", word, folder=place)
    building.printed("dpkg", "-x", next(place.glob("*.deb")), place / "files")
    return [path for path in sorted(place.rglob("*.otf")) if "CFF2" in TTFont(path, lazy=True).reader]
