#!/usr/bin/python3
"""Writes subsets of a small font with `seac` glyphs by `psotf subset`, and compares their glyphs with those of the font.

    (cd crates/psotf && rt run -- --help)
    /usr/bin/python3 tools/evidence/accented.py [PSOTF]

PSOTF is the program, by default crates/psotf/out/psotf or the one in the environment variable PSOTF. fontTools makes a font of nine
glyphs. Some end in `adx ady bchar achar endchar` (Technical Note 5177, Appendix C), one of them with an accent that is itself a `seac`
glyph. For each choice of up to three glyphs, `psotf subset --drop-layout` writes one file with new glyph IDs and one with `--retain-gids`. In each file,
the tables `CFF `, `hmtx` and `maxp` must have the right number of glyphs. fontTools and FreeType must draw each kept glyph as in the
source, with the same advance. Each character must map to the same glyph, and standard error must report each added glyph.

The script prints each file that differs, and then the number of files. Needs gcc and Debian's python3-fonttools and libfreetype-dev. The
exit status is 1 if a file differs.
"""

import itertools
import logging
import pathlib
import subprocess
import sys
import tempfile

sys.dont_write_bytecode = True
sys.path.insert(0, str(pathlib.Path(__file__).resolve().parents[1]))

from fontTools.fontBuilder import FontBuilder
from fontTools.misc.psCharStrings import T2CharString
from fontTools.pens.recordingPen import DecomposingRecordingPen
from fontTools.ttLib import TTFont

from building import PSOTF
from written import built, unlike


# Each glyph: its character, its advance, its charstring, and its components. `circumflex` is itself a `seac` glyph, so FreeType rejects
# `acircumflex`; fontTools draws it. No glyph has the codes 101 and 194, which `eacute` and `aacute` refer to.
GLYPHS = {
    ".notdef": (None, 500, [0, 0, "rmoveto", 400, "hlineto", 400, "vlineto", "endchar"], []),
    "agrave": (0xE0, 510, [10, "vmoveto", 20, 300, 97, 193, "endchar"], ["a", "grave"]),
    "grave": (0x60, 333, [30, 500, "rmoveto", 90, "hlineto", -40, -60, "rlineto", "endchar"], []),
    "a": (0x61, 511, [12, 0, "rmoveto", 200, "hlineto", 300, "vlineto", -90, 10, -20, 30, -40, 50, "rrcurveto", "endchar"], []),
    "b": (0x62, 512, [12, 7, "rmoveto", 180, "hlineto", 310, "vlineto", "endchar"], []),
    "circumflex": (0x2C6, 340, [5, 6, 193, 98, "endchar"], ["grave", "b"]),
    "acircumflex": (0xE2, 513, [40, 290, 97, 195, "endchar"], ["a", "circumflex"]),
    "eacute": (0xE9, 514, [40, 290, 101, 194, "endchar"], []),
    "aacute": (0xE1, 515, [40, 290, 97, 194, "endchar"], ["a"]),
}
NAMES = list(GLYPHS)


def source_at(path):
    """Writes the font to a path."""
    builder = FontBuilder(1000, isTTF=False)
    builder.setupGlyphOrder(NAMES)
    builder.setupCharacterMap({char: name for name, (char, *_) in GLYPHS.items() if char})
    builder.setupCFF("Accented", {}, {name: T2CharString(program=[advance, *code]) for name, (_, advance, code, _) in GLYPHS.items()}, {})
    builder.setupHorizontalMetrics({name: (advance, 0) for name, (_, advance, *_) in GLYPHS.items()})
    builder.setupHorizontalHeader(ascent=800, descent=-200)
    builder.setupNameTable({"familyName": "Accented", "styleName": "Regular"})
    builder.setupOS2()
    builder.setupPost()
    builder.save(path)


def closed(gids):
    """Returns these glyphs with all their components, and .notdef."""
    kept = {0, *gids}
    while more := {NAMES.index(other) for gid in kept for other in GLYPHS[NAMES[gid]][3]} - kept:
        kept |= more
    return sorted(kept)


def drawn(font, name):
    """Returns what fontTools draws for a glyph, or the type of its exception."""
    glyphs = font.getGlyphSet()
    pen = DecomposingRecordingPen(glyphs)
    try:
        glyphs[name].draw(pen)
    except (KeyError, AssertionError) as fault:
        return type(fault)
    return pen.value, glyphs[name].width


def faults(source, path, kept, own):
    """Returns what is wrong with a file whose glyphs should be these source glyphs, in order; None is an empty glyph."""
    file = TTFont(path, checkChecksums=2)
    order = file.getGlyphOrder()
    if not len(order) == file["maxp"].numGlyphs == len(file["hmtx"].metrics) == file["hhea"].numberOfHMetrics == len(kept):
        return ["tables of other numbers of glyphs"]
    told = [
        f"{name} is drawn otherwise"
        for name, new in zip(kept, order, strict=True)
        if name and (drawn(source, name) != drawn(file, new) or source["hmtx"][name] != file["hmtx"][new])
    ]
    wanted = {char: name for char, name in source.getBestCmap().items() if NAMES.index(name) in own}
    if {char: kept[file.getGlyphID(new)] for char, new in file.getBestCmap().items()} != wanted:
        told.append("other characters")
    return told


def tried(psotf, program, folder, gids, words):
    """Writes a subset with these glyphs, and returns what is wrong with it."""
    source, path = folder / "source.otf", folder / "subset.otf"
    done = subprocess.run([psotf, "subset", source, "--gids", ",".join(map(str, gids)), *words, "-o", path], capture_output=True, check=True)
    told = [line for line in done.stderr.decode().splitlines() if " is kept too: " in line]
    all_kept = closed(gids)
    extra = sorted(set(all_kept) - {0, *gids})
    kept = [NAMES[gid] if gid in all_kept else None for gid in range(len(NAMES))] if "--retain-gids" in words else [NAMES[gid] for gid in all_kept]
    wrong = faults(TTFont(source), path, kept, set(gids))
    if sorted(int(line.split()[2]) for line in told) != extra:
        wrong.append(f"standard error tells {told}")
    _, differ = unlike(program, source, path, [NAMES.index(name) if name else None for name in kept])
    if differ:
        wrong.append(f"{differ} glyphs differ for FreeType")
    return wrong


def main(words):
    # fontTools warns about each missing component; `drawn` returns that already
    logging.disable(logging.WARNING)
    psotf = words[0] if words else PSOTF
    files = differ = 0
    with tempfile.TemporaryDirectory() as name:
        folder = pathlib.Path(name)
        program = built(folder, "written_ft", "freetype2")
        source_at(folder / "source.otf")
        choices = [gids for many in (1, 2, 3) for gids in itertools.combinations(range(len(NAMES)), many)]
        for gids, retained in itertools.product(choices, (["--drop-layout"], ["--retain-gids", "--drop-layout"])):
            wrong = tried(psotf, program, folder, gids, retained)
            files += 1
            differ += bool(wrong)
            if wrong:
                print(*gids, *retained, *wrong, sep="; ", flush=True)
    print(f"{files} files, {differ} differ")
    return differ


if __name__ == "__main__":
    sys.exit(1 if main(sys.argv[1:]) else 0)
