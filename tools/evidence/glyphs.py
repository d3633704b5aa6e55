#!/usr/bin/env python3
"""Compares what psfont prints for the glyphs of real fonts with what fontTools makes of the same bytes.

    apt-get install -y python3-fonttools fonts-cantarell
    (cd crates/psfont && rt run < stdin)
    /usr/bin/python3 tools/evidence/glyphs.py fonts-cantarell

Each argument is a font file, a folder, or an installed Debian package; of the last two, the script takes each .otf file. For each font
with a `CFF ` table it sends every glyph to crates/psfont/out/psfont, with the commands `code`, `global`, `local`, `run` and `flat`. The
checks are:
- The run ends without an error, with the operators and operands that fontTools' decompiler meets, in the same order.
- The width, if any, is fontTools' width minus `nominalWidthX`. Without one, fontTools' width is `defaultWidthX`.
- The flattened charstring, drawn by fontTools without subroutines, has the outline and the width of the glyph drawn with them.

fontTools does not run `drop`, so this script adds it. A glyph with another operator that fontTools does not run is counted as left out.
The exit status is 1 if a glyph differs, or if there are no glyphs.
"""

import collections
import pathlib
import subprocess
import sys
import tempfile

sys.dont_write_bytecode = True
sys.path.insert(0, str(pathlib.Path(__file__).resolve().parents[1]))

from fontTools.misc.psCharStrings import T2CharString, T2OutlineExtractor, T2WidthExtractor
from fontTools.pens.recordingPen import RecordingPen
from fontTools.ttLib import TTFont

from building import PSFONT
from font_files import files_of

DRAWING = """rlineto hlineto vlineto rrcurveto rcurveline rlinecurve vvcurveto hhcurveto vhcurveto hvcurveto
    hflex flex hflex1 flex1""".split()

# A glyph's name, its charstring, the subroutines that it may call, and its nominal and default width.
Glyph = collections.namedtuple("Glyph", "name code globals locals nominal default")
# psfont's answer: the operations, the line after them, the width, and the flattened charstring.
Answer = collections.namedtuple("Answer", "operations end width flat")


class Meeting(T2WidthExtractor):
    """Keeps the operators that it meets, in lower case, with their operands except the width."""

    def __init__(self, *args):
        self.met = []
        super().__init__(*args)

    def meet(self, name, operands):
        self.met.append((name, operands))

    def op_rmoveto(self, index):
        self.meet("rmoveto", self.popallWidth())

    def op_hmoveto(self, index):
        self.meet("hmoveto", self.popallWidth(1))

    def op_vmoveto(self, index):
        self.meet("vmoveto", self.popallWidth(1))

    def stems(self, name):
        operands = self.popallWidth()
        self.hintCount += len(operands) // 2
        self.meet(name, operands)

    def op_hstem(self, index):
        self.stems("hstem")

    def op_vstem(self, index):
        self.stems("vstem")

    def op_hstemhm(self, index):
        self.stems("hstemhm")

    def op_vstemhm(self, index):
        self.stems("vstemhm")

    def op_hintmask(self, index):
        self.meet("hintmask", [])
        return super().op_hintmask(index)

    def op_cntrmask(self, index):
        self.meet("cntrmask", [])
        return super().op_hintmask(index)


def drawing(name):
    """Returns the method for a drawing operator."""
    return lambda self, index: self.meet(name, self.popall())


for operator in DRAWING:
    setattr(Meeting, "op_" + operator, drawing(operator))


class Drawing(T2OutlineExtractor):
    """Draws outlines, and supports `drop`."""

    def op_drop(self, index):
        self.pop()


def charstrings(codes):
    """Returns new charstrings, since fontTools replaces the bytes by what it reads."""
    return [T2CharString(bytecode=code) for code in codes]


def met(glyph, routines):
    """Returns the operators that fontTools meets, and the width."""
    meeting = Meeting(routines.locals, routines.globals, glyph.nominal, glyph.default)
    meeting.execute(T2CharString(bytecode=glyph.code))
    return meeting.met, meeting.width


def drawn(glyph, code, local, other):
    """Returns the outline and the width that fontTools draws."""
    pen = RecordingPen()
    extractor = Drawing(pen, local, other, glyph.nominal, glyph.default)
    extractor.execute(T2CharString(bytecode=code))
    return pen.value, extractor.width


def glyphs_of(path):
    """Returns the glyphs of a font file, or none if it has no `CFF ` table."""
    font = TTFont(path, lazy=True)
    if "CFF " not in font:
        return []
    cff = font["CFF "].cff
    top = cff.topDictIndex[0]
    other = [cff.GlobalSubrs[i].bytecode for i in range(len(cff.GlobalSubrs))]
    locals_of = {}
    glyphs = []
    for name in font.getGlyphOrder():
        glyph = top.CharStrings[name]
        private = glyph.private
        if id(private) not in locals_of:
            subrs = getattr(private, "Subrs", [])
            locals_of[id(private)] = [subrs[i].bytecode for i in range(len(subrs))]
        glyphs.append(Glyph(
            name, glyph.bytecode, other, locals_of[id(private)], private.nominalWidthX, private.defaultWidthX,
        ))
    return glyphs


def write_lines(glyphs, lines):
    for glyph in glyphs:
        lines.write(f"code {glyph.code.hex()}\n".encode())
        for word, routines in (("global", glyph.globals), ("local", glyph.locals)):
            for routine in routines:
                lines.write(f"{word} {routine.hex()}\n".encode())
        lines.write(b"run\nflat\n")


def number_of(text):
    """Returns the bits of an operand."""
    bits, slash, _ = text.partition("/")
    return int(bits) if slash else int(bits) * 65536


def read_answer(lines, loads):
    """Reads the answers for a glyph whose charstring and subroutines take `loads` lines."""
    for _ in range(loads):
        if next(lines) != "ok":
            raise ValueError("a line was not loaded")
    operations = []
    for line in lines:
        words = line.split()
        if words[0] in ("end", "fault"):
            break
        operations.append((words[0].lower(), [number_of(word) for word in words[1:]]))
    width = next(lines).split()[1]
    flat = next(lines).split()
    return Answer(
        operations, line, None if width == "none" else number_of(width),
        bytes.fromhex("".join(flat[1:])) if flat[0] == "flat" else None,
    )


def answers_of(glyphs):
    """Returns psfont's answers for the glyphs."""
    with tempfile.TemporaryFile() as lines, tempfile.TemporaryFile() as output:
        write_lines(glyphs, lines)
        lines.seek(0)
        subprocess.run([PSFONT], stdin=lines, stdout=output, check=True)
        output.seek(0)
        told = iter(output.read().decode().splitlines())
    answers = [read_answer(told, 1 + len(glyph.globals) + len(glyph.locals)) for glyph in glyphs]
    if next(told, None) is not None:
        raise ValueError("psfont answered more than it was asked")
    return answers


def bits_of(operands):
    return [operand * 65536 for operand in operands]


def difference(glyph, answer, routines):
    """Returns how an answer differs, or None."""
    operations, width = met(glyph, routines)
    if answer.end != "end":
        return answer.end
    if answer.operations != [(name, bits_of(operands)) for name, operands in operations]:
        return "operations"
    if (glyph.default if answer.width is None else glyph.nominal + answer.width / 65536) != width:
        return "width"
    if answer.flat is None:
        return "no flat code"
    if drawn(glyph, answer.flat, [], []) != drawn(glyph, glyph.code, routines.locals, routines.globals):
        return "outline of the flat code"
    return None


def compare(path, counts):
    """Compares the glyphs of a font."""
    glyphs = glyphs_of(path)
    if not glyphs:
        print(f"{path}: no table CFF")
        return
    routines = {}
    differing, left_out = [], []
    for glyph, answer in zip(glyphs, answers_of(glyphs)):
        lists = routines.setdefault(
            id(glyph.locals),
            glyph._replace(globals=charstrings(glyph.globals), locals=charstrings(glyph.locals)),
        )
        try:
            found = difference(glyph, answer, lists)
        except NotImplementedError:
            left_out.append(glyph.name)
            continue
        if found is not None:
            differing.append(f"{glyph.name} ({found})")
        counts.update(name for name, _ in answer.operations)
    print(f"{path}: {len(glyphs)} glyphs, {len(left_out)} left out, {len(differing)} differ", *differing, flush=True)
    counts["fonts"] += 1
    counts["glyphs"] += len(glyphs)
    counts["left out"] += len(left_out)
    counts["differ"] += len(differing)


def main(words):
    if not words:
        sys.exit(__doc__)
    counts = collections.Counter()
    for word in words:
        for path in files_of(word):
            compare(path, counts)
    totals = {name: counts.pop(name, 0) for name in ("fonts", "glyphs", "left out", "differ")}
    print("operations:", ", ".join(f"{name} {count}" for name, count in sorted(counts.items())))
    print("all:", ", ".join(f"{count} {name}" for name, count in totals.items()))
    return 1 if totals["differ"] or not totals["glyphs"] else 0


if __name__ == "__main__":
    sys.exit(main(sys.argv[1:]))
