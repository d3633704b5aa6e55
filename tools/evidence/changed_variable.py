#!/usr/bin/python3
"""Changes tables of variable fonts in memory, draws glyphs of each changed font, and compares them with FreeType.

    tools/evidence/changed_variable.py SEED CASES WORD..

Each WORD is an OpenType file with a `CFF2` table, or a Debian package; the script downloads the package (without installing it) and takes
each such file. pango1.0-tests has Cantarell-VF.otf. It adds the four fonts that tools/variable_fonts.py makes from EB Garamond, with two
and three axes. Each gets its own `avar` and `HVAR` tables. Each of the CASES changes one to sixteen bytes, at random from SEED. Half of
them are in the charstring of a glyph, a quarter in the `CFF2` table, an eighth in its first 200 bytes, and an eighth in `fvar`, `avar` or
`HVAR`.

One process (tools/programs/changed_variable.rt.txt, proved in a copy, or the program in the environment variable PROGRAM) reads each table
and draws two glyphs at a random location, within a limit. Another (tools/programs/changed_variable.c) loads them from memory with
FreeType. The script looks for a reason of each difference. For a glyph, it is what the small reader in this file finds in the changed
table at that glyph. For a coordinate or an advance, it is the FreeType behaviour with which tools/evidence/other_tables.py computes
FreeType's value. The exit status is 1 if either process ends with another status than 0. It is also 1 if there is no reason for another
outline of a glyph that both draw, a coordinate more than 2^-14 away, or another advance.

Needs `rt` and `gcc` on the path and Debian's python3-fonttools and libfreetype-dev.
"""

import collections
import os
import pathlib
import random
import subprocess
import sys
import tempfile
import types

sys.dont_write_bytecode = True
sys.path.insert(0, str(pathlib.Path(__file__).resolve().parents[1]))

from fontTools.ttLib import TTFont

import axes
import building
import other_tables
import variable
import variable_fonts

USES = variable.USES
FACE_REFUSED, OTHERWISE, THERE_REFUSED, HERE_REFUSED, COORDINATE, BY_ONE, ADVANCE = 3, 6, 7, 8, 18, 20, 21
EXPLAINED = {OTHERWISE, COORDINATE, BY_ONE, ADVANCE}
NONE = "none of these"
SAID = {FACE_REFUSED: "drawn here, the face refused by FreeType", OTHERWISE: "drawn otherwise", THERE_REFUSED: "drawn here, refused by FreeType",
        HERE_REFUSED: "refused here, drawn by FreeType", COORDINATE: "another coordinate", BY_ONE: "an advance one unit away", ADVANCE: "another advance"}

# oddities of an execution; the first one that applies is the reason
ORDER = ["an operator with more operands than it takes", "stems behind a mask or a path", "more than 96 stems", "vsindex behind a blend or an operator",
         "a blend of no operands"]


def taken(op, n):
    """Returns how many of n operands an operator takes, or None if it accepts no such count."""
    if op in (4, 22):
        return 1 if n >= 1 else None
    if op == 21:
        return 2 if n >= 2 else None
    if op in (1, 3, 18, 23):
        return n - n % 2 if n >= 2 else None
    if op in (19, 20):
        return n - n % 2
    if op == 5:
        return n - n % 2 if n >= 2 else None
    if op in (6, 7):
        return n if n >= 1 else None
    if op == 8:
        return n - n % 6 if n >= 6 else None
    if op == 24:
        return n - (n - 2) % 6 if n >= 8 else None
    if op == 25:
        return n - n % 2 if n >= 8 else None
    if op in (26, 27):
        return n if n >= 4 and n % 4 in (0, 1) else (n - n % 4 + 1 if n >= 5 else None)
    if op in (30, 31):
        return n if n >= 4 and n % 4 in (0, 1) else (n - n % 4 + 1 if n >= 5 else None)
    return {0xC22: 7, 0xC23: 13, 0xC24: 9, 0xC25: 11}[op] if n >= {0xC22: 7, 0xC23: 13, 0xC24: 9, 0xC25: 11}[op] else None


class Odd(Exception):
    """Why reading stops."""


class Table:
    """A `CFF2` table, read as far as possible."""

    def __init__(self, data):
        self.data = data
        self.parts = []
        head, top = data[2], int.from_bytes(data[3:5], "big")
        self.note("the header and the Top DICT", 0, head + top)
        entries = self.dictionary(head, head + top)
        self.shared, behind = self.index("global subroutines", head + top)
        self.glyphs, _ = self.index("char strings", self.one(entries, 17))
        fonts, _ = self.index("Font DICTs", self.one(entries, 0xC24))
        self.regions = self.store(self.one(entries, 24)) if 24 in entries else []
        self.local, self.first = [], 0
        if fonts:
            private = self.dictionary(*fonts[0]).get(18, [0, 0])
            size, place = private[-2], private[-1]
            self.note("a Private DICT", place, place + size)
            held = self.dictionary(place, place + size)
            self.first = held.get(22, [0])[-1]
            if 19 in held:
                self.local, _ = self.index("local subroutines", place + held[19][-1])

    def note(self, name, start, end):
        self.parts.append((start, end, name))

    def one(self, entries, op):
        if not entries.get(op):
            raise Odd("a DICT that names less")
        return entries[op][-1]

    def number(self, place, size):
        if place < 0 or place + size > len(self.data):
            raise Odd("a place past the table")
        return int.from_bytes(self.data[place:place + size], "big")

    def index(self, name, place):
        count = self.number(place, 4)
        if count == 0:
            return [], place + 4
        size = self.number(place + 4, 1)
        if not 1 <= size <= 4 or (count + 1) * size > len(self.data):
            raise Odd("an INDEX that does not stand")
        start = place + 5
        at = start + (count + 1) * size - 1
        self.note(f"the offsets of {name}", place, at + 1)
        ends = [at + self.number(start + i * size, size) for i in range(count + 1)]
        self.note(name, at + 1, ends[-1])
        return list(zip(ends, ends[1:])), ends[-1]

    def dictionary(self, place, end):
        entries, stack = {}, []
        while place < end:
            b = self.number(place, 1)
            place += 1
            if b <= 27:
                if b == 12:
                    b = 0xC00 + self.number(place, 1)
                    place += 1
                entries[b], stack = stack, []
            elif b == 28:
                stack.append(int.from_bytes(self.data[place:place + 2], "big", signed=True))
                place += 2
            elif b == 29:
                stack.append(int.from_bytes(self.data[place:place + 4], "big", signed=True))
                place += 4
            elif b == 30:
                while place < end and self.data[place] & 15 != 15 and self.data[place] >> 4 != 15:
                    place += 1
                place += 1
                stack.append(0)
            elif b >= 247:
                stack.append(0 if b == 255 else ((b - 247) * 256 + self.number(place, 1) + 108) * 1 if b < 251 else -(b - 251) * 256 - self.number(place, 1) - 108)
                place += 1
            elif b >= 32:
                stack.append(b - 139)
        return entries

    def store(self, place):
        length = self.number(place, 2)
        self.note("the variation store", place, place + 2 + length)
        place += 2
        return [self.number(place + self.number(place + 8 + 4 * i, 4) + 4, 2) for i in range(self.number(place + 6, 2))]

    def part(self, place):
        """Returns the name of the part at an offset; the offsets of an INDEX win over other parts."""
        found = [name for start, end, name in self.parts if start <= place < end]
        return min(found, key=lambda name: not name.startswith("the offsets")) if found else "bytes that no part names"


class Run:
    """The execution of a glyph: only operators and operands; a blend leaves its default values."""

    def __init__(self, table):
        self.table, self.stack, self.stems, self.odd, self.x, self.steps = table, [], 0, [], [0, 0], 0
        self.regions = table.regions[table.first] if table.first < len(table.regions) else None
        self.drawn = self.masked = False

    def say(self, what):
        if what not in self.odd:
            self.odd.append(what)
            self.odd.sort(key=ORDER.index)

    def clear(self, op):
        n = taken(op, len(self.stack))
        if n is None:
            raise Odd("an operator with other counts of operands than it takes")
        if n < len(self.stack):
            self.say("an operator with more operands than it takes")
        self.stack.clear()

    def run(self, code, depth=0):
        data, (place, end) = self.table.data, code
        if depth > 10:
            raise Odd("more than ten nested calls")
        if place > end or end > len(data):
            raise Odd("offsets of an INDEX that are out of order or past the table")
        while place < end:
            self.steps += 1
            if self.steps > 200000:
                raise Odd("a run of more than 200,000 steps")
            b = data[place]
            place += 1
            if b >= 32 or b == 28:
                size = 2 if b == 28 else 0 if b < 247 else 1 if b < 255 else 4
                if place + size > end:
                    raise Odd("a number that is cut")
                more = data[place:place + size]
                place += size
                self.stack.append(int.from_bytes(more, "big", signed=True) if b == 28 else b - 139 if b < 247 else (b - 247) * 256 + more[0] + 108 if b < 251
                                  else -(b - 251) * 256 - more[0] - 108 if b < 255 else int.from_bytes(more, "big", signed=True) / 65536)
                if len(self.stack) > 513:
                    raise Odd("more than 513 operands")
                continue
            if b == 12:
                if place >= end:
                    raise Odd("an operator that is cut")
                b = 0xC00 + data[place]
                place += 1
            if b in (10, 29):
                routines = self.table.local if b == 10 else self.table.shared
                number = self.whole() + (107 if len(routines) < 1240 else 1131 if len(routines) < 33900 else 32768)
                if not 0 <= number < len(routines):
                    raise Odd("a subroutine that is not there")
                self.run(routines[number], depth + 1)
            elif b == 15:
                index = self.whole()
                if self.drawn:
                    self.say("vsindex behind a blend or an operator")
                if not 0 <= index < len(self.table.regions):
                    raise Odd("vsindex of data that are not there")
                if self.stack:
                    self.say("an operator with more operands than it takes")
                self.stack.clear()
                self.regions = self.table.regions[index]
            elif b == 16:
                if self.regions is None:
                    raise Odd("a blend without data")
                n = self.whole()
                self.drawn = True
                if n < 0 or len(self.stack) < n * (self.regions + 1):
                    raise Odd("a blend of more operands than there are")
                if n:
                    del self.stack[len(self.stack) - n * self.regions:]
                else:
                    self.say("a blend of no operands")
            elif b in (19, 20):
                if len(self.stack) % 2:
                    self.say("an operator with more operands than it takes")
                if len(self.stack) > 1 and self.masked:
                    self.say("stems behind a mask or a path")
                self.masked = True
                self.stems += len(self.stack) // 2
                self.stack.clear()
                place += (self.stems + 7) // 8
                if place > end:
                    raise Odd("a mask that is cut")
            elif b in (1, 3, 18, 23):
                if self.masked:
                    self.say("stems behind a mask or a path")
                self.stems += len(self.stack) // 2
                self.clear(b)
            elif b in (4, 5, 6, 7, 8, 21, 22, 24, 25, 26, 27, 30, 31, 0xC22, 0xC23, 0xC24, 0xC25):
                self.clear(b)
                self.drawn = self.masked = True
            else:
                raise Odd("an operator that CFF2 has not")
            if self.stems > 96:
                self.say("more than 96 stems")

    def whole(self):
        if not self.stack or self.stack[-1] != int(self.stack[-1]):
            raise Odd("no whole number on top")
        return int(self.stack.pop())


def reason(font, spans, line):
    """Returns the reason of a differing glyph, coordinate or advance, which its line describes."""
    told, at, answers = line.split("|")
    _, kind, glyph, number, *changes = told.split()
    if int(kind) == HERE_REFUSED:
        why = answers.strip()
        return "there is no such glyph" if why.startswith("there is no glyph") else why
    data = bytearray(font)
    places = list(map(int, changes[::2]))
    for place, value in zip(places, changes[1::2]):
        data[place] = int(value)
    if int(kind) in (COORDINATE, BY_ONE, ADVANCE):
        why = other_tables.why_coordinate if int(kind) == COORDINATE else other_tables.why_advance
        return why(data, spans, int(glyph), list(map(int, at.split())), list(map(int, answers.split()))) or NONE
    return outline_reason(data, spans[b"CFF2"], int(glyph), places)


def outline_reason(data, span, glyph, places):
    """Returns the reason of a differing outline."""
    own = bytes(data[span[0]:span[0] + span[1]])
    try:
        table = Table(own)
    except Odd as why:
        return f"{why}"
    except IndexError:
        return "a DICT that names less"
    where = {table.part(place - span[0]) for place in places}
    offsets = sorted(name for name in where if name.startswith("the offsets"))
    if offsets:
        return f"bytes changed in {offsets[0]}"
    run = Run(table)
    try:
        if glyph >= len(table.glyphs):
            return "no such glyph"
        run.run(table.glyphs[glyph])
    except Odd as why:
        return f"{why}"
    for name in sorted(where):
        if name in ("the header and the Top DICT", "a Private DICT", "the variation store", "Font DICTs"):
            return f"bytes changed in {name}" if not run.odd else run.odd[0]
    return run.odd[0] if run.odd else NONE


def spans_of(font):
    """Returns the offset and the length of each table of a file."""
    records = [font[12 + 16 * i:28 + 16 * i] for i in range(int.from_bytes(font[4:6], "big"))]
    return {bytes(record[:4]): (int.from_bytes(record[8:12], "big"), int.from_bytes(record[12:], "big")) for record in records}


def with_variations(path):
    """Returns the same font with a segment map for each axis and with varying advances."""
    font = TTFont(path)
    tags = [axis.axisTag for axis in font["fvar"].axes]
    axes.with_variations(random.Random(path.name), types.SimpleNamespace(font=font), font.getGlyphOrder(), tags)
    font.save(path.with_name(f"varied_{path.name}"))
    return path.with_name(f"varied_{path.name}")


def main():
    seed, cases, *words = sys.argv[1:]
    print(f"seed {seed}")
    with tempfile.TemporaryDirectory() as name:
        folder = pathlib.Path(name)
        (folder / "fonts").mkdir()
        fonts = [path for word in words for path in variable_fonts.files_in(folder, word)]
        for count in (2, 3):
            made = variable_fonts.variable(folder / "fonts", count)
            fonts += [with_variations(made), with_variations(variable_fonts.mixed(made))]
        program = os.environ.get("PROGRAM") or building.proved(folder / "program", "changed_variable", USES)
        flags = building.printed("pkg-config", "--cflags", "--libs", "freetype2").split()
        building.printed("gcc", "-O2", building.PROGRAMS / "changed_variable.c", "-o", folder / "freetype", *flags)
        with open(folder / "unlike", "w", encoding="utf-8") as unlike:
            ours = subprocess.Popen([program, seed, cases, *fonts], stdout=subprocess.PIPE)
            theirs = subprocess.run([folder / "freetype", *fonts], stdin=ours.stdout, stdout=subprocess.PIPE, stderr=unlike, text=True, check=False)
            ours.stdout.close()
        status = ours.wait()
        print(theirs.stdout.replace(", ", "\n"), end="")
        if status or theirs.returncode:
            sys.exit(f"the program ended with status {status}, that of FreeType with {theirs.returncode}")
        data = [path.read_bytes() for path in fonts]
        spans = [spans_of(font) for font in data]
        counts = collections.Counter()
        for line in open(folder / "unlike", encoding="utf-8"):
            number = int(line.split()[3])
            kind = int(line.split()[1])
            why = reason(data[number], spans[number], line)
            counts[kind, why] += 1
            if os.environ.get("SHOW") == why:
                print(line.strip())
        for (kind, why), count in sorted(counts.items(), key=lambda item: (item[0][0], -item[1])):
            print(f"{SAID[kind]}: {count}: {why}")
        unexplained = sum(count for (kind, why), count in counts.items() if why == NONE and kind in EXPLAINED)
        print(f"{unexplained} outlines, coordinates and advances that are otherwise for no reason")
    sys.exit(unexplained > 0)


if __name__ == "__main__":
    main()
