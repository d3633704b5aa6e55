#!/usr/bin/python3
"""Compares `postscript_variation` with fontTools, FreeType and hb-shape on variable fonts, and with a second reader on random ones.

    tools/evidence/axes.py SEED COUNT [FONT..]

Without a FONT, the script takes Cantarell-VF.otf from Debian's package pango1.0-tests, unpacked in a temporary folder and not installed.
It also makes fonts with two, three and four axes, using fontTools and SEED. They have segment maps, regions that depend on several axes,
and an index map or none. The comparisons at the named instances of each font and at 40 random locations are:
- Axes and instances are compared with fontTools.
- Normalized coordinates after `avar` are compared in 16.16 with FreeType. In 2.14 they are compared with the specification's rule in
  integers, and with fontTools' floats.
- The deltas of each glyph and each metric are compared with fontTools' floats.
- The advance of each character is compared with hb-shape, and of each glyph with FreeType. Floats of fontTools also give both: at
  coordinates in 16.16, as in FreeType, and at coordinates rounded to 2.14 before `avar`, as in HarfBuzz 6.

Then it makes COUNT fonts with three axes from SEED, with only the tables `fvar`, `avar`, `HVAR` and `MVAR`. Some have axes out of order or
incomplete segment maps. They have delta-set index maps of each format, delta sets of bytes, words and long words, and out-of-range
indexes. At 60 locations of each, the program must print line by line the values of this script's reader, which uses integers. Each sum
must be within the law's bound of the exact sum.

The program is tools/programs/axes.rt.txt, proved in a copy with the crates' results in out/. Needs `rt` on the path, Debian's
python3-fonttools, hb-shape of libharfbuzz-bin (or the path in the environment variable HB_SHAPE), and libfreetype.so.6. The exit status is
1 if a line differs, or a metric by more than 0.01. It is also 1 if an advance is more than one unit off and those floats do not explain
it.
"""

import collections
import ctypes
import math
import os
import pathlib
import random
import subprocess
import sys
import tempfile
from fractions import Fraction

sys.dont_write_bytecode = True
sys.path.insert(0, str(pathlib.Path(__file__).resolve().parents[1]))

from fontTools.fontBuilder import FontBuilder
from fontTools.ttLib import TTFont, newTable
from fontTools.ttLib.tables import otTables
from fontTools.ttLib.tables._g_l_y_f import Glyph
from fontTools.varLib import builder
from fontTools.varLib.models import normalizeValue, piecewiseLinearMap
from fontTools.varLib.varStore import VarStoreInstancer

import building

USES = "postscript_variation postscript_sfnt postscript_base anyhow"
TAGS = ["hasc", "xhgt", "undo", "cpht", "stro"]
HB_SHAPE = os.environ.get("HB_SHAPE", "hb-shape")
FEATURES = "--features=" + ",".join(f"-{feature}" for feature in "kern calt ccmp liga locl mark mkmk".split())


def number_of(tag):
    return int.from_bytes(tag.encode(), "big")


def run(program, lines):
    """Returns the words of each line that the program prints for each input line."""
    done = subprocess.run([program], input="".join(f"{line}\n" for line in lines).encode(), stdout=subprocess.PIPE, check=True)
    answers = done.stdout.decode().split("font /")[1:]
    if len(answers) != len(lines):
        sys.exit(f"{len(answers)} answers to {len(lines)} lines")
    return [[line.split() for line in answer.splitlines()[1:]] for answer in answers]


# ---- the rules, in integers


def nearest(n, d):
    return (n + d // 2) // d


def normalized(axis, value):
    """Returns the normalized coordinate in 16.16, before `avar`."""
    minimum, default, maximum = axis
    if not minimum <= default <= maximum:
        return 0
    value = min(max(value, minimum), maximum)
    if value < default:
        return -nearest((default - value) * 65536, default - minimum)
    return nearest((value - default) * 65536, maximum - default) if value > default else 0


def first_from(entries, at):
    return next((i for i, (start, _) in enumerate(entries) if start >= at), len(entries))


def mapped(entries, at):
    """Applies a segment map with entries in 2.14 to a coordinate in 16.16."""
    entries = [(start * 4, to * 4) for start, to in entries]
    for end in (-65536, 0, 65536):
        i = first_from(entries, end)
        if i == len(entries) or entries[i] != (end, end):
            return at
    i = first_from(entries, at)
    if i == len(entries):
        return at
    start, to = entries[i]
    if start == at:
        return to
    if i == 0:
        return at
    before, left = entries[i - 1]
    return nearest((left + 131072) * (start - at) + (to + 131072) * (at - before), start - before) - 131072


def shortened(at):
    return (at + 2) >> 2


def axis_scalars(region, coordinates):
    """Yields the exact scalar of each axis that takes part."""
    for (start, peak, end), at in zip(region, coordinates):
        if not start <= peak <= end or start < 0 < end or peak == 0:
            continue
        if at < start or end < at:
            yield Fraction(0)
        elif at != peak:
            yield Fraction(at - start, peak - start) if at < peak else Fraction(end - at, end - peak)


def scalar(region, coordinates):
    """Returns the scalar in 16.16, rounded after each axis; the exact one; and the number of axes that rounded it."""
    rounded, exact, count = 65536, Fraction(1), 0
    for axis in axis_scalars(region, coordinates):
        rounded = nearest(rounded * axis.numerator, axis.denominator)
        exact *= axis
        count += axis.denominator != 1
    return rounded, exact, count


# ---- real fonts


def cantarell(folder):
    """Returns the font of Debian's package pango1.0-tests."""
    for command in (["apt-get", "update", "-qq"], ["apt-get", "download", "-qq", "-o", "APT::Sandbox::User=root", "pango1.0-tests"]):
        subprocess.run(command, cwd=folder, check=True)
    package = next(folder.glob("pango1.0-tests_*.deb"))
    subprocess.run(["dpkg-deb", "-x", package, folder / "root"], check=True)
    return next((folder / "root").rglob("Cantarell-VF.otf"))


class FreeType:
    """A font opened by FreeType."""

    def __init__(self, path, axes):
        self.library, self.axes, self.handle, self.face = ctypes.CDLL("libfreetype.so.6"), axes, ctypes.c_void_p(), ctypes.c_void_p()
        version = [ctypes.c_int() for _ in range(3)]
        self.call("FT_Init_FreeType", ctypes.byref(self.handle))
        self.library.FT_Library_Version(self.handle, *map(ctypes.byref, version))
        self.version = ".".join(str(part.value) for part in version)
        self.call("FT_New_Face", self.handle, str(path).encode(), ctypes.c_long(0), ctypes.byref(self.face))

    def call(self, name, *words):
        if getattr(self.library, name)(*words):
            sys.exit(f"{name} fails")

    def go_to(self, place):
        """Sets the location, and returns the coordinates after `avar`, in 16.16."""
        longs = ctypes.c_long * self.axes
        found = longs()
        self.call("FT_Set_Var_Design_Coordinates", self.face, self.axes, longs(*place))
        self.call("FT_Get_Var_Blend_Coordinates", self.face, self.axes, found)
        return list(found)

    def advance(self, glyph):
        found = ctypes.c_long()
        self.call("FT_Get_Advance", self.face, glyph, 1, ctypes.byref(found))
        return found.value


def fixed(value):
    return round(value * 65536)


def head_of(font):
    """Returns the lines of axes and instances that the program must print."""
    fvar = font["fvar"]
    lines = []
    for axis in fvar.axes:
        ends = [fixed(value) for value in (axis.minValue, axis.defaultValue, axis.maxValue)]
        lines.append(["axis", number_of(axis.axisTag), *ends, axis.flags, axis.axisNameID])
    for one in fvar.instances:
        named = [] if one.postscriptNameID == 0xFFFF else ["named", one.postscriptNameID]
        lines.append(["instance", one.subfamilyNameID, one.flags, *named, *[fixed(one.coordinates[axis.axisTag]) for axis in fvar.axes]])
    return [[str(word) for word in line] for line in lines]


def shaped(path, characters, axes, place):
    """Yields the glyph and the advance of each character that gives one glyph in hb-shape."""
    settings = ",".join(f"{axis.axisTag}={value / 65536!r}" for axis, value in zip(axes, place))
    with tempfile.NamedTemporaryFile("w", suffix=".txt", encoding="utf8") as text:
        text.write("".join(f"{chr(code)}\n" for code in characters))
        text.flush()
        words = ["--no-glyph-names", "--no-clusters", FEATURES, f"--variations={settings}", "--font-file", path, "--text-file", text.name]
        printed = subprocess.run([HB_SHAPE, *words], stdout=subprocess.PIPE, check=True).stdout.decode()
    for line in printed.splitlines():
        glyphs = line.strip("[]").split("|")
        if len(glyphs) == 1:
            glyph, advance = (int(part.split("@")[0]) for part in glyphs[0].split("+"))
            yield glyph, advance


def compare_place(path, font, freetype, place, answer, counts, worst):
    """Compares the output for one location, and returns the number of wrong lines."""
    wrong, fvar, order = 0, font["fvar"], font.getGlyphOrder()
    told = {(words[0], int(words[1])): words[2:] for words in answer if words[0] in ("at", "glyph", "metric")}
    longs, shorts = [], []
    for i, axis in enumerate(fvar.axes):
        ends = [fixed(value) for value in (axis.minValue, axis.defaultValue, axis.maxValue)]
        segments = font["avar"].segments.get(axis.axisTag, {}) if "avar" in font else {}
        long = mapped([(round(start * 16384), round(to * 16384)) for start, to in sorted(segments.items())], normalized(ends, place[i]))
        before, behind, short = (int(word) for word in told["at", i])
        wrong += (behind, short) != (long, shortened(long))
        plain = normalizeValue(place[i] / 65536, [end / 65536 for end in ends])
        worst["coordinate"] = max(worst["coordinate"], abs(piecewiseLinearMap(plain, segments) * 16384 - short))
        longs.append(behind)
        shorts.append(short)
    counts["coordinates"] += len(longs)
    counts["coordinates unlike FreeType's"] += sum(a != b for a, b in zip(longs, freetype.go_to(place)))
    location = {axis.axisTag: short / 16384 for axis, short in zip(fvar.axes, shorts)}
    by_store, by_longs, by_first = (deltas_at(font, coordinates) for coordinates in (
        [short / 16384 for short in shorts], [long / 65536 for long in longs], first_shortened(font, place)))
    advances = []
    for glyph, name in enumerate(order):
        total, whole = (int(word) for word in told["glyph", glyph])
        counts["sums"] += 1
        counts["sums unlike fontTools'"] += by_store(glyph) * 65536 != total
        worst["sum"] = max(worst["sum"], abs(by_store(glyph) - total / 65536))
        advances.append(font["hmtx"][name][0] + whole)
        wanted = freetype.advance(glyph)
        by_long = font["hmtx"][name][0] + math.floor(by_longs(glyph) + 0.5)
        counts["advances beside FreeType"] += 1
        counts["unlike FreeType's"] += advances[glyph] != wanted
        counts["unlike FreeType's at coordinates in 16.16"] += by_long != wanted
        wrong += min(abs(advances[glyph] - wanted), abs(by_long - wanted)) > 1
    for glyph, advance in shaped(path, characters_of(font), fvar.axes, place):
        by_short = font["hmtx"][order[glyph]][0] + away(by_first(glyph))
        counts["advances beside hb-shape"] += 1
        counts["unlike hb-shape's"] += advances[glyph] != advance
        counts["unlike hb-shape's at coordinates shortened first"] += by_short != advance
        wrong += min(abs(advances[glyph] - advance), abs(by_short - advance)) > 1
    return wrong + compare_metrics(font, location, told, counts)


def away(number):
    """Rounds to the nearest integer, halves away from 0."""
    return int(math.copysign(math.floor(abs(number) + 0.5), number))


def first_shortened(font, place):
    """Yields the coordinates when rounded to 2.14 before `avar`."""
    for axis, value in zip(font["fvar"].axes, place):
        plain = normalizeValue(value / 65536, (axis.minValue, axis.defaultValue, axis.maxValue))
        segments = font["avar"].segments.get(axis.axisTag, {}) if "avar" in font else {}
        yield away(piecewiseLinearMap(away(plain * 16384) / 16384, segments) * 16384) / 16384


def deltas_at(font, coordinates):
    """Returns a function for the delta of each glyph's advance at these coordinates, in fontTools' floats."""
    hvar, order, axes = font["HVAR"].table, font.getGlyphOrder(), font["fvar"].axes
    by_store = VarStoreInstancer(hvar.VarStore, axes, {axis.axisTag: at for axis, at in zip(axes, coordinates)})
    return lambda glyph: by_store[hvar.AdvWidthMap.mapping[order[glyph]] if hvar.AdvWidthMap else glyph]


def compare_metrics(font, location, told, counts):
    """Compares the metrics of TAGS with fontTools' floats."""
    if "MVAR" not in font:
        return 0
    mvar, wrong = font["MVAR"].table, 0
    by_store = VarStoreInstancer(mvar.VarStore, font["fvar"].axes, location)
    indexes = {record.ValueTag: record.VarIdx for record in mvar.ValueRecord}
    for tag in TAGS:
        found = told["metric", number_of(tag)]
        counts["metrics"] += 1
        if tag in indexes:
            wrong += found == ["none"] or abs(by_store[indexes[tag]] - int(found[0]) / 65536) > 0.01
        else:
            wrong += found != ["none"]
    return wrong


def characters_of(font):
    """Returns characters that give one glyph each in hb-shape."""
    left_out = {0xAD, *range(0x300, 0x370), *range(0x2000, 0x2070)}
    return [code for code in sorted(font.getBestCmap()) if code >= 0x21 and code not in left_out]


def compare(program, path, chance):
    font = TTFont(path)
    fvar, counts, worst = font["fvar"], collections.Counter(), collections.Counter()
    ends = [(fixed(axis.minValue), fixed(axis.maxValue)) for axis in fvar.axes]
    places = [[fixed(one.coordinates[axis.axisTag]) for axis in fvar.axes] for one in fvar.instances]
    places += [[chance.randint(low, high) for low, high in ends] for _ in range(40)]
    glyphs = len(font.getGlyphOrder())
    answers = run(program, [f"{glyphs} {' '.join(map(str, place))} {path}" for place in places])
    freetype, wrong = FreeType(path, len(ends)), 0
    for place, answer in zip(places, answers):
        wrong += answer[: len(head_of(font))] != head_of(font)
        wrong += compare_place(path, font, freetype, place, answer, counts, worst)
    told = ", ".join(f"{count} {word}" for word, count in counts.items())
    version = subprocess.run([HB_SHAPE, "--version"], stdout=subprocess.PIPE, check=True).stdout.decode().splitlines()[0]
    print(f"{pathlib.Path(path).name}, {len(places)} places, FreeType {freetype.version}, {version}: {told}")
    print(f"farthest from fontTools' floats: coordinates {worst['coordinate']:.3f} of 2^-14, sums {worst['sum']:.6f}; {wrong} wrong")
    return wrong


# ---- fonts of several axes


def support(chance, tags):
    """Returns a region that depends on some of the axes, on one side of 0 in each."""
    spans = {}
    for tag in chance.sample(tags, chance.randint(1, len(tags))):
        start, peak, end = sorted(chance.sample(range(2048, 16384, 2048), 3))
        side = chance.choice([1, -1])
        span = chance.choice([(0, 16384, 16384), (0, peak, 16384), (start, peak, end), (0, start, peak)])
        spans[tag] = tuple(sorted(side * at / 16384 for at in span))
    return spans


def with_variations(chance, builder_of_font, names, tags):
    """Adds the tables `avar` and `HVAR` to a font."""
    font = builder_of_font.font
    font["avar"] = avar = newTable("avar")
    for tag in tags:
        start, to = (chance.sample(range(2048, 16384, 1024), 2) for _ in range(2))
        inner = zip(sorted(at / 16384 for at in start), sorted(at / 16384 for at in to))
        avar.segments[tag] = {-1.0: -1.0, 0.0: 0.0, 1.0: 1.0, **dict(inner)}
    regions = builder.buildVarRegionList([support(chance, tags) for _ in range(12)], tags)
    data, indexes = [], []
    for outer in range(3):
        used = chance.sample(range(12), chance.randint(1, 6))
        limit = chance.choice([100, 300])
        sets = [[chance.randint(-limit, limit) for _ in used] for _ in range(len(names))]
        data.append(builder.buildVarData(used, sets, optimize=False))
        indexes += [outer << 16 | inner for inner in range(len(sets))]
    hvar = otTables.HVAR()
    hvar.Version, hvar.LsbMap, hvar.RsbMap = 0x00010000, None, None
    hvar.VarStore = builder.buildVarStore(regions, data)
    mapped_to = [chance.choice(indexes) for _ in names]
    hvar.AdvWidthMap = builder.buildVarIdxMap(mapped_to, names) if len(tags) != 3 else None
    font["HVAR"] = newTable("HVAR")
    font["HVAR"].table = hvar


def made(folder, chance, axes):
    """Makes a font of 60 glyphs with empty outlines."""
    names = [".notdef", *(f"g{i}" for i in range(1, 60))]
    tags = ["wght", "wdth", "slnt", "opsz"][:axes]
    font = FontBuilder(1000, isTTF=True)
    font.setupGlyphOrder(names)
    font.setupCharacterMap({0x4E00 + i: name for i, name in enumerate(names) if i})
    font.setupGlyf({name: Glyph() for name in names})
    font.setupHorizontalMetrics({name: (20000 + chance.randrange(9000), 0) for name in names})
    font.setupHorizontalHeader(ascent=800, descent=-200)
    font.setupNameTable({"familyName": "Made", "styleName": "Regular"})
    lines = [(tag, *(chance.randrange(-999, 0) / 7, 0, chance.randrange(1, 999) / 3), tag) for tag in tags]
    places = [{tag: chance.choice([low, default, high]) for tag, low, default, high, _ in lines} for _ in range(5)]
    font.setupFvar(lines, [{"location": place, "stylename": f"Style {i}"} for i, place in enumerate(places)])
    font.setupGvar({name: [] for name in names})
    with_variations(chance, font, names, tags)
    font.setupOS2()
    font.setupPost()
    path = folder / f"made{axes}.ttf"
    font.save(path)
    return path


# ---- random fonts


def be(number, size):
    return (number % (1 << (8 * size))).to_bytes(size, "big")


def words(*numbers):
    return b"".join(be(number, 2) for number in numbers)


def sfnt(tables):
    """Returns a file with these tables."""
    records, data, place = b"", b"", 12 + 16 * len(tables)
    for tag, table in sorted(tables.items()):
        records += tag.encode() + bytes(4) + be(place + len(data), 4) + be(len(table), 4)
        data += table + bytes(-len(table) % 4)
    return b"OTTO" + words(len(tables), 0, 0, 0) + records + data


def random_axes(chance):
    """Returns axes, the `fvar` table, and its expected lines."""
    axes = [sorted(chance.randrange(-(2**31), 2**31) for _ in range(3)) for _ in range(3)]
    chance.shuffle(axes[2])
    if chance.random() < 0.2:
        axes[0][0] = axes[0][1]
    size = chance.choice([16, 18, 20])
    table = words(1, 0, 16, 2, 3, 20, 2, size)
    lines = []
    for i, ends in enumerate(axes):
        tag = number_of("abc"[i] * 4)
        flags, name = chance.randrange(65536), chance.randrange(65536)
        table += be(tag, 4) + b"".join(be(end, 4) for end in ends) + words(flags, name)
        lines.append(["axis", tag, *ends, flags, name])
    for _ in range(2):
        name, flags, named = (chance.randrange(65536) for _ in range(3))
        at = [chance.randrange(-(2**31), 2**31) for _ in range(3)]
        table += words(name, flags) + b"".join(be(value, 4) for value in at) + words(named, 0)[: size - 16]
        lines.append(["instance", name, flags, *(["named", named] if size >= 18 else []), *at])
    return axes, table, lines


def random_maps(chance):
    """Returns segment maps, some with missing or unordered entries, and the `avar` table."""
    maps = []
    for _ in range(3):
        starts = sorted({-16384, 0, 16384, *(chance.randrange(-16383, 16384) for _ in range(chance.randrange(6)))})
        entries = [(start, start if start in (-16384, 0, 16384) else chance.randrange(-16384, 16385)) for start in starts]
        if chance.random() < 0.25:
            chance.shuffle(entries)
        if chance.random() < 0.25:
            entries = entries[1:]
        if chance.random() < 0.25:
            entries.insert(chance.randrange(len(entries) + 1), (chance.randrange(-32768, 32768), chance.randrange(-32768, 32768)))
        maps.append(entries)
    table = words(1, 0, 0, 3) + b"".join(words(len(entries)) + b"".join(words(*entry) for entry in entries) for entries in maps)
    return maps, table


def random_regions(chance):
    """Returns seven regions of three axes."""
    def span():
        kind = chance.randrange(4)
        if kind == 0:
            return (0, 0, 0)
        span = [chance.randrange(0, 16385) if kind != 2 else -chance.randrange(0, 16385) for _ in range(3)]
        return tuple(sorted(span) if kind != 3 else span)
    return [[span() for _ in range(3)] for _ in range(7)]


def random_store(chance):
    """Returns regions, item variation data (each as its region indexes and delta sets), and the store."""
    regions = random_regions(chance)
    region_list = words(3, len(regions)) + b"".join(words(*span) for region in regions for span in region)
    data, tables = [], []
    for _ in range(3):
        indexes = [chance.randrange(8) for _ in range(chance.randrange(6))]
        wide, long = chance.randrange(len(indexes) + 1), chance.choice([1, 2])
        sizes = [2 * long if j < wide else long for j in range(len(indexes))]
        sets = [[chance.randrange(-(2 ** (8 * size - 1)), 2 ** (8 * size - 1)) for size in sizes] for _ in range(chance.randrange(1, 9))]
        data.append((indexes, sets))
        tables.append(words(len(sets), wide | (long - 1) << 15, len(indexes), *indexes)
            + b"".join(be(delta, size) for one in sets for delta, size in zip(one, sizes)))
    place = 8 + 4 * len(tables)
    offsets = [place + len(region_list) + sum(map(len, tables[:i])) for i in range(len(tables))]
    head = be(1, 2) + be(place, 4) + words(len(tables)) + b"".join(be(offset, 4) for offset in offsets)
    return regions, data, head + region_list + b"".join(tables)


def random_index_map(chance):
    """Returns the outer and inner index of each of 20 glyphs, and the map, which may be missing or empty."""
    bits, size, form = chance.randrange(1, 17), chance.randrange(1, 5), chance.randrange(2)
    if chance.random() < 0.2:
        return [(0, glyph) for glyph in range(20)], b""
    count = chance.choice([0, 14, 14, 14])
    entries = [(chance.randrange(4) << bits | chance.randrange(min(1 << bits, 9))) % (1 << 8 * size) for _ in range(count)]
    table = bytes([form, (size - 1) << 4 | bits - 1]) + be(count, 2 + 2 * form) + b"".join(be(entry, size) for entry in entries)
    if not entries:
        return [(0, glyph) for glyph in range(20)], table
    used = [entries[min(glyph, count - 1)] for glyph in range(20)]
    return [(entry >> bits, entry & (1 << bits) - 1) for entry in used], table


def random_records(chance, store):
    """Returns the indexes of each tag, and the `MVAR` table."""
    size, count = chance.choice([8, 8, 10]), chance.randrange(7)
    records = [(chance.choice(TAGS), chance.randrange(4), chance.randrange(9)) for _ in range(count)]
    place = 0 if chance.random() < 0.1 else 12 + size * count
    table = words(1, 0, 0, size, count, place)
    table += b"".join(tag.encode() + words(outer, inner) + bytes(size - 8) for tag, outer, inner in records) + store
    indexes = {}
    for tag, outer, inner in records:
        indexes.setdefault(tag, (outer, inner) if place else (65535, 65535))
    return indexes, table


def line_of(word, number, regions, data, index, coordinates):
    """Returns the line of a delta set, and whether the sum is within the law's bound."""
    outer, inner = index
    if outer >= len(data) or inner >= len(data[outer][1]):
        return [word, number, "none"], True
    total, exact, bound = 0, Fraction(0), Fraction(0)
    for region, delta in zip(data[outer][0], data[outer][1][inner]):
        rounded, is_exactly, count = scalar(regions[region], coordinates) if region < len(regions) else (0, Fraction(0), 0)
        total += delta * rounded
        exact += delta * is_exactly * 65536
        bound += abs(delta) * Fraction(count, 2)
    return [word, number, total, (total + 32768) >> 16], abs(total - exact) <= bound


def compare_random(program, folder, chance, counts):
    """Makes a font, compares the output for it, and returns the number of wrong lines."""
    axes, fvar, head = random_axes(chance)
    maps, avar = random_maps(chance)
    regions, data, store = random_store(chance)
    glyphs, index_map = random_index_map(chance)
    records, mvar = random_records(chance, store)
    hvar = words(1, 0) + be(20, 4) + be(20 + len(store) if index_map else 0, 4) + bytes(8) + store + index_map
    path = folder / "random.otf"
    path.write_bytes(sfnt({"fvar": fvar, "avar": avar, "HVAR": hvar, "MVAR": mvar}))
    places = [[ends[i] for ends in axes] for i in range(3)] + [[-(2**31)] * 3, [2**31 - 1] * 3]
    places += [[chance.randrange(-(2**31), 2**31) for _ in range(3)] for _ in range(55)]
    answers, wrong = run(program, [f"20 {' '.join(map(str, place))} {path}" for place in places]), 0
    for place, answer in zip(places, answers):
        longs = [normalized(ends, value) for ends, value in zip(axes, place)]
        behind = [mapped(entries, long) for entries, long in zip(maps, longs)]
        coordinates = [shortened(long) for long in behind]
        lines = head + [["at", i, *all] for i, all in enumerate(zip(longs, behind, coordinates))]
        sums = [line_of("glyph", glyph, regions, data, index, coordinates) for glyph, index in enumerate(glyphs)]
        sums += [line_of("metric", number_of(tag), regions, data, records.get(tag, (65535, 0)), coordinates) for tag in TAGS]
        lines += [line for line, _ in sums]
        wanted = [[str(word) for word in line] for line in lines]
        wrong += sum(a != b for a, b in zip(wanted, answer)) + abs(len(wanted) - len(answer))
        counts["lines"] += len(wanted)
        counts["past the bound"] += sum(not is_near for _, is_near in sums)
    return wrong + counts["past the bound"]


def main(words_given):
    if len(words_given) < 2:
        sys.exit(__doc__)
    seed, count, *fonts = words_given
    chance = random.Random(int(seed))
    with tempfile.TemporaryDirectory() as name:
        folder = pathlib.Path(name)
        program = building.proved(folder, "axes", USES)
        fonts = [pathlib.Path(font).resolve() for font in fonts] or [cantarell(folder)]
        fonts += [made(folder, chance, axes) for axes in (2, 3, 4)]
        wrong = sum(compare(program, font, chance) for font in fonts)
        counts = collections.Counter()
        wrong_lines = sum(compare_random(program, folder, chance, counts) for _ in range(int(count)))
        print(f"random: {count} fonts from seed {seed}, {counts['lines']} lines, {counts['past the bound']} past the bound; {wrong_lines} wrong")
        return wrong + wrong_lines


if __name__ == "__main__":
    sys.exit(1 if main(sys.argv[1:]) else 0)
