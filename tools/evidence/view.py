#!/usr/bin/python3
"""Compares `postscript_view` with fontTools on font files, and with a second reader on fonts with changed bytes.

    tools/evidence/view.py SEED COUNT WORD..

Each WORD is a font file, a folder, or an installed Debian package; of the last two, the script takes each .otf and .ttc file with a `CFF `
table. For a collection it takes the first face. These must be equal: whether it is CID-keyed, its FontBBox, the glyph of each code, and
for each glyph the name or CID, the Font DICT, the matrix and the advance. The first glyph with each name or CID is looked up.

If all are equal, COUNT tables get bytes changed at random from SEED. The tables are those under 60,000 bytes and small made-up ones. The
program must print the lines of tools/evidence/second_view.py and end with status 0.

Needs `rt` on the path and Debian's python3-fonttools. The program is tools/programs/view.rt.txt, proved in a copy with the crates' results
in out/. The exit status is 1 if anything differs.
"""

import collections
import pathlib
import random
import subprocess
import sys
import tempfile
from fractions import Fraction

sys.dont_write_bytecode = True
sys.path.insert(0, str(pathlib.Path(__file__).resolve().parents[1]))

from fontTools.misc.psCharStrings import T2WidthExtractor
from fontTools.ttLib import TTFont

import building
from font_files import files_of
from second_view import lines_of

USES = "postscript_view postscript_sfnt postscript_base postscript_type2 postscript_compact1 anyhow"
DEFAULT_MATRIX = [Fraction(1, 1000), 0, 0, Fraction(1, 1000), 0, 0]
BATCH = 100


def open_font(path):
    """Returns the first face of a file if it has a `CFF ` table."""
    font = TTFont(path, lazy=True, fontNumber=0)
    return font if "CFF " in font.reader else None


def exact(number):
    """Returns a number of a DICT exactly as written."""
    return Fraction(repr(number)) if isinstance(number, float) else Fraction(number)


def width_of(char_string, private):
    """Returns the width: `nominalWidthX` plus the operand that fontTools reads, with its quotients truncated to 16.16; or
    `defaultWidthX` if there is no operand."""
    extractor = T2WidthExtractor(getattr(private, "Subrs", []), char_string.globalSubrs, 0, "default")
    extractor.width = "default"
    extractor.execute(char_string)
    if extractor.width == "default":
        return exact(private.defaultWidthX)
    return exact(private.nominalWidthX) + Fraction(int(Fraction(extractor.width) * 65536), 65536)


def matrix_of(dictionary):
    return [exact(number) for number in dictionary.rawDict["FontMatrix"]] if "FontMatrix" in dictionary.rawDict else DEFAULT_MATRIX


def codes_of(top, names):
    """Returns the glyph of each code."""
    encoding = top.Encoding
    if isinstance(encoding, str):
        from fontTools import cffLib
        from fontTools.encodings.StandardEncoding import StandardEncoding

        encoding = {"StandardEncoding": StandardEncoding, "ExpertEncoding": getattr(cffLib, "ExpertEncoding", None)}[encoding]
    places = {name: place for place, name in reversed(list(enumerate(names)))}
    return {code: places[name] for code, name in enumerate(encoding) if name != ".notdef" and name in places}


def plain_name(name, names):
    """Returns a name as it is in the font: fontTools appends `#` and a number to repeated names."""
    plain, mark, number = name.rpartition("#")
    return plain if mark and number.isdigit() and plain in names else name


def facts_of(font):
    """Returns what fontTools reads from a font."""
    top = font["CFF "].cff.topDictIndex[0]
    keyed = hasattr(top, "ROS")
    names = top.charset
    strings = top.CharStrings
    facts = {
        "keyed": (keyed, len(names)),
        "box": [exact(number) for number in top.rawDict.get("FontBBox", [0, 0, 0, 0])],
    }
    if not keyed:
        facts["codes"] = codes_of(top, names)
    seen, standing = {}, set(names)
    for glyph, name in enumerate(names):
        index = strings.charStrings[name] if strings.charStringsAreIndexed else glyph
        char_string, part = strings.charStringsIndex.getItemAndSelector(index)
        dictionary = top.FDArray[part] if keyed else top
        called = (int(name[3:]) if name != ".notdef" else 0) if keyed else plain_name(name, standing).encode("latin-1")
        seen.setdefault(called, glyph)
        facts["glyph", glyph] = (called, seen[called], part if keyed else 0, width_of(char_string, dictionary.Private), matrix_of(dictionary))
    return facts


def decimals(words, word):
    """Returns the decimal after each occurrence of a word."""
    return [Fraction(int(words[i + 1])) * Fraction(10) ** int(words[i + 2]) for i, found in enumerate(words) if found == word]


def advance_of(words):
    if "default" in words:
        return decimals(words, "default")[0]
    if "nominal" in words:
        return decimals(words, "nominal")[0] + Fraction(words[words.index("difference") + 1])
    return None


def answer_of(line):
    """Returns a line of the program as one or more facts."""
    word, *words = line.split()
    if word == "keyed":
        return {"keyed": (words[0] == "true", int(words[2])), "box": decimals(words, "b")}
    if word == "codes":
        return {"codes": {int(code): int(glyph) for code, glyph in (pair.split(":") for pair in words)}}
    if word == "glyph":
        called = int(words[words.index("cid") + 1]) if "cid" in words else bytes.fromhex(words[words.index("name") + 1]) if "name" in words else None
        first = int(words[words.index("first") + 1]) if "first" in words else None
        part = int(words[words.index("part") + 1]) if "part" in words else None
        return {("glyph", int(words[0])): (called, first, part, advance_of(words), decimals(words, "m"))}
    return {word: words}


def run(program, paths, *more):
    given = "".join(f"{path}\n" for path in paths).encode()
    return subprocess.run([program, *more], input=given, stdout=subprocess.PIPE, check=False)


def compare_file(program, path, font, counts):
    """Compares a font, and returns the number of differences."""
    done = run(program, [path])
    lines = done.stdout.decode().splitlines()
    differ = int(done.returncode != 0 or lines[:1] != [f"font {path}"])
    found = {}
    for line in lines[1:]:
        found.update(answer_of(line))
    wanted = facts_of(font)
    if wanted["keyed"][0]:
        found.pop("codes", None)
    for fact in wanted.keys() | found.keys():
        if wanted.get(fact) != found.get(fact):
            differ += 1
            print(f"{path} {fact}: {found.get(fact)}, and fontTools {wanted.get(fact)}", file=sys.stderr)
    counts["CID-keyed"] += wanted["keyed"][0]
    counts["glyphs"] += wanted["keyed"][1]
    counts["codes"] += len(wanted.get("codes", {}))
    return differ


def compare(program, words):
    counts = collections.Counter()
    differ = 0
    for path in files_of(*words, ends=(".otf", ".ttc")):
        font = open_font(path)
        if font is not None:
            counts["fonts"] += 1
            differ += compare_file(program, path, font, counts)
    told = ", ".join(f"{count} {word}" for word, count in counts.items())
    print(f"compared: {told}; {differ} differ")
    return differ


def change(chance, table, places):
    """Returns a table with some bytes changed, most of them where its parts begin."""
    table = bytearray(table)
    for _ in range(chance.choice([1, 1, 2, 4, 16])):
        place = chance.choice(places) + chance.randrange(chance.choice([8, 64, 512]))
        if chance.random() < 0.2:
            place = chance.randrange(len(table))
        if place < len(table):
            table[place] = chance.choice([0, 1, 0x7F, 0x80, 0xFF, chance.randrange(256)])
    if chance.random() < 0.1:
        del table[chance.randrange(len(table)) :]
    return bytes(table)


def places_of(top):
    """Returns the offsets where the parts of a table begin."""
    named = [top.rawDict.get(word, 0) for word in ("charset", "Encoding", "CharStrings", "FDArray", "FDSelect")]
    private = top.rawDict.get("Private", (0, 0))[1]
    return [0, 64, private, *(place for place in named if isinstance(place, int))]


def made_up(chance):
    """Returns a small CID-keyed font with two Font DICTs, an FDSelect of format 0 or 3 and a charset of any format."""
    calls = [b"", b"\x20\x0a", b"\x20\x1d"]
    codes = [chance.choice(calls) + bytes([139 + chance.randrange(3), 139, 139, 0x15, 0x0E])[chance.randrange(2) :] for _ in range(5)]
    index = lambda items: len(items).to_bytes(2, "big") + (
        b"\1" + bytes(1 + sum(map(len, items[:i])) for i in range(len(items) + 1)) + b"".join(items) if items else b"")
    number = lambda value: b"\x1d" + value.to_bytes(4, "big")
    select = chance.choice([bytes([0, 0, 1, 1, 0, 1]), bytes([3, 0, 2, 0, 0, 0, 0, 2, 1, 0, 5])])
    char_set = chance.choice([bytes([0, 0, 5, 0, 6, 0, 7, 0, 8]), bytes([1, 0, 5, 3]), bytes([2, 0, 5, 0, 1, 0, 9, 0, 1])])
    private = bytes([139 + chance.randrange(90), 0x14, 139 + chance.randrange(90), 0x15, 0x8F + 4, 0x13, 0x8B, 0x8B])
    subroutines = index([bytes([0x0B])])

    def text(places):
        fonts = index([bytes([139 + len(private)]) + number(places[3]) + b"\x12" for _ in range(2)])
        top = bytes([139] * 3) + b"\x0c\x1e" + b"".join(
            number(place) + operator for place, operator in zip(places, (b"\x0f", b"\x11", b"\x0c\x25", b"", b"\x0c\x24")) if operator)
        parts = [bytes([1, 0, 4, 1]) + index([b"F"]) + index([top]) + index([]) + subroutines, char_set, index(codes), select, private + subroutines, fonts]
        ends = [sum(map(len, parts[: i + 1])) for i in range(len(parts))]
        return b"".join(parts), ends

    _, ends = text([0] * 5)
    table, ends = text(ends[:5])
    return table, [0, 4, *ends[:5]]


def same_lines(found, wanted):
    """Returns whether the lines of a font are the same, except for those that are not computed."""
    if len(found) != len(wanted):
        return False
    for one, other in zip(found, wanted):
        if other == "expert" or " long " in other:
            continue
        if one != other:
            return False
    return True


def sources_of(words):
    """Returns the tables of small fonts, each with the offsets of its parts."""
    fonts = [font for font in map(open_font, files_of(*words, ends=(".otf", ".ttc"))) if font is not None]
    tables = [(font.reader["CFF "], places_of(font["CFF "].cff.topDictIndex[0])) for font in fonts]
    return [(table, places) for table, places in tables if len(table) < 60_000]


def changed(program, folder, seed, count, words):
    chance = random.Random(seed)
    tables = sources_of(words)
    counts = collections.Counter()
    bad = 0
    for start in range(0, count, BATCH):
        paths, wanted = [], []
        for i in range(min(BATCH, count - start)):
            path = pathlib.Path(folder) / str(i)
            source = made_up(chance) if not tables or chance.random() < 0.3 else chance.choice(tables)
            table = change(chance, *source)
            path.write_bytes(table)
            paths.append(path)
            wanted.append(lines_of(table))
        done = run(program, paths, "few")
        answers = done.stdout.decode().split("font " + str(folder))[1:]
        bad += int(done.returncode != 0 or len(answers) != len(paths))
        for path, answer, lines in zip(paths, answers, wanted):
            found = answer.splitlines()[1:]
            counts["refused" if lines[0].startswith("refused") else "answered"] += 1
            if not same_lines(found, lines):
                bad += 1
                print(f"{path.read_bytes().hex()[:2000]}: {found}, and the second reader {lines}", file=sys.stderr)
    told = ", ".join(f"{word} {counts[word]}" for word in ("answered", "refused"))
    print(f"changed: {count} fonts from seed {seed}, of {len(tables)} tables and made-up ones: {told}; {bad} differ from the second reader")
    return bad


def main(words):
    if len(words) < 3:
        sys.exit(__doc__)
    with tempfile.TemporaryDirectory() as name:
        folder = pathlib.Path(name)
        program = building.proved(folder, "view", USES)
        (folder / "changed").mkdir()
        return compare(program, words[2:]) or changed(program, folder / "changed", int(words[0]), int(words[1]), words[2:])


if __name__ == "__main__":
    sys.exit(1 if main(sys.argv[1:]) else 0)
