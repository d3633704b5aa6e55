#!/usr/bin/python3
"""Compares `postscript_sfnt` with fontTools on font files, and reads fonts with changed bytes.

    tools/evidence/sfnt.py SEED COUNT WORD..

Each WORD is a font file, a folder, or an installed Debian package; of the last two, the script takes each .otf, .ttf and .ttc file. For
each face these must be equal: the tables, the units per em, the box, the number of glyphs, the family, the style, each advance, and the
glyph of each character. If all are equal, COUNT fonts with bytes changed at random from SEED are made from these. The program must answer
for each and end with status 0.

Needs `rt` on the path and Debian's python3-fonttools. The program is tools/programs/sfnt.rt.txt, proved in a copy with the crates' results
in out/. The exit status is 1 if anything differs.
"""

import collections
import pathlib
import random
import struct
import subprocess
import sys
import tempfile
import zlib

sys.dont_write_bytecode = True
sys.path.insert(0, str(pathlib.Path(__file__).resolve().parents[1]))

from fontTools.ttLib import TTFont

import building
from font_files import files_of

TAGS = ["CFF ", "GDEF", "GPOS", "GSUB", "OS/2", "cmap", "head", "hhea", "hmtx", "maxp", "name", "post"]
KEPT = ["cmap", "head", "hhea", "hmtx", "maxp", "name"]
RANKS = {(3, 10): 4, (0, 4): 3, (0, 6): 3, (3, 1): 2, (0, 0): 1, (0, 1): 1, (0, 2): 1, (0, 3): 1}
FORMATS = [4, 6, 12]
BATCH = 200


def faces_of(path):
    """Returns the number of faces of a file, from its header."""
    with open(path, "rb") as file:
        header = file.read(12)
    return struct.unpack(">L", header[8:])[0] if header[:4] == b"ttcf" else 1


def best(records, rank):
    """Returns the first record of the highest rank, if that is not 0."""
    ranks = [rank(record) for record in records]
    return records[ranks.index(max(ranks))] if any(ranks) else None


def name_rank(record):
    if record.platformID == 3 and record.platEncID in (0, 1, 10):
        return 4 if record.langID == 0x409 else 2
    if record.platformID == 0:
        return 3
    return 1 if (record.platformID, record.platEncID) == (1, 0) else 0


def name_of(font, identifiers):
    """Returns the name for the first of the name IDs that has one, as code points."""
    for identifier in identifiers:
        record = best([record for record in font["name"].names if record.nameID == identifier], name_rank)
        if record:
            coding = "mac_roman" if record.platformID == 1 else "utf_16_be"
            return [ord(char) for char in record.string.decode(coding, "replace")]
    return None


def map_of(font):
    """Returns the glyph of each mapped character, or None if there is no map of a supported format."""
    if "cmap" not in font:
        return None
    table = best(font["cmap"].tables, lambda table: RANKS.get((table.platformID, table.platEncID), 0))
    if table is None or table.format not in FORMATS:
        return None
    pairs = {char: int(name[5:]) for char, name in table.cmap.items()}
    return {char: glyph for char, glyph in pairs.items() if glyph and char != 0xFFFF}


def facts_of(path, face):
    """Returns what fontTools reads from a face."""
    font = TTFont(path, lazy=True, fontNumber=face)
    glyphs = font["maxp"].numGlyphs
    font.setGlyphOrder([f"glyph{i:05d}" for i in range(glyphs)])
    tables = {tag: font.reader[tag] for tag in TAGS if tag in font.reader}
    head = font["head"]
    return {
        "tables": len(font.reader.tables),
        **{("table", tag): (len(data), zlib.adler32(data)) for tag, data in tables.items()},
        "units": head.unitsPerEm,
        "box": [head.xMin, head.yMin, head.xMax, head.yMax],
        "magic": "true" if head.magicNumber == 0x5F0F3CF5 else "false",
        "glyphs": glyphs,
        "family": name_of(font, [16, 1]),
        "style": name_of(font, [17, 2]),
        "advances": [font["hmtx"].metrics[f"glyph{i:05d}"][0] for i in range(glyphs)],
        "map": map_of(font),
    }


def answer_of(line):
    """Returns a line of the program as a fact."""
    word, _, rest = line.partition(" ")
    words = rest.split()
    if word == "table":
        return ("table", TAGS[int(words[0])]), (int(words[1]), int(words[2]))
    if word in ("tables", "units", "glyphs"):
        return word, int(rest)
    if word == "magic":
        return word, rest
    if word == "map":
        pairs = (pair.split(":") for pair in words)
        return word, {int(char): int(glyph) for char, glyph in pairs if int(char) != 0xFFFF}
    return word, [int(number) for number in words]


def run(program, paths, *more):
    given = "".join(f"{path}\n" for path in paths).encode()
    return subprocess.run([program, *more], input=given, stdout=subprocess.PIPE, check=False)


def compare_file(program, path, counts):
    """Compares each face of a file, and returns the number of differences."""
    done = run(program, [path])
    lines = done.stdout.decode().splitlines()
    faces = faces_of(path)
    differ = int(done.returncode != 0 or lines[:1] != [f"file {path} {faces}"])
    parts = "\n".join(lines[1:]).split("face ")[1:]
    differ += int(len(parts) != faces)
    for face, part in enumerate(parts):
        found = dict(answer_of(line) for line in part.splitlines()[1:])
        wanted = facts_of(path, face)
        for fact in wanted.keys() | found.keys():
            same = wanted.get(fact) == found.get(fact)
            counts["facts"] += 1
            if not same:
                differ += 1
                print(f"{path} {face} {fact} differs", file=sys.stderr)
        counts["faces"] += 1
        counts["tables"] += sum(isinstance(fact, tuple) for fact in wanted)
        counts["advances"] += len(wanted["advances"])
        counts["characters"] += len(wanted["map"] or {})
    return differ


def compare(program, words):
    counts = collections.Counter()
    differ = 0
    for path in files_of(*words, ends=(".otf", ".ttf", ".ttc")):
        counts["files"] += 1
        differ += compare_file(program, path, counts)
    told = ", ".join(f"{count} {word}" for word, count in counts.items())
    print(f"compared: {told}; {differ} differ")
    return differ


def small(path):
    """Returns a font with only the tables that the library reads."""
    font = TTFont(path, lazy=True, fontNumber=0)
    tables = [(tag, font.reader[tag]) for tag in KEPT if tag in font.reader]
    place = 12 + len(tables) * 16
    records, data = b"", b""
    for tag, table in tables:
        records += struct.pack(">4sLLL", tag.encode(), 0, place + len(data), len(table))
        data += table
    return struct.pack(">4sHHHH", b"OTTO", len(tables), 0, 0, 0) + records + data


def collection(fonts):
    """Returns a collection of two fonts."""
    place = 20 + len(fonts[0])
    header = struct.pack(">4sLLLL", b"ttcf", 0x00010000, 2, 20, place)
    return header + fonts[0] + fonts[1]


def change(chance, font):
    """Returns a font with some bytes changed, most of them in the directory and in the headers of tables."""
    font = bytearray(font)
    places = [0, 12, *(int.from_bytes(font[20 + i * 16 : 24 + i * 16], "big") for i in range(6))]
    for _ in range(chance.choice([1, 1, 2, 4, 16])):
        place = chance.choice(places) + chance.randrange(chance.choice([8, 64, 4096]))
        if chance.random() < 0.2:
            place = chance.randrange(len(font))
        if place < len(font):
            font[place] = chance.choice([0, 1, 0x7F, 0x80, 0xFF, chance.randrange(256)])
    if chance.random() < 0.1:
        del font[chance.randrange(len(font)) :]
    return bytes(font)


def changed(program, folder, seed, count, words):
    chance = random.Random(seed)
    fonts = [small(path) for path in files_of(*words, ends=(".otf", ".ttf", ".ttc"))]
    counts = collections.Counter()
    bad = 0
    for start in range(0, count, BATCH):
        paths = []
        for i in range(min(BATCH, count - start)):
            font = chance.choice(fonts)
            if chance.random() < 0.1:
                font = collection([font, chance.choice(fonts)])
            path = pathlib.Path(folder) / str(i)
            path.write_bytes(change(chance, font))
            paths.append(path)
        done = run(program, paths, "few")
        lines = done.stdout.decode().splitlines()
        answers = [line for line in lines if line.startswith(("file ", f"refused {folder}"))]
        bad += int(done.returncode != 0 or len(answers) != len(paths))
        counts.update(line.split(" ")[0] for line in lines)
    told = ", ".join(f"{word} {counts[word]}" for word in ("file", "face", "refused", "advances", "map", "family"))
    print(f"changed: {count} fonts from seed {seed}: {told}; {bad} batches halted")
    return bad


def main(words):
    if len(words) < 3:
        sys.exit(__doc__)
    with tempfile.TemporaryDirectory() as name:
        folder = pathlib.Path(name)
        program = building.proved(folder, "sfnt", "postscript_sfnt anyhow")
        (folder / "changed").mkdir()
        return compare(program, words[2:]) or changed(program, folder / "changed", int(words[0]), int(words[1]), words[2:])


if __name__ == "__main__":
    sys.exit(1 if main(sys.argv[1:]) else 0)
