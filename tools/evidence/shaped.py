#!/usr/bin/python3
"""Shapes random text with fonts and with their subsets that keep layout tables, and compares what hb-shape prints.

    (cd crates/psotf && rt run -- --help)
    /usr/bin/python3 tools/evidence/shaped.py SEED LINES WORD..

Each WORD is a font file, a folder, or an installed Debian package; of the last two, the script takes each .otf file. Fonts without a `CFF `
table, and fonts without layout tables, are skipped. `psotf subset --retain-gids` writes each font several times: with the characters of a few
words, with those of Latin-1, with these and combining marks, which a shaper composes with letters, and with Vietnamese, Hebrew, Devanagari and Arabic letters,
and with Hangul jamo, if the font has them. Of brackets, only the opening ones are chosen there. The whole font and its subset then
shape the same lines. A line has up to 30 of the kept characters, chosen at random from SEED; half of them are from words with ligatures.
Each list of LINES lines is shaped with the default features, with all features of the font, with random features, from right to left, from
top to bottom, and with each script of the font. Glyph numbers, clusters, advances and offsets must be the same, since the subset keeps
glyph numbers. `ots-sanitize` must accept the subset if it accepts the font.

The script prints the first lines that differ, and for each font and for all of them the numbers of lines and of differences. It runs one
process per processor. Needs Debian's libharfbuzz-bin, opentype-sanitizer and python3-fonttools. The exit status is 1 if anything differs.
"""

import collections
import concurrent.futures
import pathlib
import random
import subprocess
import sys
import tempfile

sys.dont_write_bytecode = True
sys.path.insert(0, str(pathlib.Path(__file__).resolve().parents[1]))

from fontTools.ttLib import TTFont

from building import PSOTF
from font_files import files_of

LAYOUT = ("GSUB", "GPOS")
LATIN = [*range(0x20, 0x7F), *range(0xA0, 0x100)]
BRACKETS = [0x20, 0x28, 0x5B, 0xAB, 0x2039]
TEXTS = {
    "words": sorted(set(map(ord, "Hello, office waffle"))),
    "Latin-1": LATIN,
    "marks": [*LATIN, *range(0x300, 0x330)],
    "Hebrew": [*BRACKETS, *range(0x5B0, 0x5C8), *range(0x5D0, 0x5EB)],
    "Vietnamese": list(map(ord, "ấầẩẫậắằẳẵặếềểễệốồổỗộớờởỡợứừửữự")),
    "Devanagari": [0x20, *range(0x905, 0x93A), *range(0x958, 0x960)],
    "Arabic": [*BRACKETS, *range(0x621, 0x653)],
    "Hangul": [0x20, *range(0x1100, 0x1113), *range(0x1161, 0x1176), *range(0x11A8, 0x11C3)],
}
#: how many characters of a text a font must have
FEWEST = 10
OFTEN = "fiflffiaeotjQuThctstgy1/2 AVTo"
LONGEST = 30
CHOICES = 8
MOST = 4


def is_sound(path):
    return subprocess.run(["ots-sanitize", path], capture_output=True, check=False).returncode == 0


def shaped(path, text, words):
    """Returns what hb-shape prints for each line of a file."""
    done = subprocess.run(["hb-shape", path, f"--text-file={text}", "--no-glyph-names", *words], capture_output=True, text=True, check=True)
    return done.stdout.splitlines()


def asked_of(font, draw):
    """Returns the lists of options: features, directions and scripts."""
    tables = [font[tag].table for tag in LAYOUT if tag in font]
    features = sorted({record.FeatureTag for table in tables if table.FeatureList for record in table.FeatureList.FeatureRecord})
    scripts = sorted({record.ScriptTag for table in tables if table.ScriptList for record in table.ScriptList.ScriptRecord})
    some = [draw.sample(features, min(len(features), MOST)) for _ in range(CHOICES)]
    return [
        [],
        *(["--features=" + ",".join(tags)] for tags in [features, *some] if tags),
        ["--direction=rtl"],
        ["--direction=ttb"],
        *(["--script=" + script.strip()] for script in scripts),
    ]


def line_of(draw, chars):
    often = [char for char in OFTEN if ord(char) in chars] or [chr(char) for char in chars]
    return "".join(draw.choice(often) if draw.random() < 0.5 else chr(draw.choice(chars)) for _ in range(draw.randint(1, LONGEST)))


def compared(path, font, name, folder, draw, lines, sums):
    """Writes a subset and compares the shapes of random lines."""
    kept = font.getBestCmap()
    chars = [char for char in TEXTS[name] if char in kept]
    if len(chars) < FEWEST:
        return
    written = folder / f"{name}.otf"
    listed = ",".join(f"{char:x}" for char in chars)
    subprocess.run([PSOTF, "subset", path, "--unicodes", listed, "--retain-gids", "--quiet", "-o", written], check=True)
    sums["files"] += 1
    sums["bytes"] += written.stat().st_size
    sums["unsound"] += is_sound(path) and not is_sound(written)
    text = folder / "lines"
    for words in asked_of(font, draw):
        text.write_text("\n".join(line_of(draw, chars) for _ in range(lines)))
        ours, theirs = shaped(written, text, words), shaped(path, text, words)
        sums["lines"] += len(theirs)
        unlike = [pair for pair in zip(ours, theirs, strict=True) if pair[0] != pair[1]]
        if unlike and not sums["differ"]:
            print(f"{path}: {name}: {' '.join(words)}: {unlike[0][0]}, and not {unlike[0][1]}", flush=True)
        sums["differ"] += len(unlike)


def tallied(path, seed, lines):
    """Returns the counts for one font. The lines depend on the seed and the font's name."""
    sums = collections.Counter()
    font = TTFont(path, lazy=True)
    if "CFF " not in font or not any(tag in font for tag in LAYOUT):
        return sums
    sums["fonts"] += 1
    draw = random.Random(f"{seed} {pathlib.Path(path).name}")
    with tempfile.TemporaryDirectory() as name:
        for text in TEXTS:
            compared(path, font, text, pathlib.Path(name), draw, lines, sums)
    print(f"{path}: {sums['lines']} lines, {sums['differ']} differ", flush=True)
    return sums


def main(words):
    if len(words) < 3:
        sys.exit(__doc__)
    seed, lines = words[0], int(words[1])
    print(subprocess.run(["hb-shape", "--version"], capture_output=True, text=True, check=True).stdout.splitlines()[0])
    sums = collections.Counter()
    with concurrent.futures.ProcessPoolExecutor() as pool:
        for done in concurrent.futures.as_completed([pool.submit(tallied, path, seed, lines) for path in files_of(*words[2:])]):
            sums.update(done.result())
    print(f"seed {seed}: {sums['fonts']} fonts, {sums['files']} files, {sums['bytes']} bytes, {sums['lines']} lines, {sums['differ']} differ, {sums['unsound']} not accepted")
    return sums["differ"] or sums["unsound"]


if __name__ == "__main__":
    sys.exit(1 if main(sys.argv[1:]) else 0)
