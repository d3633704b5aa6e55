#!/usr/bin/python3
"""Shapes random text with fonts and with their small subsets, with kerning only, and compares what hb-shape prints.

    (cd crates/psotf && rt run -- --help)
    /usr/bin/python3 tools/evidence/kerning.py SEED LINES WORD..

Each WORD is a font file, a folder, or an installed Debian package; of the last two, the script takes each .otf file. Fonts without a `CFF `
table, and fonts without GPOS, are skipped. `psotf subset --layout-features kern --exact` writes each font twice: with the characters of a few words, and with
those of Latin-1. The whole font and its subset then shape LINES random lines of these characters. All features of GSUB are turned off, and those of
GPOS that are not made of pairs: marks and cursive attachment. The characters must have the same glyphs, by the `cmap` tables, and the same
advances and offsets. `ots-sanitize` must accept the subset if it accepts the font. If `psotf` says that the kerning is lost, since there are
too many pairs, the file is only counted.

The script also cuts each font with `hb-subset --layout-features=kern`, and prints the sizes of both subsets as WOFF2. It prints the first line
that differs, and for each font and for all of them the numbers of lines and of differences. Needs Debian's libharfbuzz-bin, woff2,
opentype-sanitizer and python3-fonttools. The exit status is 1 if anything differs.
"""

import collections
import concurrent.futures
import json
import pathlib
import random
import subprocess
import sys
import tempfile

sys.dont_write_bytecode = True
sys.path.insert(0, str(pathlib.Path(__file__).resolve().parents[1]))

from fontTools.ttLib import TTFont

from building import PSOTF
from font_files import files_of
from shaped import LATIN, TEXTS, is_sound, line_of

ALWAYS = ("ccmp", "locl", "rlig", "liga", "clig", "calt", "rclt", "mark", "mkmk", "curs", "abvm", "blwm")


def off(font):
    """Returns the option that turns off all features except kerning."""
    gsub = font["GSUB"].table.FeatureList if "GSUB" in font else None
    tags = {record.FeatureTag for record in gsub.FeatureRecord} if gsub else set()
    return "--features=" + ",".join(f"-{tag.strip()}" for tag in sorted(tags | set(ALWAYS)))


def shaped(path, text, features):
    """Returns the glyphs of each line of a file: number, character, advance and offset."""
    words = ["hb-shape", path, f"--text-file={text}", "--no-glyph-names", "--output-format=json", features]
    done = subprocess.run(words, capture_output=True, text=True, check=True)
    return [[(one["g"], one["cl"], one["ax"], one["dx"], one["dy"]) for one in json.loads(line)] for line in done.stdout.splitlines()]


def size_of(path):
    """Returns the size of a font file as WOFF2."""
    subprocess.run(["woff2_compress", path], capture_output=True, check=True)
    return path.with_suffix(".woff2").stat().st_size


def compared(path, font, name, folder, draw, lines, sums):
    """Writes a subset and compares random lines."""
    cmap = font.getBestCmap()
    chars = [char for char in TEXTS[name] if char in cmap]
    listed = ",".join(f"{char:x}" for char in chars)
    ours, theirs, text = folder / "ours.otf", folder / "theirs.otf", folder / "lines"
    done = subprocess.run([PSOTF, "subset", path, "--unicodes", listed, "--layout-features", "kern", "--exact", "-o", ours], capture_output=True, text=True, check=True)
    subprocess.run(["hb-subset", path, f"--unicodes={listed}", "--layout-features=kern", "-o", theirs], capture_output=True, check=True)
    sums["files"] += 1
    if "kerning and marks are lost" in done.stderr:
        sums["lost"] += 1
        return
    sums["unsound"] += is_sound(path) and not is_sound(ours)
    sums["bytes"] += size_of(ours)
    sums["of hb-subset"] += size_of(theirs)
    kept = TTFont(ours)
    old = {font.getGlyphID(cmap[char]): char for char in chars}
    new = {kept.getGlyphID(glyph): char for char, glyph in kept.getBestCmap().items()}
    text.write_text("\n".join(line_of(draw, chars) for _ in range(lines)))
    options = off(font)
    for is_line, was_line in zip(shaped(ours, text, options), shaped(path, text, options), strict=True):
        told = [(cmap.get(new.get(glyph)), *rest) for glyph, *rest in is_line]
        wanted = [(cmap.get(old.get(glyph)), *rest) for glyph, *rest in was_line]
        sums["lines"] += 1
        if told != wanted:
            if not sums["differ"]:
                print(f"{path}: {name}: {told}, and not {wanted}", flush=True)
            sums["differ"] += 1


def tallied(path, seed, lines):
    """Returns the counts for one font. The lines depend on the seed and the font's name."""
    sums = collections.Counter()
    font = TTFont(path, lazy=True)
    if "CFF " not in font or "GPOS" not in font:
        return sums
    sums["fonts"] += 1
    draw = random.Random(f"{seed} {pathlib.Path(path).name}")
    with tempfile.TemporaryDirectory() as name:
        for text in ("words", "Latin-1"):
            if any(char in font.getBestCmap() for char in TEXTS[text]):
                compared(path, font, text, pathlib.Path(name), draw, lines, sums)
    print(f"{path}: {sums['lines']} lines, {sums['differ']} differ, WOFF2 {sums['bytes']} and {sums['of hb-subset']} bytes", flush=True)
    return sums


def main(words):
    if len(words) < 3:
        sys.exit(__doc__)
    seed, lines = words[0], int(words[1])
    print(subprocess.run(["hb-shape", "--version"], capture_output=True, text=True, check=True).stdout.splitlines()[0])
    sums = collections.Counter()
    with concurrent.futures.ProcessPoolExecutor() as pool:
        for done in concurrent.futures.as_completed([pool.submit(tallied, path, seed, lines) for path in files_of(*words[2:])]):
            sums.update(done.result())
    print(f"seed {seed}: {sums['fonts']} fonts, {sums['files']} files, {sums['lines']} lines, {sums['differ']} differ; kerning is lost in {sums['lost']} files; {sums['unsound']} not accepted")
    print(f"WOFF2: {sums['bytes']} bytes, of hb-subset {sums['of hb-subset']}")
    return sums["differ"] or sums["unsound"]


if __name__ == "__main__":
    sys.exit(1 if main(sys.argv[1:]) else 0)
