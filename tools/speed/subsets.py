#!/usr/bin/python3
"""Compares the time and the bytes of subsets without layout tables with those of hb-subset.

    (cd crates/psotf && rt run -- --help)
    /usr/bin/python3 tools/speed/subsets.py [--times N] WORD..

Each WORD is a font file, a folder, or an installed Debian package; of the last two, the script takes each .otf file with a `CFF ` table. Both
programs cut each font to the characters of "Hello, office waffle", to those of Latin-1, and to all of its characters: without `GSUB`, `GPOS`
and `GDEF`, without subroutines, with the outline of `.notdef`, and with the names that `psotf subset` keeps. They take turns, N times (5).
The script prints a line for each file and text: the least times of both, their ratio, and the bytes of both files and their ratio; and then,
for each text, the medians of the ratios, and the ratios of the sums. Needs Debian's libharfbuzz-bin and python3-fonttools.
"""

import argparse
import collections
import os
import pathlib
import statistics
import sys
import tempfile
import time

sys.dont_write_bytecode = True
sys.path.insert(0, str(pathlib.Path(__file__).resolve().parents[1]))

from fontTools.ttLib import TTFont

from building import PSOTF
from font_files import files_of

TEXTS = {"words": sorted({ord(char) for char in "Hello, office waffle"}), "Latin-1": [*range(0x20, 0x7F), *range(0xA0, 0x100)], "all": None}
NAMES = "1,2,3,4,5,6,16,17,21,22,25"


def commands(path, chars, folder):
    """Returns the commands of both programs, and the files that they write."""
    listed = ",".join(f"{char:x}" for char in chars)
    ours, theirs = folder / "ours.otf", folder / "theirs.otf"
    return {
        ours: [PSOTF, "subset", path, "--unicodes", listed, "--exact", "--drop-layout", "-o", ours],
        theirs: ["hb-subset", path, f"--unicodes={listed}", "--drop-tables+=GSUB,GPOS,GDEF", "--desubroutinize", "--notdef-outline",
                 f"--name-IDs={NAMES}", "--name-languages=*", "--name-legacy", "-o", theirs],
    }


def seconds(words):
    """Returns the time from the start of a process to its end. Its output is discarded."""
    nowhere = [(os.POSIX_SPAWN_OPEN, number, os.devnull, os.O_WRONLY, 0) for number in (1, 2)]
    start = time.perf_counter()
    process = os.posix_spawnp(words[0], [*map(str, words)], os.environ, file_actions=nowhere)
    _, status = os.waitpid(process, 0)
    took = time.perf_counter() - start
    if status:
        sys.exit(f"subsets.py: status {os.waitstatus_to_exitcode(status)} of {' '.join(map(str, words))}")
    return took


def row(path, chars, times):
    """Returns the least times and the sizes of both."""
    with tempfile.TemporaryDirectory() as name:
        asked = commands(path, chars, pathlib.Path(name))
        took = {file: [] for file in asked}
        for _ in range(times):
            for file, words in asked.items():
                took[file].append(seconds(words))
        return [min(found) for found in took.values()], [file.stat().st_size for file in asked]


def main(words):
    parser = argparse.ArgumentParser()
    parser.add_argument("--times", type=int, default=5)
    parser.add_argument("words", nargs="+")
    asked = parser.parse_args(words)
    ratios, sums = collections.defaultdict(list), collections.Counter()
    for path in files_of(*asked.words):
        font = TTFont(path, lazy=True)
        if "CFF " not in font:
            continue
        cmap = font.getBestCmap() or {}
        for text, chars in TEXTS.items():
            there = [char for char in chars or sorted(cmap) if char in cmap]
            if not there:
                continue
            took, sizes = row(path, there, asked.times)
            ratios[text].append((took[0] / took[1], sizes[0] / sizes[1]))
            sums.update({(text, "time", i): took[i] for i in (0, 1)})
            sums.update({(text, "bytes", i): sizes[i] for i in (0, 1)})
            print(f"{pathlib.Path(path).name}: {text}: {took[0] * 1000:.1f} and {took[1] * 1000:.1f} ms, {took[0] / took[1]:.2f};"
                  f" {sizes[0]} and {sizes[1]} bytes, {sizes[0] / sizes[1]:.2f}", flush=True)
    for text, found in ratios.items():
        for i, what in enumerate(("time", "bytes")):
            whole = sums[text, what, 0] / sums[text, what, 1]
            print(f"{text}: {len(found)} files, {what}: median {statistics.median(pair[i] for pair in found):.2f}, in all {whole:.2f}")


if __name__ == "__main__":
    if len(sys.argv) < 2:
        sys.exit(__doc__)
    main(sys.argv[1:])
