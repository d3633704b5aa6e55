#!/usr/bin/python3
"""Compares the bytes of small subsets with those of hb-subset, as WOFF2.

    (cd crates/psotf && rt run -- --help)
    /usr/bin/python3 tools/evidence/sizes.py WORD..

Each WORD is a font file, a folder, or an installed Debian package; of the last two, the script takes each .otf file. Fonts without a `CFF `
table are skipped. `psotf subset --exact` and `hb-subset` cut each font to the characters of "Hello, office waffle", and to those of Latin-1,
as far as the font has them, with the features that hb-subset keeps by default. The script prints a line for each file: both sizes and their
ratio; and then, for each text, the medians and the sum. Needs Debian's libharfbuzz-bin, woff2 and python3-fonttools.
"""

import collections
import concurrent.futures
import pathlib
import statistics
import subprocess
import sys
import tempfile

sys.dont_write_bytecode = True
sys.path.insert(0, str(pathlib.Path(__file__).resolve().parents[1]))

from fontTools.ttLib import TTFont

from building import PSOTF
from font_files import files_of
from kerning import size_of

TEXTS = {"words": sorted({ord(char) for char in "Hello, office waffle"}), "Latin-1": [*range(0x20, 0x7F), *range(0xA0, 0x100)]}


def sizes(path, chars, folder):
    """Returns the sizes of both subsets as WOFF2."""
    listed = ",".join(f"{char:x}" for char in chars)
    ours, theirs = folder / "ours.otf", folder / "theirs.otf"
    subprocess.run([PSOTF, "subset", path, "--unicodes", listed, "--exact", "-o", ours], capture_output=True, check=True)
    subprocess.run(["hb-subset", path, f"--unicodes={listed}", "-o", theirs], capture_output=True, check=True)
    return size_of(ours), size_of(theirs)


def rows(path):
    """Returns a row for each text: its name, and both sizes."""
    font = TTFont(path, lazy=True)
    if "CFF " not in font:
        return []
    cmap = font.getBestCmap()
    found = []
    with tempfile.TemporaryDirectory() as name:
        for text, chars in TEXTS.items():
            there = [char for char in chars if char in cmap]
            if there:
                found.append((text, *sizes(path, there, pathlib.Path(name))))
    return found


def main(words):
    if not words:
        sys.exit(__doc__)
    ratios, sums = collections.defaultdict(list), collections.Counter()
    paths = list(files_of(*words))
    with concurrent.futures.ProcessPoolExecutor() as pool:
        for path, found in zip(paths, pool.map(rows, paths)):
            for text, ours, theirs in found:
                ratios[text].append(ours / theirs)
                sums[text, "psotf"] += ours
                sums[text, "hb-subset"] += theirs
                print(f"{pathlib.Path(path).name}: {text}: {ours} and {theirs} bytes, {ours / theirs:.2f}", flush=True)
    for text, all_of in ratios.items():
        whole = sums[text, "psotf"] / sums[text, "hb-subset"]
        print(f"{text}: {len(all_of)} files, median {statistics.median(all_of):.2f}, {min(all_of):.2f} to {max(all_of):.2f}, all bytes {whole:.2f}")


if __name__ == "__main__":
    main(sys.argv[1:])
