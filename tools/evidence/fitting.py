#!/usr/bin/env python3
"""Checks with the Python binding that all glyphs of each real font together stay within one limit, and makes a subset of each.

    tools/evidence/fitting.py FOLDER

The fonts are the .otf files below the folder, as tools/font_files.py downloads them. Fonts without a `CFF ` table are left out. bindings/c
must be built by make. The limit is that of one glyph, 20,000,000 units. The exit status is 1 if a font is rejected or does not fit, or if
the subset of its first three glyphs fails.
"""

import pathlib
import sys

sys.dont_write_bytecode = True
TOP = pathlib.Path(__file__).resolve().parents[2]
sys.path.insert(0, str(TOP / "bindings" / "python"))

import postscript


def refusal(font):
    """Returns why a font fails here, or None."""
    if not font.fits(postscript.LIMIT):
        return "does not fit"
    try:
        font.subset(range(min(3, len(font))))
    except postscript.Error as e:
        return f"no subset: {e}"
    return None


def main(folder):
    fonts = glyphs = 0
    refused = []
    for path in sorted(pathlib.Path(folder).rglob("*.otf")):
        try:
            font = postscript.Font.open(path)
        except postscript.Error as e:
            if e.status != postscript.Status.NO_TABLE:
                refused.append(f"{path.name}: {e}")
            continue
        fonts, glyphs = fonts + 1, glyphs + len(font)
        why = refusal(font)
        if why is not None:
            refused.append(f"{path.name}: {why}")
    print(f"{fonts} fonts, {glyphs} glyphs, {len(refused)} refused")
    print("\n".join(refused), end="\n" if refused else "")
    return 1 if refused else 0


if __name__ == "__main__":
    sys.exit(main(sys.argv[1]))
