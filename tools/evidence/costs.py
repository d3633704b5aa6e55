#!/usr/bin/env python3
"""Finds the most expensive glyph of fonts, in units of the limit. A `seac` glyph includes its base and accent.

    tools/evidence/costs.py FOLDER..

The script opens each .otf font and the first face of each .ttc file below the folders, with the Python binding (`make -C bindings/c`
builds its library). It asks for each glyph's bounds under different limits. It prints the numbers of fonts and glyphs, the most units that
a glyph takes, and which glyph.
"""

import pathlib
import sys

sys.path.insert(0, str(pathlib.Path(__file__).resolve().parents[2] / "bindings" / "python"))

from postscript import Error, Font, Status  # noqa: E402


def keeps_to(font, glyph, limit):
    """Returns whether a glyph stays within this limit. An invalid glyph does."""
    font._font.limit = limit
    try:
        font[glyph].tight_bounds
    except Error as e:
        return e.status != Status.TOO_LONG
    return True


def cost_of(font, glyph, least):
    """Returns the smallest sufficient limit of a glyph for which `least` is too small."""
    most = least * 2
    while not keeps_to(font, glyph, most):
        least, most = most, most * 2
    while most - least > 1:
        middle = (least + most) // 2
        if keeps_to(font, glyph, middle):
            most = middle
        else:
            least = middle
    return most


def main():
    fonts = glyphs = 0
    costliest, where = 1, "no glyph"
    for folder in sys.argv[1:]:
        for path in sorted(found for found in pathlib.Path(folder).rglob("*") if found.suffix in (".otf", ".ttc") and found.is_file()):
            try:
                font = Font.open(path)
            except Error:
                continue
            fonts += 1
            glyphs += len(font)
            for glyph in range(len(font)):
                if not keeps_to(font, glyph, costliest):
                    costliest, where = cost_of(font, glyph, costliest), f"glyph {glyph} of {path.name}"
    print(f"{fonts} fonts, {glyphs} glyphs: the costliest takes {costliest} units, {where}")


if __name__ == "__main__":
    main()
