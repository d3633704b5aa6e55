#!/usr/bin/python3
"""Compares the desubroutinized charstrings of real fonts, byte for byte, with those of hb-subset and fontTools.

    tools/evidence/inlined.py WORD..

Each WORD is a font file, a folder, or an installed Debian package; of the last two, the script takes each .otf file. Fonts without a `CFF
` table and CID-keyed fonts are left out. The script prints each glyph whose bytes differ. For each font it prints how many glyphs were
compared, how many have the same bytes, and the total bytes. The exit status does not show differences.

Needs `rt` and `hb-subset` on the path, and Debian's python3-fonttools. The program is tools/programs/inlined.rt.txt, proved in a copy with
the crates' results in out/.
"""

import pathlib
import subprocess
import sys
import tempfile

sys.dont_write_bytecode = True
sys.path.insert(0, str(pathlib.Path(__file__).resolve().parents[1]))

from fontTools.ttLib import TTFont

import building
from font_files import files_of, glyph_lines, spelled

USES = "postscript_type2 postscript_base hex anyhow"


def harfbuzz_codes(path):
    """Returns the charstrings in glyph order, as hb-subset writes them without subroutines."""
    with tempfile.NamedTemporaryFile(suffix=".otf") as made:
        options = ["--glyphs=*", "--retain-gids", "--desubroutinize", "--notdef-outline", "--glyph-names"]
        subprocess.run(["hb-subset", path, *options, "-o", made.name], check=True)
        font = TTFont(made.name)
        char_strings = font["CFF "].cff[0].CharStrings
        return [char_strings[name].bytecode for name in font.getGlyphOrder()]


def fonttools_codes(path):
    """Returns the same as compiled by fontTools."""
    font = TTFont(path)
    font["CFF "].cff.desubroutinize()
    codes = []
    for name in font.getGlyphOrder():
        char_string = font["CFF "].cff[0].CharStrings[name]
        char_string.compile()
        codes.append(char_string.bytecode)
    return codes


def inlined_codes(program, lines):
    """Returns the lengths of the flattened charstrings, and the desubroutinized charstrings; their lengths must be the printed ones."""
    answer = subprocess.run([program], input=spelled(lines).encode(), stdout=subprocess.PIPE, check=True).stdout.decode()
    flat, codes = [], []
    for line in answer.splitlines():
        length, flat_length, *digits = line.split()
        code = bytes.fromhex("".join(digits))
        if len(code) != int(length):
            sys.exit("a code has another length than was told")
        flat.append(int(flat_length))
        codes.append(code)
    return flat, codes


def compare(program, path):
    lines = glyph_lines(path)
    if not lines:
        return
    flat, ours = inlined_codes(program, lines)
    same = 0
    for i, (one, two, three) in enumerate(zip(ours, harfbuzz_codes(path), fonttools_codes(path), strict=True)):
        if one == two == three:
            same += 1
        else:
            print(f"glyph {i}: inlined {one.hex()}, hb-subset {two.hex()}, fontTools {three.hex()}")
    name = path.rsplit("/", 1)[-1]
    print(f"{name}: {len(ours)} glyphs, {same} the same; {sum(map(len, ours))} bytes inlined, {sum(flat)} flat")


def main(words):
    if not words:
        sys.exit(__doc__)
    with tempfile.TemporaryDirectory() as folder:
        program = building.proved(pathlib.Path(folder), "inlined", USES)
        for path in files_of(*words):
            compare(program, path)


if __name__ == "__main__":
    main(sys.argv[1:])
