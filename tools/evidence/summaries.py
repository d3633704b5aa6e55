#!/usr/bin/env python3
"""Compares the summaries that psfont prints of real fonts with what fontTools reads from the same tables.

    apt-get install -y python3-fonttools fonts-cantarell
    (cd crates/psfont && rt run < stdin)
    /usr/bin/python3 tools/evidence/summaries.py fonts-cantarell

Each argument is a font file, a folder, or an installed Debian package; of the last two, the script takes each .otf file. It writes each
`CFF ` table to a file and runs `psfont font FILE` and `psfont lenient FILE`. If psfont accepts the font, every line must be what fontTools
reads:
- the four bytes of the header, the names, and the numbers of strings, global subroutines and Top DICTs;
- for each Top DICT, the encoding, the format of the charset, and the numbers of glyphs and local subroutines.
If psfont rejects the font, the error must be the first of these causes that fontTools finds, in this order:
- an empty item among the strings or global subroutines (6);
- in a Top DICT: a custom encoding (16), an empty charstring (6), no Private (14), no Subrs (14), or an empty local subroutine (6).
For `lenient`, a missing Private or Subrs is not an error: there are no local subroutines.

For each command the script counts the rejected fonts by cause, and the accepted ones by charset format. The exit status is 1 if anything
differs.
"""

import collections
import pathlib
import subprocess
import sys
import tempfile

sys.dont_write_bytecode = True
sys.path.insert(0, str(pathlib.Path(__file__).resolve().parents[1]))

from fontTools.ttLib import TTFont

from building import PSFONT
from font_files import files_of

ENCODINGS = ["Standard", "Expert"]
CHAR_SETS = ["ISOAdobe", "Expert", "ExpertSubset"]
EMPTY = "an item of no bytes", 6


def has_empty(index):
    """Returns whether an INDEX has an empty item."""
    offsets = getattr(index, "offsets", [])
    return any(low == high for low, high in zip(offsets, offsets[1:]))


def private_of(top):
    """Returns the Private DICT, or None."""
    return top.Private if "Private" in top.rawDict else None


def local_subroutines(top):
    """Returns the local subroutines; none if they are missing."""
    private = private_of(top)
    return private.Subrs if private is not None and "Subrs" in private.rawDict else []


def cause_of(top, lenient):
    """Returns why a Top DICT's font is rejected, and the error number; None if it is accepted."""
    if top.rawDict.get("Encoding", 0) not in (0, 1):
        return "an encoding of its own", 16
    if has_empty(top.CharStrings.charStringsIndex):
        return EMPTY
    if private_of(top) is None and not lenient:
        return "no Private", 14
    if private_of(top) is not None and "Subrs" not in top.Private.rawDict and not lenient:
        return "no Subrs", 14
    if has_empty(local_subroutines(top)):
        return EMPTY
    return None


def set_of(top, table):
    """Returns the name of a Top DICT's charset."""
    char_set = top.rawDict.get("charset", 0)
    return CHAR_SETS[char_set] if char_set < 3 else f"Format{table[char_set]}"


def line_of(top, table):
    """Returns the line that psfont must print for a Top DICT."""
    encoding = ENCODINGS[top.rawDict.get("Encoding", 0)]
    return f"font {encoding} {set_of(top, table)} glyphs {len(top.CharStrings)} locals {len(local_subroutines(top))}"


def shown(name):
    return "".join("?" if ord(c) < 0x20 or ord(c) == 0x7F else c for c in name)


def expected(font, table, lenient):
    """Returns the lines that psfont must print, the status, and the cause of an error."""
    cff = font["CFF "].cff
    tops = [cff.topDictIndex[i] for i in range(len(cff.topDictIndex))]
    empty = "" in cff.strings.strings or has_empty(cff.GlobalSubrs)
    for cause in [EMPTY if empty else None] + [cause_of(top, lenient) for top in tops]:
        if cause:
            return [f"psfont: fault {cause[1]}"], 1, cause[0]
    lines = ["header {} {} {} {}".format(*table[:4]), f"names {len(cff.fontNames)}"]
    lines += [f"name {shown(name)}" for name in cff.fontNames]
    lines += [f"strings {len(cff.strings.strings)}", f"globals {len(cff.GlobalSubrs)}", f"dictionaries {len(tops)}"]
    lines += [line_of(top, table) for top in tops]
    return lines + ["end"], 0, "read, " + " ".join(set_of(top, table) for top in tops)


def told(word, table, folder):
    """Returns the lines that psfont prints, on standard output and standard error, and the status."""
    path = pathlib.Path(folder) / "table"
    path.write_bytes(table)
    done = subprocess.run([PSFONT, word, path], capture_output=True, text=True)
    return (done.stdout + done.stderr).splitlines(), done.returncode


def main(words):
    if not words:
        sys.exit(__doc__)
    causes, differ = {word: collections.Counter() for word in ("font", "lenient")}, 0
    with tempfile.TemporaryDirectory() as folder:
        for path in [path for word in words for path in files_of(word)]:
            font = TTFont(path, lazy=True)
            if "CFF " not in font:
                continue
            table = font.getTableData("CFF ")
            for word, counts in causes.items():
                lines, status, cause = expected(font, table, word == "lenient")
                counts[cause] += 1
                printed = told(word, table, folder)
                if printed != (lines, status):
                    differ += 1
                    print(f"{path}: psfont {word}: {printed}, fontTools: {(lines, status)}")
    for word, counts in causes.items():
        for cause, count in counts.most_common():
            print(f"{word}: {cause}: {count}")
    print(f"all: {sum(causes['font'].values())} fonts, {differ} differ")
    return 1 if differ else 0


if __name__ == "__main__":
    sys.exit(main(sys.argv[1:]))
