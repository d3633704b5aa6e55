#!/usr/bin/env python3
"""Lists the functions whose whole name is a participle or a preposition, such as `written` or `behind`.

    tools/gate/names.py [CRATE..]

Such a name does not tell what the function does. It prints each one with its visibility, and a count for each crate. Names that Rust uses
so (`from`, `into`), verbs (`read`, `put`, `set`, `cut`, `split`) and nouns (`encoding`, `setting`) are left out. It exits with 0.
"""
import collections
import pathlib
import re
import sys

TOP = pathlib.Path(__file__).resolve().parents[2]
PARTICIPLES = set("begun chosen drawn found given held hidden kept known laid led lent made met paid said sent shown spent told written".split())
PREPOSITIONS = set(
    "above after against along among aside at before behind below between beyond by in inside near of on outside over past through to under "
    "with within without".split()
)
OTHERS = set("from into left len read open string charstring encoding saying setting bearing opening flatten".split())
FUNCTION = re.compile(r"^\s*(pub(?:\([a-z]+\))? )?(?:unsafe |final |const |extern \"C\" )*fn ([a-z0-9_]+)")


def is_bare(name):
    if "_" in name or name in OTHERS:
        return False
    return name in PARTICIPLES or name in PREPOSITIONS or name.endswith(("ed", "ing"))


def main(words):
    counts = collections.Counter()
    for path in sorted(TOP.glob("crates/*/src/**/*.rt")):
        crate = path.relative_to(TOP).parts[1]
        if words and crate not in words:
            continue
        for number, line in enumerate(path.read_text(encoding="utf-8").split("\n"), 1):
            found = FUNCTION.match(line)
            if found and is_bare(found[2]):
                counts[crate] += 1
                print(f"{path.relative_to(TOP)}:{number}: {(found[1] or 'private').strip()} {found[2]}")
    for crate, count in counts.most_common():
        print(f"{crate}: {count}")
    print(f"all: {counts.total()}")


if __name__ == "__main__":
    main(sys.argv[1:])
