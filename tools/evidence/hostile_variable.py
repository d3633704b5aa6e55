#!/usr/bin/env python3
"""Times each `psotf` subcommand that reads variable fonts, on variable fonts that are expensive to process.

    (cd crates/psotf && rt run -- --help)
    tools/evidence/hostile_variable.py [WORD..]

It works as tools/evidence/hostile_files.py, with the same table, limits and exit status. Its fonts have a `CFF2` table of at most 1 MB.
They have nested calls that multiply, blends of few and of many regions, many glyphs near the limit, and long lists. These are lists of
regions, deltas, instances and ranges, some of them read once per glyph.
"""

import itertools
import pathlib
import sys

sys.dont_write_bytecode = True
sys.path.insert(0, str(pathlib.Path(__file__).resolve().parents[1]))

from hostile import CHAR_STRINGS, PRIVATE, number
from hostile_files import BACK, FD_ARRAY, FD_SELECT, MANY, ONE, MOVE, call, file_of, long, nested, operand, real, short, squared, table

STORE, BLEND, LINES, VS_INDEX, ZERO = b"\x18", b"\x10", b"\x06", b"\x0f", b"\x8b"
BEGIN = ONE * 2 + b"\x15"
PLACE = ["--variations", "wght=650"]
COMMANDS = {
    "inspect": ["inspect"],
    "inspect --json": ["inspect", "--json"],
    "glyph --all": ["glyph", "--all"],
    "glyph --all at a place": ["glyph", "--all", *PLACE],
    "the same, --json": ["glyph", "--all", "--json", *PLACE],
    "svg at a place": ["svg", "--gid", "1", *PLACE],
    "svg, moving": ["svg", "--gid", "1", "--animate", "wght"],
    "instance": ["instance", *PLACE, "-o", "OUT"],
    "sheet at a place": ["sheet", *PLACE, "-o", "OUT"],
    "report at a place": ["report", *PLACE, "-o", "OUT"],
    "flat at a place": ["flat", *PLACE, "-o", "OUT"],
    "subset at a place": ["subset", "--gids", "0-65534", *PLACE, "-o", "OUT"],
}


def index(items):
    """Returns a CFF2 INDEX with offsets of three bytes."""
    if not items:
        return long(0)
    ends = itertools.accumulate(map(len, items), initial=1)
    return long(len(items)) + b"\x03" + b"".join(end.to_bytes(3, "big") for end in ends) + b"".join(items)


def regions_of(count, axes=1):
    """Returns a list of regions, each from the default to an end of each axis."""
    return short(axes) + short(count) + (short(0) + short(0x4000) + short(0x4000)) * axes * count


def store_of(regions, named=(0,), rows=b"", items=0, times=1):
    """Returns a variation store: regions, and item variation data with these region indexes and rows of one-byte deltas. The data are
    listed `times` times, at the same offset."""
    data = short(items) + short(0) + short(len(named)) + b"".join(map(short, named)) + rows
    at = 8 + 4 * times
    return short(1) + long(at) + short(times) + long(at + len(regions)) * times + regions + data


def outlines(glyphs, routines=(), store=store_of(regions_of(1)), select=b"", parts=1, private=b""):
    """Returns a `CFF2` table with these glyphs and global subroutines; its Font DICTs share one Private DICT."""
    behind, codes = index(list(routines)), index(glyphs)

    def dictionary(at):
        return number(len(private)) + number(at) + PRIVATE

    array = len(index([dictionary(0)] * parts))

    def top(place):
        at = place + len(codes)
        chosen = number(at) + FD_SELECT if select else b""
        return number(place) + CHAR_STRINGS + number(at + len(select)) + FD_ARRAY + chosen + number(at + len(select) + array + len(private)) + STORE

    size = len(top(0))
    place = 5 + size + len(behind)
    at = place + len(codes) + len(select)
    front = b"\x02\x00\x05" + short(size) + top(place) + behind + codes + select
    return front + index([dictionary(at + array)] * parts) + private + short(min(len(store), 65_535)) + store


def axes_of(instances=(), axes=1):
    """Returns an `fvar` table: axes, and instances with these name IDs."""
    rows = b"".join(
        (b"wght" if i == 0 else b"A" + f"{i:03}".encode()[-3:]) + long(100 << 16) + long(400 << 16) + long(900 << 16) + short(0) + short(256)
        for i in range(axes)
    )
    placed = b"".join(short(name) + short(0) + long(650 << 16) * axes for name in instances)
    return short(1) + short(0) + short(16) + short(2) + short(axes) + short(20) + short(len(instances)) + short(4 + 4 * axes) + rows + placed


def font(cff2, glyphs, fvar=axes_of(), **others):
    tables = {b"fvar": fvar, **{name.encode(): data for name, data in others.items()}}
    return file_of(cff2, glyphs, tag=b"CFF2", others=tables)


def plain(routines):
    """Returns Type 2 subroutines without the `return` at their end, which CFF2 does not have."""
    return [routine[:-1] for routine in routines]


def sums(regions):
    """Returns blends of as many numbers as fit on the stack of 513, and lines along them."""
    many = min(512 // (regions + 1), 200)
    return (ZERO * (many * (regions + 1)) + operand(many) + BLEND + LINES) * max(1, 1500 // (many * (regions + 1)))


def runs():
    """Yields fonts that are expensive to execute: a name, and the file."""
    start = BEGIN + call(0, 10)
    work = {"": b"", ", lines": (ONE * 2 + BACK * 2) * 120 + LINES, ", moves": (ONE + MOVE + BACK + MOVE) * 375}
    for name, leaf in work.items():
        yield f"nested calls{name}", font(outlines([b"", start], plain(nested(leaf))), 2)
    for regions in (1, 16, 511):
        store = store_of(regions_of(regions), range(regions))
        yield f"nested calls, blends of {regions} regions", font(outlines([b"", start], plain(nested(sums(regions))), store), 2)
        glyphs = [b"", *[BEGIN + call(0, 3)] * (MANY - 1)]
        near = outlines(glyphs, plain(squared(sums(regions), 19_000_000)), store)
        yield f"65,535 glyphs near the limit, blends of {regions} regions", font(near, MANY)
    glyphs = [b"", *[BEGIN + call(0, 3)] * (MANY - 1)]
    yield "65,535 glyphs near the limit, lines", font(outlines(glyphs, plain(squared(work[", lines"], 19_000_000))), MANY)
    tenth = plain(squared((ONE + LINES + BACK + LINES) * 375, 1_900_000))
    yield "a glyph near a tenth of the limit, lines one by one", font(outlines([b"", BEGIN + call(0, 3)], tenth), 2)
    long_numbers = (real(80_000_001) * 2 + real(-80_000_001) * 2) * 100 + LINES
    for count, near in ((10, 2_300_000), (150, 480_000), (300, 200_000)):
        written = outlines([b"", *[BEGIN + call(0, 3)] * count], plain(squared(long_numbers, near)))
        yield f"{count} glyphs of {near:,} bytes, lines of long numbers", font(written, count + 1)
    glyphs = [b"", *[call(0, 1)] * (MANY - 1)]
    yield "65,535 glyphs refused behind 513 numbers", font(outlines(glyphs, [ONE * 513 + b"\x02"]), MANY)
    choosing = operand(5_999) + VS_INDEX + BEGIN
    store = store_of(regions_of(5_000), range(5_000), times=6_000)
    yield "65,535 glyphs over 5,000 regions, which 6,000 data name", font(outlines([choosing] * MANY, store=store), MANY)


def searched():
    """Yields fonts with tables that are slow to search, or with many tables."""
    empty = [b""] * MANY
    select = b"\x03" + short(MANY) + b"".join(short(i) + bytes([i % 2]) for i in range(MANY)) + short(MANY)
    yield "FDSelect of 65,535 ranges", font(outlines(empty, select=select, parts=2), MANY)
    wide = b"\x04" + long(MANY) + b"".join(long(i) + short(i % 2) for i in range(MANY)) + long(MANY)
    yield "FDSelect of 65,535 wide ranges", font(outlines(empty, select=wide, parts=2), MANY)
    falling = b"\x04" + long(60_000) + b"".join(long(MANY - i) + short(i % 2) for i in range(60_000)) + long(MANY)
    yield "FDSelect of 60,000 ranges that fall", font(outlines(empty, select=falling, parts=2), MANY)
    yield "65,535 glyphs of a private dictionary of 300,000 bytes", font(outlines(empty, private=b"\x8b\x0c\x09" * 100_000), MANY)
    store = store_of(regions_of(60_000), range(60_000), times=60_000)
    yield "a store of 60,000 data, each of 60,000 regions", font(outlines([b""] * 2, store=store), 2)
    widths = (b"\x8b\x0c\x09") * 200_000
    yield "20,000 font dictionaries over one private dictionary of 600,000 bytes", font(
        outlines([b""] * 2, select=b"\x00\x00\x00", parts=20_000, private=widths), 2,
    )  # fmt: skip
    yield "60,000 instances", font(outlines([b""] * 2), 2, axes_of([256] * 60_000))
    records = b"".join(short(3) + short(1) + short(0x409) + short(256 + i) + short(0) + short(0) for i in range(40_000))
    name = short(0) + short(40_000) + short(6) + records
    few = axes_of([40_255 - i for i in range(4_000)])
    yield "4,000 instances of 40,000 names", font(outlines([b""] * 2), 2, few, name=name)
    long_name = short(0) + short(1) + short(18) + short(3) + short(1) + short(0x409) + short(256) + short(65_534) + short(0) + b"\0A" * 32_767
    yield "4,000 instances of a name of 32,767 letters", font(outlines([b""] * 2), 2, axes_of([256] * 4_000), name=long_name)
    yield "40,000 instances of 40,000 names", font(outlines([b""] * 2), 2, axes_of([40_255 - i for i in range(40_000)]), name=name)
    for axes in (4_000, 8_000):
        varied = outlines([b""] * 2, store=store_of(regions_of(1, axes)))
        maps = short(1) + short(0) + short(0) + short(axes) + short(0) * axes
        yield f"{axes:,} axes", font(varied, 2, axes_of([256], axes), avar=maps)
    for deltas, times in ((1, 1), (30_000, 1), (30_000, 30_000)):
        store = store_of(regions_of(deltas), range(deltas), bytes([1]) * deltas, 1, times)
        # entries of four bytes: the outer index, then the inner index (0)
        mapped = b"\x01\x3f" + long(MANY) + b"".join(short(i % times) + short(0) for i in range(MANY))
        advances = short(1) + short(0) + long(20) + long(20 + len(store)) + long(0) + long(0) + store + mapped
        yield f"65,535 glyphs whose advances are {times} times the same {deltas} deltas", font(outlines(empty), MANY, HVAR=advances)
    pairs = b"".join(short(0x10000 - 0x4000 + i // 2) * 2 for i in range(1, 30_000)) + short(0) * 2 + short(0x4000) * 2
    bent = short(1) + short(0) + short(0) + short(1) + short(len(pairs) // 4) + pairs
    yield "an axis of 30,000 pairs", font(outlines(empty), MANY, avar=bent)


if __name__ == "__main__":
    sys.exit(table(itertools.chain(runs(), searched()), COMMANDS, sys.argv[1:]))
