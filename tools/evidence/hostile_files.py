#!/usr/bin/env python3
"""Times each `psotf` subcommand on OpenType files that are expensive to process.

    (cd crates/psotf && rt run -- --help)
    tools/evidence/hostile_files.py [WORD..]

The fonts have at most 1 MB each and are made in a temporary folder. They have nested calls that multiply, with and without work at the
innermost level, and many glyphs that each cost nearly the limit. Others have glyphs rejected after long runs of numbers, tables that are
slow to search, or many tables. Some are made to fill memory: a glyph near the limit of many operations or of long numbers, many glyphs
whose charstrings become long without calls, and long strings, DICTs or subroutines that many others share. With WORDs, only fonts with a WORD in their name are made. The script runs crates/psotf/out/psotf, or the
program in the environment variable PSOTF.

The table gives the bytes, the seconds of processor time of each subcommand (so that other work does not count), and the most memory in MB.
It also gives the seconds of hb-view, ots-sanitize and ftbench, or "-" if they are not on the path. Commands are ended after 20 seconds.
Nothing is random. The exit status is 1 if psotf takes more than ten seconds, keeps more than 128 MB, or ends with a status other than 0 and 1.
"""

import itertools
import pathlib
import resource
import shutil
import subprocess
import sys
import tempfile

sys.dont_write_bytecode = True
sys.path.insert(0, str(pathlib.Path(__file__).resolve().parents[1]))

from building import PSOTF
from hostile import CHAR_SET, CHAR_STRINGS, HEADER, PRIVATE, SUBRS, number

MOST, LONGEST, MEMORY = 10, 20, 128
ROS, FD_ARRAY, FD_SELECT = b"\x0c\x1e", b"\x0c\x24", b"\x0c\x25"
CALL, CALL_GLOBAL, RETURN, END = b"\x0a", b"\x1d", b"\x0b", b"\x0e"
ONE, BACK, ROLL, LINES, MOVE, STEMS, MASK, CURVE = b"\x8c", b"\x8a", b"\x0c\x1e", b"\x06", b"\x16", b"\x01", b"\x13", b"\x08"
MANY = 65_535
COMMANDS = {
    "inspect": ["inspect"],
    "inspect --json": ["inspect", "--json"],
    "glyph --all": ["glyph", "--all"],
    "glyph --all --json": ["glyph", "--all", "--json"],
    "glyph --name": ["glyph", "--name", "none"],
    "svg": ["svg", "--gid", "1"],
    "sheet": ["sheet"],
    "report": ["report", "-o", "OUT"],
    "flat": ["flat", "-o", "OUT"],
    "subset": ["subset", "--gids", "GIDS", "-o", "OUT"],
    "subset --layout-features *": ["subset", "--gids", "GIDS", "--layout-features", "*", "-o", "OUT"],
    "subset --retain-gids": ["subset", "--gids", "GIDS", "--retain-gids", "-o", "OUT"],
    "subset --unicodes": ["subset", "--unicodes", "0-10ffff", "-o", "OUT"],
}
OTHERS = {
    "hb-view": ["hb-view", "--font-file=FILE", "--text=AB", "--output-format=svg", "--output-file=/dev/null"],
    "ots-sanitize": ["ots-sanitize", "FILE", "/dev/null"],
    "ftbench": ["ftbench", "-c", "1", "-b", "a", "FILE"],
}


def short(n):
    return n.to_bytes(2, "big")


def long(n):
    return n.to_bytes(4, "big")


def index(items):
    """Returns an INDEX with offsets of three bytes."""
    if not items:
        return short(0)
    offsets, at = [], 1
    for item in [b"", *items]:
        at += len(item)
        offsets.append(at.to_bytes(3, "big"))
    return short(len(items)) + b"\x03" + b"".join(offsets) + b"".join(items)


def sharing(items):
    """Returns an INDEX whose offsets rise and fall: all items share the bytes of the first, with an empty item between each two."""
    ends = [1, len(items[0]) + 1] * len(items)
    return short(len(ends) - 1) + b"\x03" + b"".join(end.to_bytes(3, "big") for end in ends) + items[0]


def operand(n):
    """Encodes an integer as an operand of a charstring."""
    return bytes([n + 139]) if -107 <= n <= 107 else b"\x1c" + n.to_bytes(2, "big", signed=True)


def call(n, many, operator=CALL_GLOBAL):
    """Encodes a call of subroutine N of a list of `many`."""
    return operand(n - (107 if many < 1240 else 1131 if many < 33900 else 32768)) + operator


def plain_font(glyphs, routines=(), char_set=b"", strings=(), tops=1):
    """Returns a `CFF ` table with these glyphs and global subroutines."""
    front = HEADER + index([b"A"])
    behind = index(list(strings)) + index(list(routines))
    codes, private = index(glyphs), b""

    def top(place):
        at = place + len(codes)
        own = number(at) + CHAR_SET if char_set else b""
        return own + number(place) + CHAR_STRINGS + number(len(private)) + number(at + len(char_set)) + PRIVATE

    place = len(front) + len(index([top(0)] * tops)) + len(behind)
    return front + index([top(place)] * tops) + behind + codes + char_set + private


def keyed_font(glyphs, select, parts=2, routines=(), private=number(6) + SUBRS, more=b"", listed=index):
    """Returns a CID-keyed `CFF ` table whose Font DICTs share one Private DICT and its local subroutines."""
    front = HEADER + index([b"A"])
    codes, locals_ = index(glyphs), index(list(routines))

    def dictionary(at):
        return number(len(private)) + number(at) + PRIVATE + more

    array = len(listed([dictionary(0)] * parts))

    def top(place):
        at = place + len(codes)
        return (
            number(391) + number(392) + number(0) + ROS + number(place) + CHAR_STRINGS
            + number(at) + FD_SELECT + number(at + len(select)) + FD_ARRAY
        )

    behind = index([b"Adobe", b"Identity"]) + index([])
    place = len(front) + len(index([top(0)])) + len(behind)
    at = place + len(codes) + len(select) + array
    return front + index([top(place)]) + behind + codes + select + listed([dictionary(at)] * parts) + private + locals_


def segments(count):
    """Returns a `cmap` table of format 4, with segments of one character."""
    ends = [3 * i + 1 for i in range(min(count, 20_000))]
    many = len(ends) + 1
    halves = lambda numbers: b"".join(short(n % 65_536) for n in numbers)
    rows = halves([*ends, 65_535]) + short(0) + halves([*ends, 65_535]) + halves([1 - end for end in ends] + [1]) + bytes(2 * many)
    return long(1) + long(0x00030001) + long(12) + short(4) + short(0) + short(0) + short(2 * many) + bytes(6) + rows


def groups(rows):
    """Returns a `cmap` table of format 12."""
    body = b"".join(long(first) + long(last) + long(glyph) for first, last, glyph in rows)
    return long(1) + long(0x0003000A) + long(12) + short(12) + short(0) + long(16 + len(body)) + long(0) + long(len(rows)) + body


LETTERS = groups([(65, 66, 1)])


def substitutions(count):
    """Returns a `GSUB` table with many lookups at one offset, each with as many subtables at one offset that covers all glyphs."""
    lookups = short(count) + short(2 + 2 * count) * count
    lookup = short(1) + short(0) + short(count) + short(6 + 2 * count) * count
    single = short(1) + short(6) + short(1) + short(2) + short(1) + short(0) + short(MANY) + short(0)
    return long(0x00010000) + short(0) + short(0) + short(10) + lookups + lookup + single


def chosen(features, lookups):
    """Returns a `GSUB` table with an empty script list, a feature list and a lookup list."""
    place = 12 + len(features)
    return long(0x00010000) + short(10) + short(12) + short(place if place <= MANY else 10) + short(0) + features + lookups


def named(count):
    """Returns a feature list with one feature, which names many lookups."""
    return short(1) + b"liga" + short(8) + short(0) + short(count) + b"".join(map(short, range(count)))


def shared(count, kind, subtable):
    """Returns a lookup list with many lookups at one offset. They have one subtable."""
    return short(count) + short(2 + 2 * count) * count + short(kind) + short(0) + short(1) + short(8) + subtable


def contexts(count, last):
    """Returns a lookup list with many lookups at one offset. They have 30,000 contexts of all glyphs at one offset, and another subtable."""
    context = short(3) + short(1) + short(1) + short(12) + short(0) + short(1) + COVERED
    places = short(6 + 2 * 30_001) * 30_000 + short(6 + 2 * 30_001 + len(context))
    return short(count) + short(2 + 2 * count) * count + short(5) + short(0) + short(30_001) + places + context + last


def of_sets(sets, actions):
    """Returns a context of many sets of all glyphs, with many actions."""
    return short(3) + short(sets) + short(actions) + COVERED + short(6) * (sets - 5) + long(0) * actions


#: a coverage table of 65,535 glyphs, and a subtable whose 65,535 sets have one place, each with 65,535 parts
COVERED = short(2) + short(1) + short(0) + short(MANY - 1) + short(0)
FILLED = short(1) + short(60_006) + short(MANY) + short(4) * 30_000 + COVERED + short(4) * 40_000
GSUBS = {
    "65,535 features of 27,753 lookups in their own tags": chosen(short(MANY) + (b"liga" + short(0)) * MANY, short(0)),
    "10,000 lookups of 65,535 glyphs, each chosen": chosen(named(10_000), shared(10_000, 1, short(1) + short(6) + short(1) + COVERED)),
    "65,535 sequences of 65,535 glyphs": chosen(named(1), shared(1, 2, FILLED)),
    "65,535 ligatures for each of 65,535 glyphs": chosen(named(1), shared(1, 4, FILLED)),
    "a list of 60,000 glyphs to substitute": chosen(
        named(1), shared(1, 1, short(1) + short(6) + short(1) + short(1) + short(60_000) + b"".join(map(short, range(60_000)))),
    ),
    "10,000 lookups of 30,000 contexts and one by glyphs": chosen(named(10_000), contexts(10_000, short(1) * 4)),
    "10,000 lookups of 30,001 contexts": chosen(named(10_000), contexts(10_000, short(3) + short(0) * 4)),
    "a context of 65,535 sets and no actions": chosen(named(1), shared(1, 5, of_sets(MANY, 0))),
    "10,000 contexts of 30,000 sets and actions": chosen(named(10_000), shared(10_000, 5, of_sets(30_000, 30_000))),
    "10,000 extensions of themselves": chosen(named(10_000), shared(10_000, 7, short(1) + short(7) + long(0))),
}


def file_of(outlines, glyphs, cmap=LETTERS, more=(), tag=b"CFF ", others=()):
    """Returns an OpenType file with this table of outlines and others, and its number of glyphs. Each tag of `more` covers all other
    tables."""
    tables = {
        tag: outlines,
        b"OS/2": short(4) + bytes(94),
        b"cmap": cmap,
        b"head": long(0x00010000) + long(0x00010000) + long(0) + long(0x5F0F3CF5) + short(0) + short(1000) + bytes(34),
        b"hhea": long(0x00010000) + short(800) + bytes(28) + short(1),
        b"hmtx": short(500) + bytes(2 * glyphs),
        b"maxp": long(0x00005000) + short(glyphs),
        b"name": short(0) + short(0) + short(6),
        b"post": long(0x00030000) + bytes(28),
        **dict(others),
    }
    many = len(tables) + len(more)
    at, body, records = 12 + 16 * many, b"", []
    for tag in sorted(tables):
        records.append((tag, at + len(body), len(tables[tag])))
        body += tables[tag] + bytes(-len(tables[tag]) % 4)
    records += [(tag, at, len(body)) for tag in more]
    directory = b"".join(tag + long(0) + long(place) + long(size) for tag, place, size in sorted(records))
    return b"OTTO" + short(many) + bytes(6) + directory + body, glyphs


def nested(leaf, times=3000):
    """Returns ten global subroutines. Each calls the next one `times` times; the last one is `leaf`."""
    return [call(i + 1, 10) * times + RETURN for i in range(9)] + [leaf + RETURN]


def squared(leaf, near):
    """Returns three global subroutines whose execution costs nearly the limit, with a square number of calls of `leaf`."""
    times = int((near / (len(leaf) + 3)) ** 0.5)
    return [call(1, 3) * times + RETURN, call(2, 3) * times + RETURN, leaf + RETURN]


WORK = {
    "lines": (ONE * 2 + BACK * 2) * 750 + LINES,
    "moves": (ONE + MOVE + BACK + MOVE) * 750,
    "stems": ONE * 3000 + STEMS,
    "hints one by one": (ONE * 2 + STEMS) * 1000,
    "rolls of 48": ONE * 48 + (operand(48) + ONE + ROLL) * 1000 + LINES,
    "rolls of 32,767": ONE * 32_767 + (operand(32_767) + ONE + ROLL) * 1000 + LINES,
    "sums": (ONE * 2 + b"\x0c\x0a\x0c\x12") * 700,
    "roots": ONE + b"\x0c\x1a" * 1500 + b"\x0c\x12",
}
BEGIN = ONE * 2 + b"\x15"


def runs():
    """Yields fonts that are expensive to execute: a name, and the file."""
    start = BEGIN + call(0, 10) + END
    yield "nested calls", file_of(plain_font([END, start], nested(b"")), 2)
    for name, leaf in WORK.items():
        yield f"nested calls, {name}", file_of(plain_font([END, start], nested(leaf)), 2)
    masks = ONE * 16 + STEMS + call(0, 10) + END
    yield "nested calls, masks", file_of(plain_font([END, masks], nested((MASK + b"\xff") * 1500)), 2)
    for name, leaf in {"": b"\x8c\x8c\x0c\x0a\x0c\x12" * 500, ", lines": WORK["lines"], ", moves": WORK["moves"], ", stems": WORK["stems"]}.items():
        glyphs = [END, *[BEGIN + call(0, 3) + END] * (MANY - 1)]
        yield f"65,535 glyphs near the limit{name}", file_of(plain_font(glyphs, squared(leaf, 19_000_000)), MANY)
    glyphs = [END, *[call(0, 1) + END] * (MANY - 1)]
    yield "65,535 glyphs refused behind 300,000 numbers", file_of(plain_font(glyphs, [ONE * 300_000]), MANY)


def real(bits):
    """Encodes a number in 65536ths as an operand of five bytes."""
    return b"\xff" + bits.to_bytes(4, "big", signed=True)


def one(begin, leaf, near):
    """Returns a file with one glyph, which runs `leaf` until it costs `near`."""
    return file_of(plain_font([END, begin + call(0, 3) + END], squared(leaf, near)), 2)


def sharing_font():
    """Returns a `CFF ` table whose 20,000 global subroutines are the same 500,000 bytes."""
    front, routines = HEADER + index([b"A"]), sharing([RETURN * 500_000] * 20_000)
    place = len(front) + len(index([number(0) + CHAR_STRINGS + number(0) + number(0) + PRIVATE])) + 2 + len(routines)
    top = number(place) + CHAR_STRINGS + number(0) + number(0) + PRIVATE
    return front + index([top]) + index([]) + routines + index([END, END])


def kept():
    """Yields fonts that fill memory."""
    least = real(-12_345 * 65_536 - 44_433)
    most = real(12_345 * 65_536 + 44_433)
    curves = (least * 2 + most * 2 + least * 2 + CURVE + most * 2 + least * 2 + most * 2 + CURVE) * 100
    yield "a glyph near the limit, long numbers", one(b"", operand(-107) * 3000 + STEMS, 19_000_000)
    yield "a glyph near the limit, masks", one(ONE * 16 + STEMS, (MASK + b"\xff") * 1000, 19_000_000)
    yield "a glyph of 390,000 curves of long numbers", one(least * 2 + b"\x15", curves, 390_000 * 31)
    lines = (ONE * 24 + BACK * 24 + LINES) * 63 + RETURN
    for glyphs in (305, 1_500):
        table = plain_font([END, *[BEGIN + call(0, 2) + END] * glyphs], [call(1, 2) * 21 + RETURN, lines])
        yield f"{glyphs:,} glyphs of 65,000 bytes without calls", file_of(table, glyphs + 1)
    yield "20,000 global subroutines of the same 500,000 bytes", file_of(sharing_font(), 2)
    named_font = plain_font([END] * 60_000, char_set=b"\x00" + short(391) * 59_999, strings=[b"A" * 500_000])
    yield "60,000 glyphs of the same name of 500,000 letters", file_of(named_font, 60_000)
    for name, private in {"operands": b"\x20" * 600_000 + b"\x14", "operators": b"\x14" * 600_000, "widths": b"\x20\x14" * 300_000}.items():
        yield f"30 font dictionaries over 600,000 bytes of {name}", file_of(keyed_font([END] * 2, b"\x00\x00\x00", 30, private=private), 2)
        yield f"a private dictionary of 980,000 bytes of {name}", file_of(keyed_font([END] * 2, b"\x00\x00\x00", 1, private=(private * 2)[:980_000]), 2)


def searched():
    """Yields fonts with tables that are slow to search, or with many tables."""
    plain = [END] * MANY
    select = b"\x03" + short(MANY) + b"".join(short(i) + bytes([i % 2]) for i in range(MANY)) + short(MANY)
    yield "FDSelect of 65,535 ranges", file_of(keyed_font(plain, select), MANY)
    falling = b"\x03" + short(MANY) + b"".join(short(MANY - i) + bytes([i % 2]) for i in range(MANY)) + short(MANY)
    yield "FDSelect of 65,535 ranges that fall", file_of(keyed_font(plain, falling), MANY)
    ranges = b"\x01" + b"".join(short(MANY - i) + b"\x00" for i in range(1, MANY))
    yield "a char set of 65,534 ranges", file_of(plain_font(plain, char_set=ranges), MANY)
    listed = b"\x00" + short(1) * (MANY - 2) + short(34)
    accented = [END, *[operand(0) * 2 + operand(65) * 2 + END] * (MANY - 2), END]
    yield "65,535 accented glyphs", file_of(plain_font(accented, char_set=listed), MANY)
    yield "a map of 20,000 segments", file_of(plain_font([END] * 2), 2, segments(20_000))
    yield "a map of 65,535 groups", file_of(plain_font([END] * 2), 2, groups([(2 * i, 2 * i, 1) for i in range(1, MANY)]))
    falling = [(2 * i, 2 * i, 1) for i in range(MANY, 0, -1)]
    yield "a map of 65,535 groups that fall", file_of(plain_font([END] * 2), 2, groups(falling))
    yield "a map of 65,535 groups behind all characters", file_of(plain_font([END] * 2), 2, groups([(0x10FFFF, 0x10FFFF, 1)] * MANY + [(0, 0x10FFFF, 1)]))
    yield "30,000 lookups of 30,000 subtables of all glyphs", file_of(plain_font([END] * 2), 2, others=[(b"GSUB", substitutions(30_000))])
    named_font = plain_font([END] * 60_000, char_set=b"\x00" + short(1) * 59_999)
    for name, table in GSUBS.items():
        yield name, file_of(named_font, 60_000, others=[(b"GSUB", table)])
    yield "20,000 dictionaries over 60,000 glyphs", file_of(plain_font([END] * 60_000, tops=20_000), 60_000)
    yield "10,000 font dictionaries over 60,000 subroutines", file_of(
        keyed_font([END] * 2, b"\x00\x00\x00", 10_000, [RETURN] * 60_000), 2,
    )  # fmt: skip
    widths = (b"\x8b\x14") * 300_000
    yield "20,000 font dictionaries over one private dictionary of 600,000 bytes", file_of(
        keyed_font([END] * 2, b"\x00\x00\x00", 20_000, private=widths), 2,
    )  # fmt: skip
    yield "20,000 font dictionaries over the same bytes of their INDEX", file_of(
        keyed_font([END] * 2, b"\x00\x00\x00", 20_000, more=b"\x8b\x0c\x08" * 200_000, listed=sharing), 2,
    )  # fmt: skip
    tags = [b"a" + bytes([65 + i // 676, 65 + i // 26 % 26, 65 + i % 26]) for i in range(10_000)]
    yield "10,000 tables over the same bytes", file_of(plain_font([END] * 60_000), 60_000, more=tags)


def at_most():
    resource.setrlimit(resource.RLIMIT_CPU, (LONGEST, LONGEST))


def timed(words):
    """Returns the processor seconds of a command, its peak memory in MB, and its status (negative if a signal ended it)."""
    with tempfile.NamedTemporaryFile() as told:
        process = subprocess.Popen(
            ["/usr/bin/time", "-q", "-f", "%U %S %M", "-o", told.name, *words],
            stdin=subprocess.DEVNULL, stdout=subprocess.DEVNULL, stderr=subprocess.DEVNULL, preexec_fn=at_most,
        )  # fmt: skip
        status = process.wait()
        user, system, most = told.read().split()[-3:]
        return float(user) + float(system), int(most) / 1024, status


def words_of(command, path, glyphs, out):
    given = {"OUT": out, "GIDS": f"0-{glyphs - 1}"}
    return [str(PSOTF), command[0], path, *(given.get(word, word) for word in command[1:])]


def row(name, data, glyphs, folder, commands):
    """Prints the times of a font, and returns whether it fails."""
    path, out = f"{folder}/font.otf", f"{folder}/out.otf"
    pathlib.Path(path).write_bytes(data)
    cells, memory, bad = [], 0, False
    for command in commands.values():
        seconds, most, status = timed(words_of(command, path, glyphs, out))
        memory, bad = max(memory, most), bad or seconds > MOST or most > MEMORY or status not in (0, 1)
        cells.append(f"{seconds:.2f}" if status in (0, 1) else f"{seconds:.0f} (status {status})")
    others = []
    for command in OTHERS.values():
        if shutil.which(command[0]) is None:
            others.append("-")
            continue
        seconds, _, _ = timed([word.replace("FILE", path) for word in command])
        others.append(f"{seconds:.2f}" if seconds < LONGEST else f"over {LONGEST}")
    print(f"| {name} | {len(data)} |", " | ".join([*cells, f"{memory:.0f}", *others]), "|", flush=True)
    return bad


def table(fonts, commands, words):
    """Prints the table of these fonts, or of those with one of the words in their name, and returns the status."""
    print("| font | bytes |", " | ".join([*commands, "MB", *OTHERS]), "|")
    print("|---" * (len(commands) + len(OTHERS) + 3) + "|")
    bad = False
    with tempfile.TemporaryDirectory() as folder:
        for name, (data, glyphs) in fonts:
            if not words or any(word in name for word in words):
                bad = row(name, data, glyphs, folder, commands) or bad
    return 1 if bad else 0


if __name__ == "__main__":
    sys.exit(table(itertools.chain(runs(), kept(), searched()), COMMANDS, sys.argv[1:]))
