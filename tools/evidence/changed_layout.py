#!/usr/bin/python3
"""Changes layout tables of fonts at random, and writes a subset with layout tables of each changed font, within a limit.

    /usr/bin/python3 tools/evidence/changed_layout.py [--seed N] [--count N] [--limit N] [--jobs N] WORD..
    /usr/bin/python3 tools/evidence/changed_layout.py [--seed N] --write N FILE WORD..

Each WORD is a font file, a folder, or an installed Debian package; of the last two, the script takes each .otf file. It keeps fonts of at
most 1 MB with a `CFF ` table and one of `GSUB`, `GPOS`, `GDEF` and `kern`. To each it adds a subset of the font with all layout features,
since small tables have more of their bytes in offsets and counts. Fonts that cannot be written without a change are left out.

Each of the COUNT cases changes one of these tables of one font, in memory: one to eight bytes are set, numbers are set to 0, 1 or 65535,
two numbers change places, or the table is truncated. Half of the changes are in the first 200 bytes of the table. The script calls
`psf_file_subset_layout` with up to twelve characters of the font, with all or with the usual features. In every eighth case glyphs keep
their numbers. The limit is 20,000,000 units by default, as for `psotf`.

The calls are made in N processes (by default one), through the Python module in bindings/python. It loads the shared library in
bindings/c/build, which make builds, or the one in the environment variable POSTSCRIPT_LIBRARY.

The script prints the number of calls by their status, and for each table the number of new files by the outcome for it. It prints the
longest processor time of a call, the peak memory of a process with and without the fonts, and the seed. The exit status is 1 if a call takes
more than two seconds of processor time, or if a process ends by a signal; a call is ended after 20 seconds. The script then prints the case.
The second command writes the changed font of a case to FILE.

Needs make and Debian's python3-fonttools.
"""

import argparse
import collections
import ctypes
import multiprocessing
import pathlib
import random
import resource
import signal
import sys
import time

sys.dont_write_bytecode = True
sys.path.insert(0, str(pathlib.Path(__file__).resolve().parents[1]))

from fontTools.ttLib import TTFont, TTLibError

from building import TOP, printed
from font_files import files_of

TABLES = [b"GSUB", b"GPOS", b"GDEF", b"kern"]
LARGEST, CHARACTERS, IN_SUBSET = 1_000_000, 12, 150
SLOW, LONGEST = 2, 20
FRONT = 200
EXTREMES = [0, 1, 0xFFFF]

# A font: its path, its bytes, its characters, and of each layout table the record in the table directory, the offset and the length.
Base = collections.namedtuple("Base", "path data characters tables")

# A case: its font, the offsets and bytes that are changed, the characters, whether all features are chosen, and whether glyphs keep their numbers.
Case = collections.namedtuple("Case", "base changes characters every keeps")


def module():
    """Loads the Python module, after its library is built."""
    printed("make", "--no-print-directory", "-s", "-C", TOP / "bindings" / "c")
    sys.path.insert(0, str(TOP / "bindings" / "python"))
    import postscript

    return postscript


# The fonts


def long_at(data, at):
    return int.from_bytes(data[at : at + 4], "big")


def tables_in(data):
    """Returns of each layout table of a file: where its record is, its offset and its length."""
    records = range(12, 12 + 16 * int.from_bytes(data[4:6], "big"), 16)
    tables = {data[at : at + 4]: (at, long_at(data, at + 8), long_at(data, at + 12)) for at in records}
    return [tables[tag] for tag in TABLES if tag in tables and tables[tag][2] >= 4]


def characters_of(path):
    """Returns the characters of a font with a `CFF ` table; none of others."""
    try:
        font = TTFont(path, lazy=True)
        return sorted(font.getBestCmap() or {}) if "CFF " in font else []
    except (TTLibError, AssertionError, KeyError):
        return []


def bases_of(postscript, words, draw):
    """Yields each font, and a subset of it, if they have layout tables."""
    for path in files_of(*words):
        data = pathlib.Path(path).read_bytes()
        characters = characters_of(path) if len(data) <= LARGEST else []
        if not characters or not tables_in(data):
            continue
        yield Base(path, data, characters, tables_in(data))
        some = sorted(draw.sample(characters, min(IN_SUBSET, len(characters))))
        try:
            subset = postscript.Font.from_bytes(data).subset_file(unicodes=some, features="*", exact=True, ignore_missing=True)
        except postscript.Error:
            continue
        if tables_in(subset):
            yield Base(f"{path}, a subset", subset, some, tables_in(subset))


# Changes. Each returns offsets of the file, with the bytes that are written there.


def position(draw, length, step=1):
    """Returns an offset in a table, in half of all cases near its start."""
    return draw.randrange(0, min(length, FRONT) if draw.random() < 0.5 else length, step)


def set_bytes(draw, data, table):
    _, offset, length = table
    return [(offset + position(draw, length), bytes([draw.randrange(256)])) for _ in range(draw.randint(1, 8))]


def set_numbers(draw, data, table):
    _, offset, length = table
    return [(offset + position(draw, length - 1, 2), draw.choice(EXTREMES).to_bytes(2, "big")) for _ in range(draw.randint(1, 4))]


def exchange_numbers(draw, data, table):
    _, offset, length = table
    one, other = (offset + position(draw, length - 1, 2) for _ in range(2))
    return [(one, data[other : other + 2]), (other, data[one : one + 2])]


def truncate(draw, data, table):
    record, _, length = table
    return [(record + 12, position(draw, length).to_bytes(4, "big"))]


CHANGES = [set_bytes, set_bytes, set_numbers, set_numbers, exchange_numbers, truncate]


def case_of(bases, seed, number):
    """Returns a case, which depends only on the fonts, the seed and its number."""
    draw = random.Random(f"{seed} {number}")
    base = draw.choice(bases)
    changes = draw.choice(CHANGES)(draw, base.data, draw.choice(base.tables))
    characters = draw.sample(base.characters, min(draw.randint(1, CHARACTERS), len(base.characters)))
    return Case(base, changes, characters, draw.random() < 0.5, draw.random() < 0.125)


def changed(case):
    data = bytearray(case.base.data)
    for place, written in case.changes:
        data[place : place + len(written)] = written
    return data


# Calls


class Caller:
    """Calls the library, with one buffer for all files."""

    def __init__(self, postscript, most, limit):
        self.call, self.limit = postscript._library.psf_file_subset_layout, limit
        self.room, self.count, self.layout = (ctypes.c_uint8 * most)(), ctypes.c_size_t(), postscript._Layout()
        self.refusal, self.tags = postscript._Refusal(), postscript._tags_of(postscript.FEATURES)
        self.no_glyphs, self.no_tags = (ctypes.c_size_t * 0)(), (ctypes.c_uint32 * 0)()

    def written(self, case):
        """Returns the status of a call, and its processor time in seconds."""
        data = changed(case)
        file = (ctypes.c_uint8 * len(data)).from_buffer(data)
        characters = (ctypes.c_uint32 * len(case.characters))(*case.characters)
        began = time.process_time()
        status = self.call(
            file, len(data), 0, characters, len(characters), self.no_glyphs, 0, self.no_tags, 0, 1, int(case.keeps), 0, 1, self.tags,
            len(self.tags), int(case.every), self.limit, self.room, len(self.room), self.count, self.layout, self.refusal,
        )  # fmt: skip
        return status, time.process_time() - began

    def outcomes(self):
        """Yields each layout table with its outcome in the last call."""
        for table in TABLES:
            yield table, getattr(self.layout, table.lower().decode())


def memory():
    """Returns the peak memory of this process in MB."""
    return resource.getrusage(resource.RUSAGE_SELF).ru_maxrss / 1024


def work(caller, bases, seed, numbers, current, sender):
    """Makes the calls of some cases, and sends what there is to report."""
    signal.signal(signal.SIGVTALRM, signal.SIG_DFL)
    before, statuses, outcomes, slow, longest = memory(), collections.Counter(), collections.Counter(), [], 0.0
    for number in numbers:
        current.value = number
        case = case_of(bases, seed, number)
        # ends the process if the call does not
        signal.setitimer(signal.ITIMER_VIRTUAL, LONGEST)
        status, seconds = caller.written(case)
        signal.setitimer(signal.ITIMER_VIRTUAL, 0)
        statuses[status] += 1
        if status == 0:
            outcomes.update(caller.outcomes())
        longest = max(longest, seconds)
        if seconds > SLOW:
            slow.append((number, seconds))
    sender.send((statuses, outcomes, slow, longest, memory(), before))


def started(caller, bases, chosen, job):
    """Starts a process for every `jobs`th case, and returns it with its current case and its end of a pipe."""
    context = multiprocessing.get_context("fork")
    receiver, sender = context.Pipe(False)
    current = context.RawValue("q", -1)
    numbers = range(job, chosen.count, chosen.jobs)
    process = context.Process(target=work, args=(caller, bases, chosen.seed, numbers, current, sender))
    process.start()
    sender.close()
    return process, current, receiver


def ended(process, current, receiver):
    """Returns what a process reports, or None if it ended before."""
    try:
        report = receiver.recv()
    except EOFError:
        report = None
    process.join()
    if report is None:
        print(f"case {current.value}: the process ended with status {process.exitcode}")
    return report


def named(postscript, status):
    known = {code.value: code.name for code in postscript.Status}
    return "written" if status == 0 else known.get(status, f"status {status}")


def outcome_named(postscript, outcome):
    return {0: "absent", 1: "kept", 2: "not chosen"}.get(outcome) or f"lost by {named(postscript, outcome)}"


def listed(counter, name):
    return ", ".join(f"{name(key)} {count}" for key, count in counter.most_common())


def told(postscript, bases, chosen, reports):
    """Prints the results of all processes, and returns the exit status."""
    well = [report for report in reports if report is not None]
    statuses, outcomes = (sum((report[i] for report in well), collections.Counter()) for i in (0, 1))
    slow = sorted(case for report in well for case in report[2])
    for number, seconds in slow:
        print(f"case {number}: {seconds:.2f} s, {case_of(bases, chosen.seed, number).base.path}")
    print(f"fonts: {len(bases)}; changed tables: {sum(statuses.values())}")
    print("calls: " + listed(statuses, lambda status: named(postscript, status)))
    for table in TABLES:
        own = collections.Counter({key[1]: count for key, count in outcomes.items() if key[0] == table})
        print(f"{table.decode()}: " + listed(own, lambda outcome: outcome_named(postscript, outcome)))
    if well:
        print(f"longest call: {max(report[3] for report in well):.2f} s")
        print(f"peak of memory: {max(report[4] for report in well):.0f} MB, {max(report[4] - report[5] for report in well):.0f} MB more than before the calls")
    print(f"seed: {chosen.seed}; limit: {chosen.limit}; slow calls: {len(slow)}; processes that ended early: {len(reports) - len(well)}")
    return 1 if slow or len(well) < len(reports) or sum(statuses.values()) != chosen.count else 0


def arguments(words):
    parser = argparse.ArgumentParser(description=__doc__.split("\n", 1)[0])
    parser.add_argument("--seed", type=int, default=20261201)
    parser.add_argument("--count", type=int, default=1_000_000)
    parser.add_argument("--limit", type=int, default=20_000_000)
    parser.add_argument("--jobs", type=int, default=1)
    parser.add_argument("--write", nargs=2, metavar=("N", "FILE"))
    parser.add_argument("words", nargs="+", metavar="WORD")
    return parser.parse_args(words)


def main(words):
    chosen = arguments(words)
    postscript = module()
    bases = list(bases_of(postscript, chosen.words, random.Random(chosen.seed)))
    most = 2 * max((len(base.data) for base in bases), default=0) + LARGEST
    caller = Caller(postscript, most, chosen.limit)
    bases = [base for base in bases if caller.written(Case(base, [], base.characters[:1], False, False))[0] == 0]
    if not bases:
        print("there are no fonts with layout tables", file=sys.stderr)
        return 2
    if chosen.write:
        pathlib.Path(chosen.write[1]).write_bytes(changed(case_of(bases, chosen.seed, int(chosen.write[0]))))
        return 0
    processes = [started(caller, bases, chosen, job) for job in range(chosen.jobs)]
    return told(postscript, bases, chosen, [ended(*process) for process in processes])


if __name__ == "__main__":
    sys.exit(main(sys.argv[1:]))
