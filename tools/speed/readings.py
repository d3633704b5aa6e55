#!/usr/bin/python3
"""Times the reading of real fonts, compared with the Rust crate `postscript`, and prints tables.

    tools/speed/readings.py fonts CRATE WORD..
    tools/speed/readings.py dictionaries CRATE WORD..

CRATE is the source folder of the Rust crate, which contains src/. Each WORD is a font file, a folder or an installed Debian package; of
folders and packages, all .otf files are used. Fonts without a `CFF ` table are skipped.

The first command times whole fonts, and their CharStrings INDEX. The median of nine runs counts. If a font's Private DICT has no `Subrs`,
both programs reject the font, so only its INDEX is timed. A second table has the most bytes that each reading holds at one time, measured
by tools/programs/memory.c.

The second command times two DICTs of each font: the first item of the Top DICT INDEX, and the Private DICT that its operator `Private`
points to. The least time of five runs counts.

Three programs take turns. The one over this repository is fonts.rt.txt or dictionaries.rt.txt of tools/programs. It is proved in a copy of
the crates with their out/ folders. The other two are in readings.rs: one reads with the Rust crate, one only builds the result of a
reading. The time of the last is the column "floor" or "maps alone". Neither CRATE nor this repository is changed.

Needs `rt`, `cargo` and `gcc` on the path, and Debian's python3-fonttools.
"""

import pathlib
import statistics
import sys
import tempfile

sys.dont_write_bytecode = True
sys.path.insert(0, str(pathlib.Path(__file__).resolve().parents[1]))

import building
from building import printed
from font_files import fonts_of

USES = {"fonts": "postscript_compact1 postscript_base hex anyhow", "dictionaries": "postscript_base hex anyhow"}
TURNS = {"fonts": 9, "dictionaries": 5}
PLAIN = {"fonts": "lists", "dictionaries": "maps"}


def number(table, place, size):
    return int.from_bytes(table[place:place + size], "big")


def behind(table, place):
    """Returns the offset of the end of an INDEX."""
    count = number(table, place, 2)
    if count == 0:
        return place + 2
    size = table[place + 2]
    return place + 2 + (count + 1) * size + number(table, place + 3 + count * size, size)


def indices(table, top):
    """Returns the offsets of a font's INDEXes: names, Top DICTs, strings, global subroutines, charstrings, local subroutines."""
    places = [table[2]]
    for _ in range(3):
        places.append(behind(table, places[-1]))
    private = top.rawDict["Private"][1] + top.Private.rawDict["Subrs"]
    return places + [top.rawDict["CharStrings"], private]


def whole_fonts(words):
    """Yields for each font, and for its CharStrings INDEX: the kind, the name, the bytes, and the offsets of all INDEXes in them."""
    for name, font in fonts_of(*words):
        table, top = font.getTableData("CFF "), font["CFF "].cff.topDictIndex[0]
        if "Private" in top.rawDict and "Subrs" in top.Private.rawDict:
            yield "font", name, table, indices(table, top)
        yield "index", name, table[top.rawDict["CharStrings"]:], [0]


def dictionaries(words):
    """Yields for each DICT of each font its kind, the font's name, and the bytes."""
    for name, font in fonts_of(*words):
        table, index = font.getTableData("CFF "), font["CFF "].cff.topDictIndex
        begin, end = (index.offsetBase + offset for offset in index.offsets[:2])
        yield "top", name, table[begin:end], []
        if "Private" in index[0].rawDict:
            size, offset = index[0].rawDict["Private"]
            yield "Private", name, table[offset:offset + size], []


def add_times(told, times):
    """Adds the times that a program printed to those of each line. The keys are the name and the number of items."""
    for line in told.splitlines():
        name, count, nanos = line.split()
        times.setdefault((name, int(count)), []).append(int(nanos))


def timed(programs, turns):
    """Runs the three programs in turn, each with its input file. Returns the number of items of each line, and the times."""
    all_times = [{} for _ in programs]
    for _ in range(turns):
        for (program, lines), times in zip(programs, all_times):
            add_times(printed(program, given=lines), times)
    if list(all_times[0]) != list(all_times[1]):
        sys.exit("the programs did not read the same")
    return dict(all_times[0].keys()), [{name: nanos for (name, _), nanos in times.items()} for times in all_times]


def cells(times):
    """Returns our time and the Rust crate's in microseconds, their ratio, and the ratio of the floor to the Rust crate."""
    ours, rust, floor = times
    return f"{ours / 1000:.0f} µs | {rust / 1000:.0f} µs | {ours / rust:.2f} | {floor / rust:.2f}"


def print_fonts(counts, all_times):
    print("| font | glyphs | the font: Rattle | Rust | ratio | floor | its INDEX of char strings: Rattle | Rust | ratio | floor |")
    print("|---|---|---|---|---|---|---|---|---|---|")
    programs = [{name: statistics.median(nanos) for name, nanos in times.items()} for times in all_times]
    for name, count in counts.items():
        kind, font = name.split(":")
        if kind == "index":
            whole = [times.get(f"font:{font}") for times in programs]
            left = cells(whole) if all(whole) else "- | - | - | -"
            print(f"| {font} | {count} | {left} | {cells([times[name] for times in programs])} |")
    sums = [cells([sum(times[name] for name in counts if name.startswith(kind)) for times in programs]) for kind in ("font", "index")]
    print(f"| all | | {sums[0]} | {sums[1]} |")


def print_dictionaries(counts, all_times):
    print("| font | dictionary | operators | Rattle | Rust | ratio | maps alone |")
    print("|---|---|---|---|---|---|---|")
    programs = [{name: min(nanos) for name, nanos in times.items()} for times in all_times]
    for name, count in counts.items():
        dictionary, font = name.split(":")
        nanos, other, maps = (times[name] for times in programs)
        print(f"| {font} | {dictionary} | {count} | {nanos} ns | {other} ns | {nanos / other:.2f} | {maps / other:.2f} |")
    nanos, other, maps = (sum(times.values()) for times in programs)
    print(f"| all | | | {nanos} ns | {other} ns | {nanos / other:.2f} | {maps / other:.2f} |")


def lengths(table, place):
    """Returns the lengths of the items of an INDEX."""
    count = number(table, place, 2)
    if count == 0:
        return []
    size = table[place + 2]
    offsets = [number(table, place + 3 + i * size, size) for i in range(count + 1)]
    return [high - low for low, high in zip(offsets, offsets[1:])]


def asked(folder, program, lines):
    """Returns the most bytes that a program held at one time, for each reading."""
    told = folder / "asked"
    told.write_text("")
    printed(program, given=lines, LD_PRELOAD=building.memory(folder), ASKED=str(told))
    return [int(line) for line in told.read_text().splitlines()]


def print_memory(items, ours, rust):
    print("| | items | their bytes | Rattle | a byte of an item | an item beside its bytes | Rust |")
    print("|---|---|---|---|---|---|---|")
    for (kind, name, table, places), most, other in zip(items, ours, rust):
        all_lengths = [length for place in places for length in lengths(table, place)]
        count, size = len(all_lengths), sum(all_lengths)
        print(f"| {kind}:{name} | {count} | {size} | {most} | {most / size:.2f} | {(most - size) / count:.0f} | {other} |")


def write_lines(path, items, between, with_places):
    """Writes a line for each item, with `between` between its kind and name. Returns the file."""
    lines = ([f"{kind}{between}{name}", table.hex(), *(places if with_places else [])] for kind, name, table, places in items)
    path.write_text("".join(f"{' '.join(map(str, line))}\n" for line in lines))
    return path


def main(words):
    if len(words) < 3 or words[0] not in TURNS:
        sys.exit(__doc__)
    what, crate, *words = words
    with tempfile.TemporaryDirectory() as name:
        folder = pathlib.Path(name)
        items = list((whole_fonts if what == "fonts" else dictionaries)(words))
        lines = write_lines(folder / "lines", items, " " if what == "fonts" else ":", False)
        placed = write_lines(folder / "placed", items, ":", True)
        rust, plain = (building.rival(folder / feature, crate, "readings", feature) for feature in (what, PLAIN[what]))
        ours = building.proved(folder / "ours", what, USES[what])
        times = timed([(ours, lines), (rust, placed), (plain, placed)], TURNS[what])
        if what == "dictionaries":
            print_dictionaries(*times)
            return
        print_fonts(*times)
        print()
        print_memory(items, asked(folder, ours, lines), asked(folder, rust, placed))


if __name__ == "__main__":
    main(sys.argv[1:])
