#!/usr/bin/python3
"""Times the charstring interpreter, and prints tables.

    tools/speed/speed.py
    tools/speed/speed.py charstrings CRATE WORD..
    tools/speed/speed.py flat CRATE WORD..
    tools/speed/speed.py compare REV WORD..

The first command times a long charstring and long real numbers. The others time all glyphs of real fonts, and of a made-up font, `calls`.
Its only charstring makes 10,000 calls of a subroutine that just returns.

- `charstrings` times a loop over `next`, compared with the same loop over the Rust crate `postscript`.
- `flat` times a loop over `next`, `run`, `flat_len` and `flatten`, compared with that loop over the Rust crate. The first table also has
  the number of requests for memory of each. The second table has the most bytes that each holds at one time.
- `compare` times these four in an earlier revision of this repository and in the working copy. It prints the new time divided by the old
  one. REV is a commit, whose crates are proved from scratch. This takes about ten minutes.

CRATE is the source folder of the Rust crate, which contains src/. Each WORD is a font file, a folder or an installed Debian package; of
folders and packages, all .otf files are used. Fonts without a `CFF ` table and fonts with several Private DICTs are skipped.

The two programs take turns, and the least time of each counts. The script stops if they count different numbers of operations. The
programs are speed.rt.txt, charstrings.rt.txt, flat.rt.txt and charstrings.rs of tools/programs; memory.c counts the requests. Those in
Rattle are proved in a copy of the crates with their out/ folders. Neither CRATE nor this repository is changed.

Needs `rt` on the path, `cargo` and `gcc`, or `git` for `compare`, and Debian's python3-fonttools.
"""

import pathlib
import sys
import tempfile

sys.dont_write_bytecode = True
sys.path.insert(0, str(pathlib.Path(__file__).resolve().parents[1]))

import building
from building import printed
from font_files import write_glyphs

USES = "postscript_type2 postscript_base hex anyhow"
CALLS = "local 0b\ncode " + "200a" * 10_000 + "0e\n"
WAYS = ["next", "run", "flat_len", "flatten"]


def least_times(programs, files, turns):
    """Returns for each file its name, the number of operations, and the least times of each program."""
    least, counts = {}, {}
    for turn in range(turns):
        for file in files:
            for program in programs if turn % 2 == 0 else programs[::-1]:
                count, *times = map(int, printed(program, given=file).split())
                least[file, program] = [min(pair) for pair in zip(times, least.get((file, program), times))]
                if counts.setdefault(file, count) != count:
                    sys.exit(f"{file.name}: {counts[file]} and {count} operations")
    return [(file.name, counts[file], *(least[file, program] for program in programs)) for file in files]


def print_row(*cells):
    print(f"| {' | '.join(map(str, cells))} |")


def sums(lists):
    """Adds lists item by item."""
    return [sum(items) for items in zip(*lists)]


def charstrings(folder, crate, files):
    ours = building.proved(folder / "ours", "charstrings", USES)
    rust = building.rival(folder / "rust", crate, "charstrings")
    times = least_times([ours, rust], files, 5)
    print("| font | operations | Rattle | Rust | ratio |")
    print("|---|---|---|---|---|")
    for name, count, (nanos,), (other,) in times:
        print_row(name, count, f"{nanos // 1000} µs", f"{other // 1000} µs", f"{nanos / other:.2f}")


def requests(folder, library, program, file):
    """Counts the requests for memory of each way through a font, without those for reading the font."""
    counts = []
    for way in ["none", *WAYS]:
        printed(program, way, given=file, LD_PRELOAD=library, TOLD=str(folder / "told"))
        counts.append(int((folder / "told").read_text().split()[0]))
    return [count - counts[0] for count in counts[1:]]


def print_ratios(name, count, ways, loop, asked):
    next_, run, flat_len, flatten = ways
    ratios = [run / loop, run / next_, flat_len / run, flatten / run]
    print_row(name, count, *(f"{ratio:.2f}" for ratio in ratios), *asked)


def print_four_ways(times, asked):
    """Prints a row for each font, and one for all of them except `calls`."""
    ratios = "`run` / the Rust loop | `run` / `next` | `flat_len` / `run` | `flatten` / `run`"
    print_row("font", "operations", ratios, "requests: `next` | `run` | `flat_len` | `flatten`")
    print("|---|---|---|---|---|---|---|---|---|---|")
    for name, count, ways, (loop,) in times:
        print_ratios(name, count, ways, loop, asked[name])
    names, counts, ways, loops = zip(*(row for row in times if row[0] != "calls"))
    print_ratios("all fonts", sum(counts), sums(ways), *sums(loops), sums(asked[name] for name in names))


def print_memory(folder, library, program, files):
    """Prints for each font the length of its longest flat code, and the most bytes that each way holds at one time."""
    print("| font | longest flat code | most bytes at one time: `next` | `run` | `flat_len` | `flatten` | beside that flat code |")
    print("|---|---|---|---|---|---|---|")
    for file in files:
        most = folder / "most"
        most.unlink(missing_ok=True)
        printed(program, given=file, LD_PRELOAD=library, ASKED=str(most))
        longest, *ways = map(int, [printed(program, "longest", given=file), *most.read_text().split()])
        print_row(file.name, longest, *ways, ways[-1] - longest)


def flat(folder, crate, files):
    library = building.memory(folder)
    ours = building.proved(folder / "ours", "flat", USES)
    rust = building.rival(folder / "rust", crate, "charstrings")
    times = least_times([ours, rust], files, 5)
    print_four_ways(times, {file.name: requests(folder, library, ours, file) for file in files})
    print()
    print_memory(folder, library, ours, files)


def compare(folder, revision, files):
    then = folder / "then"
    then.mkdir()
    printed("git", "-C", building.TOP, "archive", "-o", folder / "then.tar", revision, "crates.txt", "crates")
    printed("tar", "-x", "-f", folder / "then.tar", "-C", then)
    programs = [building.proved(folder / "before", "flat", USES, then), building.proved(folder / "now", "flat", USES)]
    times = least_times(programs, files, 8)
    print("| font | " + " | ".join(f"`{way}`" for way in WAYS) + " |")
    print("|---" * (len(WAYS) + 1) + "|")
    for name, rows in [(row[0], [row]) for row in times] + [("all", times)]:
        before, now = (sums(row[place] for row in rows) for place in (2, 3))
        print_row(name, *(f"{new / old:.3f}" for old, new in zip(before, now)))


def long(folder):
    print(printed(building.proved(folder, "speed", "postscript postscript_vectors anyhow")), end="")


def main(words):
    commands = {"charstrings": charstrings, "flat": flat, "compare": compare}
    if words and (words[0] not in commands or len(words) < 3):
        sys.exit(__doc__)
    with tempfile.TemporaryDirectory() as name:
        folder = pathlib.Path(name)
        if not words:
            return long(folder)
        files = write_glyphs(folder / "fonts", words[2:], calls=CALLS)
        commands[words[0]](folder, words[1], files)


if __name__ == "__main__":
    main(sys.argv[1:])
