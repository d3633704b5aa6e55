#!/usr/bin/python3
"""Counts the instructions per glyph here, in the Rust crate `postscript` and in `ttf-parser`, and prints a table. Then it counts the
requests for memory of each glyph by `step`, and compares the times of `step_within` and `step`.

    tools/speed/instructions.py CRATE FONT..

CRATE is the source folder of the Rust crate, which contains src/. Each FONT is a font file with a `CFF ` table and one Private DICT.

valgrind's callgrind counts the instructions of two rounds over all glyphs minus those of none, so starting and reading the file are not
included. The compiler inlines differently if a program has more calls. Therefore `step`, `step_within` and `draw_program` are counted
again, each in a program of its own, as `ttf-parser` has one.

The library tools/programs/memory.c counts the requests of one round minus those of none: for all glyphs, and for each of the first 300
separately. The times are processor times of 100 rounds, the least of 15 runs. The script stops if `step`, `next`, `step_within`, the two
over subroutines in place, and the Rust crate do not all count the same number of operations.

The programs are instructions.rt.txt, charstrings.rs and instructions_ttf.rs of tools/programs. The first one is proved in a copy of the
crates with their out/ folders. Neither CRATE nor this repository is changed.

Needs `rt`, `cargo`, `gcc` and `valgrind` on the path, and Debian's python3-fonttools and librust-ttf-parser-dev.
"""

import collections
import os
import pathlib
import re
import resource
import subprocess
import sys
import tempfile

sys.dont_write_bytecode = True
sys.path.insert(0, str(pathlib.Path(__file__).resolve().parents[1]))

import building
from font_files import write_glyphs

USES = "postscript_drawing postscript_outline postscript_type2 postscript_base hex anyhow"
ALONE = 300
WAYS = ["step", "step_over", "step_within", "next", "next_over", "run", "flat_len", "flatten", "draw_program"]
ALONE_WAYS = ["step", "step_within", "draw_program"]
ALIKE = ["step", "step_over", "step_within", "next", "next_over"]
ROUNDS = 2
TIMED, TURNS = 100, 15
ARM = re.compile(r' {8}("\w+"|_) => ')


def counted(command, given):
    """Runs a command with a file as its input. Returns the number of instructions, and the first word that it prints."""
    tool = ["valgrind", "--tool=callgrind", "--callgrind-out-file=/dev/null"]
    with open(given, "rb") as file:
        done = subprocess.run([*tool, *command], stdin=file, capture_output=True, check=True)
    return int(re.search(rb"Collected : (\d+)", done.stderr).group(1)), done.stdout.split()[0]


def each_glyph(command, given, glyphs):
    """Returns the number of instructions per glyph, and the first word that the command prints."""
    start, _ = counted([*command, "0"], given)
    whole, told = counted([*command, str(ROUNDS)], given)
    return round((whole - start) / ROUNDS / glyphs), told


def of_one_way(way):
    """Returns a function that removes all other ways from the program's text."""
    def changed(text):
        arms = [line for line in text.splitlines(keepends=True) if ARM.match(line)]
        own = next(line for line in arms if f'"{way}" =>' in line)
        for line in arms:
            text = text.replace(line, line.replace(f'"{way}"', "_") if line is own else "")
        return text
    return changed


def print_line(programs, alone, given, font):
    ours, rust, ttf = programs
    glyphs = sum(line.startswith("code ") for line in given.read_text().splitlines())
    counts = [each_glyph([ours, way], given, glyphs) for way in WAYS]
    counts += [each_glyph([alone[way], way], given, glyphs) for way in ALONE_WAYS]
    counts += [each_glyph([rust], given, glyphs), each_glyph([ttf, font], given, glyphs)]
    if any(counts[WAYS.index(way)][1] != counts[-2][1] for way in ALIKE):
        sys.exit("the programs did not answer the same number of operations")
    print(f"| {given.name} | {glyphs} | {' | '.join(str(count) for count, _ in counts)} |", flush=True)


def seconds(command, given):
    """Returns the processor time of a command with a file as its input."""
    before = resource.getrusage(resource.RUSAGE_CHILDREN).ru_utime
    with open(given, "rb") as file:
        subprocess.run(command, stdin=file, stdout=subprocess.DEVNULL, check=True)
    return resource.getrusage(resource.RUSAGE_CHILDREN).ru_utime - before


def print_times(alone, given):
    """Compares the times of `step_within` and `step`, each in a program of its own. They take turns, and the least time counts."""
    ways, least = ["step", "step_within"], {}
    for _ in range(TURNS):
        for way in ways:
            taken = seconds([alone[way], way, str(TIMED)], given)
            least[way] = min(taken, least.get(way, taken))
    step, within = (least[way] for way in ways)
    print(f"{given.name}: {TIMED} rounds of `step` took {step:.3f} s, of `step_within` {within:.3f} s, {within / step:.3f} of it", flush=True)


def requests(counter, command, lines):
    """Counts the requests for memory of a command with these lines as its input."""
    with tempfile.NamedTemporaryFile("r") as told:
        environment = {**os.environ, "LD_PRELOAD": counter, "TOLD": told.name}
        subprocess.run(command, input=lines, env=environment, stdout=subprocess.DEVNULL, check=True)
        return int(told.read().split()[0])


def of_a_round(counter, ours, lines):
    """Counts the requests for memory of one round of `step` over these lines."""
    whole, start = (requests(counter, [ours, "step", rounds], b"".join(lines)) for rounds in "10")
    return whole - start


def print_requests(ours, counter, given):
    lines = given.read_bytes().splitlines(keepends=True)
    codes = [line for line in lines if line.startswith(b"code ")]
    lists = [line for line in lines if not line.startswith(b"code ")]
    counts = collections.Counter(of_a_round(counter, ours, [*lists, code]) for code in codes[:ALONE])
    told = ", ".join(f"{count} by {glyphs}" for count, glyphs in sorted(counts.items()))
    whole = of_a_round(counter, ours, lines)
    print(f"{given.name}: {len(codes)} glyphs, {whole} requests; of the first {ALONE} alone {told}", flush=True)


def print_all(programs, alone, counter, fonts):
    ways = [f"`{way}`" for way in WAYS] + [f"`{way}` alone" for way in ALONE_WAYS]
    print(f"| font | glyphs | {' | '.join(ways)} | the Rust crate's `next` | `ttf-parser` |")
    print("|---" * (len(ways) + 4) + "|")
    for font, given in fonts:
        print_line(programs, alone, given, font)
    print()
    for _, given in fonts:
        print_requests(programs[0], counter, given)
        print_times(alone, given)


def main(words):
    if len(words) < 2:
        sys.exit(__doc__)
    with tempfile.TemporaryDirectory() as name:
        folder = pathlib.Path(name)
        write_glyphs(folder / "fonts", words[1:])
        fonts = [(font, folder / "fonts" / pathlib.Path(font).stem) for font in words[1:]]
        rust = building.rival(folder / "rust", words[0], "charstrings")
        ttf = building.parser_program(folder / "ttf", "instructions")
        ours = building.proved(folder / "ours", "instructions", USES)
        alone = {way: building.proved(folder / way, "instructions", USES, changed=of_one_way(way)) for way in ALONE_WAYS}
        print_all([ours, rust, ttf], alone, building.memory(folder), fonts)


if __name__ == "__main__":
    main(sys.argv[1:])
