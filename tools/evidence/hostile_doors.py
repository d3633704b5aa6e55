#!/usr/bin/env python3
"""Times the C and Python libraries on OpenType files that are expensive to process, function by function.

    tools/evidence/hostile_doors.py [WORD..]

The fonts are those of tools/evidence/hostile_files.py; with WORDs, only those with a WORD in their name. tools/programs/hostile_doors.c is
linked with bindings/c/build/libpostscript.a, which make builds. The Python module is the one in bindings/python. The table has seconds of
processor time, so that other work does not count. The C columns are those of tools/programs/hostile_doors.c. The Python columns are the
glyph names, the characters, and a subset of all glyphs. Rust calls the same functions as Python.

A second table has the variable fonts of tools/evidence/hostile_variable.py, with tools/programs/hostile_variable_doors.c. Nothing is
random. The last column of each table is the peak of memory in MB, with the buffers that the programs pass (up to 95 MB for static fonts).
The exit status is 1 if a call takes more than ten seconds, or if a program ends by a signal. Each program is ended after 60 seconds.
"all outlines" and "all advances" call a function for each glyph and may take longer; a variable font may be ended there.
"""

import itertools
import os
import pathlib
import resource
import subprocess
import sys
import tempfile

sys.dont_write_bytecode = True
sys.path.insert(0, str(pathlib.Path(__file__).resolve().parents[1]))

import hostile_files
import hostile_variable
from building import PROGRAMS, TOP

C, PYTHON = TOP / "bindings" / "c", TOP / "bindings" / "python"
DOORS = ["open", "fits", "slowest of a glyph", "all outlines", "all names", "all characters", "flat", "subset", "Python: names", "characters", "subset"]
VARIABLE = ["axes", "instances", "slowest outline", "slowest advance", "all outlines", "all advances"]
LOOPS = ("all outlines", "all advances")
MOST, LONGEST = 10, 60
SCRIPT = """
import sys, time
import postscript
def told(call):
    since = time.process_time()
    try:
        call()
    except postscript.Error:
        pass
    print(f"{time.process_time() - since:.2f} | ", end="", flush=True)
font = postscript.Font.open(sys.argv[1])
told(lambda: font.names)
told(lambda: dict(font.cmap))
told(lambda: font.subset(range(len(font))))
"""


def built(name, folder):
    """Builds a C program."""
    program = f"{folder}/{name}"
    words = ["-O2", "-Wall", "-Wextra", f"-I{C}", PROGRAMS / f"{name}.c", C / "build" / "libpostscript.a", "-o", program]
    subprocess.run(["cc", *words], check=True)
    return program


def at_most():
    resource.setrlimit(resource.RLIMIT_CPU, (LONGEST, LONGEST))


def columns(words):
    """Returns the cells that a program prints, whether it ended without a signal, and its peak of memory in MB."""
    given = {**os.environ, "PYTHONPATH": str(PYTHON)}
    with subprocess.Popen(words, stdout=subprocess.PIPE, text=True, preexec_fn=at_most, env=given) as process:
        told = process.stdout.read()
        _, status, usage = os.wait4(process.pid, 0)
        process.returncode = os.waitstatus_to_exitcode(status)
    return told.split(" | ")[:-1], process.returncode >= 0, usage.ru_maxrss // 1024


def row(program, name, data, path):
    """Prints the times and the memory of a font, and returns whether it is too slow."""
    pathlib.Path(path).write_bytes(data)
    here, ended, held = columns([program, path])
    there, went, kept = columns([sys.executable, "-c", SCRIPT, path])
    here += ["-"] * (DOORS.index("subset") + 1 - len(here))
    there += ["-"] * (3 - len(there))
    peak = max(held, kept)
    print(f"| {name} | {len(data)} |", " | ".join([*here, *there, str(peak)]), "|", flush=True)
    return not ended or not went or is_slow(DOORS, [*here, *there])


def is_slow(doors, cells):
    """Returns whether a call was too slow."""
    return any(float(cell) > MOST for door, cell in zip(doors, cells) if door not in LOOPS and cell != "-")


def variable_row(program, name, data, path):
    """Prints the times and the memory of a variable font, and returns whether it is too slow."""
    pathlib.Path(path).write_bytes(data)
    here, ended, peak = columns([program, path])
    # a program that is ended in a loop has finished each single call
    ended = ended or len(here) >= VARIABLE.index(LOOPS[0])
    here += ["-"] * (len(VARIABLE) - len(here))
    print(f"| {name} | {len(data)} |", " | ".join([*here, str(peak)]), "|", flush=True)
    return not ended or is_slow(VARIABLE, here)


def table(doors, fonts, of, program, words):
    """Prints a table, and returns whether a row is bad."""
    print("| font | bytes |", " | ".join([*doors, "MB"]), "|")
    print("|---" * (len(doors) + 3) + "|")
    bad = False
    for name, (data, _) in fonts:
        if not words or any(word in name for word in words):
            bad = of(program, name, data, f"{program}.otf") or bad
    return bad


def main(words):
    subprocess.run(["make", "--no-print-directory", "-s", "-C", C], check=True)
    with tempfile.TemporaryDirectory() as folder:
        static = itertools.chain(hostile_files.runs(), hostile_files.searched())
        bad = table(DOORS, static, row, built("hostile_doors", folder), words)
        print()
        varied = itertools.chain(hostile_variable.runs(), hostile_variable.searched())
        bad = table(VARIABLE, varied, variable_row, built("hostile_variable_doors", folder), words) or bad
    return 1 if bad else 0


if __name__ == "__main__":
    sys.exit(main(sys.argv[1:]))
