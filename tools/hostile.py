#!/usr/bin/env python3
"""Measures the time and memory of psfont on fonts and charstrings that claim more than they contain, or that are expensive.

    (cd crates/psfont && rt run < stdin)
    tools/hostile.py fonts
    tools/hostile.py programs

The fonts claim more than they contain, or contain much of one kind. The script writes each to a file and runs crates/psfont/out/psfont
with the arguments `font FILE`. The programs are charstrings of four million bytes, sent to psfont with `code`, `local` and `run`. The
output must be what the rules say; for a program, only its end is compared.

The table gives the bytes, the time from the start to the last answer, and the peak memory of the process. For a program both include
reading its line of eight million hex digits. Nothing is random. The exit status is 1 if an answer differs.
"""

import subprocess
import sys
import tempfile
import time

sys.dont_write_bytecode = True

from building import PSFONT

HEADER = bytes([1, 0, 4, 1])
NONE = bytes(2)
CHAR_SET, ENCODING, CHAR_STRINGS, PRIVATE, SUBRS = b"\x0f", b"\x10", b"\x11", b"\x12", b"\x13"
FILL = b"\x0c\x05"
SIZE = 4_000_000
END = b"\x0e"


def index(items):
    """Returns an INDEX with offsets of four bytes."""
    if not items:
        return NONE
    offsets, at = [], 1
    for item in [b""] + items:
        at += len(item)
        offsets.append(at.to_bytes(4, "big"))
    return len(items).to_bytes(2, "big") + b"\x04" + b"".join(offsets) + b"".join(items)


def number(n):
    """Encodes an operand in five bytes."""
    return b"\x1d" + n.to_bytes(4, "big", signed=True)


def font(tops, parts=b"", names=()):
    """Returns a font; its Top DICTs are functions of the offset after the global subroutines."""
    front = HEADER + index(list(names))
    place = len(front) + len(index([top(0) for top in tops])) + 2 * len(NONE)
    return front + index([top(place) for top in tops]) + NONE + NONE + parts


def whole(glyphs, char_set=b"", size=None):
    """Returns a Top DICT, and its charstrings, charset, Private DICT and local subroutines, one after another."""
    strings, private = index([b"\x0e"] * glyphs), number(6) + SUBRS

    def top(place):
        behind = place + len(strings)
        set_at = number(behind) + CHAR_SET if char_set else b""
        private_at = number(len(private) if size is None else size) + number(behind + len(char_set))
        return set_at + number(place) + CHAR_STRINGS + private_at + PRIVATE

    return top, strings + char_set + private + NONE


def summary(dictionaries, glyphs, char_set="ISOAdobe", names=()):
    lines = ["header 1 0 4 1", f"names {len(names)}"] + [f"name {name}" for name in names]
    lines += ["strings 0", "globals 0", f"dictionaries {dictionaries}"]
    return lines + [f"font Standard {char_set} glyphs {glyphs} locals 0"] * dictionaries + ["end"]


def fault(code):
    return [f"psfont: fault {code}"]


def fonts():
    """Yields each font: its name, its bytes, and the expected output."""
    yield "65,535 names claimed over ten bytes", HEADER + b"\xff\xff\x01" + bytes(range(1, 11)), fault(1)
    yield "a name of 4 GB claimed", HEADER + b"\x00\x01\x04\x00\x00\x00\x01\xff\xff\xff\xff" + bytes(100), fault(1)
    top, parts = whole(1, size=2**31 - 1)
    yield "a private dictionary of 2 GB claimed", font([top], parts), fault(1)
    top, parts = whole(65_535)
    yield "65,535 glyphs", font([top], parts), summary(1, 65_535)
    ranges = b"\x01" + b"".join(first.to_bytes(2, "big") + b"\xff" for first in range(1, 65_281, 256)) + b"\xff\x01\xfd"
    top, parts = whole(65_535, ranges)
    yield "65,535 glyphs in ranges", font([top], parts), summary(1, 65_535, "Format1")
    top, parts = whole(65_535, b"\x02\x00\x01\xff\xfd")
    yield "65,535 glyphs in a range of format 2", font([top], parts), summary(1, 65_535, "Format2")
    top, parts = whole(65_535, b"\x02" + b"\x00\x01\x00\x00" * 65_534)
    yield "65,535 glyphs in 65,534 ranges of format 2", font([top], parts), summary(1, 65_535, "Format2")
    top, parts = whole(2, b"\x02" + b"\x00\x01\xff\xff" * 2)
    yield "two glyphs, and ranges of format 2 for 131,072", font([top], parts), fault(10)
    top, parts = whole(1000)
    yield "100 dictionaries over the same 1,000 glyphs", font([top] * 100, parts), summary(100, 1000)
    top, parts = whole(1)
    filled = lambda place: b"\x8b" * 4_000_000 + FILL + top(place)
    yield "a dictionary of four million operands", font([filled], parts), summary(1, 1)
    real = b"\x1e" + b"\x11" * 2_000_000 + b"\xff"
    spelled = lambda place: real + FILL + top(place)
    yield "a real of four million digits", font([spelled], parts), fault(8)
    small = b"\x1e\xa0" + b"\x00" * 2_000_000 + b"\x1f"
    spelled_small = lambda place: small + FILL + top(place)
    yield "a real with four million zeros behind its point", font([spelled_small], parts), fault(8)
    long = "A" * 4_000_000
    yield "a name of four million letters", font([top], parts, [long.encode()]), summary(1, 1, names=[long])


def filled(piece, size=SIZE):
    return piece * (size // len(piece))


def nested():
    """Returns calls of a local subroutine that calls the next one twice, ten deep; the last one returns at once."""
    levels = [bytes([0x21 + k, 0x0A]) * 2 + b"\x0b" for k in range(9)] + [b"\x0b"]
    return filled(b"\x20\x0a", 4000), levels


def programs():
    """Yields each program: its name, charstring and local subroutines, the number of lines in the answer, and the last lines."""
    numbers = filled(b"\x8b", SIZE)
    yield "numbers alone", numbers, [], 2, ["fault 1", "width none"]
    yield "a line of two million points", numbers + b"\x05" + END, [], 3, ["end", "width none"]
    masks = filled(b"\x8b", 200_000) + b"\x12" + filled(b"\x13" + bytes(12_500))
    yield "masks of 100,000 stems", masks + END, [], None, ["end", "width none"]
    code, levels = nested()
    yield "2,000 times a thousand calls, ten deep", code + END, levels, 2, ["end", "width none"]
    yield "moves", filled(b"\x8c\x16") + END, [], SIZE // 2 + 2, ["end", "width none"]
    # EndChar takes four operands, and the width is the one below them.
    roll = b"\x1c\x27\x10\x8c\x0c\x1e"
    yield "rolls of 10,000", filled(b"\x8b", 33_000) + filled(roll) + END, [], 2, ["end", "width 0"]
    roll = b"\x1c\x7f\xff\x8c\x0c\x1e"
    yield "rolls of 32,767, the widest", filled(b"\x8b", 33_000) + filled(roll) + END, [], 2, ["end", "width 0"]
    index = b"\x1c\x7f\xff\x0c\x1d\x0c\x12"
    yield "an operand far down, again and again", filled(b"\x8b", 33_000) + filled(index) + END, [], 2, ["end", "width 0"]
    # Each quotient is at least one bit less than the dividend, until it is 0.
    yield "quotients", b"\x8c" + filled(b"\xff\x00\x01\x00\x01\x0c\x0c") + END, [], 2, ["end", "width 0"]
    yield "roots", b"\x8c" + filled(b"\x0c\x1a") + END, [], 2, ["end", "width 1"]


def run(words, lines, check):
    """Returns the output of psfont (standard output and error), the seconds, and the peak memory in MB. With `check`, the status must be
    0."""
    with tempfile.TemporaryFile() as given, tempfile.TemporaryFile() as answers, tempfile.NamedTemporaryFile() as told:
        given.writelines(lines)
        given.seek(0)
        begun = time.monotonic()
        timed = ["/usr/bin/time", "-q", "-f", "%M", "-o", told.name]
        subprocess.run([*timed, PSFONT, *words], stdin=given, stdout=answers, stderr=answers, check=check)
        seconds = time.monotonic() - begun
        answers.seek(0)
        return answers.read().decode().splitlines(), seconds, int(told.read()) / 1024


def row(name, data, seconds, memory):
    print(f"| {name} | {len(data)} | {seconds:.2f} | {memory:.0f} |", flush=True)


def read_fonts():
    """Prints a row for each font, and returns the number of differing answers."""
    wrong = 0
    for name, data, wanted in fonts():
        with tempfile.NamedTemporaryFile() as file:
            file.write(data)
            file.flush()
            found, seconds, memory = run(["font", file.name], [], check=False)
        row(name, data, seconds, memory)
        if found != wanted:
            wrong += 1
            print(f"{name}: {str(found)[:200]}, wanted {str(wanted)[:200]}")
    return wrong


def run_programs():
    """Prints a row for each program, and returns the number of differing answers."""
    wrong = 0
    for name, code, local, count, wanted in programs():
        lines = [b"code " + code.hex().encode() + b"\n"] + [b"local " + routine.hex().encode() + b"\n" for routine in local]
        found, seconds, memory = run([], [*lines, b"run\n"], check=True)
        found = found[len(lines):]
        row(name, code, seconds, memory)
        if found[-2:] != wanted or (count is not None and len(found) != count):
            wrong += 1
            print(f"{name}: {len(found)} lines, the last {found[-2:]}, wanted {count} and {wanted}")
    return wrong


def main(words):
    if words not in (["fonts"], ["programs"]):
        sys.exit(__doc__)
    print(f"| {'font' if words == ['fonts'] else 'shape'} | bytes | seconds | MB |")
    print("|---|---|---|---|")
    return 1 if (read_fonts if words == ["fonts"] else run_programs)() else 0


if __name__ == "__main__":
    sys.exit(main(sys.argv[1:]))
