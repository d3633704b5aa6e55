#!/usr/bin/env python3
"""Makes each memory request fail in turn, in a session with psfont or in a single call of the library.

    (cd crates/psfont && rt run < stdin)
    tools/evidence/allocations.py
    tools/evidence/allocations.py calls

The script makes the Nth request of a program fail, for N = 1, 2, .., until ten runs in a row give the output of a run without failures:
then there is no request N. Nothing is random.

Without an argument the program is crates/psfont/out/psfont. It runs on its stored input, on sessions with charstrings and fonts, and with
the arguments `font PATH`. Each run must end in one of these ways:
- with status 1 and `psfont: fault 3`, after a prefix of the expected output;
- with status 0 and the expected output, except for one answer that is `fault 3`;
- with status 0 and the expected output.
Then a charstring that stores and fetches 32 numbers must make the same requests, of the same size, as an equally long one that pushes and
drops 32 numbers.

With `calls` the program is tools/programs/allocations.rt.txt, proved in a copy with the crates' results in out/. It makes a single call of
`next`, `run`, `flat_len` or `flatten`. Each run must end in one of these ways:
- before the call, while the input is read: with another status than 0 and no output;
- in the call: `run`, `flat_len` and `flatten` return fault 3. `next` returns error 3, and error 30 when called again, after at most as
  many operations as without a failure, and the width is the one returned with the last of them;
- with the expected output.

Needs gcc, to build tools/programs/memory.c, and `rt` on the path. The exit status is 1 if a run ends otherwise, or if the two charstrings'
requests differ.
"""

import collections
import os
import pathlib
import subprocess
import sys
import tempfile

sys.dont_write_bytecode = True
sys.path.insert(0, str(pathlib.Path(__file__).resolve().parents[1]))

import building
from building import PSFONT

CRATE = building.TOP / "crates" / "psfont"
USES = "postscript_type2 postscript_base hex anyhow"
CALLS = ["next", "run", "flat_len", "flatten"]
WHOLE_RUNS = 10
FAULT = b"fault 3"

FONT = "010004010001010102410001010106a3118da9120000000000010101020e8d130000"
TWO_DICTIONARIES = "01000401000000020101060ba5118dab12a5118dab120000000000010101020e8d130000"
OWN_CHAR_SET = "0100040100000001010108a111a90f8da7120000000000010101020e8d130000"
REAL = "01000401000000010101081e12345678901f0500000000"
TEN_DEEP = [f"{0x21 + k:02x}0a{0x21 + k:02x}0a0b" for k in range(9)] + ["8c160b"]

# Charstrings with their local subroutines, for sessions.
CODES = [
    ("200a0e", ["8c8d150b"]),
    ("200a0e", TEN_DEEP),
    ("8c8d01" + "8b" * 60 + "12" + "13" + "ff" * 8 + "0e", []),
    ("8c8d8e8f909192939495961f", []),
    ("8c" * 200 + "05", []),
    ("8c8e0c0c16" * 20, []),
    ("8c8d18", []),
    ("200a8b0c1516", ["908b0c140b"]),
]

# The same for single calls; here subroutines need not return.
CALLED_CODES = [
    ("200a0e", ["8c8d150b"]),
    ("200a", ["200a"]),
    ("200a", [f"{0x21 + k:02x}0a" for k in range(9)] + ["8c16"]),
    ("8c8d8e8f909192939495961f", []),
    ("8c8d18", []),
    ("8e8c8d15" + "8c" * 200 + "05" + "8c16" * 20 + "0e", []),
]

# The numbers from 0 to 31: each stored at its own index and all fetched; or dropped and pushed again.
NUMBERS = [f"{0x8b + k:02x}" for k in range(32)]
STORED = "".join(number * 2 + "0c14" for number in NUMBERS) + "".join(number + "0c15" for number in NUMBERS) + "06"
DROPPED = "".join(number * 2 + "0c120c12" for number in NUMBERS) + "".join(NUMBERS) + "06"


def run(library, words, given, number):
    """Runs a program with the request of this number failing; returns its status, its output and its messages."""
    done = subprocess.run(words, input=given, capture_output=True, env=dict(os.environ, LD_PRELOAD=library, REFUSED=str(number)))
    return done.returncode, done.stdout, done.stderr


def refuse_each(library, words, given, judge):
    """Makes each request of a program fail in turn. Returns how the runs ended, the output without a failure, and the run that ended
    wrongly."""
    status, whole, messages = run(library, words, given, 0)
    ends, number, in_a_row = collections.Counter(), 0, 0
    failed = (number, (status, whole, messages)) if status else None
    while in_a_row < WHOLE_RUNS and not failed:
        number += 1
        ended = run(library, words, given, number)
        verdict = judge(*ended, whole)
        if verdict is None:
            failed = number, ended
        ends[verdict] += 1
        in_a_row = in_a_row + 1 if verdict == "whole" else 0
    return ends, whole, failed


def sessions():
    """Yields each session: its name, the arguments of the program, and its input."""
    yield "the stored run", [], (CRATE / "stdin").read_bytes()
    for code, local in CODES:
        lines = [f"code {code}"] + [f"local {routine}" for routine in local] + ["run", "flat"]
        yield f"the code {code[:20]}", [], "\n".join(lines).encode()
    for font in [FONT, TWO_DICTIONARIES, OWN_CHAR_SET, REAL]:
        yield f"the font {font[:30]}", [], f"font {font}".encode()
    yield "a font's file", ["font", str(CRATE / "data" / "one_glyph.cff")], b""


def has_one_fault(answers, whole):
    """Returns whether one answer, of any number of lines, is replaced by FAULT, and all other lines are those of the expected output."""
    found, wanted = answers.splitlines(), whole.splitlines()
    for place in [place for place, line in enumerate(found) if line == FAULT]:
        before, after = found[:place], found[place + 1:]
        if wanted[:len(before)] == before and (not after or wanted[-len(after):] == after):
            return len(found) <= len(wanted)
    return False


def judge_session(status, answers, messages, whole):
    """Returns how the run of a session ended, or None if that is not allowed."""
    told = b"psfont: " + FAULT in messages.splitlines()
    if status == 1 and told and whole.startswith(answers):
        return "ended by fault 3"
    if status == 0 and not messages and answers == whole:
        return "whole"
    if status == 0 and not messages and has_one_fault(answers, whole):
        return "fault 3 as an answer"
    return None


def refuse_session(library, name, words, given):
    """Makes each request of a session fail in turn, and returns whether each run ended as allowed."""
    ends, _, failed = refuse_each(library, [PSFONT, *words], given, judge_session)
    if failed:
        number, (status, answers, messages) = failed
        print(f"{name}, request {number}: status {status}, {answers!r}, {messages!r}")
        return False
    refused = ", ".join(f"{ends[way]} {way}" for way in ["ended by fault 3", "fault 3 as an answer"])
    print(f"{name}: {refused}, {ends['whole'] - WHOLE_RUNS} whole")
    return True


def asked(library, code):
    """Returns the output of a charstring's `run`, the number of requests for `run` and `flat`, and their bytes."""
    with tempfile.NamedTemporaryFile("r") as told:
        done = subprocess.run(
            [PSFONT], input=f"code {code}\nrun\nflat\n".encode(), capture_output=True, check=True,
            env=dict(os.environ, LD_PRELOAD=library, TOLD=told.name),
        )
        return done.stdout.splitlines()[:-1], *map(int, told.read().split())


def compare_stored(library):
    """Returns whether storing numbers makes no memory requests."""
    stored, dropped = asked(library, STORED), asked(library, DROPPED)
    print(f"32 stored numbers: {stored[1]} requests, {stored[2]} bytes; as many dropped: {dropped[1]} requests, {dropped[2]} bytes")
    return stored == dropped and stored[1] > 0


def judge_call(call, status, answer, whole):
    """Returns how the run of a call ended, or None if that is not allowed."""
    if status == 0 and answer == whole:
        return "whole"
    if status != 0 and not answer:
        return "refused before the call"
    if status != 0 or answer[:1] != ["ready"]:
        return None
    if call == "next":
        count, end, then, same_width = answer[1:]
        fine = int(count) <= int(whole[1]) and (end, then, same_width) == ("3", "30", "true")
        return "refused in the call" if fine else None
    return "refused in the call" if answer[1:] == ["fault", "3"] else None


def refuse_call(library, program, call, code, local):
    """Makes each request of a call fail in turn, and returns whether each run ended as allowed."""
    given = "\n".join([f"code {code}"] + [f"local {routine}" for routine in local] + [""]).encode()

    def judge(status, answers, _, whole):
        return judge_call(call, status, answers.decode().split(), whole.decode().split())

    ends, whole, failed = refuse_each(library, [program, call], given, judge)
    print(f"{call} of {code[:24]}: {' '.join(whole.decode().split()[1:])}; {ends['refused in the call']} refused in the call, "
          f"{ends['refused before the call']} before it" + (f"; request {failed[0]} ended otherwise" if failed else ""))
    return not failed


def main(words):
    with tempfile.TemporaryDirectory() as name:
        folder = pathlib.Path(name)
        library = building.memory(folder)
        if words == ["calls"]:
            program = building.proved(folder, "allocations", USES)
            fine = [refuse_call(library, program, call, *code) for call in CALLS for code in CALLED_CODES]
            alike = True
        elif not words:
            fine = [refuse_session(library, *session) for session in sessions()]
            alike = compare_stored(library)
        else:
            sys.exit(__doc__)
    print(f"all: {len(fine)} sessions, {fine.count(False)} ended otherwise")
    return 0 if all(fine) and alike else 1


if __name__ == "__main__":
    sys.exit(main(sys.argv[1:]))
