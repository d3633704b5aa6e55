#!/usr/bin/env python3
"""Runs the gate and prints how much processor time each part takes, or times the proof of test statements.

    tools/gate/gate.py [PROCESSORS [CRATE..]]
    tools/gate/gate.py statements

The first command runs `rt ci`, or `rt must-fail CRATE..` if crates are named. Run it at the top of a clone with nothing in any `out/`.
PROCESSORS is a list for taskset; the default is 0,1. The output goes to gate.log in a temporary folder, whose name is printed. Four times
a second the script looks at the processes of the prover. At the end it prints the last line of the output, the minutes taken, a table of
the parts, and a table of the must-fail edits. The most expensive ones come first. Needs Linux, and taskset of util-linux.

The second command makes a crate for each kind of statement, with one function of ten such statements. `rt check` proves it twice from
scratch. The lower processor time counts, minus that of the crate without this function. The script prints the seconds per statement. This
takes about five minutes.

All commands need `rt` on the path.
"""
import collections
import glob
import os
import pathlib
import re
import resource
import subprocess
import sys
import tempfile
import time

sys.dont_write_bytecode = True
sys.path.insert(0, str(pathlib.Path(__file__).resolve().parents[1]))

from building import printed, write_crate

TICKS = os.sysconf("SC_CLK_TCK")
KINDS = {
    '`assert_eq!(rt; a, b, "at {row}")`': 'assert_eq!(rt; a, b, "at {row}");',
    "`assert_eq!(rt; a, b)`": "assert_eq!(rt; a, b);",
    '`assert!(rt; a == b, "at {row}")`': 'assert!(rt; a == b, "at {row}");',
    "`assert!(rt; a == b)`": "assert!(rt; a == b);",
    '`holds(rt, a == b, "a fact")`': 'holds(rt, a == b, "a fact");',
}
HEAD = """//! Statements of tests.
#![tactic(auto)]

use std::process::Abort;

/// Fails where a fact does not hold.
pub fn holds<R: Abort>(rt: &R, is_so: bool, fact: &str) {
    if !is_so {
        rt.panic(fact)
    }
}
"""
TEN = """
/// Ten statements.
pub fn ten<R: Abort>(rt: &R, a: &str, b: &str, row: usize) {
    let _ = row;
"""


def text_of(path):
    try:
        with open(path, "rb") as file:
            return file.read().decode(errors="replace")
    except OSError:
        return ""


def below(root):
    """Yields the descendants of a process, each with its processor seconds."""
    above = {}
    for pid in filter(str.isdigit, os.listdir("/proc")):
        stat = text_of(f"/proc/{pid}/stat").rpartition(") ")[2].split()
        if stat:
            above[int(pid)] = int(stat[1]), (int(stat[11]) + int(stat[12])) / TICKS
    for pid, (parent, seconds) in above.items():
        while parent in above and parent != root:
            parent = above[parent][0]
        if parent == root:
            yield pid, seconds


def edited(edit, crate):
    """Returns the changed texts of the files that an edit changes."""
    path, old, texts = "", "", {}
    for line in text_of(edit).split("\n"):
        key, _, rest = line.partition(": ")
        if key == "file":
            path = rest.strip()
            texts.setdefault(path, text_of(f"{crate}/{path}"))
        elif key == "old":
            old = rest
        elif line.startswith("new:"):
            texts[path] = texts[path].replace(old, line[len("new:"):].removeprefix(" "))
    return texts


def edit_in(room, crate):
    """Returns the edit that a copy of a crate contains, if any."""
    for edit in sorted(glob.glob(f"{crate}/must-fail/*.edit")):
        if all(text_of(f"{room}/{path}") == text for path, text in edited(edit, crate).items()):
            return os.path.basename(edit).removesuffix(".edit")
    return None


def part_of(pid):
    """Returns the part of the gate that a process belongs to, and the edit that it tries."""
    words = text_of(f"/proc/{pid}/cmdline").split("\0")
    name = re.search(r"\0--crate-name\0(\w+)\0", "\0".join(words))
    try:
        where = os.readlink(f"/proc/{pid}/cwd")
    except OSError:
        where = ""
    if not words[0].endswith("/rattle") or not name:
        return None
    if "/rt-edit-" in where:
        return f"edits of {name[1]}", edit_in(where, f"crates/{name[1]}")
    return f"{name[1]}{' with its tests' if '--test' in words else ''}", None


def watched(words, log):
    """Runs a command. Returns its status; the part, edit and seconds of each process; and when each part ran."""
    seconds, parts, lane = {}, {}, {}
    with open(log, "w", encoding="utf-8") as out:
        gate = subprocess.Popen(words, stdout=out, stderr=subprocess.STDOUT)
        while gate.poll() is None:
            for pid, taken in below(gate.pid):
                # (a process may be seen before it becomes the prover)
                if not parts.get(pid):
                    parts[pid] = part_of(pid)
                seconds[pid] = taken
                lane.setdefault((parts[pid] or ["all else"])[0], [time.time(), 0])[1] = time.time()
            time.sleep(0.25)
    return gate.returncode, [(*(parts[pid] or ("all else", None)), taken) for pid, taken in seconds.items()], lane


def measure(processors, crates):
    """Runs the gate, or the edits of some crates. Prints the times, and returns the status."""
    log, began = f"{tempfile.mkdtemp()}/gate.log", time.time()
    print(f"log: {log}", flush=True)
    status, found, lane = watched(["taskset", "-c", processors, "rt", *(["must-fail", *crates] if crates else ["ci"])], log)
    ended, sums, edits = time.time(), collections.Counter(), collections.Counter()
    for part, edit, taken in found:
        sums[part] += taken
        if edit:
            edits[part.removeprefix("edits of "), edit] += taken
    print(text_of(log).rstrip().split("\n")[-1])
    print(f"{(ended - began) / 60:.1f} minutes, {sum(sums.values()) / 60:.1f} of processor time")
    print("| part | minutes of processor time | from minute | to minute |\n|---|---|---|---|")
    for part, taken in sums.most_common():
        first, last = lane[part]
        print(f"| {part} | {taken / 60:.1f} | {(first - began) / 60:.1f} | {(last - began) / 60:.1f} |")
    print("| edit | seconds of processor time |\n|---|---|")
    for (crate, edit), taken in edits.most_common():
        print(f"| {crate}/{edit} | {taken:.0f} |")
    return status


def seconds(body):
    """Proves a crate twice, and returns the lower processor time."""
    taken = []
    for _ in range(2):
        with tempfile.TemporaryDirectory() as top:
            own = write_crate(pathlib.Path(top), "statements:", "lib.rt", HEAD + body)
            before = resource.getrusage(resource.RUSAGE_CHILDREN)
            printed("rt", "check", "--jobs", "1", folder=own)
            after = resource.getrusage(resource.RUSAGE_CHILDREN)
            taken.append(after.ru_utime - before.ru_utime + after.ru_stime - before.ru_stime)
    return min(taken)


def time_statements():
    """Prints the cost of a statement of each kind."""
    none = seconds("")
    print("| statement | seconds of processor time |\n|---|---|")
    for name, statement in KINDS.items():
        ten = TEN + f"    {statement}\n" * 10 + "}\n"
        print(f"| {name} | {(seconds(ten) - none) / 10:.2f} |", flush=True)


def main(words):
    if words == ["statements"]:
        return time_statements()
    return measure((words or ["0,1"])[0], words[1:])


if __name__ == "__main__":
    sys.exit(main(sys.argv[1:]))
