#!/usr/bin/env python3
"""Tries the wrong bodies of tools/edits again, for each crate that changed since they were last tried.

    tools/gate/edits.py [--jobs N] [CRATE..]
    tools/gate/edits.py --check

The gate tries only the edits in crates/*/must-fail. All others are in tools/edits. The first command tries both, for the named crates or
for each crate that is not in tools/edits/tried.txt with its present checksum. The checksum covers the code of the crate and its edits, but
no comments. An edit is tried by `rt check` in a copy of the repository, over the results in crates/*/out: run `rt check` in the crate first.
Each edit must be rejected at a goal of a proof. If all edits of a crate are, the script writes the crate to tools/edits/tried.txt.

The second command tries nothing. It prints each edit that no longer applies, and each crate that changed since its edits were tried. Its
status is 1 if there is one.

Uses internal functions of `rt` to read edits and results. Needs `rt` on the path.
"""
import concurrent.futures
import glob
import hashlib
import importlib.machinery
import importlib.util
import os
import re
import shutil
import subprocess
import sys
import tempfile

sys.dont_write_bytecode = True
TOP = os.path.realpath(os.path.join(os.path.dirname(os.path.abspath(__file__)), "..", ".."))
TRIED = f"{TOP}/tools/edits/tried.txt"
COMMENT = {".rt": r"\s*//", ".antt": r"\s*--( |$)"}


def toolchain():
    """Loads the program `rt` as a module."""
    loader = importlib.machinery.SourceFileLoader("toolchain", os.path.realpath(shutil.which("rt")))
    module = importlib.util.module_from_spec(importlib.util.spec_from_loader(loader.name, loader))
    loader.exec_module(module)
    return module


def edits_of(crate):
    return sorted(glob.glob(f"{TOP}/tools/edits/{crate}/*.edit") + glob.glob(f"{TOP}/crates/{crate}/must-fail/*.edit"))


def code_of(path):
    """Returns the lines of a file that are no comments."""
    with open(path, encoding="utf-8") as file:
        comment = COMMENT.get(os.path.splitext(path)[1])
        return "\n".join(line for line in file.read().split("\n") if line.strip() and not (comment and re.match(comment, line)))


def sum_of(crate):
    """Returns the checksum of the code of a crate and of its edits."""
    found = hashlib.sha256()
    sources = [path for part in ("src", "specs", "proofs") for path in glob.glob(f"{TOP}/crates/{crate}/{part}/**/*.*t*", recursive=True)]
    for path in [*sorted(path for path in sources if path.endswith((".rt", ".antt"))), *edits_of(crate)]:
        name = os.path.relpath(path, TOP) if not path.endswith(".edit") else os.path.basename(path)
        found.update(repr((name, code_of(path))).encode())
    return found.hexdigest()[:16]


def crates():
    """Returns the crates with edits."""
    folders = glob.glob(f"{TOP}/tools/edits/*/") + glob.glob(f"{TOP}/crates/*/must-fail/")
    names = {path.split("/")[-2] if "/tools/" in path else path.split("/")[-3] for path in folders}
    return sorted(name for name in names if edits_of(name))


def tried():
    """Returns the checksums of the crates when their edits were last tried."""
    try:
        with open(TRIED, encoding="utf-8") as file:
            return dict(line.split()[:2] for line in file if line.strip() and not line.startswith("#"))
    except OSError:
        return {}


def write(sums):
    with open(TRIED, "w", encoding="utf-8") as file:
        file.write("# The checksum of each crate when its edits were last tried (tools/gate/edits.py).\n")
        file.writelines(f"{name} {value}\n" for name, value in sorted(sums.items()))


def checked(folder):
    return subprocess.run(["rt", "check", "--jobs", "1"], cwd=folder, stdin=subprocess.DEVNULL, stdout=subprocess.PIPE, stderr=subprocess.STDOUT, text=True, errors="replace", check=False)


def verdict(rt, ran, texts):
    """Returns whether a check rejected an edit at a goal, and what to print."""
    lines = ran.stdout.rstrip("\n").split("\n")
    bad = next((line for line in lines if rt.unread(line, texts)), "")
    if bad:
        return False, f"BAD EDIT: {bad[:200]}"
    if ran.returncode == 0:
        return False, "NOT REJECTED: the crate is still proved"
    if not any(line.startswith("logic=not-proved") for line in lines):
        return False, f"BAD EDIT: {lines[-1][:200]}"
    told = [line for line in lines if re.match(r"(note: )?\S+:\d+:\d+:", line) and (": error" in line or line.startswith("note: "))]
    names = r"(\./)?proofs/.*(has no field|is not in scope|has no `|was not admitted)"
    goal = next((line for line in told if not re.match(names, line)), "")
    if told and not goal:
        return False, f"BAD EDIT: only a proof file names what it takes away: {told[0][:160]}"
    return True, f"rejected: {goal[:160]}"


def try_crate(rt, crate):
    """Tries the edits of a crate. Returns its name, whether all were rejected, and the output."""
    told = []
    with tempfile.TemporaryDirectory() as copy:
        subprocess.run(["cp", "-al", f"{TOP}/crates", f"{copy}/crates"], check=True)
        folder = f"{copy}/crates/{crate}"
        shutil.rmtree(folder)
        subprocess.run(["cp", "-a", f"{TOP}/crates/{crate}", folder], check=True)
        for file in ("crates.txt", "HANDLES"):
            shutil.copyfile(f"{TOP}/{file}", f"{copy}/{file}")
        well = True
        for edit in edits_of(crate):
            texts, why = rt.read_edit(edit, folder)
            if why:
                is_well, text = False, f"BAD EDIT: {why}"
            else:
                old = {path: open(f"{folder}/{path}", encoding="utf-8").read() for path in texts}
                for path, new in texts.items():
                    open(f"{folder}/{path}", "w", encoding="utf-8").write(new)
                is_well, text = verdict(rt, checked(folder), texts)
                for path, was in old.items():
                    open(f"{folder}/{path}", "w", encoding="utf-8").write(was)
            well = well and is_well
            told.append(f"{crate}/{os.path.basename(edit)}: {text}")
            print(told[-1], flush=True)
        if well and checked(folder).returncode:
            well, told = False, [*told, f"{crate}: it is not proved without an edit"]
    return crate, well, told


def check():
    """Prints edits that no longer apply, and crates that changed. Returns whether there are any."""
    rt, known = toolchain(), tried()
    read = {path: rt.read_edit(path, f"{TOP}/crates/{name}") for name in crates() for path in edits_of(name)}
    stale = {path: why for path, (_texts, why) in read.items() if why}
    for path, why in stale.items():
        print(f"{os.path.relpath(path, TOP)}: {why}")
    changed = [name for name in crates() if known.get(name) != sum_of(name)]
    for name in changed:
        print(f"{name}: it changed since its edits were tried (tools/gate/edits.py {name})")
    return bool(stale or changed)


def main(words):
    if words == ["--check"]:
        return int(check())
    jobs = 1
    if words[:1] == ["--jobs"]:
        jobs, words = int(words[1]), words[2:]
    rt, known = toolchain(), tried()
    wanted = words or [name for name in crates() if known.get(name) != sum_of(name)]
    failed = 0
    with concurrent.futures.ThreadPoolExecutor(jobs) as pool:
        for crate, well, told in pool.map(lambda name: try_crate(rt, name), wanted):
            failed += not well
            if well:
                write({**tried(), crate: sum_of(crate)})
            print(f"{crate}: {sum(': rejected: ' in line for line in told)} of {len(edits_of(crate))} edits rejected", flush=True)
    return int(bool(failed))


if __name__ == "__main__":
    sys.exit(main(sys.argv[1:]))
