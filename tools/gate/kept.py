#!/usr/bin/env python3
"""Runs the gate, `rt ci`, and keeps what passed for the next run. For versions of `rt` that keep nothing, such as `rattle-kit-13b`.

    tools/gate/kept.py
    tools/gate/kept.py --libraries

The first command runs `rt`'s own code over this checkout. A crate, its tests or its wrong bodies are not proved again if they passed before
with the same files, over the same libraries and by the same version of `rt`. Results are in the folder $KEPT, `~/.cache/postscript-gate` if
it is not set. Run it in a clone in which nothing else runs: it removes crates/*/out. It prints what `rt ci` prints, and its status is the
same. It replaces no `rt ci`: delete the folder to prove everything.

The second command copies the kept libraries into this checkout, so that the first `rt check` of a crate starts with that crate. It prints
"given" or "lacking" for each one.

Uses internal functions of `rt`. If these change, it ends with an error.
"""
import hashlib
import importlib.machinery
import importlib.util
import json
import os
import pathlib
import shutil
import sys
import tempfile

sys.dont_write_bytecode = True
TOP = pathlib.Path(__file__).resolve().parents[2]
KEPT = pathlib.Path(os.environ.get("KEPT") or pathlib.Path.home() / ".cache" / "postscript-gate")


def toolchain():
    """Loads the program `rt` as a module."""
    path = os.path.realpath(shutil.which("rt"))
    sys.path.insert(0, os.path.dirname(path))
    loader = importlib.machinery.SourceFileLoader("toolchain", path)
    module = importlib.util.module_from_spec(importlib.util.spec_from_loader(loader.name, loader))
    loader.exec_module(module)
    return module


RT = toolchain()


def copy(path, to):
    if os.path.isdir(path):
        shutil.rmtree(to, ignore_errors=True)
        shutil.copytree(path, to)
    else:
        shutil.copy2(path, to)


def sum_of_folder(folder):
    """Returns the checksum of a built library."""
    found = hashlib.sha256()
    for at, folders, names in os.walk(folder):
        folders.sort()
        for name in sorted(names):
            path = pathlib.Path(at, name)
            if name != "stamp":
                found.update(repr((str(path.relative_to(folder)), hashlib.sha256(path.read_bytes()).digest())).encode())
    return found.digest()


def key_of(crate, tests):
    """Returns the name under which the result of a crate, or of its tests, is kept: the checksum of everything that it is made from."""
    version = pathlib.Path(RT.KIT, "KIT-ID").read_bytes()
    found = hashlib.sha256(repr((version, crate.name, crate.said, sorted(crate.of_kit), tests)).encode())
    for path in sorted(RT.rtlib.files_of(crate.folder)):
        found.update(repr((path.replace(crate.folder, ""), pathlib.Path(path).read_bytes())).encode())
    for low in sorted(crate.below(), key=lambda it: it.name):
        found.update(repr((low.name, sum_of_folder(low.rlib))).encode())
    return f"{crate.name}{'_tests' if tests else ''}-{found.hexdigest()[:24]}"


def made_by(crate, tests):
    """Returns the files of out/ that a check of a crate, or of its tests, makes."""
    names = os.listdir(f"{crate.folder}/out")
    if tests:
        return [name for name in names if name.startswith(f"{crate.name}_tests")]
    if crate.is_program:
        return [name for name in names if name.startswith(crate.name) and not name.startswith(f"{crate.name}_tests")]
    return [] if crate.is_static else ["rlib"]


def keep(crate, tests, kept):
    """Keeps what a check made."""
    with tempfile.TemporaryDirectory(dir=KEPT) as room:
        os.mkdir(f"{room}/made")
        for name in made_by(crate, tests):
            copy(f"{crate.folder}/out/{name}", f"{room}/made/{name}")
        os.rename(f"{room}/made", kept)


def give(crate, kept):
    """Copies what an earlier check made."""
    os.makedirs(f"{crate.folder}/out", exist_ok=True)
    for name in os.listdir(kept):
        copy(kept / name, f"{crate.folder}/out/{name}")


def keeping_checks(check):
    """Returns the check of a crate under `rt ci`, with results that are kept."""

    def checked(crate, flags, tests):
        kept = KEPT / key_of(crate, tests)
        if kept.is_dir():
            give(crate, kept)
            print("kept from an earlier run", file=crate.out)
            return 0
        status = check(crate, flags, tests)
        if not status:
            keep(crate, tests, kept)
        return status

    return checked


def keeping_edits(try_all):
    """Returns the trial of a crate's wrong bodies, with results that are kept if all were rejected."""

    def tried(crate, edits, flags):
        texts = hashlib.sha256(b"".join(repr((os.path.basename(edit), pathlib.Path(edit).read_bytes())).encode() for edit in edits))
        kept = KEPT / f"{key_of(crate, False)}-edits-{texts.hexdigest()[:16]}"
        if kept.is_file():
            return [tuple(row) for row in json.loads(kept.read_text(encoding="utf-8"))]
        rows = try_all(crate, edits, flags)
        if all(is_well for is_well, _text in rows):
            kept.write_text(json.dumps(rows), encoding="utf-8")
        return rows

    return tried


def give_libraries():
    """Copies the kept libraries into this checkout, the lowest first."""
    RT.Crate.cuts_libraries, RT.Crate.allowed, RT.rtlib.Crate = True, RT.handles_of(str(TOP)), RT.Crate
    crates = {low.name: low for crate in RT.rtlib.crates_below(str(TOP)) for low in [*crate.below(), crate] if low.makes_rlib()}
    for crate in sorted(crates.values(), key=lambda it: len(it.below())):
        is_near = all(os.path.isdir(low.rlib) for low in crate.below())
        kept = KEPT / key_of(crate, False) if is_near else None
        if kept and kept.is_dir():
            give(crate, kept)
            pathlib.Path(crate.folder, "out/rlib/stamp").write_text(crate.stamp(), encoding="utf-8")
        print(f"{crate.name}: {'given' if kept and kept.is_dir() else 'lacking'}")


def main(words):
    if hasattr(RT, "Kept"):
        sys.exit("kept.py: this version of rt keeps what passed: run `rt ci`, and tools/gate/libraries.py")
    KEPT.mkdir(parents=True, exist_ok=True)
    os.chdir(TOP)
    if words == ["--libraries"]:
        return give_libraries()
    if words:
        sys.exit(__doc__)
    RT.Crate.ci, RT.must_fail_all = keeping_checks(RT.Crate.ci), keeping_edits(RT.must_fail_all)
    with tempfile.TemporaryDirectory(prefix="rt-aside-", dir=TOP.parent) as aside:
        return RT.ci_from_nothing(aside)


if __name__ == "__main__":
    sys.exit(main(sys.argv[1:]))
