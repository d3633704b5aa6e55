#!/usr/bin/python3
"""Copies the libraries and programs that `rt ci` proved on this machine into this checkout. The first `rt check` of a crate then starts with
that crate, and not with the libraries below it, and out/NAME of a program can be run.

    tools/gate/libraries.py

A library or program is copied if `rt ci` proved the same files over the same libraries, by the checksums of all its inputs. The script
prints "given" or "lacking" for each one; the next check builds the lacking ones. It proves nothing, and writes only to crates/*/out. It
uses internal functions of `rt`. If these change, it ends with an error, and a check builds the libraries as usual.
"""

import importlib.machinery
import importlib.util
import os
import pathlib
import shutil
import sys

sys.dont_write_bytecode = True
TOP = pathlib.Path(__file__).resolve().parents[2]


def toolchain():
    """Loads the program `rt` as a module."""
    loader = importlib.machinery.SourceFileLoader("toolchain", os.path.realpath(shutil.which("rt")))
    module = importlib.util.module_from_spec(importlib.util.spec_from_loader(loader.name, loader))
    loader.exec_module(module)
    return module


def lowest_first(crates):
    """Returns the libraries among the crates and those below them, each once, the lowest first."""
    found = {}
    for crate in crates:
        for one in [*crate.below(), crate]:
            if one.makes_rlib():
                found.setdefault(one.name, one)
    return list(found.values())


def give(kept, crate):
    """Copies a library, and returns whether there was one. Its old out/rlib is removed first."""
    shutil.rmtree(f"{crate.folder}/out/rlib", ignore_errors=True)
    if not kept.give(crate, False, kept.key(crate)):
        return False
    kept.is_built(crate)
    pathlib.Path(crate.folder, "out/rlib/stamp").write_text(crate.stamp(), encoding="utf-8")
    return True


def main():
    os.chdir(TOP)
    rt = toolchain()
    if not hasattr(rt, "Kept"):
        sys.exit("libraries.py: this version of rt keeps nothing between runs of rt ci: use tools/gate/kept.py --libraries")
    rt.Crate.cuts_libraries, rt.Crate.allowed = True, rt.handles_of(str(TOP))
    crates = rt.crates_of(str(TOP))
    kept = rt.Kept(crates)
    # keeps an entry that does not fit this checkout, for other checkouts
    kept.drop = lambda path: None
    for crate in lowest_first(crates):
        print(f"{crate.name}: {'given' if give(kept, crate) else 'lacking'}")
    for crate in crates:
        if crate.is_program:
            os.makedirs(f"{crate.folder}/out", exist_ok=True)
            print(f"{crate.name}: {'given' if kept.give(crate, False, kept.key(crate)) else 'lacking'}")


if __name__ == "__main__":
    main()
