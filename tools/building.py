"""Builds the programs of the scripts, each in a given folder: on the crates of this repository, on a Rust crate, and in C.

A Rattle program is proved in a copy of the crates that it uses, with their results in out/. Nothing is written outside the folder. If a
command fails, the script ends with the command's output and status 1.
"""

import os
import pathlib
import shutil
import subprocess
import sys

TOOLS = pathlib.Path(__file__).resolve().parent
TOP = TOOLS.parent
PROGRAMS = TOOLS / "programs"
PSFONT = TOP / "crates" / "psfont" / "out" / "psfont"
PSOTF = os.environ.get("PSOTF") or TOP / "crates" / "psotf" / "out" / "psotf"


def printed(*words, folder=None, given=os.devnull, **variables):
    """Returns what a command prints. It runs in a folder, with a file as input and with additional environment variables."""
    with open(given, "rb") as lines:
        done = subprocess.run(
            words, cwd=folder, stdin=lines, capture_output=True, text=True, check=False, env={**os.environ, **variables},
        )
    if done.returncode:
        sys.exit(done.stdout + done.stderr)
    return done.stdout


def crates_of(top):
    """Returns the line of each crate in crates.txt, and the words after its colon."""
    lines = (top / "crates.txt").read_text().splitlines()
    heads = {line: line.partition(":") for line in lines if line and not line.startswith("#")}
    return {head.split()[0]: (line, uses.split()) for line, (head, _, uses) in heads.items()}


def below(crates, uses):
    """Returns the words that are crates, and the crates that these use, dependencies first."""
    found = {}
    for name in uses:
        if name in crates:
            found.update(dict.fromkeys([*below(crates, crates[name][1]), name]))
    return list(found)


def write_crate(folder, line, file, text):
    """Writes a crate with one file in src/ below a folder, adds its line to crates.txt, and returns the crate's folder."""
    own = folder / "crates" / line.partition(":")[0]
    for path, content in {f"src/{file}": text, "specs/Lib.antt": "", "proofs/Lib.antt": ""}.items():
        (own / path).parent.mkdir(parents=True)
        (own / path).write_text(content)
    with (folder / "crates.txt").open("a") as lines:
        lines.write(f"{line}\n")
    return own


def proved(folder, name, uses, top=TOP, changed=str):
    """Proves and builds tools/programs/NAME.rt.txt in a folder, with copies of the crates below `top` that it uses. The function
    `changed` may edit its text. Returns the program."""
    crates = crates_of(top)
    libraries = below(crates, uses.split())
    for library in libraries:
        shutil.copytree(top / "crates" / library, folder / "crates" / library)
    (folder / "crates.txt").write_text("".join(f"{crates[library][0]}\n" for library in libraries))
    own = write_crate(folder, f"{name}: {uses}", "main.rt", changed((PROGRAMS / f"{name}.rt.txt").read_text()))
    printed("rt", "run", folder=own)
    return own / "out" / name


def cargo(folder, name, more="", version="0.1.0", words=()):
    """Builds the Rust sources in a folder, with a manifest that it writes; returns the folder of the programs."""
    (folder / "Cargo.toml").write_text(f'[package]\nname = "{name}"\nversion = "{version}"\nedition = "2021"\n{more}')
    printed("cargo", "build", "--quiet", "--release", "--offline", *words, folder=folder)
    return folder / "target" / "release"


def rival(folder, crate, name, feature="whole"):
    """Builds tools/programs/NAME.rs in a folder, with a copy of the Rust crate `postscript` and a feature; returns the program."""
    shutil.copytree(pathlib.Path(crate) / "src", folder / "src")
    (folder / "src" / "bin").mkdir()
    shutil.copyfile(PROGRAMS / f"{name}.rs", folder / "src" / "bin" / f"{name}.rs")
    return cargo(folder, "postscript", f"[features]\n{feature} = []\n", "0.14.1", ["--features", feature]) / name


def parser_program(folder, name):
    """Builds tools/programs/NAME_ttf.rs in a folder with Debian's crate `ttf-parser`; returns the program."""
    (folder / "src").mkdir(parents=True)
    shutil.copyfile(PROGRAMS / f"{name}_ttf.rs", folder / "src" / "main.rs")
    listed = printed("dpkg", "-L", "librust-ttf-parser-dev").splitlines()
    parser = next(path for path in listed if path.endswith("/Cargo.toml")).removesuffix("/Cargo.toml")
    return cargo(folder, name, f'[dependencies]\nttf-parser = {{ path = "{parser}" }}\n') / name


def memory(folder):
    """Builds tools/programs/memory.c in a folder, as a library for LD_PRELOAD."""
    library = folder / "memory.so"
    printed("gcc", "-shared", "-fPIC", "-O2", PROGRAMS / "memory.c", "-o", library)
    return str(library)
