#!/usr/bin/python3
"""Compares the files that `psotf`, C, Rust and Python write of the same fonts.

    (cd crates/psotf && rt run -- --help)
    /usr/bin/python3 tools/evidence/doors.py SEED COUNT WORD.. [--variable VARIABLE..]

Each WORD is a font file, a folder, or an installed Debian package; of the last two, the script takes each .otf file. Each VARIABLE is a file
with a `CFF2` table, or a package, which is downloaded. COUNT locations and sets of characters are chosen at random from SEED. All four write:

- of a font with a `CFF ` table: the file without subroutines, and a subset for each set of characters. In every second one, glyphs keep
  their numbers. In two of four, the `name` table has the names about the licence.
- of a font with a `CFF2` table: the static font at each location. In every second one, the points are rounded.

All four must write the same bytes.

The script prints a line for each font and way: the number of files, and how many differ from those of C. If C returns an error and writes
no file, the others must write none either; the line also has the number of such files. The exit status is 1 if a file differs, or if no font
was compared.

The environment variable PSOTF names another psotf than the one in crates/psotf/out. C and Rust link bindings/c/build/libpostscript.a, and
Python loads the shared library there, unless POSTSCRIPT_LIBRARY names another one; make builds both. The programs are
tools/programs/doors.c and doors.rs. Needs gcc, make, cargo and Debian's python3-fonttools.
"""

import pathlib
import random
import subprocess
import sys
import tempfile
import warnings

sys.dont_write_bytecode = True
sys.path.insert(0, str(pathlib.Path(__file__).resolve().parents[1]))

from fontTools.ttLib import TTFont

from building import PROGRAMS, PSOTF, TOP, cargo, printed
from font_files import files_of
from variable_fonts import files_in

C = TOP / "bindings" / "c"
#: the tables that psotf copies into a subset, and if glyphs keep their numbers
SAME, NUMBERED = ["OS/2", "head"], ["BASE", "VORG", "kern", "vhea", "vmtx"]
MOST = 200


def programs_in(folder):
    """Builds the programs of C and Rust in a folder."""
    printed("make", "--no-print-directory", "-s", "-C", C)
    printed("cc", "-O2", "-Wall", "-Wextra", f"-I{C}", PROGRAMS / "doors.c", C / "build" / "libpostscript.a", "-lm", "-o", folder / "doors")
    (folder / "rust" / "src").mkdir(parents=True)
    (folder / "rust" / "src" / "main.rs").write_text((PROGRAMS / "doors.rs").read_text())
    crate = TOP / "bindings" / "rust"
    return folder / "doors", cargo(folder / "rust", "doors", f'[dependencies]\npostscript-proved = {{ path = "{crate}" }}\n') / "doors"


def module():
    """Loads the Python module, after its library is built."""
    sys.path.insert(0, str(TOP / "bindings" / "python"))
    import postscript

    return postscript


def by_command(out, *words):
    """Returns the file that a command writes to `out`, or None if it fails."""
    out.unlink(missing_ok=True)
    done = subprocess.run([str(word) for word in words], capture_output=True, text=True, check=False)
    assert done.returncode in (0, 1), f"{words}: status {done.returncode}: {done.stderr}"
    return out.read_bytes() if done.returncode == 0 else None


def by_python(postscript, call):
    """Returns the file that a call of the Python module returns, or None if it raises an error of the library."""
    try:
        return call()
    except postscript.Error:
        return None


def files_by(postscript, programs, path, folder, words, arguments, call):
    """Returns the file that each way writes: `words` are those of the programs, `arguments` those of psotf, and `call` is Python's."""
    kind, *more = words
    out = folder / "out.otf"
    c, rust = (by_command(out, program, kind, path, out, *more) for program in programs)
    return {"C": c, "psotf": by_command(out, PSOTF, *arguments, "-o", out), "Rust": rust, "Python": by_python(postscript, call)}


def characters_of(postscript, path):
    """Returns the characters of a font, apart from surrogates, which are no characters in Rust."""
    try:
        return [char for char in sorted(postscript.Font.open(path).cmap) if not 0xD800 <= char < 0xE000]
    except postscript.Error:
        return []


def static_jobs(postscript, path, chance, count):
    """Yields the files that are written of a font with a `CFF ` table, as arguments of files_by."""
    yield ["flat"], ["flat", path], lambda: postscript.Font.open(path).flat_file()
    mapped = characters_of(postscript, path)
    for number in range(count if mapped else 0):
        keeps, licence = number % 2 == 1, number % 4 > 1
        some = sorted(chance.sample(mapped, chance.randint(1, min(len(mapped), MOST))))
        listed, tables = ",".join(f"{char:x}" for char in some), SAME + NUMBERED * keeps
        yield (
            ["subset", f"{keeps:d}", f"{1 + licence}", ",".join(postscript.FEATURES), ",".join(tables), listed],
            ["subset", path, "--quiet", "--unicodes", listed, *["--retain-gids"] * keeps, *["--keep-names"] * licence],
            lambda: postscript.Font.open(path).subset_file(
                unicodes=some, keep_numbers=keeps, tables=tables, names="licence" if licence else "short"
            ),
        )


def variable_jobs(postscript, path, chance, count):
    """Yields the files that are written of a variable font, as arguments of files_by."""
    font = postscript.VariableFont.open(path)
    for number in range(count):
        rounded = number % 2 == 1
        values = {axis.tag: chance.randint(round(axis.minimum * 4), round(axis.maximum * 4)) / 4 for axis in font.axes}
        place = ",".join(f"{tag}={value:.2f}" for tag, value in values.items())
        yield (
            ["instance", f"{rounded:d}", place],
            ["instance", path, "--quiet", "--variations", place, *["--round"] * rounded],
            lambda: font.at(values).file(rounded=rounded),
        )


def compared(postscript, programs, path, folder, seed, count):
    """Prints the line of each way for a font. Returns how many files there are, and how many differ."""
    tags, chance = TTFont(path, lazy=True).reader.keys(), random.Random(f"{seed} {pathlib.Path(path).name}")
    jobs = static_jobs if "CFF " in tags else variable_jobs if "CFF2" in tags else None
    differ, none, files = {"psotf": 0, "Rust": 0, "Python": 0}, 0, 0
    for words, arguments, call in jobs(postscript, path, chance, count) if jobs else ():
        made = files_by(postscript, programs, path, folder, words, arguments, call)
        files, none = files + 1, none + (made["C"] is None)
        for way in differ:
            if made[way] != made["C"]:
                differ[way] += 1
                print(f"{path}: {way}: {' '.join(map(str, arguments))}", file=sys.stderr)
    for way, number in differ.items():
        if files:
            print(f"{pathlib.Path(path).name}, {way}: {files} files, {number} differ{f'; {none} not written' if none else ''}", flush=True)
    return files, sum(differ.values())


def main(words):
    if len(words) < 3:
        sys.exit(__doc__)
    seed, count, *words = words
    words, variable = (words[: words.index("--variable")], words[words.index("--variable") + 1 :]) if "--variable" in words else (words, [])
    print(f"seed {seed}")
    files = differ = 0
    with tempfile.TemporaryDirectory() as name, warnings.catch_warnings():
        # a layout table may be lost; it must be lost in all files
        warnings.simplefilter("ignore")
        folder = pathlib.Path(name)
        programs, postscript = programs_in(folder), module()
        for path in [*files_of(*words), *(str(path) for word in variable for path in files_in(folder, word))]:
            more, unlike = compared(postscript, programs, path, folder, seed, int(count))
            files, differ = files + more, differ + unlike
    print(f"all: {files} files, {differ} differ")
    return 1 if differ or not files else 0


if __name__ == "__main__":
    sys.exit(main(sys.argv[1:]))
