#!/usr/bin/env python3
"""Runs the evidence scripts of tools/ one after another, and keeps what they print.

    tools/evidence/all.py FONTS [NAME..]
    tools/evidence/all.py --stale

The first command runs all scripts, or the named ones. It writes their output to evidence/NAME.log, with the date, commit, command, status
and time, and a row for each log to evidence/rows.txt: its name, date, commit, status and last line. FONTS is the folder made by
tools/font_files.py. The exit status is 1 if a script fails. The second command prints a row for each script: the date and commit of its log,
its status, and "stale" if the script or the code that it tests has changed since then. Each script says what it needs. CRATE is the
environment variable CRATE: the source of the Rust crate `postscript`.
"""
import os
import pathlib
import re
import subprocess
import sys
import time

TOP = pathlib.Path(__file__).resolve().parents[2]
LOGS = TOP / "evidence"
#: in the paths of SCRIPTS, a name of crates.txt stands for the folder of the crate and of all crates that it uses
C = "postscript_c bindings/c bindings/font.hex bindings/accents.hex bindings/variable.hex bindings/whole.hex bindings/layout.hex"
#: docs/results.md says what the scripts printed, so it is no reason to run them again
PAGES = "README.md docs :(exclude)docs/results.md"
EBGARAMOND = "/usr/share/fonts/opentype/ebgaramond/EBGaramond12-Regular.otf /usr/share/fonts/opentype/freefont/FreeSerif.otf"
#: the name of the log, the command, and the crates and paths that it tests; the files that the command names are added
SCRIPTS = [
    ("allocations", "tools/evidence/allocations.py && tools/evidence/allocations.py calls", "psfont"),
    ("glyphs", "/usr/bin/python3 tools/evidence/glyphs.py fonts-lmodern fonts-texgyre fonts-texgyre-math fonts-cantarell", "postscript_type2"),
    ("inlined", "tools/evidence/inlined.py fonts-ebgaramond fonts-freefont-otf", "postscript_type2"),
    ("summaries", "/usr/bin/python3 tools/evidence/summaries.py FONTS", "psfont"),
    ("sfnt", "tools/evidence/sfnt.py 1 10000 FONTS", "postscript_sfnt"),
    ("view", "tools/evidence/view.py 38 100000 FONTS", "postscript_view"),
    ("outlines", "tools/evidence/outlines.py fonts-ebgaramond fonts-freefont-otf", "postscript_drawing"),
    ("linked", "tools/bindings/linked.sh 10000000 1 FONTS", C),
    ("psotf", "/usr/bin/python3 tools/evidence/psotf.py FONTS", "psotf"),
    ("command_line", "tools/evidence/command_line.py", "psotf"),
    ("written", "/usr/bin/python3 tools/evidence/written.py 42 FONTS --instances pango1.0-tests", "psotf"),
    ("accented", "/usr/bin/python3 tools/evidence/accented.py", "psotf"),
    ("shaped", "/usr/bin/python3 tools/evidence/shaped.py 7 60 FONTS", "psotf"),
    ("kerning", "/usr/bin/python3 tools/evidence/kerning.py 7 60 FONTS", "psotf"),
    ("ligatures", "/usr/bin/python3 tools/evidence/ligatures.py 7 20 FONTS", "psotf"),
    ("sizes", "/usr/bin/python3 tools/evidence/sizes.py FONTS", "psotf"),
    ("report", "tools/evidence/report.py", "psotf"),
    ("changed_fonts", "python3 tools/evidence/changed_fonts.py --seed 1", "psfont"),
    ("random_programs", "python3 tools/evidence/random_programs.py --seed 1", "psfont"),
    ("hostile", "tools/hostile.py fonts && tools/hostile.py programs", "psfont"),
    ("costs", "tools/evidence/costs.py FONTS && tools/evidence/fitting.py FONTS", C),
    ("slowest", f"tools/speed/slowest.sh 10000000 20261127 {EBGARAMOND}", C),
    ("axes", "tools/evidence/axes.py 1 200", "postscript_variation"),
    ("variable", "tools/evidence/variable.py 62 40 3000 pango1.0-tests", "postscript_variable_font"),
    ("changed_variable", "tools/evidence/changed_variable.py 20261127 1000000 pango1.0-tests", "postscript_variable_font"),
    ("changed_layout", "/usr/bin/python3 tools/evidence/changed_layout.py --jobs 4 FONTS", f"{C} bindings/python"),
    ("instance", "tools/evidence/instance.py 20261127 2 pango1.0-tests", "postscript_instance"),
    ("static_fonts", "tools/evidence/static_fonts.py 20261127 16 --round pango1.0-tests", "psotf"),
    ("hostile_files", "tools/evidence/hostile_files.py", "psotf"),
    ("hostile_variable", "tools/evidence/hostile_variable.py", "psotf"),
    ("hostile_doors", "tools/evidence/hostile_doors.py", C),
    ("beside", "tools/speed/beside.sh", C),
    ("instructions", f"tools/speed/instructions.py CRATE {EBGARAMOND}", "postscript_drawing"),
    ("speed_charstrings", "tools/speed/speed.py charstrings CRATE fonts-ebgaramond fonts-freefont-otf", "postscript_type2"),
    ("readings_fonts", "tools/speed/readings.py fonts CRATE fonts-ebgaramond fonts-freefont-otf", "postscript"),
    ("opening", "tools/speed/opening.py FONTS", "postscript_view"),
    ("pages", "tools/bindings/pages.py crates/psotf/out/psotf crates/psfont/out/psfont bindings/c/build", f"{C} psotf psfont {PAGES} bindings"),
    ("doors", "/usr/bin/python3 tools/evidence/doors.py 20261130 4 FONTS --variable pango1.0-tests", f"{C} psotf bindings/rust bindings/python"),
    ("bindings", "tools/bindings/bindings.sh", f"{C} bindings"),
    ("aarch64", "make --no-print-directory -s -C bindings/c check-aarch64", C),
    ("threads", "make --no-print-directory -s -C bindings/c check-threads", C),
    ("fuzz", "make --no-print-directory -s -C bindings/c check-fuzz", C),
    ("reproducible", "tools/dist/reproducible.sh", f"{C} psotf psfont {PAGES} bindings tools/dist"),
    ("dist_test", "tools/dist/dist_test.sh", f"{C} psotf psfont {PAGES} bindings tools/dist tools/bindings/pages.py"),
]


def said_by(*words):
    return subprocess.run(words, cwd=TOP, capture_output=True, text=True, check=True).stdout.strip()


def uses():
    """Returns what each crate uses, by crates.txt."""
    lines = [line.partition(":") for line in (TOP / "crates.txt").read_text().splitlines() if line and not line.startswith("#")]
    return {head.split()[0]: tail.split() for head, _, tail in lines}


def tested_by(command, tested):
    """Returns the paths that a script tests, and the files that it consists of."""
    crates, found, left = uses(), set(), tested.split() + [word for word in command.split() if word.startswith("tools/")]
    while left:
        word = left.pop()
        path = f"crates/{word}" if word in crates else word
        if path not in found and (word not in crates or (TOP / path).exists()):
            found.add(path)
            left += [it for it in crates.get(word, []) if it in crates]
    return sorted(found)


def run(name, command, fonts):
    """Runs a script, keeps what it prints, and returns its status."""
    words = command.replace("FONTS", fonts).replace("CRATE", os.environ.get("CRATE", "CRATE"))
    print(f"{name}: {words}", flush=True)
    begun = time.time()
    done = subprocess.run(words, shell=True, cwd=TOP, stdout=subprocess.PIPE, stderr=subprocess.STDOUT, text=True, check=False)
    head = f"date: {time.strftime('%Y-%m-%d')}\ncommit: {said_by('git', 'rev-parse', '--short=8', 'HEAD')}\ncommand: {command}\nstatus: {done.returncode}\nseconds: {time.time() - begun:.0f}\n"
    # apt says this if it downloads a package as root
    said = re.sub(r"^W: Download is performed unsandboxed .*\n", "", done.stdout, flags=re.M)
    said = re.sub(r"/tmp/tmp[\w.]+", "TEMP", said)
    (LOGS / f"{name}.log").write_text(f"{head}\n{said.replace(fonts, 'FONTS').replace(str(TOP), '.')}")
    (LOGS / "rows.txt").write_text("".join(row_of(one) + "\n" for one, _, _ in SCRIPTS if head_of(one)))
    return done.returncode


def row_of(name):
    """Returns the row of a log."""
    head, lines = head_of(name), (LOGS / f"{name}.log").read_text(encoding="utf-8").rstrip().splitlines()
    return f"{name:18} {head.get('date', '?'):10} {head.get('commit', '?'):8} status {head.get('status', '?'):2} {lines[-1].strip()[:120]}"


def head_of(name):
    """Returns the header fields of a log."""
    log = LOGS / f"{name}.log"
    lines = log.read_text(encoding="utf-8").split("\n\n")[0].splitlines() if log.exists() else []
    return dict(line.split(": ", 1) for line in lines if ": " in line)


def stale():
    """Prints a row for each script."""
    for name, command, tested in SCRIPTS:
        head = head_of(name)
        commit = head.get("commit", "")
        known = commit and subprocess.run(["git", "cat-file", "-e", commit], cwd=TOP, capture_output=True, check=False).returncode == 0
        later = said_by("git", "log", "--oneline", f"{commit}..HEAD", "--", *tested_by(command, tested)) if known else "?"
        print(f"{name:20} {head.get('date', 'never'):12} {commit:10} status {head.get('status', '?'):4} {'stale' if later else 'current'}")
    return 0


def main():
    words = sys.argv[1:]
    if words == ["--stale"]:
        return stale()
    if not words:
        sys.exit(__doc__)
    chosen = [(name, command) for name, command, _ in SCRIPTS if name in (words[1:] or [one[0] for one in SCRIPTS])]
    return int(any([run(name, command, words[0]) for name, command in chosen]))


if __name__ == "__main__":
    sys.exit(main())
