#!/usr/bin/env python3
"""Runs the examples of the documents: every shell command, and every block of Python, Rust and C.

    tools/bindings/pages.py PSOTF PSFONT LIBRARY_FOLDER [PAGE..]
    tools/bindings/pages.py --installed DIST [PAGE..]

PSOTF and PSFONT are the built programs, and LIBRARY_FOLDER contains libpostscript.a and libpostscript.so (bindings/c/build). The default pages are those
of PAGES. The script works in a new folder with Font.otf, upload.otf and Table.cff (EB Garamond), Variable.otf (Cantarell-VF, from Debian's package
pango1.0-tests, fetched by apt-get download) and fonts/. It skips and counts commands that install something, or that need `rt`, dist/ or a
cluster.

The second command is for a system without the repository's libraries and without `rt`, such as the root of tools/dist/dist_test.sh. It also runs
docs/install.md, and the commands that install something from DIST, a folder that `make dist` wrote. It runs a block of commands as one script, without
`sudo`, and all other examples with what the commands of README.md installed. It skips commands that need `rt`, and prints them. Run it as root.

It prints each example that fails, and the status is 1 if one does. The example in Rattle is only compared with the program that the page names. Needs
cargo, gcc, pkg-config and Debian's fonts-ebgaramond, librsvg2-bin, woff2 and fonttools.
"""
import glob
import os
import pathlib
import re
import shutil
import subprocess
import sys
import tempfile

TOP = pathlib.Path(__file__).resolve().parents[2]
PAGES = ["README.md", "docs/recipes.md", "docs/psotf.md", "docs/psfont.md", "docs/python.md", "docs/rust.md", "docs/c.md", "bindings/python/README.md", "bindings/rust/README.md"]
#: commands that need the repository and `rt`, or that are no commands but messages of a program
NEEDS_RT = re.compile(r"\brt\b|\bmake |tools/")
MESSAGE = re.compile(r"^too long|^psotf: ")
INSTALLS = re.compile(r"dist/|apt-get|pip |cargo |venv|tcp://HOST")
#: the program that the example in Rattle is
RATTLE = "crates/first_glyph/src/main.rt"
FONT = "/usr/share/fonts/opentype/ebgaramond/EBGaramond12-Regular.otf"
PYTHON = "import postscript\npaths = ['Font.otf', 'upload.otf']\nupload = open('upload.otf', 'rb').read()\n"
RUST = """fn main() -> Result<(), Box<dyn std::error::Error>> {{
    let bytes = std::fs::read("{font}")?;
    let upload = std::fs::read("upload.otf")?;
    let (font, glyph) = {{
        let font = postscript::{kind}::from_file(&bytes, 0)?;
        (font, font.glyph_index('A').unwrap_or(1))
    }};
    let _ = (&bytes, &upload, &font, &glyph);
{body}
    Ok(())
}}
"""
C = """#include <postscript.h>
#include <stdlib.h>
int example(const uint8_t *cff, size_t size) {{
{declared}
{body}
    return 0;
}}
int main(void) {{ return 0; }}
"""


def blocks(page, whole=False):
    """Yields the examples of a page in their order: the language and the text. If `whole`, a block of commands is one example, otherwise each of its lines."""
    text = (TOP / page).read_text(encoding="utf-8")
    for found in re.finditer(r"^```(\w+)\n(.*?)^```$|(?:^    [^\n]*\n?)+", text, re.M | re.S):
        if found[1]:
            yield found[1], found[2]
            continue
        lines = [line.strip() for line in found[0].splitlines() if line.strip()]
        if not MESSAGE.search(lines[0]):
            yield from (("sh", text) for text in (["\n".join(lines)] if whole else lines))


def cff_table(file):
    """Returns the CFF table of an OpenType file."""
    for at in range(12, 12 + 16 * int.from_bytes(file[4:6], "big"), 16):
        offset, length = (int.from_bytes(file[i : i + 4], "big") for i in (at + 8, at + 12))
        if file[at : at + 4] == b"CFF ":
            return file[offset : offset + length]
    raise ValueError("no CFF table")


class Runner:
    """Runs examples with the programs and the libraries that were built in the repository."""

    def __init__(self, work, psotf, psfont, library):
        self.fonts(work)
        (work / "bin").mkdir()
        shutil.copy(psotf, work / "bin" / "psotf")
        shutil.copy(psfont, work / "bin" / "psfont")
        (work / "v" / "bin").mkdir(parents=True)
        (work / "v" / "bin" / "python").symlink_to(sys.executable)
        path = f"{work}/bin:{os.environ['PATH']}"
        self.env = {**os.environ, "PATH": path, "PYTHONPATH": str(TOP / "bindings/python"), "POSTSCRIPT_LIBRARY": f"{library}/libpostscript.so", "POSTSCRIPT_LIB_DIR": library}
        self.interpreter, self.crate = sys.executable, str(TOP / "bindings/rust")
        self.links = f"-I{TOP / 'bindings/c'} {library}/libpostscript.a"

    def fonts(self, work):
        self.work = work
        (work / "bindings").symlink_to(TOP / "bindings")
        for name, source in (("Font.otf", FONT), ("upload.otf", FONT)):
            shutil.copy(source, work / name)
        (work / "Table.cff").write_bytes(cff_table(pathlib.Path(FONT).read_bytes()))
        (work / "fonts").mkdir()
        shutil.copy(FONT, work / "fonts")
        subprocess.run(["apt-get", "download", "-qq", "pango1.0-tests"], cwd=work, check=True)
        subprocess.run("dpkg-deb -x pango1.0-tests_*.deb deb && cp $(find deb -name Cantarell-VF.otf) Variable.otf", shell=True, cwd=work, check=True)

    def skips(self, text):
        return NEEDS_RT.search(text) or INSTALLS.search(text)

    def run(self, *words, **more):
        return subprocess.run(words, cwd=self.work, env=self.env, capture_output=True, text=True, check=False, timeout=600, **more)

    def sh(self, line):
        return self.run("sh", "-c", line)

    def python(self, body):
        return self.run(self.interpreter, "-c", PYTHON + body)

    def rust(self, body):
        """Runs a block of Rust in a package that uses the binding."""
        package = self.work / "package"
        (package / "src").mkdir(parents=True, exist_ok=True)
        (package / "Cargo.toml").write_text(
            f'[package]\nname = "example"\nversion = "0.1.0"\nedition = "2021"\n[dependencies]\npostscript-proved = {{ path = "{self.crate}" }}\n[workspace]\n'
        )
        kind = "VariableFont" if "place" in body and "VariableFont" not in body else "Font"
        text = RUST.format(font="Variable.otf" if "VariableFont" in body or kind != "Font" else "Font.otf", kind="VariableFont" if "VariableFont" in body else kind, body=body)
        (package / "src" / "main.rs").write_text(text.replace('std::fs::read("Font.otf")?;\nlet font', 'std::fs::read("Font.otf")?;\nlet font'))
        return self.run("cargo", "run", "--quiet", "--offline", "--manifest-path", str(package / "Cargo.toml"))

    def c(self, body):
        declared = "" if "psf_font font;" in body else "    psf_font font; psf_segment segments[100]; size_t glyph = 1, room = 100, count; psf_glyph info;"
        (self.work / "example.c").write_text(C.format(declared=declared, body=body))
        return self.run("sh", "-c", f"cc -Wall example.c {self.links} -o example")


class Installed(Runner):
    """Runs examples with the files of dist/, which they install."""

    def __init__(self, work, dist):
        self.fonts(work)
        (work / "dist").symlink_to(dist)
        (work / "program.c").write_text("#include <postscript.h>\nint main(void) { return psf_version() != PSF_VERSION; }\n")
        self.env = {**os.environ, "DEBIAN_FRONTEND": "noninteractive"}
        self.interpreter, self.links = "v/bin/python", "$(pkg-config --cflags --libs postscript)"

    @property
    def crate(self):
        return glob.glob(f"{self.work}/postscript-proved-*/")[0]

    def skips(self, text):
        return NEEDS_RT.search(text)

    def sh(self, line):
        return super().sh("set -e\n" + line.replace("sudo apt-get install", "apt-get install -y -qq"))


def compared(text):
    """Compares an example in Rattle with the program in the repository, apart from the head of that."""
    is_same = (TOP / RATTLE).read_text(encoding="utf-8").endswith(text)
    return subprocess.CompletedProcess([], int(not is_same), "", f"this is not {RATTLE}")


def main():
    words, pages = sys.argv[1:], PAGES
    is_installed = words[:1] == ["--installed"]
    if len(words) < (2 if is_installed else 3):
        sys.exit(__doc__)
    folders = [tempfile.TemporaryDirectory()]
    runner_in = lambda folder: Installed(pathlib.Path(folder), os.path.abspath(words[1])) if is_installed else Runner(pathlib.Path(folder), *map(os.path.abspath, words[:3]))
    runner = first = runner_in(folders[0].name)
    if is_installed:
        # the packages of the first page are needed by the others
        pages = ["docs/install.md", *PAGES]
    ran = failed = 0
    skipped = []
    for page in words[2 if is_installed else 3 :] or pages:
        runner = first
        # a second installation, in a folder of its own
        if page == "docs/install.md":
            folders.append(tempfile.TemporaryDirectory())
            runner = runner_in(folders[-1].name)
        for language, text in blocks(page, is_installed):
            is_rattle = "HostRuntime" in text
            if is_rattle and is_installed or language == "sh" and runner.skips(text):
                skipped += [f"{page}: {line}" for line in (["the example in Rattle"] if is_rattle else text.splitlines())]
                continue
            done = compared(text) if is_rattle else getattr(runner, language)(text)
            ran += 1
            if done.returncode:
                failed += 1
                print(f"{page}: {language}: status {done.returncode}\n    {text}\n{done.stderr[-1500:]}")
    for line in skipped:
        print(f"not run: {line}")
    print(f"{ran} examples ran, {failed} failed; {len(skipped)} that need {'rt' if is_installed else 'rt, dist/ or root'} were not run")
    return failed > 0


if __name__ == "__main__":
    sys.exit(main())
