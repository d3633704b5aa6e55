#!/usr/bin/python3
"""Downloads the OpenType fonts of Debian's packages, and prints the number of .otf files.

    tools/font_files.py FOLDER

The script downloads each package fonts-* with an .otf file and unpacks it below FOLDER; nothing is installed. It keeps packages that are
already there. Other scripts take the folder, e.g. tools/evidence/view.py 38 3000 FOLDER. Needs Debian's python3-fonttools and apt-file,
after `apt-file update`, and about 300 MB.

As a module, it finds the font files named by another script's arguments, and returns the glyphs of a font as lines.
"""

import pathlib
import subprocess
import sys

from fontTools.ttLib import TTFont


def files_of(*words, ends=(".otf",)):
    """Yields the fonts of each word: a file, the fonts below a folder, or those of an installed Debian package. Font names end in one of
    `ends`."""
    for word in words:
        path = pathlib.Path(word)
        if path.is_file():
            yield word
        elif path.is_dir():
            yield from sorted(str(found) for found in path.rglob("*") if found.name.endswith(ends) and found.is_file())
        else:
            listed = subprocess.run(["dpkg", "-L", word], stdout=subprocess.PIPE, check=True).stdout.decode().split("\n")
            yield from sorted(name for name in listed if name.endswith(ends))


def fonts_of(*words):
    """Yields each font with a `CFF ` table: the file name without its extension, and the font."""
    for path in files_of(*words):
        font = TTFont(path, lazy=True)
        if "CFF " in font:
            yield pathlib.Path(path).stem, font


def glyph_lines(path):
    """Returns the subroutines and glyphs of a font file, each with `global`, `local` or `code`; none if it has no `CFF ` table or is
    CID-keyed."""
    font = TTFont(path, lazy=True)
    if "CFF " not in font:
        return []
    cff = font["CFF "].cff
    top = cff[0]
    if hasattr(top, "FDArray"):
        return []
    local = getattr(top.Private, "Subrs", [])
    lines = [("global", cff.GlobalSubrs[i].bytecode) for i in range(len(cff.GlobalSubrs))]
    lines += [("local", local[i].bytecode) for i in range(len(local))]
    return lines + [("code", top.CharStrings[name].bytecode) for name in font.getGlyphOrder()]


def spelled(lines):
    """Returns such lines as text: a word, a space, and bytes in hex."""
    return "".join(f"{kind} {code.hex()}\n" for kind, code in lines)


def write_glyphs(folder, words, **more):
    """Writes such lines for each font to a file with the font's name, and further texts to other files; returns the files."""
    folder.mkdir()
    texts = {pathlib.Path(path).stem: spelled(glyph_lines(path)) for path in files_of(*words)}
    for name, text in {**texts, **more}.items():
        if text:
            (folder / name).write_text(text)
    return sorted(folder.iterdir())


def packages():
    """Returns Debian's packages fonts-* with an .otf file."""
    listed = subprocess.run(["apt-file", "search", "-x", r"\.otf$"], stdout=subprocess.PIPE, check=True).stdout.decode()
    names = {line.partition(":")[0] for line in listed.splitlines()}
    return sorted(name for name in names if name.startswith("fonts-"))


def fetch(folder, package):
    """Downloads a package and unpacks it. All packages share one root, since files of one may be links to another's."""
    debs = folder / "debs"
    subprocess.run(["apt-get", "download", "-qq", package], cwd=debs, check=True)
    for deb in debs.glob(f"{package}_*.deb"):
        subprocess.run(["dpkg-deb", "-x", deb, folder / "root"], check=True)
        deb.unlink()
    (folder / f"{package}.done").touch()


def main(words):
    if len(words) != 1:
        sys.exit(__doc__)
    folder = pathlib.Path(words[0]).resolve()
    (folder / "debs").mkdir(parents=True, exist_ok=True)
    for package in packages():
        if not (folder / f"{package}.done").exists():
            fetch(folder, package)
    print(sum(1 for _ in (folder / "root").rglob("*.otf")))


if __name__ == "__main__":
    main(sys.argv[1:])
