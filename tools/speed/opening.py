#!/usr/bin/python3
"""Times the opening of fonts: in place, by `FontSet::read_lenient`, by FreeType and by `ttf-parser`, in one run.

    tools/speed/opening.py WORD..
    tools/speed/opening.py variable WORD..

The first command opens the `CFF ` table of each font, without the other tables. Each WORD is a font file, a folder or an installed Debian
package; of folders and packages, all .otf files are used. The programs are opening.rt.txt, opening_ft.c and opening_ttf.rs of
tools/programs.

The second command compares variable fonts that have a `CFF2` table with FreeType, from the bytes of the whole file. It times opening the
font and setting a location. On each axis this is two thirds of the way from the default to the maximum, or to the minimum if the
default is the maximum. Each WORD is a font file, or a Debian package, which is downloaded and not installed; pango1.0-tests has
Cantarell-VF.otf. The last two fonts have two and three axes; tools/variable_fonts.py makes them from EB Garamond. The programs are
opening_variable.rt.txt and opening_variable_ft.c.

The programs in Rattle are proved in a copy of the crates with their out/ folders. Needs `rt`, `cargo`, `gcc` and `pkg-config` on the path,
and Debian's python3-fonttools, librust-ttf-parser-dev and libfreetype-dev. The second command needs fonts-ebgaramond.
"""

import pathlib
import statistics
import sys
import tempfile

sys.dont_write_bytecode = True
sys.path.insert(0, str(pathlib.Path(__file__).resolve().parents[1]))

import building
import variable_fonts
from building import printed
from font_files import fonts_of
from fontTools.ttLib import TTFont

USES = "postscript_view postscript_compact1 postscript_base anyhow"
VARIABLE_USES = ("postscript_sfnt postscript_base postscript_type2 postscript_variation postscript_cff2 postscript_variable"
                 " postscript_variable_font anyhow")
SHOWN = ("EBGaramond12-Regular", "FreeSerif", "unifont")


def write_tables(folder, words):
    """Writes the `CFF ` table of each font to a file. Returns a file with the paths of these."""
    (folder / "tables").mkdir()
    tables = []
    for name, font in fonts_of(*words):
        tables.append(folder / "tables" / f"{len(tables)}-{name.replace(' ', '_')}")
        tables[-1].write_bytes(font.reader["CFF "])
    (folder / "lines").write_text("".join(f"{table}\n" for table in tables))
    return folder / "lines"


def freetype(folder, name="opening_ft.c"):
    """Builds the program that uses FreeType, and returns its path."""
    flags = printed("pkg-config", "--cflags", "--libs", "freetype2").split()
    printed("gcc", "-O2", building.PROGRAMS / name, "-o", folder / "freetype", *flags)
    return folder / "freetype"


def rows_of(program, lines):
    return [line.split() for line in printed(program, given=lines).splitlines()]


def micros(nanos):
    return f"{nanos / 1000:.1f}" if nanos < 100000 else f"{nanos / 1000:.0f}"


def print_told(all_rows):
    fonts, both = [], []
    slower, more = 0, 0
    for own, other, third in zip(*all_rows):
        if not own[0] == other[0] == third[0]:
            sys.exit("the programs were not asked the same")
        name = pathlib.Path(own[0]).name.partition("-")[2]
        glyphs, view, read, codes = map(int, own[1:5])
        free, pair = int(other[2]), int(third[2])
        fonts.append((name, glyphs, view, read, codes, free, pair))
        slower += bool(free) and view > free
        more += bool(view) and bool(free) and glyphs != int(other[1])
        if view and read:
            both.append((view, read))
    print("| font | glyphs | in place | `FontSet::read_lenient` | FreeType | ttf-parser |")
    print("|---|---|---|---|---|---|")
    for name, glyphs, view, read, _, free, pair in fonts:
        if name in SHOWN:
            print(f"| {name} | {glyphs} | {micros(view)} µs | {micros(read) + ' µs' if read else 'refused'} | {micros(free)} µs | {micros(pair)} µs |")
    opened = [font for font in fonts if font[2]]
    print(f"opened in place: {len(opened)} of {len(fonts)}, median {micros(statistics.median(font[2] for font in opened))} µs, most {micros(max(font[2] for font in opened))} µs")
    sums = [sum(times) for times in zip(*both)]
    print(f"both ways: {len(both)} fonts, FontSet takes {sums[1] / sums[0]:.0f} times as long")
    free = [font for font in fonts if font[2] and font[5]]
    print(f"beside FreeType: {len(free)} fonts, slower than it {slower}, it takes {sum(font[5] for font in free) / sum(font[2] for font in free):.0f} times as long, other counts of glyphs {more}")
    pair = [font for font in fonts if font[2] and font[6]]
    print(f"beside ttf-parser: {len(pair)} fonts, {sum(font[2] for font in pair) / sum(font[6] for font in pair):.1f} times its time")
    per_glyph = [font[4] / font[1] for font in opened if font[1] >= 50]
    print(f"a glyph's code: {sum(font[4] for font in opened) / sum(font[1] for font in opened):.1f} ns, most in a font of 50 glyphs and more {max(per_glyph):.1f} ns")


def asked_of(path):
    """Returns the user coordinates to set, in 16.16 bits."""
    ends = [(axis.defaultValue, axis.minValue if axis.defaultValue == axis.maxValue else axis.maxValue) for axis in TTFont(path, lazy=True)["fvar"].axes]
    return [round((default + (end - default) * 2 / 3) * 65536) for default, end in ends]


def compare_variable(words):
    """Prints the times for variable fonts, here and in FreeType."""
    with tempfile.TemporaryDirectory() as name:
        folder = pathlib.Path(name)
        (folder / "fonts").mkdir()
        fonts = [path for word in words for path in variable_fonts.files_in(folder, word)]
        fonts += [variable_fonts.variable(folder / "fonts", count) for count in (2, 3)]
        (folder / "lines").write_text("".join(f"{' '.join(map(str, asked_of(path)))} {path}\n" for path in fonts))
        programs = [building.proved(folder / "ours", "opening_variable", VARIABLE_USES), freetype(folder, "opening_variable_ft.c")]
        print("| font | glyphs | `CFF2` alone | the file | a place | FreeType: the file | a place | opened and placed, of FreeType's time |")
        print("|---|---|---|---|---|---|---|---|")
        for path, own, other in zip(fonts, *(rows_of(program, folder / "lines") for program in programs)):
            if own[0] != other[0]:
                sys.exit(f"{path} has other counts of glyphs")
            table, read, place, theirs, set_there = map(int, (*own[1:4], *other[1:3]))
            told = " µs | ".join(f"{nanos / 1000:.2f}" for nanos in (table, read, place, theirs, set_there))
            print(f"| {path.stem} | {own[0]} | {told} µs | {(read + place) / (theirs + set_there):.2f} |")


def main(words):
    if not words or words == ["variable"]:
        sys.exit(__doc__)
    if words[0] == "variable":
        return compare_variable(words[1:])
    with tempfile.TemporaryDirectory() as name:
        folder = pathlib.Path(name)
        lines = write_tables(folder, words)
        programs = [freetype(folder), building.parser_program(folder / "ttf", "opening")]
        programs.insert(0, building.proved(folder / "ours", "opening", USES))
        print_told([rows_of(program, lines) for program in programs])


if __name__ == "__main__":
    main(sys.argv[1:])
