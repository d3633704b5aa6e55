#!/usr/bin/python3
"""Checks the output, messages, files and exit status of `psotf` for typical command lines.

    (cd crates/psotf && rt run -- --help)
    tools/evidence/command_line.py

The script runs crates/psotf/out/psotf, or the program in the environment variable PSOTF. It prints a line for each case: what is tried,
and `as told` or the difference. The cases are:
- `subset`: the file for `Hello` with kerning has at most twice the bytes of that of hb-subset 6.0.0 with layout kept, 3,044, and
  without layout fewer. The glyphs of chosen features are kept. fontTools reads its `name` records:
  which ones are kept, and that no Macintosh record repeats a Windows one. The message about dropped tables appears once, and not with
  --quiet.
- `sheet`: the size of the labels when the picture has its own size, their width within a cell, and the error of an invalid glyph in its
  cell.
- Arguments: a misspelled subcommand gets the nearest one and status 2, no arguments print the help, and a file alone is inspected. A pipe
  that is closed early is not an error.
- `svg` and `subset` list the characters without a glyph. Files of other formats get a line that names the format.
- `inspect`: its memory for Noto Sans CJK. `report`: several pages if there are too many glyphs for one.
- `instance`: the errors for unknown axes, instances and arguments, fonts that are not variable, exceeded limits and damaged tables; which
  tables are dropped; font names and glyph names; and points at whole units.
- Glyphs that cost more than is kept in memory, and long lines of JSON, which are printed in pieces.
- A full disk: the status, the message, and an existing file that stays unchanged.

Needs Debian's python3-fonttools, fonts-ebgaramond and time, and uses fonts-noto-cjk if installed. The exit status is 1 if a case fails.
"""

import functools
import json
import math
import pathlib
import re
import resource
import subprocess
import sys
import tempfile
import xml.etree.ElementTree

sys.dont_write_bytecode = True
sys.path.insert(0, str(pathlib.Path(__file__).resolve().parents[1]))

import fontTools.varLib.cff
from fontTools.pens.recordingPen import RecordingPen
from fontTools.ttLib import TTFont, newTable
from fontTools.ttLib.tables._c_m_a_p import CmapSubtable
from fontTools.ttLib.tables import otTables
from fontTools.ttLib.tables._f_v_a_r import NamedInstance
from fontTools.varLib.featureVars import addFeatureVariations

from hostile_files import END, ONE, PSOTF, STEMS, call, file_of, plain_font
from variable_fonts import variable

FONT = "/usr/share/fonts/opentype/ebgaramond/EBGaramond12-Regular.otf"
LARGE = pathlib.Path("/usr/share/fonts/opentype/noto/NotoSansCJK-Regular.ttc")
READ, LICENCE = {1, 2, 3, 4, 5, 6, 16, 17, 21, 22, 25}, {0, 7, 13, 14}
SVG = "{http://www.w3.org/2000/svg}"
CASES = []


def case(what):
    def kept(test):
        CASES.append((what, test))
        return test

    return kept


def run(*words, status=0):
    done = subprocess.run([str(PSOTF), *map(str, words)], capture_output=True, check=False)
    assert done.returncode == status, f"status {done.returncode}: {done.stderr.decode()[:200]}"
    return done.stdout.decode(), done.stderr.decode()


def subset(folder, *words, font=FONT):
    out = folder / "out.otf"
    _, said = run("subset", font, "--text", "Hello", *words, "-o", out)
    return out, said


def names(path):
    return [(r.platformID, r.platEncID, r.langID, r.nameID, r.toUnicode()) for r in TTFont(path)["name"].names]


def wanted(records, kept):
    """Returns the records with these name IDs, without Macintosh Roman ones whose text is also in a Windows record."""
    windows = {(record[3], record[4]) for record in records if record[0] == 3}
    return [record for record in records if record[3] in kept and (record[0] != 1 or (record[3], record[4]) not in windows)]


def with_names(records, folder):
    """Returns EB Garamond with another `name` table."""
    font = TTFont(FONT)
    font["name"].names = []
    for platform, encoding, language, identifier, text in records:
        font["name"].setName(text, identifier, platform, encoding, language)
    path = folder / "named.otf"
    font.save(path)
    return path


@case("subset: Hello with kerning has at most twice the bytes of hb-subset's file, and fewer without")
def _(folder):
    size = subset(folder, "--layout-features", "kern", "--exact")[0].stat().st_size
    assert size < 3044 * 2, f"{size} bytes"
    size = subset(folder, "--drop-layout")[0].stat().st_size
    assert size < 3044, f"{size} bytes"


@case("subset: the names that systems read, in one encoding")
def _(folder):
    out, _ = subset(folder)
    assert names(out) == wanted(names(FONT), READ), names(out)


@case("subset: --keep-names keeps the licence too")
def _(folder):
    out, _ = subset(folder, "--keep-names")
    assert names(out) == wanted(names(FONT), READ | LICENCE), names(out)


@case("subset: texts that differ by platform stay, and other languages too")
def _(folder):
    records = [
        (0, 3, 0, 1, "Family"), (0, 3, 0, 2, "Plain"), (1, 0, 0, 1, "Family"), (1, 0, 0, 2, "Regular"), (1, 0, 0, 4, "Only Macintosh é"), (1, 1, 11, 1, "家族"),
        (3, 1, 0x409, 1, "Family"), (3, 1, 0x409, 2, "Roman"), (3, 1, 0x407, 1, "Familie"), (3, 1, 0x411, 1, "Family"), (3, 1, 0x409, 19, "Sample"),
    ]  # fmt: skip
    out, _ = subset(folder, font=with_names(records, folder))
    left = [(0, 3, 0, 1, "Family"), (1, 0, 0, 1, "Family"), (3, 1, 0x409, 19, "Sample")]
    assert sorted(names(out)) == sorted(record for record in records if record not in left), names(out)


@case("subset: names of Unicode alone stay")
def _(folder):
    records = [(0, 3, 0, 1, "Family"), (0, 3, 0, 2, "Regular"), (1, 0, 0, 1, "Family")]
    out, _ = subset(folder, font=with_names(records, folder))
    assert names(out) == records[:2], names(out)


#: what --exact says of a text of Latin letters: a shaper draws the space for characters that it hides
EXACT = "psotf: text may look different, since --exact leaves out characters that a shaper may use: U+0020\n"


@case("subset: what is left out is said once")
def _(folder):
    _, said = subset(folder, "--layout-features", "kern", "--exact")
    assert said == EXACT + "psotf: tables dropped: FFTM\n", said
    _, said = subset(folder)
    # hb-subset has 14 glyphs for "Hello" and the space, with .notdef
    assert said == "psotf: glyphs added for shaping: 9\npsotf: tables dropped: FFTM\n", said
    _, said = subset(folder, "--drop-layout")
    assert said == "psotf: tables dropped: FFTM GDEF GPOS GSUB; kerning and ligatures are lost\n", said


def sequences(path):
    """Returns the variation sequences of a font, by selector."""
    tables = [table for table in TTFont(path)["cmap"].tables if table.format == 14]
    return {selector: sorted(pairs, key=lambda pair: pair[0]) for table in tables for selector, pairs in table.uvsDict.items()}


@case("subset: variation sequences of the characters stay, with their glyphs")
def _(folder):
    font, path = TTFont(FONT), folder / "varied.otf"
    table = CmapSubtable.newSubtable(14)
    table.platformID, table.platEncID, table.language, table.cmap = 0, 5, 0, {}
    table.uvsDict = {0xFE00: [(0x48, None), (0x65, "e.sc"), (0x78, None)], 0xE0100: [(0x6C, "l.sc"), (0x41, "a.sc")]}
    font["cmap"].tables.append(table)
    font.save(path)
    kept = {0xFE00: [(0x48, None), (0x65, "e.sc")], 0xE0100: [(0x6C, "l.sc")]}
    for options in (["--drop-layout"], ["--layout-features", "kern"], [], ["--retain-gids"], ["--retain-gids", "--drop-layout"]):
        out, _ = subset(folder, *options, font=path)
        assert sequences(out) == kept, sequences(out)
        text = ["--unicodes=48,FE00,65,FE00,6C,E0100,6F", "--features=-liga,-kern"]
        shaped = [subprocess.run(["hb-shape", file, *text, "--no-positions", "--no-clusters"], capture_output=True, text=True).stdout for file in (path, out)]
        assert shaped[0] == shaped[1] == "[H|e.sc|l.sc|o]\n", shaped


@case("subset: without layout nothing is lost")
def _(folder):
    path, out = folder / "plain.otf", folder / "out.otf"
    font = TTFont(FONT)
    for tag in ("GDEF", "GPOS", "GSUB"):
        del font[tag]
    font.save(path)
    assert subset(folder, "--exact", font=path)[1] == EXACT + "psotf: tables dropped: FFTM\n"
    run("subset", path, "--text", "Hello", "-o", out)
    assert run("subset", out, "--text", "He ", "--exact", "-o", folder / "again.otf")[1] == ""


@case("subset: --exact names the characters that a shaper may use, at most twelve")
def _(folder):
    out, mapped = folder / "out.otf", TTFont(FONT).getBestCmap()
    said = run("subset", FONT, "--unicodes", "54,30c", "--exact", "-o", out)[1]
    # the space, Ť, which is T and U+030C, and the dotted circle, which a shaper puts under a mark without a base
    wanted = [char for char in (0x20, 0x164, 0x25CC) if char in mapped]
    assert said.splitlines()[0].endswith("may use:" + "".join(f" U+{char:04X}" for char in wanted)), said
    said = run("subset", FONT, "--unicodes", "41-5a,61-7a,301", "--exact", "-o", out)[1].splitlines()[0]
    assert said.endswith(" ..") and said.count("U+") == 12, said
    assert run("subset", FONT, "--text", "Hello", "--exact", "--quiet", "-o", out)[1] == ""
    assert "may use" not in run("subset", FONT, "--text", "Hello", "--exact", "--drop-layout", "-o", out)[1]


def device():
    """Returns a device table: one pixel at 12 pixels per em."""
    table = otTables.Device()
    table.StartSize, table.EndSize, table.DeltaFormat, table.DeltaValue = 12, 12, 1, [1]
    return table


def layout_parts(path):
    """Writes EB Garamond with feature variations, a device table of a mark, and attachment points."""
    font = TTFont(FONT)
    for tag in ("GSUB", "GPOS"):
        table = font[tag].table
        record, table.FeatureVariations = otTables.FeatureVariationRecord(), otTables.FeatureVariations()
        record.ConditionSet, record.FeatureTableSubstitution = otTables.ConditionSet(), otTables.FeatureTableSubstitution()
        record.ConditionSet.ConditionTable, record.FeatureTableSubstitution.SubstitutionRecord = [], []
        record.FeatureTableSubstitution.Version = table.FeatureVariations.Version = 0x00010000
        table.Version, table.FeatureVariations.FeatureVariationRecord = 0x00010001, [record]
    subtables = [subtable for lookup in font["GPOS"].table.LookupList.Lookup for subtable in lookup.SubTable]
    anchor = next(subtable for subtable in subtables if subtable.LookupType == 4).MarkArray.MarkRecord[0].MarkAnchor
    anchor.Format, anchor.XDeviceTable, anchor.YDeviceTable = 3, device(), None
    points, coverage = otTables.AttachPoint(), otTables.Coverage()
    points.PointIndex, coverage.glyphs = [0], ["H"]
    attached = font["GDEF"].table.AttachList = otTables.AttachList()
    attached.Coverage, attached.AttachPoint = coverage, [points]
    font.save(path)


@case("subset: the parts of layout tables that are lost are named, and none with --retain-gids")
def _(folder):
    path = folder / "parts.otf"
    layout_parts(path)
    told = {
        "psotf: feature variations dropped from GSUB", "psotf: feature variations dropped from GPOS",
        "psotf: device tables dropped from GPOS", "psotf: attachment points dropped from GDEF",
    }  # fmt: skip
    said = subset(folder, font=path)[1].splitlines()
    assert {line for line in said if "dropped from" in line} == told, said
    assert "dropped from" not in subset(folder, "--retain-gids", font=path)[1]
    assert "dropped from" not in subset(folder)[1]


@case("subset: the glyphs of the chosen features, and no others")
def _(folder):
    for words, wanted in (
        (["--layout-features", "smcp,kern"], ["space", "H", "e", "l", "o", "e.sc", "l.sc", "o.sc"]),
        (["--layout-features", "kern"], ["space", "H", "e", "l", "o"]),
        (["--layout-features", "kern", "--exact"], ["H", "e", "l", "o"]),
        (["--drop-layout"], ["H", "e", "l", "o"]),
    ):
        glyphs = TTFont(subset(folder, *words)[0]).getGlyphOrder()
        assert glyphs == [".notdef", *wanted], (words, glyphs)
    run("subset", FONT, "--text", "Hello", "--layout-features", "ligature", "-o", folder / "out.otf", status=2)


@case("subset: --glyphs keeps the glyphs with these names and their characters, and an unknown name is named")
def _(folder):
    out = folder / "out.otf"
    run("subset", FONT, "--glyphs", "A,a.sc,e", "--drop-layout", "-o", out)
    font = TTFont(out)
    assert sorted(font.getGlyphOrder()) == sorted([".notdef", "A", "a.sc", "e"]), font.getGlyphOrder()
    assert sorted(font.getBestCmap().values()) == ["A", "e"], font.getBestCmap()
    said = run("subset", FONT, "--glyphs", "A,nothing", "-o", out, status=1)[1]
    assert said == f"psotf: {FONT}: the font has no glyph with the name nothing\n", said
    run("subset", FONT, "--glyphs", "A", "--gids", "1", "-o", out, status=2)


@case("subset: --quiet says nothing")
def _(folder):
    out, said = subset(folder, "--quiet")
    assert said == "", said
    assert out.read_bytes() == subset(folder)[0].read_bytes()


@case("svg: characters without a glyph are named, and nothing is drawn")
def _(folder):
    out = folder / "text.svg"
    told = f"psotf: {FONT}: the font has no glyph for: U+6F22 U+1F600\n"
    assert run("svg", FONT, "--text", "A漢B😀漢", "-o", out, status=1)[1] == told
    assert not out.exists()
    assert run("subset", FONT, "--text", "A漢B😀漢", "-o", out, status=1)[1] == told
    assert not out.exists()


@case("svg: --missing draw draws them all the same, and names them")
def _(folder):
    out = folder / "text.svg"
    assert run("svg", FONT, "--text", "A漢", "--missing", "draw", "-o", out)[1] == "psotf: the font has no glyph for: U+6F22\n"
    paths = lambda: [path.get("d") for path in xml.etree.ElementTree.parse(out).getroot().iter(f"{SVG}path")]
    both = paths()
    run("svg", FONT, "--text", "A", "-o", out)
    assert len(both) == 2 and both[0] == paths()[0] and both[1], both


def picture(folder, font, *words):
    out = folder / "sheet.svg"
    run("sheet", font, *words, "-o", out)
    return xml.etree.ElementTree.parse(out).getroot()


@case("sheet: labels of 12 pixels, no wider than their cells")
def _(folder):
    root = picture(folder, FONT)
    width, units = float(root.get("width")), float(root.get("viewBox").split()[2])
    pixels = float(root.get("font-size")) * width / units
    assert 11.5 <= pixels <= 13, pixels
    letters = max(len(text.text or "") for text in root.iter(f"{SVG}text"))
    assert letters * 0.61 * pixels <= width / 16, letters
    assert [text.text for text in root.iter(f"{SVG}text")][:6] == ["0", ".notdef", "1", "space", "2", "exclam"]


@case("sheet: a cell shows the error of its glyph")
def _(folder):
    path = folder / "refused.otf"
    path.write_bytes(file_of(plain_font([END, END, call(0, 1) + END], [ONE * 30]), 3)[0])
    told = run("glyph", path, "--gid", "2", status=1)[0].split("error: ", 1)[1].strip()
    cells = [[text.text or "" for text in cell.iter(f"{SVG}text")] for cell in picture(folder, path).iter(f"{SVG}g")]
    assert " ".join(cells[2][2:]) == told, cells[2]
    assert not cells[1][2:], cells[1]


@case("words: the nearest subcommand is named")
def _(folder):
    for word, nearest in (("inspct", "inspect"), ("glyphs", "glyph"), ("svgs", "svg"), ("sheets", "sheet"), ("rapport", "report"), ("flatt", "flat"), ("subsett", "subset"), ("instanc", "instance")):
        said = run(word, FONT, status=2)[1]
        assert f"'{word}'" in said and f"'{nearest}'" in said, said


@case("words: none print the help, and a file alone is inspected")
def _(folder):
    out, said = run(status=2)
    assert out == "" and "Usage:" in said and "Examples:" in said and "psotf report Font.otf" in said, said
    assert run(FONT) == run("inspect", FONT)


@case("files: of another kind, one line that says which and what is read")
def _(folder):
    path = folder / "font"
    sound = file_of(plain_font([END, END]), 2)[0]
    kinds = {
        b"wOFF" + sound[4:]: "a WOFF file (to unpack it: woff2sfnt FILE > OUT.otf)", b"wOF2" + sound[4:]: "a WOFF2 file (to unpack it: woff2_decompress FILE)",
        b"%!PS-AdobeFont-1.0: A": "a Type 1 font", b"\x80\x01" + bytes(20): "a Type 1 font",
        b"\x00\x01\x00\x00" + sound[4:].replace(b"CFF ", b"glyf", 1): "a TrueType font, with its outlines in a glyf table",
    }  # fmt: skip
    for data, kind in kinds.items():
        path.write_bytes(data)
        for words in (["inspect", path], ["report", path, "-o", folder / "report.html"]):
            said = run(*words, status=1)[1]
            assert said == f"psotf: {path}: {kind}: psotf reads OpenType files with a CFF or CFF2 table\n", said


@case("files: several have a row each, also those with errors, and from a list")
def _(folder):
    sound, bad, gone, bare = (folder / name for name in ("sound.otf", "bad", "gone", "bare.otf"))
    sound.write_bytes(file_of(plain_font([END, END]), 2)[0])
    bare.write_bytes(file_of(plain_font([END, END, END]), 3)[0])
    bad.write_bytes(b"no font")
    paths = [sound, bad, gone, bare]
    out, said = run("inspect", *paths, "--json", status=1)
    rows = [json.loads(line) for line in out.splitlines()]
    assert [row["file"] for row in rows] == [str(path) for path in paths], out
    assert [row.get("error") for row in rows][:2] == [None, "cannot open the font: not an OpenType file"], out
    assert "error" in rows[2] and [row.get("glyphs") for row in rows] == [2, None, None, 3], out
    assert said.splitlines()[-1] == "psotf: inspect: files with errors: 2", said
    assert {**rows[0], "file": None} == {"file": None, **json.loads(run("inspect", sound, "--json")[0])}
    listed = folder / "list"
    listed.write_text("".join(f"{path}\n" for path in paths))
    assert run("inspect", "--files-from", listed, "--json", status=1) == (out, said)
    assert run("inspect", sound, bare)[0] == "".join(f"{path}:\n{run('inspect', path)[0]}" for path in (sound, bare))
    assert run("inspect", status=2)[0] == ""


@case("inspect: scripts, features and lookups as fontTools reads them")
def _(folder):
    names = {
        "GSUB": ["single", "multiple", "alternate", "ligature", "context", "chained context", "extension", "reverse chained"],
        "GPOS": ["single", "pair", "cursive", "mark to base", "mark to ligature", "mark to mark", "context", "chained context", "extension"],
    }
    for path in sorted(pathlib.Path("/usr/share/fonts/opentype").rglob("*.otf"))[:12]:
        font, told = TTFont(path), json.loads(run("inspect", path, "--json")[0])["layout"]
        assert set(told) == {tag for tag in names if tag in font}, path
        for tag in told:
            table, counts = font[tag].table, {}
            for lookup in table.LookupList.Lookup if table.LookupList else []:
                kind = lookup.SubTable[0].ExtensionLookupType if lookup.LookupType == {"GSUB": 7, "GPOS": 9}[tag] else lookup.LookupType
                counts[names[tag][kind - 1]] = counts.get(names[tag][kind - 1], 0) + 1
            assert told[tag]["lookups"] == counts, (path, told[tag]["lookups"], counts)
            assert told[tag]["scripts"] == sorted({one.ScriptTag for one in table.ScriptList.ScriptRecord}), path
            assert told[tag]["features"] == sorted({one.FeatureTag for one in table.FeatureList.FeatureRecord}), path


@case("proof: without PROOF.txt one line says where it comes from")
def _(folder):
    assert run("proof", status=1)[1] == "psotf: proof: there is no PROOF.txt; it comes with the packages and the archive\n"


@case("inspect: of Noto Sans CJK no more memory than 1.5 times the file")
def _(folder):
    if not LARGE.is_file():
        return
    told = folder / "most"
    # a child of this process would start with this process's memory in its peak, so /usr/bin/time starts it
    words = ["/usr/bin/time", "-f", "%M", "-o", told, str(PSOTF), "inspect", str(LARGE), "--json"]
    subprocess.run(words, stdout=subprocess.DEVNULL, check=True)
    most = int(told.read_text())
    assert most * 1024 <= 1.5 * LARGE.stat().st_size, f"{most} KB"


@case("words: a pipe that nobody reads is no failure")
def _(folder):
    for words in ("--help", f"inspect {FONT} --json"):
        done = subprocess.run(f"'{PSOTF}' {words} | head -c 1", shell=True, capture_output=True, check=False)
        assert done.stderr == b"", done.stderr


@case("report: an invalid table has a page that says why")
def _(folder):
    path, out = folder / "cut.otf", folder / "report.html"
    path.write_bytes(file_of(plain_font([END, END])[:5], 2)[0])
    said = run("report", path, "-o", out, status=1)[1]
    assert "the CFF table, the Name INDEX at byte 4: failed to fill whole buffer (error 1): " in said, said
    page = out.read_text()
    assert '"in_place":{"code":1,"message":"failed to fill whole buffer","part":"the Name INDEX","place":4,"rule":' in page
    assert '"strict":{"code":1,' in page and '"lenient":{"code":1,' in page


@case("inspect: the error of each reader, with its part, byte and rule")
def _(folder):
    path = folder / "font.otf"
    path.write_bytes(file_of(plain_font([END, END], char_set=b"\x07\x01\x87"), 2)[0])
    lines = [line for line in run("inspect", path)[0].splitlines() if line.startswith("rejected by")]
    told = "reader: the charset at byte {}: found an unknown char-set format (error 11): the format of a charset is 0, 1 or 2 "
    place = TTFont(path).reader["CFF "].index(b"\x07\x01\x87") + 1
    assert len(lines) == 2, lines
    for line, reading in zip(lines, ("strict", "lenient"), strict=True):
        assert line.startswith(f"rejected by the {reading} {told.format(place)}"), line


@case("report: more glyphs than a page holds make further pages")
def _(folder):
    path, out = folder / "many.otf", folder / "report.html"
    path.write_bytes(file_of(plain_font([END] * 20_001), 20_001)[0])
    run("report", path, "-o", out)
    pages = {page.name: page.read_text() for page in folder.glob("report*.html")}
    assert sorted(pages) == ["report-10000.html", "report-20000.html", "report.html"], sorted(pages)
    assert '"pages":[["report.html",0,10000],["report-10000.html",10000,20000],["report-20000.html",20000,20001]]' in pages["report-10000.html"]


@functools.cache
def made():
    """Returns a variable font with two axes and an instance Bold, made from EB Garamond."""
    fontTools.varLib.cff.maxStackLimit = 48
    with tempfile.TemporaryDirectory() as folder:
        path = variable(pathlib.Path(folder), 2)
        font = TTFont(path)
        for name, weight in (("Bold", 700), ("Semi Bold", 600)):
            instance = NamedInstance()
            instance.subfamilyNameID, instance.coordinates = font["name"].addName(name), {"wght": weight, "wdth": 100}
            font["fvar"].instances.append(instance)
        font["name"].setName("Garamond", 1, 3, 1, 0x409)
        font.save(path)
        return path.read_bytes()


def varied(folder, change=None):
    """Writes that font to a file, changed by a function."""
    path = folder / "variable.otf"
    path.write_bytes(made())
    if change is not None:
        font = TTFont(path)
        change(font)
        font.save(path)
    return path


@case("svg: a variable font's characters without a glyph are named too, and --missing draw draws them")
def _(folder):
    font, out = varied(folder), folder / "text.svg"
    told = "the font has no glyph for: U+6F22\n"
    assert run("svg", font, "--text", "A漢", "-o", out, status=1)[1] == f"psotf: {font}: {told}"
    assert not out.exists()
    assert run("svg", font, "--text", "A漢", "--missing", "draw", "-o", out)[1] == f"psotf: {told}"
    paths = [path.get("d") for path in xml.etree.ElementTree.parse(out).getroot().iter(f"{SVG}path")]
    assert len(paths) == 2 and paths[0], paths


def instance(folder, *words, change=None, status=0):
    """Runs `psotf instance`; returns the written file and the messages. If it fails, the old file must be unchanged. It may leave no
    .part file."""
    path, out = varied(folder, change), folder / "out.otf"
    out.write_bytes(b"old")
    said = run("instance", path, *words, "-o", out, status=status)[1].replace(f"{path}: ", "")
    assert [file.name for file in folder.iterdir() if file.suffix == ".part"] == []
    assert (out.read_bytes() == b"old") == (status != 0)
    return out, said


@case("instance: an axis, an instance or a number that is not there is refused by name")
def _(folder):
    for words, wanted in (
        ("--variations opsz=12", "the font has no axis opsz"), ("--instance Thin", "the font has no instance Thin"),
        ("--variations wght=heavy", "--variations takes a list of tags and numbers, e.g. wght=650,opsz=12"),
    ):  # fmt: skip
        assert instance(folder, *words.split(), status=2)[1] == f"psotf: {wanted}\n"


@case("instance: one of both words has to be given")
def _(folder):
    for words in ([], ["--variations", "wght=700", "--instance", "Bold"]):
        assert "--variations" in instance(folder, *words, status=2)[1]


@case("instance: a value past the axis is said once, and its end is taken")
def _(folder):
    out, said = instance(folder, "--variations", "wght=2000")
    assert said == "psotf: wght=2000 is outside the axis and is clamped\n", said
    assert TTFont(out)["OS/2"].usWeightClass == 900


@case("sheet, report, flat and subset of a variable font are those of the file of the place")
def _(folder):
    static = instance(folder, "--variations", "wght=650,wdth=90")[0].rename(folder / "static.otf")
    words = (("sheet",), ("report",), ("flat",), ("subset", "--text", "Hello"))
    # a page contains its own name
    of_static, of_place = folder / "of_static" / "out", folder / "of_place" / "out"
    of_static.parent.mkdir()
    of_place.parent.mkdir()
    for name, *more in words:
        run(name, static, *more, "-o", of_static)
        run(name, folder / "variable.otf", *more, "--variations", "wght=650,wdth=90", "-o", of_place)
        assert of_static.read_bytes() == of_place.read_bytes(), name
    said = run("sheet", static, "--variations", "wght=650", status=2)[1]
    assert "--variations, --instance and --animate need a variable font with a CFF2 table" in said, said


@case("svg --animate draws each glyph as at the places of the axis, there and back")
def _(folder):
    path = varied(folder)
    out = run("svg", path, "--text", "Ham", "--animate", "wght")[0]
    axis = next(axis for axis in TTFont(path)["fvar"].axes if axis.axisTag == "wght")
    low, middle, high = axis.minValue, axis.defaultValue, axis.maxValue
    stops = [low + (middle - low) * i / 4 for i in range(4) if low < middle] + [middle + (high - middle) * i / 4 for i in range(5)]
    stops += stops[-2::-1]
    shapes = [list(values.split(";")) for values in re.findall(r'attributeName="d"[^>]*values="([^"]*)"', out)]
    places = [list(values.split(";")) for values in re.findall(r'type="translate"[^>]*values="([^"]*)"', out)]
    assert len(shapes) == len(places) == 3
    for i, value in enumerate(stops):
        still = run("svg", path, "--text", "Ham", "--variations", f"wght={value:g}")[0]
        found = re.findall(r'<path transform="translate\(([^)]*)\)" d="([^"]*)"/>', still)
        assert found == [(places[glyph][i], shapes[glyph][i]) for glyph in range(3)], value
    assert "the font has no axis opsz" in run("svg", path, "--text", "Ham", "--animate", "opsz", status=2)[1]


@case("glyph --json: a line that is printed in pieces is whole")
def _(folder):
    path = folder / "long.otf"
    path.write_bytes(file_of(plain_font([END, ONE * 2 + b"\x15" + (ONE * 2 + b"\x05") * 5_000 + END]), 2)[0])
    glyph = json.loads(run("glyph", path, "--gid", "1", "--json")[0])
    assert glyph["operations"] == [["RMoveTo", 1, 1], *[["RLineTo", 1, 1]] * 5_000], glyph["operations"][-3:]
    assert glyph["segments"] == [["M", 1, 1], *(["L", i, i] for i in range(2, 5_002)), ["Z"]], glyph["segments"][-3:]


@case("report, flat, subset: what costs more than is kept in memory is named, with the option")
def _(folder):
    path, out = folder / "many.otf", folder / "many.out"
    path.write_bytes(file_of(plain_font([END, *[call(0, 1) + END] * 20], [(ONE * 2 + STEMS) * 40 * 50]), 21)[0])
    said = run("report", path, "--limit", "50000", "-o", out, status=1)[1]
    assert "glyph 1: it costs more than 5000 units, a tenth of --limit (report keeps all operations of a glyph in memory)" in said, said
    said = run("flat", path, "--limit", "50000", "-o", out, status=1)[1]
    assert re.search(r"glyph 9: the glyphs up to it cost more than 5\d{4} units, which follow from --limit", said), said
    said = run("subset", path, "--gids", "0-20", "--limit", "50000", "-o", out, status=1)[1]
    assert said.endswith(": the kept glyphs cost more than the limit, which follows from --limit and the size of the table\n"), said


@case("instance: a font that is not variable is named")
def _(folder):
    for path, wanted in ((FONT, "not a variable font: its outlines are in CFF, and instance needs a CFF2 table"), (folder / "cut.otf", "cannot open the font: ")):
        (folder / "cut.otf").write_bytes(b"OTTO")
        said = run("instance", path, "--variations", "wght=650", "-o", folder / "none.otf", status=1)[1]
        assert wanted in said and said.count("\n") == 1 and not (folder / "none.otf").exists(), said


@case("instance: a run past the limit is named, with the limit and the option")
def _(folder):
    said = instance(folder, "--instance", "Bold", "--limit", "20", status=1)[1]
    assert said.startswith("psotf: glyph ") and said.endswith(": it costs more than 20 units (--limit)\n"), said


@case("instance: damaged tables of variations are named")
def _(folder):
    def cut(tag):
        def change(font):
            font[tag] = newTable(tag)
            font[tag].decompile = lambda data, font: None
            font[tag].compile = lambda font: b"\0\1\0"
        return change

    for tag in ("HVAR", "MVAR", "avar"):
        said = instance(folder, "--instance", "Bold", change=cut(tag), status=1)[1]
        assert said.startswith(f"psotf: the {tag} table: "), said


def without_room(words, out):
    """Runs a command with a limit of 1,000 bytes per file, and checks that the old file is unchanged."""
    out.write_bytes(b"old")
    done = subprocess.run(
        [str(PSOTF), *map(str, words), "-o", str(out)], capture_output=True, check=False, restore_signals=False,
        preexec_fn=lambda: resource.setrlimit(resource.RLIMIT_FSIZE, (1000, 1000)),
    )  # fmt: skip
    assert done.returncode == 1 and b"cannot write" in done.stderr, (words[0], done.returncode, done.stderr)
    assert out.read_bytes() == b"old" and not out.with_name(out.name + ".part").exists(), words[0]


@case("instance, subset, flat and report: where a file cannot be written the old one stays")
def _(folder):
    without_room(["instance", varied(folder), "--instance", "Bold"], folder / "out.otf")
    without_room(["subset", FONT, "--text", "Hello"], folder / "out.otf")
    without_room(["flat", FONT], folder / "out.otf")
    without_room(["report", FONT], folder / "out.html")


@case("words: where the disk is full the status is 1, and it is said")
def _(folder):
    for words in (["inspect", FONT], ["glyph", FONT, "--gid", "1"], ["svg", FONT, "--text", "A"], ["sheet", FONT, "--count", "9"]):
        with open("/dev/full", "wb") as full:
            done = subprocess.run([str(PSOTF), *words], stdout=full, stderr=subprocess.PIPE, check=False)
        assert done.returncode == 1 and b"psotf: " in done.stderr, (words[0], done.returncode, done.stderr)


@case("instance: what is left out is said once, and not with --quiet")
def _(folder):
    def change(font):
        font["XXXX"] = newTable("XXXX")
        font["XXXX"].data = b"own"
        addFeatureVariations(font, [([{"wght": (0.5, 1)}], {"A": "B"})])

    out, said = instance(folder, "--instance", "Bold", change=change)
    assert said == "psotf: tables dropped: GSUB XXXX; lost with them: ligatures and other substitutions\n", said
    assert not {"GSUB", "XXXX", "fvar", "STAT"} & set(TTFont(out).keys())
    assert instance(folder, "--instance", "Bold", "--quiet", change=change)[1] == ""
    assert instance(folder, "--instance", "Bold")[1] == ""


@case("instance: the names of a place")
def _(folder):
    for words, wanted in (
        ("--instance Bold", ["Garamond", "Bold", "Garamond Bold", "Garamond-Bold", None, None]),
        ("--variations wght=700", ["Garamond", "Bold", "Garamond Bold", "Garamond-Bold", None, None]),
        ("--variations wght=600", ["Garamond Semi Bold", "Regular", "Garamond Semi Bold", "Garamond-SemiBold", "Garamond", "Semi Bold"]),
        ("--variations wght=650.5,wdth=80", ["Garamond 650.5wght 80wdth", "Regular", "Garamond 650.5wght 80wdth", "Garamond_650.5wght_80wdth", "Garamond", "650.5wght 80wdth"]),
    ):  # fmt: skip
        font = TTFont(instance(folder, *words.split())[0])
        told = [font["name"].getDebugName(i) for i in (1, 2, 4, 6, 16, 17)]
        assert told == wanted, told
        assert font["CFF "].cff.fontNames == [wanted[3]]


@case("instance: names of glyphs stay, or it is said why not, and not with --quiet")
def _(folder):
    kept = TTFont(varied(folder)).getGlyphOrder()
    assert TTFont(instance(folder, "--instance", "Bold")[0]).getGlyphOrder() == kept

    def twice(font):
        order = font.getGlyphOrder()
        font["post"].formatType, font["post"].extraNames, font["post"].mapping = 2.0, [], {order[2]: order[1]}

    out, said = instance(folder, "--instance", "Bold", change=twice)
    assert said == "psotf: glyph names dropped (the font becomes CID-keyed): two glyphs have the same name\n", said
    assert hasattr(TTFont(out)["CFF "].cff.topDictIndex[0], "ROS")
    assert instance(folder, "--instance", "Bold", "--quiet", change=twice)[1] == ""


@case("instance --round: each point at the nearest whole units")
def _(folder):
    whole = TTFont(instance(folder, "--variations", "wght=650", "--round")[0].rename(folder / "whole.otf"))
    exact = TTFont(instance(folder, "--variations", "wght=650")[0])
    for number, name in enumerate(exact.getGlyphOrder()):
        pens = [RecordingPen(), RecordingPen()]
        for pen, font in zip(pens, (exact, whole), strict=True):
            font.getGlyphSet()[name].draw(pen)
        wanted = [(word, tuple((math.floor(x + 0.5), math.floor(y + 0.5)) for x, y in points)) for word, points in pens[0].value]
        assert wanted == pens[1].value, (number, wanted, pens[1].value)


def main():
    bad = 0
    for what, test in CASES:
        with tempfile.TemporaryDirectory() as folder:
            try:
                test(pathlib.Path(folder))
                print(f"{what}: as told", flush=True)
            except AssertionError as fault:
                bad += 1
                print(f"{what}: OTHERWISE: {fault}", flush=True)
    print(f"{len(CASES)} cases, {bad} otherwise")
    return 1 if bad else 0


if __name__ == "__main__":
    sys.exit(main())
