#!/usr/bin/python3
"""Shapes random text with fonts and with their small subsets that keep substitutions, and compares what hb-shape prints.

    (cd crates/psotf && rt run -- --help)
    /usr/bin/python3 tools/evidence/ligatures.py SEED LINES WORD..

Each WORD is a font file, a folder, or an installed Debian package; of the last two, the script takes each .otf file. Fonts without a `CFF `
table, and fonts without GSUB, are skipped. `psotf subset` writes each font several times: with the characters of a few words, with those of
Latin-1, and with Vietnamese, Hebrew, Devanagari and Arabic letters, if the font has them; each with the features that it keeps by default,
and with all features. The whole font and its subset then shape the same lines of these characters, drawn at random from SEED.

A subset does not keep contexts of unknown formats, and lookups with classes or sets of marks if GDEF has no glyph classes. So the features that name such a lookup, directly or by contexts, or that were not chosen, are turned off. Each list of LINES lines is
shaped with the other features as they are by default, with all of them on, with some of them on, and from right to left. Glyphs must have the
same names, and clusters, advances and offsets must be the same. `psotf` must name the dropped lookups that fontTools finds. Fonts with a
required feature that is not kept are only counted. `ots-sanitize` must accept the subset if it accepts the font. If `psotf` says that
kerning or substitutions are lost, the file is only counted.

The script also cuts each font with `hb-subset`, for the same characters and features, and prints the sizes of both subsets as WOFF2. It
prints the first line that differs, and for each font and for all of them the numbers of lines and of differences. Needs Debian's
libharfbuzz-bin, woff2, opentype-sanitizer and python3-fonttools. The exit status is 1 if anything differs.
"""

import collections
import concurrent.futures
import json
import pathlib
import random
import re
import subprocess
import sys
import tempfile

sys.dont_write_bytecode = True
sys.path.insert(0, str(pathlib.Path(__file__).resolve().parents[1]))

from fontTools.subset import Options
from fontTools.ttLib import TTFont

from building import PSOTF
from font_files import files_of
from kerning import size_of
from shaped import FEWEST, TEXTS, is_sound, line_of

#: the features that shapers apply by themselves
ALWAYS = "rvrn ccmp locl rlig liga clig calt rclt rand dist mark mkmk curs abvm blwm kern frac numr dnom".split()
CHOSEN = ("words", "Latin-1", "Vietnamese", "Hebrew", "Devanagari", "Arabic")
#: those of hb-subset 6.0.0, which fontTools 4.38 has too
USUAL = {tag for group in Options._layout_features_groups.values() for tag in group}
SOME = 3


def records(font, tag):
    """Returns the tags and the lookup indices of the feature list of a table."""
    found = font[tag].table.FeatureList if tag in font else None
    return [(record.FeatureTag, record.Feature.LookupListIndex) for record in found.FeatureRecord] if found else []


def lookups_of(font, tag):
    found = font[tag].table.LookupList if tag in font else None
    return found.Lookup if found else []


def type_of(lookup, extension):
    """Returns the type of a lookup. The type of an extension is that of its subtables."""
    return lookup.SubTable[0].ExtensionLookupType if lookup.LookupType == extension else lookup.LookupType


def parts_of(lookup, extension):
    """Returns the subtables of a lookup. Those of an extension are the ones that it points to."""
    return [one.ExtSubTable if lookup.LookupType == extension else one for one in lookup.SubTable]


#: the types of contexts, and of extensions
CONTEXTS = {"GSUB": (5, 6), "GPOS": (7, 8)}
EXTENSION = {"GSUB": 7, "GPOS": 9}


def is_contextual(lookup, tag):
    """Returns whether a lookup has contexts, all of them of a known format."""
    return type_of(lookup, EXTENSION[tag]) in CONTEXTS[tag] and all(one.Format in (1, 2, 3) for one in parts_of(lookup, EXTENSION[tag]))


def has_classes(font):
    return "GDEF" in font and font["GDEF"].table.GlyphClassDef is not None


def kept_lookups(font, tag):
    """Returns whether each lookup is kept, if it is chosen. A lookup without subtables has nothing to lose."""
    types = (1, 2, 3, 4, 8) if tag == "GSUB" else (1, 2, 3, 4, 5, 6)
    flags = has_classes(font)
    return [
        not one.SubTable or ((type_of(one, EXTENSION[tag]) in types or is_contextual(one, tag)) and (flags or one.LookupFlag < 16))
        for one in lookups_of(font, tag)
    ]


def actions_in(part):
    """Returns the records of all actions in a subtable of contexts, of any format."""
    if isinstance(part, (list, tuple)):
        return [record for one in part for record in actions_in(one)]
    if not hasattr(part, "__dict__"):
        return []
    found = []
    for name, value in vars(part).items():
        if name in ("SubstLookupRecord", "PosLookupRecord"):
            found += value or []
        elif isinstance(value, (list, tuple)) or hasattr(value, "__dict__"):
            found += actions_in(value)
    return found


def called(font, tag):
    """Returns the lookups that each lookup applies by its contexts, if these are kept."""
    return [
        {record.LookupListIndex for part in parts_of(one, EXTENSION[tag]) for record in actions_in(part)}
        if one.SubTable and is_contextual(one, tag) else set()
        for one in lookups_of(font, tag)
    ]  # fmt: skip


def whole_lookups(font, tag):
    """Returns whether each lookup is kept, with all lookups that its contexts apply, directly or by others."""
    whole, calls = kept_lookups(font, tag), called(font, tag)
    while True:
        left = [is_whole and all(i < len(whole) and whole[i] for i in calls[k]) for k, is_whole in enumerate(whole)]
        if left == whole:
            return whole
        whole = left


def allowed(font, chosen):
    """Returns the features that text may be shaped with, and the option that turns off all others."""
    lost = set()
    for tag in ("GSUB", "GPOS"):
        kept = whole_lookups(font, tag)
        for feature, indices in records(font, tag):
            if not chosen(feature) or not all(kept[i] for i in indices if i < len(kept)):
                lost.add(feature)
    named = {feature for tag in ("GSUB", "GPOS") for feature, _ in records(font, tag)}
    return sorted(named - lost), [f"-{feature}" for feature in sorted(lost | (set(ALWAYS) - named))]


def dropped(font, choice):
    """Returns the chosen lookups of GSUB that are not kept. With all features, every lookup of the table is chosen. Otherwise contexts that
    are kept also choose the lookups that they apply."""
    kept, calls = kept_lookups(font, "GSUB"), called(font, "GSUB")
    named = {i for feature, indices in records(font, "GSUB") if feature in USUAL for i in indices}
    while True:
        more = named.union(*(calls[i] for i in named if i < len(calls)))
        if more == named:
            return [i for i, is_kept in enumerate(kept) if not is_kept and (choice == "all" or i in named)]
        named = more


def requires(font, off):
    """Returns whether a required feature of some script is turned off. Shapers apply it all the same."""
    for tag in ("GSUB", "GPOS"):
        found = records(font, tag)
        for record in font[tag].table.ScriptList.ScriptRecord if found else ():
            systems = [record.Script.DefaultLangSys, *(one.LangSys for one in record.Script.LangSysRecord)]
            for index in {one.ReqFeatureIndex for one in systems if one}:
                if index < len(found) and f"-{found[index][0]}" in off:
                    return True
    return False


def shaped(path, text, words):
    """Returns the glyphs of each line of a file: number, cluster, advance and offset."""
    done = subprocess.run(["hb-shape", path, f"--text-file={text}", "--no-glyph-names", "--output-format=json", *words], capture_output=True, text=True, check=True)
    return [[(one["g"], one["cl"], one["ax"], one["dx"], one["dy"]) for one in json.loads(line)] for line in done.stdout.splitlines()]


def asked_of(on, off, draw):
    """Returns the lists of options: features and directions."""
    some = [draw.sample(on, draw.randint(1, len(on))) for _ in range(SOME) if on]
    lists = [[], on, *some]
    return [*(["--features=" + ",".join([*off, *tags])] for tags in lists), ["--features=" + ",".join([*off, *on]), "--direction=rtl"]]


def written(path, listed, choice, folder):
    """Writes both subsets, and returns their paths and what psotf says."""
    ours, theirs = folder / "ours.otf", folder / "theirs.otf"
    words = [] if choice == "usual" else ["--layout-features=*"]
    done = subprocess.run([PSOTF, "subset", path, "--unicodes", listed, *words, "-o", ours], capture_output=True, text=True, check=True)
    subprocess.run(["hb-subset", path, f"--unicodes={listed}", *words, "-o", theirs], capture_output=True, check=True)
    return ours, theirs, done.stderr


def compared(path, font, name, choice, folder, draw, lines, sums):
    """Writes a subset and compares random lines."""
    cmap = font.getBestCmap()
    chars = [char for char in TEXTS[name] if char in cmap]
    if len(chars) < FEWEST:
        return
    chosen = USUAL.__contains__ if choice == "usual" else lambda tag: True
    on, off = allowed(font, chosen)
    if requires(font, off):
        sums["required"] += 1
        return
    ours, theirs, said = written(path, ",".join(f"{char:x}" for char in chars), choice, folder)
    sums["files"] += 1
    for what in ("kerning and marks are lost:", "substitutions are lost:"):
        if what in said:
            sums[what] += 1
            return
    told = re.search(r"GSUB lookups dropped[^:]*:([ 0-9]*)", said)
    sums["misnamed"] += ([int(i) for i in told[1].split()] if told else []) != dropped(font, choice)
    sums["unsound"] += is_sound(path) and not is_sound(ours)
    sums[f"{name}, {choice}"] += size_of(ours)
    sums[f"{name}, {choice}, hb-subset"] += size_of(theirs)
    names, old = TTFont(ours).getGlyphOrder(), font.getGlyphOrder()
    text = folder / "lines"
    for words in asked_of(on, off, draw):
        text.write_text("\n".join(line_of(draw, chars) for _ in range(lines)))
        for is_line, was_line in zip(shaped(ours, text, words), shaped(path, text, words), strict=True):
            told = [(names[glyph], *rest) for glyph, *rest in is_line]
            wanted = [(old[glyph], *rest) for glyph, *rest in was_line]
            sums["lines"] += 1
            if told != wanted:
                if not sums["differ"]:
                    print(f"{path}: {name}, {choice}: {' '.join(words)}: {told}, and not {wanted}", flush=True)
                sums["differ"] += 1


def tallied(path, seed, lines):
    """Returns the counts for one font. The lines depend on the seed and the font's name."""
    sums = collections.Counter()
    font = TTFont(path, lazy=True)
    if "CFF " not in font or "GSUB" not in font:
        return sums
    sums["fonts"] += 1
    draw = random.Random(f"{seed} {pathlib.Path(path).name}")
    with tempfile.TemporaryDirectory() as folder:
        for name in CHOSEN:
            for choice in ("usual", "all"):
                compared(path, font, name, choice, pathlib.Path(folder), draw, lines, sums)
    sizes = "; ".join(f"{name}, {choice}: {sums[f'{name}, {choice}']}, {sums[f'{name}, {choice}, hb-subset']}" for name in CHOSEN[:2] for choice in ("usual", "all"))
    print(f"{path}: {sums['lines']} lines, {sums['differ']} differ; WOFF2 and of hb-subset: {sizes}", flush=True)
    return sums


def main(words):
    if len(words) < 3:
        sys.exit(__doc__)
    seed, lines = words[0], int(words[1])
    print(subprocess.run(["hb-shape", "--version"], capture_output=True, text=True, check=True).stdout.splitlines()[0])
    sums = collections.Counter()
    with concurrent.futures.ProcessPoolExecutor() as pool:
        for done in concurrent.futures.as_completed([pool.submit(tallied, path, seed, lines) for path in files_of(*words[2:])]):
            sums.update(done.result())
    for name in CHOSEN[:2]:
        for choice in ("usual", "all"):
            ours, theirs = sums[f"{name}, {choice}"], sums[f"{name}, {choice}, hb-subset"]
            print(f"WOFF2, {name}, {choice} features: {ours} bytes, {ours / max(theirs, 1):.2f} of hb-subset")
    print(
        f"seed {seed}: {sums['fonts']} fonts, {sums['files']} files, {sums['lines']} lines, {sums['differ']} differ; "
        f"kerning lost in {sums['kerning and marks are lost:']} files, ligatures in {sums['substitutions are lost:']}, {sums['required']} not compared (required features); "
        f"dropped lookups misnamed in {sums['misnamed']}; {sums['unsound']} not accepted"
    )
    return sums["differ"] or sums["unsound"] or sums["misnamed"]


if __name__ == "__main__":
    sys.exit(1 if main(sys.argv[1:]) else 0)
