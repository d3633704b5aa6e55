#!/usr/bin/python3
"""Makes pages with `psotf report`, opens each in headless Chromium, and checks their contents.

    (cd crates/psotf && rt run -- --help)
    tools/evidence/report.py [--shots FOLDER] [FONT..]

FONTs are OpenType files. The default is some fonts of Debian's fonts-ebgaramond and fonts-freefont-otf, and the CID-keyed font of
fonts-noto-cjk, if installed. The script also makes hostile fonts: texts that try to break out of the page, 65,535 invalid glyphs, and
tables that at least one reader rejects. The checks on each page are:
- It opens without console messages and makes no network requests.
- It finds all its glyphs, adds cells when the grid is scrolled, and draws all of them when it is printed.
- A search for `A` finds the glyph; its cell opens, and the arrow keys step through all of its operations. It then shows as many points as
  `psotf glyph --json` prints.
- It shows the result of each reader as `psotf inspect --json` prints it.
- For FONTs, the calls and masks of all glyphs, or of about 500, are those that fontTools meets when it runs them. If all are compared, so
  are the call counts of each subroutine.
- For FONTs, the parts of the `CFF ` table cover it without gaps.
- For FONTs, each feature of `GSUB` brings the glyphs that fontTools finds, and none but these if its lookups are no contexts; the filter of
  the feature finds them.
If a report has several pages, each is opened. Together they must have each glyph once, and a character on another page must be reachable
by the link.

With --shots, a screenshot of each first page at 1280 and 400 pixels goes into FOLDER. Needs Debian's chromium, chromium-driver,
python3-selenium and python3-fonttools. The script prints one line per report: the bytes of the font, of the first page and of all pages,
the seconds of psotf, and the seconds until the first page has loaded. The exit status is 1 if a check fails.
"""

import argparse
import collections
import json
import pathlib
import subprocess
import sys
import tempfile
import time
import types

sys.dont_write_bytecode = True
sys.path.insert(0, str(pathlib.Path(__file__).resolve().parents[1]))

import fontTools.subset  # adds closure_glyphs to lookups
from fontTools.misc.psCharStrings import SimpleT2Decompiler
from fontTools.ttLib import TTFont
from selenium import webdriver
from selenium.common.exceptions import TimeoutException
from selenium.webdriver.chrome.service import Service
from selenium.webdriver.common.by import By

from hostile_files import BEGIN, END, ONE, PSOTF, call, file_of, long, plain_font, short

FONTS = [
    "ebgaramond/EBGaramond12-Regular.otf", "ebgaramond/EBGaramond12-Italic.otf", "ebgaramond/EBGaramond08-Regular.otf",
    "freefont/FreeSerif.otf", "freefont/FreeSans.otf", "freefont/FreeMono.otf", "freefont/FreeSansBold.otf",
    "freefont/FreeSerifItalic.otf", "freefont/FreeMonoBold.otf", "freefont/FreeSerifBold.otf",
]
KEYED = "noto/NotoSansCJK-Regular.ttc"
MOST, LONG = 500, 4000
EVIL = ["</script><script>document.title='taken'</script>", "<img src=x onerror=\"document.title='taken'\">", "\"'`&<>", "\x00\x01\x1b[31m\u2028\u2029", "x" * 30_000]


def name_table(texts):
    """Returns a `name` table with these texts as family, style, full name and version, in UTF-16."""
    stored = [text.encode("utf-16-be", "surrogatepass") for text in texts]
    records, at = b"", 0
    for number, text in zip((1, 2, 4, 5), stored):
        records += short(3) + short(1) + short(0x409) + short(number) + short(len(text)) + short(at)
        at += len(text)
    return short(0) + short(len(stored)) + short(6 + len(records)) + records + b"".join(stored)


def with_names(data, texts):
    """Returns a file with a `name` table of these texts, appended at the end, with a matching table record."""
    names = name_table(texts)
    many = int.from_bytes(data[4:6], "big")
    out = bytearray(data + names)
    for i in range(many):
        place = 12 + 16 * i
        if data[place : place + 4] == b"name":
            out[place + 8 : place + 16] = long(len(data)) + long(len(names))
    return bytes(out)


def hostile():
    square = BEGIN + b"\x8c\x06" * 2 + END
    char_set = b"\x00" + b"".join(short(391 + i) for i in range(len(EVIL)))
    texts = [text.encode("utf-8", "surrogatepass") for text in EVIL]
    font, count = file_of(plain_font([END, *[square] * len(EVIL)], char_set=char_set, strings=texts), len(EVIL) + 1)
    yield "names that leave their place", with_names(font, [EVIL[0], EVIL[1], EVIL[2], "\ud800\udfff\udc00" + EVIL[3]])
    yield "a family of 60 KB in UTF-16", with_names(font, [EVIL[4], "</style>", "-->", "]]>"])
    font, count = file_of(plain_font([END, *[call(0, 1) + END] * 65_534], [ONE * 30]), 65_535)
    yield "65,535 glyphs, refused", font
    yield from refused()


def refused():
    """Yields fonts that readers reject: all three readers the first two fonts, the strict and the lenient one the third, only the strict
    one the last."""
    square = BEGIN + b"\x8c\x06" * 2 + END
    sound = plain_font([END, square])
    place = sound.index(b"\x1d", 12)
    yield "char strings beyond the end", file_of(sound[: place + 1] + long(1_000_000) + sound[place + 5 :], 2)[0]
    yield "a table that is cut off", file_of(sound[:5], 2)[0]
    yield "a char set of an unknown format", file_of(plain_font([END, square], char_set=b"\x07\x01\x87"), 2)[0]
    yield "no local subroutines", file_of(sound, 2)[0]


def browser():
    options = webdriver.ChromeOptions()
    for word in ("--headless=new", "--no-sandbox", "--disable-gpu", "--allow-file-access-from-files"):
        options.add_argument(word)
    options.set_capability("goog:loggingPrefs", {"browser": "ALL", "performance": "ALL"})
    options.binary_location = "/usr/bin/chromium"
    return webdriver.Chrome(service=Service("/usr/bin/chromedriver"), options=options)


def asked_of(driver, page):
    """Returns what the page requested besides itself."""
    asked = []
    for entry in driver.get_log("performance"):
        message = json.loads(entry["message"])["message"]
        if message["method"] == "Network.requestWillBeSent" and message["params"]["request"]["url"] != page:
            asked.append(message["params"]["request"]["url"])
    return [url for url in asked if not url.startswith("data:")]


def ran(*words):
    return subprocess.run([str(PSOTF), *words], capture_output=True, text=True, check=False)


def points_told(path, gid):
    """Returns how many points `psotf glyph --json` prints for a glyph."""
    segments = json.loads(ran("glyph", path, "--gid", str(gid), "--json").stdout)["segments"]
    return None if segments is None else sum(len(segment) - 1 for segment in segments) // 2


class Calls(SimpleT2Decompiler):
    """Runs a charstring, and records its calls and masks."""

    def __init__(self, char_string, part):
        super().__init__(getattr(char_string.private, "Subrs", []), char_string.globalSubrs, char_string.private)
        self.part, self.calls, self.masks = part, [], []

    def op_callsubr(self, index):
        self.calls.append(f"local {self.part} {self.operandStack[-1] + self.localBias}")
        super().op_callsubr(index)

    def op_callgsubr(self, index):
        self.calls.append(f"global {self.operandStack[-1] + self.globalBias}")
        super().op_callgsubr(index)

    def op_hintmask(self, index):
        mask, index = super().op_hintmask(index)
        named = [n for n in range(self.hintCount) if mask[n // 8] & 128 >> n % 8]
        self.masks.append([self.hintCount, named])
        return mask, index

    op_cntrmask = op_hintmask


def met(path, gids):
    """Yields the calls and the masks of glyphs, as fontTools meets them."""
    font = TTFont(path, fontNumber=0, lazy=True)
    top = font["CFF "].cff.topDictIndex[0]
    strings = top.CharStrings
    order = font.getGlyphOrder()
    for gid in gids:
        part = top.FDSelect[gid] if hasattr(top, "FDSelect") else 0
        run = Calls(strings[order[gid]], part)
        run.execute(strings[order[gid]])
        yield [run.calls, run.masks]


WALKS = """
return arguments[0].map((gid) => {
  const walk = new Walk(byNumber(gid));
  return walk.why ?? [walk.calls, walk.rows.filter((row) => row.named).map((row) => [row.stems, row.named])];
});
"""


def compare_walks(driver, path, told, faults):
    """Compares calls and masks with what fontTools meets, and the call counts if all glyphs are compared."""
    first, rows = told["head"]["from"], told["glyphs"]
    drawn = [first + i for i, row in enumerate(rows) if len(row) != 5]
    gids = drawn if len(rows) < LONG else drawn[:: max(1, len(drawn) // MOST)]
    theirs, own = list(met(path, gids)), driver.execute_script(WALKS, gids)
    different = [(gid, a, b) for gid, a, b in zip(gids, own, theirs) if a != b]
    if different:
        faults.append(f"{len(different)} walks differ: glyph {different[0][0]}: {str(different[0][1:])[:200]}")
    if len(gids) < len(drawn):
        return
    driver.set_script_timeout(120)
    times = driver.execute_async_script("const done = arguments[0]; subroutines.open = true; countOnce().then(() => done([...callers].map(([key, it]) => [key, it.times, it.gids.length])));")
    tally = {}
    for calls, _ in theirs:
        for key in calls:
            tally.setdefault(key, [0, 0])[0] += 1
        for key in set(calls):
            tally[key][1] += 1
    if {key: [all_, glyphs] for key, all_, glyphs in times} != tally:
        faults.append("the subroutines are not called as often as told")


def look_at_parts(told, faults):
    """Checks that the parts of the `CFF ` table cover each byte once."""
    size = next(size for tag, _, size in told["head"]["tables"] if tag == "CFF ")
    at = 0
    for name, place, bytes_ in sorted(told["head"]["parts"], key=lambda part: part[1:]):
        if place != at:
            faults.append(f"{name} stands at {place} and not at {at}")
            return
        at = place + bytes_
    if at != size:
        faults.append(f"the parts end at {at}, and the table at {size}")


def brought(path):
    """Yields the tag of each feature of `GSUB`, the glyphs that its lookups make of glyphs with a character and that have none, as fontTools
    finds them, and whether all of its lookups are substitutions."""
    font = TTFont(path, fontNumber=0)
    if "GSUB" not in font:
        return
    gsub, mapped = font["GSUB"].table, {glyph for glyph in font.getBestCmap().values()}
    features = collections.defaultdict(set)
    for record in gsub.FeatureList.FeatureRecord if gsub.FeatureList else []:
        features[record.FeatureTag].update(record.Feature.LookupListIndex)
    for tag, indices in sorted(features.items()):
        lookups = [gsub.LookupList.Lookup[index] for index in indices]
        search = types.SimpleNamespace(table=gsub, glyphs=set(mapped))
        before = None
        while before != len(search.glyphs):
            before, search._activeLookups, search._doneLookups = len(search.glyphs), [], {}
            for lookup in lookups:
                lookup.closure_glyphs(search, cur_glyphs=search.glyphs)
        kinds = {getattr(part, "ExtensionLookupType", lookup.LookupType) for lookup in lookups for part in lookup.SubTable}
        yield tag, {font.getGlyphID(glyph) for glyph in search.glyphs - mapped}, kinds <= {1, 2, 3, 4}


FEATURES = """
const found = [];
for (const [tag, gids] of FEATURES) {
  filter.value = gids.size > 0 ? `feature ${tag}` : "all";
  filter.dispatchEvent(new Event("input"));
  found.push([tag, [...gids], gids.size > 0 ? kept.map((glyph) => glyph.gid) : []]);
}
filter.value = "all";
filter.dispatchEvent(new Event("input"));
return found;
"""


def compare_features(driver, path, told, faults):
    """Compares the glyphs that features bring with what fontTools finds, and with those that the filters find."""
    first, many = told["head"]["from"], len(told["glyphs"])
    shown = driver.execute_script(FEATURES)
    theirs = list(brought(path))
    if [tag for tag, *_ in shown] != [tag for tag, *_ in theirs]:
        faults.append(f"the features are {shown}, and not {theirs}"[:200])
        return
    for (tag, own, found), (_, wanted, is_exact) in zip(shown, theirs):
        if not wanted <= set(own) or is_exact and wanted != set(own):
            faults.append(f"{tag} brings {sorted(own)[:20]}, and not {sorted(wanted)[:20]}")
        if [gid for gid in own if first <= gid < first + many] != found:
            faults.append(f"the filter of {tag} finds {found[:20]}, and not {own[:20]}")


def refusal_told(refusal):
    """Returns an error as the page and the command line print it."""
    if refusal is None:
        return ["accepts it"]
    spot = refusal["part"] if refusal["place"] is None else f"{refusal['part']} at byte {refusal['place']:,}"
    return [f"rejects it: {refusal['message']} (error {refusal['code']})", spot, refusal["rule"]]


def look_at_answers(driver, path, told, failure, faults):
    """Checks that the page shows each reader's result as `psotf inspect --json` prints it. For a table that the in-place reader rejects,
    it checks the page's data block and the command's message."""
    if refused := told["head"].get("readings"):
        readings = [refused["in_place"], refused["strict"], refused["lenient"]]
        says, spot, rule = refusal_told(readings[0])
        if f": the CFF table, {spot.replace(',', '')}: {says.removeprefix('rejects it: ')}: {rule}\n" not in failure:
            faults.append(f"the page says {spot}, {says}, and the command {failure}")
    else:
        font = json.loads(ran("inspect", path, "--json").stdout)["cff"]
        readings = [None, font["strict"], font["lenient"]]
    shown = "return [...document.querySelectorAll('#readings td:last-child')].map((cell) => [...cell.firstChild.children].map((it) => it.textContent))"
    if (shown := driver.execute_script(shown)) != [refusal_told(reading) for reading in readings]:
        faults.append(f"the readings say {readings}, and the page {shown}")


UNDRAWN = """
const cells = [...grid.querySelectorAll(".cell")];
return [cells.length, cells.filter((cell) => cell.querySelector("path, .why") === null).length];
"""


def drawn_by(driver, many):
    """Returns the numbers of cells and of empty cells, once all are drawn or after ten seconds: the page learns of the media change with
    its next frame."""
    until = time.monotonic() + 10
    while True:
        cells, undrawn = driver.execute_script(UNDRAWN)
        if (cells, undrawn) == (many, 0) or time.monotonic() > until:
            return cells, undrawn
        time.sleep(0.1)


def look_at_print(driver, page, told, faults):
    """Checks that in print each glyph has its cell, and each cell a picture or an error, including the last ones. It tries the event
    before printing, and only a media change. The driver waits ten seconds for printing, which is too short for more than LONG glyphs or
    on a busy machine. Then only the media change is tried."""
    many = len(told["glyphs"])
    media = lambda: driver.execute_cdp_cmd("Emulation.setEmulatedMedia", {"media": "print"})
    for how in (driver.print_page, media) if many <= LONG else (media,):
        driver.get(page.as_uri())
        try:
            how()
        except TimeoutException:
            print(f"{page.name}: not printed on paper within ten seconds", file=sys.stderr)
            continue
        cells, undrawn = drawn_by(driver, many)
        if (cells, undrawn) != (many, 0):
            faults.append(f"{cells} cells are printed of {many}, {undrawn} of them empty")
        driver.execute_cdp_cmd("Emulation.setEmulatedMedia", {"media": ""})


def look_at_cells(driver, told, faults):
    many = len(told["glyphs"])
    kept, cells = driver.execute_script("return [kept.length, document.querySelectorAll('.cell').length]")
    if kept != many:
        faults.append(f"{kept} glyphs are found of {many}")
    driver.execute_script("grid.scrollTop = grid.scrollHeight")
    time.sleep(0.5)
    if cells < many and driver.execute_script("return document.querySelectorAll('.cell').length") <= cells:
        faults.append("no more cells as the grid is scrolled")


def look(driver, path, data, is_ours, faults):
    """Checks an open page."""
    told = json.loads(data)
    if driver.title == "taken":
        faults.append("a text of the font became a script")
    look_at_cells(driver, told, faults)
    first, rows = told["head"]["from"], told["glyphs"]
    if is_ours:
        compare_walks(driver, path, told, faults)
        look_at_parts(told, faults)
        compare_features(driver, path, told, faults)
    gid = next((first + i for i, row in enumerate(rows) if 0x41 in row[1]), None)
    if gid is not None:
        driver.find_element(By.ID, "search").send_keys("A")
        driver.find_element(By.CSS_SELECTOR, f'.cell[data-gid="{gid}"]').click()
        if len(rows[gid - first]) != 5:
            step_through(driver, path, gid, faults)
    elif rows and len(rows[-1]) == 5 and not driver.execute_script("return document.querySelector('.cell .why')?.textContent"):
        faults.append("no reason in the cell of a refused glyph")


def step_through(driver, path, gid, faults):
    driver.execute_script("const r = document.getElementById('step'); r.value = 0; r.dispatchEvent(new Event('input'));")
    if driver.execute_script("return document.querySelectorAll('circle.on').length") != 0:
        faults.append("points before the first operation")
    driver.execute_script("document.activeElement.blur()")
    for _ in range(driver.execute_script("return shown.steps.length")):
        driver.find_element(By.TAG_NAME, "body").send_keys("\ue014")
    done = driver.execute_script("return [...document.querySelectorAll('#operations li')].every((row) => row.classList.contains('done'))")
    shown = driver.execute_script("return document.querySelectorAll('.view circle').length")
    told = points_told(path, gid)
    if not done:
        faults.append("the arrow keys did not come to the last operation")
    if shown != told:
        faults.append(f"{shown} points are shown, and {told} are told")


def look_at_others(driver, folder, told, faults):
    """Opens the other pages of a report, and finds a character of the last one from the first one."""
    pages = told["head"]["pages"]
    if len(pages) == 1:
        return
    gids, char = [], None
    for name, first, _ in pages:
        page = folder / name
        rows = json.loads(page.read_text(encoding="utf-8").split(BLOCK)[1].split("</script>")[0])["glyphs"]
        gids += range(first, first + len(rows))
        if first != pages[0][1]:
            char = next((row[1][0] for row in reversed(rows) if row[1]), char)
        driver.get(page.as_uri())
        if driver.execute_script("return kept.length") != len(rows):
            faults.append(f"{name} does not show its glyphs")
    if gids != list(range(told["head"]["font"]["cff"]["glyphs"])):
        faults.append("the pages do not hold each glyph once")
    if char is None:
        return
    driver.get((folder / pages[0][0]).as_uri())
    driver.find_element(By.ID, "search").send_keys(f"U+{char:04X}")
    driver.find_element(By.CSS_SELECTOR, "#found a").click()
    time.sleep(1)
    if not driver.execute_script("return shown.glyph.chars.includes(arguments[0])", char):
        faults.append(f"the link does not lead to U+{char:04X}")


def shots(driver, folder, name):
    """Takes a screenshot of the page from top to end, up to the maximum picture height."""
    for width in (1280, 400):
        driver.set_window_size(width, 900)
        time.sleep(0.3)
        driver.set_window_size(width, min(driver.execute_script("return document.documentElement.scrollHeight") + 150, 6000))
        time.sleep(0.5)
        driver.save_screenshot(str(folder / f"{name}-{width}.png"))


BLOCK = '<script type="application/json" id="data">'


def try_page(driver, name, path, folder, shot_folder, is_ours=True):
    faults = []
    for page in folder.glob("report*.html"):
        page.unlink()
    page = folder / "report.html"
    begun = time.monotonic()
    done = ran("report", path, "-o", str(page))
    made = time.monotonic() - begun
    if done.returncode not in (0, 1):
        faults.append(f"psotf ended with {done.returncode}: {done.stderr[:200]}")
    data = page.read_text(encoding="utf-8").split(BLOCK)[1].split("</script>")[0]
    driver.set_window_size(1280, 900)
    driver.get_log("browser"), driver.get_log("performance")
    driver.get(page.as_uri())
    ready = driver.execute_script("return performance.getEntriesByType('navigation')[0].loadEventEnd") / 1000
    look(driver, path, data, is_ours, faults)
    look_at_answers(driver, path, json.loads(data), done.stderr, faults)
    look_at_print(driver, page, json.loads(data), faults)
    if shot_folder:
        driver.get(page.as_uri())
        shots(driver, shot_folder, name.replace(" ", "-").replace(",", ""))
    pages = [folder / it[0] for it in json.loads(data)["head"]["pages"]]
    if asked := [url for url in asked_of(driver, page.as_uri()) if url.split("#")[0] not in [it.as_uri() for it in pages]]:
        faults.append(f"it asks for {asked[0]}")
    look_at_others(driver, folder, json.loads(data), faults)
    if messages := driver.get_log("browser"):
        faults.append(f"the console says: {messages[0]['message'][:300]}")
    sizes = f"{page.stat().st_size} | {sum(it.stat().st_size for it in pages)}"
    print(f"| {name} | {pathlib.Path(path).stat().st_size} | {sizes} | {made:.2f} | {ready:.2f} | {'; '.join(faults) or 'as told'} |", flush=True)
    return bool(faults)


def main():
    parser = argparse.ArgumentParser()
    parser.add_argument("--shots")
    parser.add_argument("fonts", nargs="*")
    words = parser.parse_args()
    root = pathlib.Path("/usr/share/fonts/opentype")
    fonts = words.fonts or [str(root / name) for name in [*FONTS, KEYED] if (root / name).is_file()]
    shot_folder = pathlib.Path(words.shots) if words.shots else None
    if shot_folder:
        shot_folder.mkdir(parents=True, exist_ok=True)
    print("| font | bytes | page | all pages | psotf, s | ready, s | |\n|---|---|---|---|---|---|---|")
    bad = False
    driver = browser()
    with tempfile.TemporaryDirectory() as folder:
        folder = pathlib.Path(folder)
        for path in fonts:
            bad = try_page(driver, pathlib.Path(path).stem, path, folder, shot_folder) or bad
        for name, font in hostile():
            (folder / "font.otf").write_bytes(font)
            bad = try_page(driver, name, str(folder / "font.otf"), folder, shot_folder, is_ours=False) or bad
    driver.quit()
    return 1 if bad else 0


if __name__ == "__main__":
    sys.exit(main())
