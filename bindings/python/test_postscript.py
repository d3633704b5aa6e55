"""Tests over the fonts whose bytes `bindings/font.hex`, `accents.hex` and `variable.hex` spell, and over fonts that are installed:
python3 -m unittest.

The first font has four glyphs, `.notdef`, `space`, `A` and `flower`. The expected values are the numbers of its char strings and of
its dictionary, added up by hand.
"""

import concurrent.futures
import io
import mmap
import os
import pathlib
import pickle
import random
import struct
import subprocess
import sys
import tempfile
import threading
import time
import unittest

import postscript
from postscript import LIMIT, Error, Font, LayoutWarning, Operation, Status, VariableFont, WriteError

FONTS = pathlib.Path("/usr/share/fonts/opentype")
#: a variable font of Debian's package pango1.0-tests
CANTARELL = pathlib.Path("/usr/libexec/installed-tests/pango/fonts/Cantarell-VF.otf")
FLOWER = [
    ("moveTo", ((100, -10),)),
    ("curveTo", ((300, -10), (400, 100), (400, 300))),
    ("lineTo", ((100, 300),)),
    ("closePath", ()),
    ("moveTo", ((150, 50),)),
    ("lineTo", ((200, 50),)),
    ("lineTo", ((200, 100),)),
    ("closePath", ()),
]

# A CID-keyed font of four glyphs and two font dictionaries, up to its FDSelect. Glyph 1 calls the local subroutine of the first font
# dictionary, and glyph 2 the global subroutine 1.
CID = bytes.fromhex(
    "010004010001010102430001010121f81bf81c8b0c1e8177f7c0f824051c004a0f1c0053111c00650c241c00990c25000201"
    "01060e41646f62654964656e74697479000201010103bd0b02000a0001006400000004010102060b0b0e879f200a92211d16"
    "0e00020101161b1e0a0005ff8b8b1e0a0005ff8b8b0c07931c008512901c009412f88814f8ec1593130001010103160ef78e"
    "146d15"
)

# What the glyphs of the second font are drawn as, or refused with: `.notdef`, `A`, `acute`, and ten more, most of them accented. The
# paths are those of fontTools, where it draws the glyph.
ACCENTED = [
    "",
    "M10 20L110 20L110 70Z",
    "M1 2C4 6 9 12 16 20Z",
    # the base, and then the accent, 30 to the right and 40 down
    "M10 20L110 20L110 70ZM31 -38C34 -34 39 -28 46 -20Z",
    # with a contour of its own
    "M5 0L13 8ZM10 20L110 20L110 70ZM201 302C204 306 209 312 216 320Z",
    Status.NESTED_ACCENT,
    # no glyph is the base
    Status.NO_COMPONENT,
    # 65.5 is no code
    Status.NO_CODE,
    # the accent is moved out of the range
    Status.OVERFLOW,
    # the operands of the end stand in a subroutine
    "M10 20L110 20L110 70ZM31 -38C34 -34 39 -28 46 -20Z",
    # three operands name nothing
    "",
    # no glyph is the accent
    Status.NO_COMPONENT,
    "M5 0L13 8Z",
]


def spelled(name):
    """The bytes that the digits of a file beside the bindings spell."""
    return bytes.fromhex((pathlib.Path(__file__).resolve().parent.parent / name).read_text())


def small():
    return spelled("font.hex")


def nested():
    """A font whose glyph calls the first of ten nested global subroutines, each of which but the last calls the next ten times."""
    # the header, a name, a dictionary (228 CharStrings 0 0 Private), no string, and where the ten subroutines begin and end
    font = bytes.fromhex("01000401 00010101024e 00010101081c00e4118b8b12 0000 000a01 01162b40556a7f94a9bebf")
    for following in range(1, 10):
        font += bytes([32 + following, 0x1D]) * 10 + b"\x0b"
    # one char string: the subroutine 0, callgsubr endchar
    return font + b"\x0b" + bytes.fromhex("0001010104 201d0e")


class Recorder:
    """A pen that writes down its calls, as fontTools' RecordingPen."""

    def __init__(self):
        self.value = []

    def __getattr__(self, method):
        return lambda *points: self.value.append((method, points))


class Case(unittest.TestCase):
    def refused(self, status, call, *arguments):
        with self.assertRaises(Error) as caught:
            call(*arguments)
        self.assertEqual(caught.exception.status, status)


class Small(Case):
    def setUp(self):
        self.font = Font.from_bytes(small())

    def test_glyph_of_a_character(self):
        glyph = self.font.glyph_of("\u2698")
        self.assertEqual((glyph.number, glyph.advance, glyph.segments), (3, 450, FLOWER))
        self.assertEqual(glyph.bounds, (100, -10, 400, 300))
        self.assertEqual(glyph.tight_bounds, (100, -10, 400, 300))
        self.assertEqual(self.font.glyph_of("A").svg_path(), "M0 0L250 700L500 0Z")
        self.assertEqual(self.font.glyph_of("B").number, 0)

    def test_pen(self):
        pen = Recorder()
        self.font[3].draw(pen)
        self.assertEqual(pen.value, FLOWER)

    def test_all(self):
        self.assertEqual(len(self.font), 4)
        self.assertFalse(self.font.is_cid_keyed)
        self.assertEqual([self.font.fits(limit) for limit in (1, 1000)], [False, True])
        # the bytes of the char strings
        self.assertEqual([self.font.cost(limit) for limit in (1, 1000)], [None, 1 + 3 + 12 + 23])
        self.assertEqual(self.font.limit, LIMIT)
        self.assertEqual([glyph.advance for glyph in self.font], [500, 250, 500, 450])
        self.assertIsNone(self.font[1].bounds)

    def test_names(self):
        self.assertEqual([glyph.name for glyph in self.font], [".notdef", "space", "A", "flower"])
        self.assertEqual(self.font.glyph_named("flower").number, 3)
        self.refused(Status.NO_GLYPH, self.font.glyph_named, b"flowers")

    def test_code_without_calls(self):
        # 0 hmoveto 250 700 250 -700 rlineto endchar
        self.assertEqual(self.font[2].flat_code().hex(), "8b16f78ef950f78efd50050e")

    def test_operations(self):
        # 0 hmoveto 250 700 250 -700 rlineto endchar
        self.assertEqual(self.font[2].operations(), [Operation("hmoveto", (0,)), Operation("rlineto", (250, 700, 250, -700))])
        self.assertEqual(self.font[1].operations(), [])
        self.refused(Status.NO_GLYPH, postscript.Glyph(self.font, 4).operations)

    def test_hints(self):
        # a table of one glyph: 1 2 hintmask 10000000 3 hmoveto endchar, of which the mask implies a stem
        table = bytes.fromhex("01000401 000101010241 00010101051c001711 0000 0000 0001010108 8c8d13808e160e")
        told = Font(table)[0].operations()
        self.assertEqual(told, [Operation("hintmask", (), (1, 2), b"\x80"), Operation("hmoveto", (3,))])

    def drawn(self, table, glyphs):
        font = Font(table)
        return [(font[glyph].segments, font[glyph].advance) for glyph in glyphs]

    def test_written_fonts(self):
        table = self.font.cff
        self.assertEqual(self.drawn(self.font.flat(), range(4)), self.drawn(table, range(4)))
        subset = self.font.subset([3, 3])
        self.assertEqual([glyph.name for glyph in Font(subset)], [".notdef", "flower"])
        self.assertEqual(self.drawn(subset, (0, 1)), self.drawn(table, (0, 3)))
        kept = self.font.subset(iter([3]), keep_numbers=True)
        self.assertEqual(len(Font(kept)), 4)
        self.assertEqual(self.drawn(kept, (0, 3)), self.drawn(table, (0, 3)))
        self.assertEqual(Font(kept)[2].segments, [])

    def test_fonts_that_are_not_written(self):
        def refusal(call):
            with self.assertRaises(WriteError) as caught:
                call()
            e = caught.exception
            return e.status, e.glyph, e.cause, str(e)

        self.assertEqual(refusal(lambda: self.font.subset([])), (Status.NO_GLYPHS, None, None, "the list of glyphs is empty"))
        self.assertEqual(refusal(lambda: self.font.subset([1, 4], True)), (Status.NO_GLYPH, 4, None, "glyph 4: no such glyph"))
        # the code of the glyph A is spoiled: it returns
        spoiled = Font(self.font.cff.replace(b"\x8b\x16\xf7", b"\x0b\x16\xf7"))
        text = "glyph 2: found a return operator without a caller"
        self.assertEqual(refusal(spoiled.flat), (Status.REFUSED_GLYPH, 2, Status.RETURN_WITHOUT_CALLER, text))

    def test_files(self):
        font = Font.from_bytes(spelled("whole.hex"))
        new = Font.from_bytes(font.subset_file("AA", tables=("head", "OS/2")))
        self.assertEqual((len(new), dict(new.cmap), new[1].segments, new[1].advance), (2, {65: 1}, font[1].segments, font[1].advance))
        kept = Font.from_bytes(font.subset_file(glyphs=[1], keep_numbers=True))
        self.assertEqual((len(kept), kept[1].segments), (2, font[1].segments))
        self.assertEqual(dict(Font.from_bytes(font.subset_file(unicodes=[65, 66], ignore_missing=True)).cmap), {65: 1})
        flat = Font.from_bytes(font.flat_file())
        self.assertEqual((dict(flat.cmap), flat[1].segments), (dict(font.cmap), font[1].segments))

    def test_names(self):
        # the table has "Small" for Macintosh, and for Windows "(c)" (0), "Small" (1), "Regular" (2), "MIT" (13) and "Old" (256)
        data = spelled("whole.hex")
        font = Font.from_bytes(data)

        def table(file):
            tables = {file[place : place + 4]: file[place + 8 : place + 16] for place in range(12, 12 + 16 * file[5], 16)}
            place = tables.get(b"name")
            return place and file[int.from_bytes(place[:4], "big") :][: int.from_bytes(place[4:], "big")]

        # as fontTools writes the table with only these names
        short = (
            "00000002001e0003000104090001000a00000003000104090002000e000a"
            "0053006d0061006c006c0052006500670075006c00610072"
        )  # fmt: skip
        licence = (
            "0000000400360003000104090000000600000003000104090001000a00060003000104090002000e0010000300010409000d0006001e"
            "0028006300290053006d0061006c006c0052006500670075006c00610072004d00490054"
        )
        rows = [
            ({}, bytes.fromhex(short)),
            ({"names": "short"}, bytes.fromhex(short)),
            ({"names": "licence"}, bytes.fromhex(licence)),
            ({"names": "all"}, table(data)),
            ({"names": None}, None),
            ({"names": None, "tables": ("name",)}, table(data)),
        ]
        for options, wanted in rows:
            for more in ({}, {"features": None}, {"keep_numbers": True}):
                self.assertEqual(table(font.subset_file("A", **options, **more)), wanted, (options, more))
        self.assertRaises(ValueError, font.subset_file, "A", names="none")

    def test_glyphs_by_name(self):
        font = Font.from_bytes(spelled("whole.hex"))
        for glyphs in (["A"], [b"A"], [1], [1, "A"]):
            self.assertEqual(font.subset_file(glyphs=glyphs), font.subset_file("A"), glyphs)
        with self.assertRaises(Error) as caught:
            font.subset_file(glyphs=["A", "tree"])
        self.assertEqual((caught.exception.status, str(caught.exception)), (Status.NO_GLYPH, "glyph 'tree': no such glyph"))

    def test_layout(self):
        # smcp substitutes a.sc for a, kern moves two letters a, and b is also the space
        font = Font.from_bytes(spelled("layout.hex"))

        def cut(**options):
            file = font.subset_file("a", **{"exact": True, **options})
            tags = [file[place : place + 4].decode() for place in range(12, 12 + 16 * file[5], 16)]
            return len(Font.from_bytes(file)), [tag for tag in tags if tag.startswith("G")]

        self.assertEqual(cut(), (2, ["GPOS", "GSUB"]))
        self.assertEqual(cut(features=("smcp",)), (3, ["GSUB"]))
        self.assertEqual(cut(features="*"), (3, ["GPOS", "GSUB"]))
        self.assertEqual(cut(features=None), (2, []))
        self.assertEqual(cut(keep_numbers=True), (4, ["GPOS", "GSUB"]))
        self.assertEqual(cut(exact=False), (3, ["GPOS", "GSUB"]))
        # the script list of GSUB is spoiled
        spoiled = bytearray(spelled("layout.hex"))
        place = int.from_bytes(spoiled[spoiled.index(b"GSUB") + 8 :][:4], "big")
        spoiled[place + 4 : place + 6] = b"\xff\xff"
        with self.assertWarnsRegex(LayoutWarning, "GSUB is lost: "):
            Font.from_bytes(bytes(spoiled)).subset_file("a")
        # the only lookup of GSUB is a context of an unknown format
        spoiled = bytearray(spelled("layout.hex"))
        spoiled[place + 0x31], spoiled[place + 0x39] = 5, 9
        with self.assertWarnsRegex(LayoutWarning, "lookups of GSUB that are dropped: 1"):
            Font.from_bytes(bytes(spoiled)).subset_file("a", features=("smcp",))

    def test_files_that_are_not_written(self):
        def error(call):
            with self.assertRaises(WriteError) as caught:
                call()
            e = caught.exception
            return e.status, e.character, e.table, str(e)

        font = Font.from_bytes(spelled("whole.hex"))
        text = "U+0042: the font has no glyph for a character"
        self.assertEqual(error(lambda: font.subset_file("AB")), (Status.NO_CHARACTER, 66, None, text))
        self.assertEqual(error(lambda: font.subset_file(features=None))[0], Status.NO_GLYPHS)
        self.assertEqual(error(lambda: font.subset_file())[0], Status.NO_GLYPHS)
        text = "table 'name': two tables have the same tag"
        self.assertEqual(error(lambda: font.subset_file("A", tables=("name",))), (Status.SAME_TAG, None, "name", text))
        self.assertEqual(error(lambda: self.font.subset_file("A"))[::2], (Status.NO_TABLE, "hhea"))
        self.assertRaises(ValueError, Font(font.cff).flat_file)

    def test_cid_keyed(self):
        for selection in ("0300020000000002010004", "0000000101"):
            font = Font(CID + bytes.fromhex(selection))
            self.assertTrue(font.is_cid_keyed)
            self.assertEqual([glyph.advance for glyph in font], [500, 596, -23, 250])
            self.assertEqual((font.cids, font.names), ([0, 10, 11, 100], [None] * 4))
            self.assertEqual([glyph.svg_path() for glyph in font], ["", "M20 0Z", "M50 0Z", ""])

    def test_selections(self):
        none = Status.NO_PART
        rows = [
            # of format 5, and of format 0 with a byte too few
            ("0500020000000002010004", [none, none, none, none]),
            ("00000001", [none, none, none, none]),
            # glyph 2 has the font dictionary 2, which is not there
            ("0000000201", [500, 596, none, 250]),
            # the first range begins with glyph 1
            ("0300020001000002010004", [none, 596, -23, 250]),
            # ranges that are not in order
            ("0300020002010000000004", [none, none, none, none]),
        ]
        for selection, advances in rows:
            font = Font(CID + bytes.fromhex(selection))
            for glyph, advance in zip(font, advances):
                if advance is none:
                    for call in (glyph.operations, glyph.flat_code, lambda: glyph.advance, lambda: glyph.tight_bounds):
                        self.refused(none, call)
                else:
                    self.assertEqual(glyph.advance, advance)
            self.refused(Status.NO_GLYPH, postscript.Glyph(font, 4).flat_code)

    def test_width_of_many_digits(self):
        # the first private dictionary has a default width of .3333333333 alone, which is 21845.33 of 65536
        font = Font(CID.replace(bytes.fromhex("f88814f8ec159313"), bytes.fromhex("1ea3333333333f14")) + bytes.fromhex("0000000101"))
        self.assertEqual(font[0].advance, 21845 / 65536)

    def test_refusals(self):
        file = small()
        self.assertEqual(postscript.faces(file), 1)
        self.assertEqual(postscript.version(), postscript.VERSION)
        self.assertEqual(postscript.__version__, ".".join(map(str, postscript.VERSION)))
        self.refused(Status.CUT_FILE, postscript.faces, b"")
        self.refused(Status.UNKNOWN_FILE, Font.from_bytes, file[1:])
        self.refused(Status.NO_FACE, Font.from_bytes, file, 1)
        self.refused(Status.UNEXPECTED_EOF, Font, b"")
        self.assertRaises(IndexError, lambda: self.font[4])
        past = postscript.Glyph(self.font, 4)
        self.refused(Status.NO_GLYPH, lambda: past.segments)
        self.assertIsNone(past.name)
        self.assertEqual(str(Error(Status.NO_GLYPH)), "no such glyph")
        self.assertEqual(Error(1000).status, 1000)

    def test_changed_bytes(self):
        table = self.font.cff
        for place in range(len(table)):
            for byte in (0, 1, 255, table[place] ^ 1, table[place] ^ 128):
                try:
                    font = Font(table[:place] + bytes([byte]) + table[place + 1 :])
                    self.assertTrue(all(glyph.segments is not None for glyph in (font[0], font[len(font) - 1])))
                except (Error, IndexError):
                    pass


    def test_errors_name_their_glyph(self):
        past = postscript.Glyph(self.font, 4)
        for call in (past.flat_code, past.operations, lambda: past.advance, lambda: past.tight_bounds):
            with self.assertRaises(Error) as caught:
                call()
            self.assertEqual((caught.exception.status, caught.exception.glyph), (Status.NO_GLYPH, 4))
        with self.assertRaises(Error) as caught:
            self.font.glyph_named("flowers")
        self.assertIsNone(caught.exception.glyph)

    def test_errors_are_sent_to_other_processes(self):
        for e in (Error(Status.NO_GLYPH, glyph=4), WriteError(Status.REFUSED_GLYPH, 2, Status.TOO_DEEP)):
            sent = pickle.loads(pickle.dumps(e))
            self.assertEqual((type(sent), str(sent), vars(sent)), (type(e), str(e), vars(e)))

    def test_characters(self):
        self.assertEqual(dict(self.font.cmap), {0x20: 1, 0x41: 2, 0x2698: 3})
        self.assertEqual((len(self.font.cmap), self.font.cmap[0x41], self.font.cmap.get(0x42)), (3, 2, None))
        self.assertTrue(0x20 in self.font.cmap and -1 not in self.font.cmap and 0x110000 not in self.font.cmap)
        self.assertRaises(KeyError, lambda: self.font.cmap[0x42])
        # a table alone has no map
        alone = Font(self.font.cff)
        self.assertEqual((dict(alone.cmap), 0x41 in alone.cmap), ({}, False))
        self.refused(Status.NO_MAP, alone.glyph_of, "A")

    def test_names_of_all(self):
        self.assertEqual(self.font.names, [".notdef", "space", "A", "flower"])
        self.assertEqual((self.font.names, self.font.cids), ([glyph.name for glyph in self.font], [None] * 4))
        self.assertEqual(repr(self.font), "<Font of 4 glyphs>")

    def test_segments_to_a_pen_and_back(self):
        pen, again = postscript.SegmentPen(), postscript.SegmentPen()
        self.font[3].draw(pen)
        self.assertEqual(pen.segments, FLOWER)
        postscript.draw(pen.segments, again)
        self.assertEqual(again.segments, FLOWER)


class Bytes(Case):
    """What a font is read from is held, and not copied."""

    def test_kinds(self):
        file = small()
        behind = b"xyz" + file
        for source in (file, bytearray(file), memoryview(file), memoryview(behind)[3:], memoryview(bytearray(file))):
            font = Font.from_bytes(source)
            self.assertEqual((font[3].segments, postscript.faces(source)), (FLOWER, 1))
            self.assertEqual(Font(memoryview(font.cff))[3].segments, FLOWER)
        for empty in (b"", bytearray(), memoryview(b"")):
            self.refused(Status.CUT_FILE, Font.from_bytes, empty)
            self.refused(Status.UNEXPECTED_EOF, Font, empty)
        self.assertRaises(TypeError, Font.from_bytes, "text")
        self.assertRaises(BufferError, Font.from_bytes, memoryview(file)[::2])

    def test_they_are_held(self):
        source = bytearray(small())
        font = Font.from_bytes(source)
        glyph = font[2]
        # it may not grow while the font is there
        self.assertRaises(BufferError, source.append, 0)
        # 0 hmoveto 250 700 250 -700 rlineto: the first 250 becomes 251, in the bytes that are read
        place = source.index(bytes.fromhex("8b16f78ef950f78e"))
        source[place + 3] += 1
        self.assertEqual(glyph.svg_path(), "M0 0L251 700L501 0Z")
        del font, glyph
        source.append(0)

    def test_a_mapped_file(self):
        with tempfile.TemporaryFile() as file:
            file.write(small())
            file.flush()
            mapped = mmap.mmap(file.fileno(), 0, access=mmap.ACCESS_READ)
            font = Font.from_bytes(mapped)
            self.assertRaises(BufferError, mapped.close)
            self.assertEqual(font[3].segments, FLOWER)
            del font
            mapped.close()

    def test_a_glyph_holds_them(self):
        glyph = Font.from_bytes(bytearray(small()))[3]
        self.assertEqual(glyph.segments, FLOWER)

    def test_a_path(self):
        with tempfile.TemporaryDirectory() as folder:
            path = pathlib.Path(folder) / "small.otf"
            path.write_bytes(small())
            self.assertEqual([len(Font.open(path)), len(Font.open(str(path), face=0))], [4, 4])
            self.refused(Status.NO_FACE, Font.open, path, 1)
        self.assertRaises(FileNotFoundError, Font.open, path)


class Threads(Case):
    def test_a_font_is_shared(self):
        font = Font(spelled("accents.hex"))

        def drawn(glyph):
            try:
                return postscript.Glyph(font, glyph).svg_path()
            except Error as e:
                return e.status

        with concurrent.futures.ThreadPoolExecutor(4) as threads:
            self.assertEqual(list(threads.map(drawn, list(range(len(font))) * 50)), ACCENTED * 50)

    def test_the_lock_is_let_go(self):
        # the call runs into its limit; meanwhile this thread counts
        font, ended = Font(nested(), limit=20_000_000), []

        def call():
            begun.set()
            at = time.perf_counter()
            try:
                font[0].flat_code()
            except Error as e:
                ended.append((e.status, time.perf_counter() - at))

        begun, thread, count = threading.Event(), threading.Thread(target=call), 0
        thread.start()
        begun.wait()
        while not ended:
            count += 1
        thread.join()
        self.assertEqual(ended[0][0], Status.TOO_LONG)
        # a thousand turns take much less than the call
        self.assertGreater(count, 1000, ended)


class Loading(unittest.TestCase):
    """What a library is refused for, in an interpreter of its own."""

    def imported(self, library):
        folder = str(pathlib.Path(postscript.__file__).resolve().parents[1])
        environment = {**os.environ, "PYTHONPATH": folder, "POSTSCRIPT_LIBRARY": str(library)}
        done = subprocess.run([sys.executable, "-c", "import postscript"], env=environment, capture_output=True, text=True, check=False)
        return done.stderr.splitlines()[-1:]

    def test_of_another_version(self):
        major, minor, patch = postscript.VERSION
        place = postscript._library._name
        if not os.path.exists(place):
            self.skipTest("the system names the library")
        # psf_version is mov eax, VERSION and ret: its number is changed in a copy
        number = major << 16 | minor << 8 | patch
        old = b"\xb8" + number.to_bytes(4, "little") + b"\xc3"
        code = pathlib.Path(place).read_bytes()
        if code.count(old) != 1:
            self.skipTest("psf_version is not found")
        with tempfile.TemporaryDirectory() as folder:
            other = pathlib.Path(folder) / "libpostscript.so.0"
            other.write_bytes(code.replace(old, b"\xb8" + (number + 256).to_bytes(4, "little") + b"\xc3"))
            line = f"ImportError: postscript {postscript.__version__} wants a library of its own version: {other} is {major}.{minor + 1}.{patch}"
            self.assertEqual(self.imported(other), [line])

    def test_that_is_none(self):
        (line,) = self.imported("/nonexistent/libpostscript.so")
        self.assertTrue(line.startswith(f"ImportError: postscript {postscript.__version__} finds no library: "), line)


class Accented(Case):
    def setUp(self):
        self.font = Font(spelled("accents.hex"))

    def undrawn(self, status, glyph):
        pen = Recorder()
        self.refused(status, glyph.draw, pen)
        self.assertEqual(pen.value, [])
        for part in ("segments", "advance", "bounds", "tight_bounds"):
            self.refused(status, getattr, glyph, part)

    def test_outlines(self):
        self.assertEqual(len(self.font), len(ACCENTED))
        for glyph, row in zip(self.font, ACCENTED):
            if isinstance(row, Status):
                self.undrawn(row, glyph)
            else:
                self.assertEqual(glyph.svg_path(), row)
        drawn = [glyph.advance for glyph, row in zip(self.font, ACCENTED) if isinstance(row, str)]
        self.assertEqual(drawn, [0, 0, 7, 0, 9, 55, 3, 0])

    def test_pen_and_bounds(self):
        pen, glyph = Recorder(), self.font[3]
        glyph.draw(pen)
        base = [("moveTo", ((10, 20),)), ("lineTo", ((110, 20),)), ("lineTo", ((110, 70),)), ("closePath", ())]
        accent = [("moveTo", ((31, -38),)), ("curveTo", ((34, -34), (39, -28), (46, -20))), ("closePath", ())]
        self.assertEqual(pen.value, base + accent)
        self.assertEqual((glyph.bounds, glyph.tight_bounds), ((10, -38, 110, 70), (10, -38, 110, 70)))

    def test_subset(self):
        subset = Font(self.font.subset([3]))
        self.assertEqual([glyph.name for glyph in subset], [".notdef", "A", "acute", "C"])
        self.assertEqual([glyph.svg_path() for glyph in subset], ACCENTED[:4])

    def test_cid_keyed(self):
        # glyph 2 is 0 0 65 65 endchar
        font = Font(CID.replace(bytes.fromhex("92211d160e"), bytes.fromhex("8b8bcccc0e")) + bytes.fromhex("0000000101"))
        self.undrawn(Status.NO_ACCENTS, font[2])
        self.assertEqual(str(Error(Status.NO_ACCENTS)), "a seac glyph in a CID-keyed font, which has no glyph names")

    def test_a_run_that_takes_too_long(self):
        font = Font(nested())
        self.assertFalse(font.fits(1_000_000))
        self.refused(Status.TOO_LONG, font[0].svg_path)
        self.refused(Status.TOO_LONG, getattr, font[0], "tight_bounds")
        self.refused(Status.TOO_LONG, font[0].flat_code)
        self.refused(Status.TOO_LONG, font[0].operations)
        self.refused(Status.TOO_LONG, Font(nested(), limit=1000).flat)
        self.refused(Status.TOO_LONG, Font(nested(), limit=1000).subset, [0])

    def test_texts(self):
        self.assertFalse([status for status in Status if str(Error(status)) == f"status {int(status)}"])


class Variable(Case):
    """The font that `bindings/variable.hex` spells. tools/bindings/small_variable.py makes it, and prints these rows, which are what fontTools'
    instancer draws: at each place the advance of each glyph, and the path of `A` and of `o`."""

    ROWS = [
        ({}, (500, 600, 560), "M50 0L250 700L450 0Z", "M40 250C40 370 120 470 240 470L300 250Z"),
        ({"wght": 900}, (500, 720, 640), "M70 0L310 700L550 0Z", "M48 250C48 410 168 510 288 510L360 250Z"),
        ({"wght": 650}, (500, 690, 620), "M65 0L295 700L525 0Z", "M46 250C46 400 156 500 276 500L345 250Z"),
        ({"wght": 100}, (500, 560, 540), "M40 0L200 700L360 0Z", "M36 250C36 350 116 450 224 450L284 250Z"),
        ({"opsz": 8}, (500, 400, 400), "M50 0L170 700L290 0Z", "M40 250C40 370 100 470 180 470L228 250Z"),
        ({"opsz": 12, "wght": 650}, (500, 590, 540), "M65 0L255 700L445 0Z", "M46 250C46 400 146 500 246 500L309 250Z"),
    ]

    def setUp(self):
        self.file = spelled("variable.hex")
        self.font = VariableFont.from_bytes(self.file)

    def changed(self, tag, place, byte):
        """A copy of the file, with another byte at a place of a table."""
        file, (rows,) = bytearray(self.file), struct.unpack(">H", self.file[4:6])
        records = {self.file[12 + 16 * i : 16 + 16 * i]: self.file[20 + 16 * i : 24 + 16 * i] for i in range(rows)}
        file[int.from_bytes(records[tag], "big") + place] = byte
        return bytes(file)

    def test_axes_and_instances(self):
        self.assertEqual(self.font.axes, (("wght", 100, 400, 900, False, 256), ("opsz", 8, 16, 16, True, 257)))
        first, second = self.font.instances
        self.assertEqual(first, ({"wght": 650, "opsz": 16}, 258, None))
        self.assertEqual(second, ({"wght": 900, "opsz": 12.5}, 259, 260))
        self.assertEqual(self.font.at(second.coordinates).coordinates, second.coordinates)

    def test_places(self):
        for asked, advances, path, curved in self.ROWS:
            place = self.font.at(asked)
            self.assertEqual(tuple(place.glyph(i).advance for i in range(3)), advances)
            self.assertEqual([place[i].svg_path() for i in range(3)], ["", path, curved])
        self.assertEqual(self.font.at(wght=650, opsz=12)[1].svg_path(), self.ROWS[5][2])

    def test_glyph(self):
        glyph = self.font.at(wght=650).glyph_of("A")
        pen = Recorder()
        glyph.draw(pen)
        self.assertEqual((glyph.number, glyph.segments), (1, pen.value))
        self.assertEqual(pen.value[2], ("lineTo", ((525, 0),)))
        self.assertEqual(glyph.bounds, (65, 0, 525, 700))
        self.assertEqual(self.font.at().glyph_of("B").bounds, None)

    def test_outside_of_an_axis(self):
        far = self.font.at(wght=5000, opsz=-1e9)
        self.assertEqual(far.coordinates, {"wght": 900, "opsz": 8})
        self.assertEqual(far[1].svg_path(), self.font.at(wght=900, opsz=8)[1].svg_path())

    def test_refusals(self):
        self.refused(Status.NO_AXIS, self.font.at, {"wdth": 100})
        self.refused(Status.NO_GLYPH, self.font.at()[3].svg_path)
        self.refused(Status.NO_GLYPH, lambda: self.font.at()[65536].advance)
        self.refused(Status.TOO_LONG, VariableFont.from_bytes(self.file, limit=5).at()[1].svg_path)
        # three regions of two axes cost six units
        self.refused(Status.TOO_LONG, lambda: VariableFont.from_bytes(self.file, limit=5).at()[1].advance)
        self.assertEqual(VariableFont.from_bytes(self.file, limit=6).at()[1].advance, 600)
        self.assertEqual((len(self.font), [glyph.advance for glyph in self.font.at()]), (3, [500, 600, 560]))
        self.refused(Status.CFF2_VERSION, VariableFont.from_bytes(self.changed(b"CFF2", 0, 1)).__len__)
        self.refused(Status.NO_TABLE, Font.from_bytes, self.file)
        self.refused(Status.NO_FACE, VariableFont.from_bytes, self.file, 1)
        self.refused(Status.UNKNOWN_FVAR, VariableFont.from_bytes, self.changed(b"fvar", 1, 2))
        self.refused(Status.CUT_FVAR, VariableFont.from_bytes, self.changed(b"fvar", 12, 255))
        self.refused(Status.CFF2_VERSION, VariableFont.from_bytes(self.changed(b"CFF2", 0, 1)).at()[1].svg_path)
        self.refused(Status.UNKNOWN_HVAR, lambda: VariableFont.from_bytes(self.changed(b"HVAR", 1, 2)).at()[1].advance)
        self.refused(Status.UNKNOWN_AVAR, lambda: VariableFont.from_bytes(self.changed(b"avar", 1, 2)).at()[1].advance)
        with self.assertRaises(IndexError):
            self.font.at()[-1]

    def test_location(self):
        """The scalars of a location are computed once, and again for another limit. The location costs nine units."""
        place = self.font.at(wght=650, opsz=12)
        self.assertEqual([place[1].svg_path(), place[1].svg_path()], [self.ROWS[5][2]] * 2)
        self.font.limit = 8
        self.refused(Status.TOO_LONG, place[0].svg_path)
        self.font.limit = 9
        self.assertEqual(place[0].segments, [])

    def test_files(self):
        for asked, advances, path, curved in self.ROWS:
            for rounded in (False, True):
                file = self.font.at(asked).file(rounded)
                fixed, metrics = Font.from_bytes(file), VariableFont.from_bytes(file)
                self.assertEqual([glyph.svg_path() for glyph in fixed], ["", path, curved])
                self.assertEqual(tuple(glyph.advance for glyph in fixed), advances)
                self.assertEqual(tuple(glyph.advance for glyph in metrics.at()), advances)
                self.assertEqual((dict(fixed.cmap), metrics.axes), (dict(self.font.cmap), ()))
        place = self.font.at(wght=433)
        self.assertEqual(Font.from_bytes(place.file())[1].svg_path(), place[1].svg_path())
        self.assertNotEqual(Font.from_bytes(place.file(rounded=True))[1].svg_path(), place[1].svg_path())

    def test_refused_files(self):
        self.refused(Status.NOT_VARIABLE, VariableFont.from_bytes(small()).at().file)
        self.refused(Status.TOO_LONG, VariableFont.from_bytes(self.file, limit=0).at().file)
        self.refused(Status.CFF2_VERSION, VariableFont.from_bytes(self.changed(b"CFF2", 0, 1)).at().file)
        with self.assertRaises(WriteError) as raised:
            VariableFont.from_bytes(self.changed(b"HVAR", 1, 2)).at().file()
        self.assertEqual((raised.exception.status, raised.exception.table), (Status.UNKNOWN_TABLE, "HVAR"))

    def test_a_font_without_axes(self):
        file = small()
        font, plain = VariableFont.from_bytes(file), Font.from_bytes(file)
        self.assertEqual((font.axes, font.instances, len(font)), ((), [], len(plain)))
        self.assertEqual([glyph.segments for glyph in font.at()], [glyph.segments for glyph in plain])
        self.assertEqual([glyph.bounds for glyph in font.at()], [glyph.bounds for glyph in plain])
        self.assertEqual(font.at().glyph_of("A").svg_path(), plain.glyph_of("A").svg_path())
        self.refused(Status.NO_AXIS, font.at, {"wght": 400})
        self.refused(Status.NO_GLYPH, font.at()[len(plain)].svg_path)
        self.refused(Status.TOO_LONG, VariableFont.from_bytes(file, limit=5).at()[3].svg_path)

    def test_changed_bytes(self):
        for place in range(len(self.file)):
            file = bytearray(self.file)
            file[place] ^= 0xFF
            try:
                at = VariableFont.from_bytes(file).at()
                paths = [(at[i].svg_path(), at[i].advance) for i in range(3)]
            except Error as e:
                paths = e.status
            self.assertTrue(paths)
            try:
                self.assertTrue(VariableFont.from_bytes(file).at().file())
            except Error as e:
                self.assertTrue(e.status)


class Installed(unittest.TestCase):
    """The same as fontTools, where it and the fonts are installed."""

    def test_outlines(self):
        try:
            from fontTools.pens.recordingPen import RecordingPen
            from fontTools.ttLib import TTFont
        except ImportError:
            self.skipTest("no fontTools")
        files = [FONTS / "ebgaramond" / "EBGaramond12-Regular.otf", FONTS / "freefont" / "FreeSerif.otf"]
        for file in (file for file in files if file.exists()):
            theirs = TTFont(file)
            glyphs, order = theirs.getGlyphSet(), theirs.getGlyphOrder()
            font = Font.open(file)
            written = {False: Font(font.flat()), True: Font(font.subset(range(0, len(font), 7), keep_numbers=True))}
            for glyph in list(font)[::7]:
                self.assertEqual(glyph.name, order[glyph.number])
                pen, other = RecordingPen(), RecordingPen()
                glyph.draw(pen)
                glyphs[order[glyph.number]].draw(other)
                self.assertEqual(pen.value, other.value, (file.name, glyph))
                self.assertEqual(glyph.advance, glyphs[order[glyph.number]].width)
                for other_font in written.values():
                    again = other_font[glyph.number]
                    self.assertEqual((again.segments, again.advance), (glyph.segments, glyph.advance), (file.name, glyph))

    def test_characters(self):
        try:
            from fontTools.ttLib import TTFont
        except ImportError:
            self.skipTest("no fontTools")
        file = FONTS / "ebgaramond" / "EBGaramond12-Regular.otf"
        if not file.exists():
            self.skipTest("no font")
        font, theirs = Font.open(file), TTFont(file)
        names = font.names
        self.assertEqual(names, theirs.getGlyphOrder())
        self.assertEqual({character: names[glyph] for character, glyph in font.cmap.items()}, theirs.getBestCmap())

    def test_operations(self):
        try:
            from fontTools.ttLib import TTFont
        except ImportError:
            self.skipTest("no fontTools")
        file = FONTS / "ebgaramond" / "EBGaramond12-Regular.otf"
        if not file.exists():
            self.skipTest("no font")
        cff = TTFont(file)["CFF "].cff
        cff.desubroutinize()
        codes = cff.topDictIndex[0].CharStrings
        for glyph in list(Font.open(file))[::7]:
            self.assertEqual(glyph.operations(), operations_of(codes[glyph.name].program), glyph)


    def test_variable_outlines(self):
        """At random places: outlines to a 64th of a unit, since fontTools draws by floats, and advances to the nearest unit."""
        try:
            from fontTools.pens.recordingPen import RecordingPen
            from fontTools.ttLib import TTFont
        except ImportError:
            self.skipTest("no fontTools")
        files = [spelled("variable.hex")] + [file.read_bytes() for file in [CANTARELL] if file.exists()]
        chosen = random.Random(1)
        for file in files:
            font, theirs = VariableFont.from_bytes(file), TTFont(io.BytesIO(file))
            self.assertEqual([instance.coordinates for instance in font.instances], [i.coordinates for i in theirs["fvar"].instances])
            order = theirs.getGlyphOrder()
            for _ in range(20):
                asked = {axis.tag: chosen.randint(round(axis.minimum), round(axis.maximum)) for axis in font.axes}
                glyphs, place = theirs.getGlyphSet(location=asked), font.at(asked)
                for number in range(0, len(order), 11 if len(order) > 11 else 1):
                    pen, glyph = RecordingPen(), place[number]
                    glyphs[order[number]].draw(pen)
                    self.assertEqual([method for method, _ in glyph.segments], [method for method, _ in pen.value])
                    for (_, points), (_, others) in zip(glyph.segments, pen.value):
                        for (x, y), (a, b) in zip(points, others):
                            self.assertLess(max(abs(x - a), abs(y - b)), 1 / 64)
                    self.assertLess(abs(glyph.advance - glyphs[order[number]].width), 0.52)


def operations_of(program):
    """The operations of a program without calls and without arithmetic, as fontTools lists it: with its width, and its bytes behind each mask."""
    operations, numbers, tokens = [], [], iter(program)
    takes = {"rmoveto": 2, "hmoveto": 1, "vmoveto": 1, "hintmask": 0, "cntrmask": 0}
    for token in tokens:
        if not isinstance(token, str):
            numbers.append(token)
            continue
        if token == "endchar":
            break
        taken, stems, mask = takes.get(token, len(numbers) // 2 * 2 if "stem" in token else len(numbers)), (), b""
        if token.endswith("mask"):
            stems, mask = tuple(numbers[len(numbers) % 2 :]), next(tokens)
        operations.append(Operation(token, tuple(numbers[len(numbers) - taken :]), stems, mask))
        numbers = []
    return operations


if __name__ == "__main__":
    unittest.main()
